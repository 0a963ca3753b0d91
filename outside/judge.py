#!/usr/bin/env python3
"""Judges sheets apart from the bench, by fractions of whole numbers, and compares.

    python3 outside/judge.py crates/bench/out/bench SEED COUNT

makes COUNT sheets of scattered records from SEED, runs the program on each, and holds what it prints to
what is worked out here: decode, exact sum, round to precision, saturate, encode. No line is shared with the bench.
"""
import math
import random
import struct
import subprocess
import sys
from fractions import Fraction

NAN, PLUS, MINUS = "NaN", "+Inf", "-Inf"
LIMIT = 2**32 - 1
FORMATS = [0] + [16 * k + p for k in range(3, 9) for p in range(2, k)]
TABLES = {}


def power(e):
    return Fraction(2) ** e


def shape(byte):
    """Width, precision and the exponent of the least normal value."""
    if byte == 0:
        return 16, 11, -14
    k, p = byte >> 4, byte & 15
    return k, p, 1 - (1 << (k - p - 1))


def decode(byte, code):
    if byte == 0:
        sign, e, f = code >> 15, (code >> 10) & 31, code & 1023
        if e == 31:
            return NAN if f else (MINUS if sign else PLUS)
        v = Fraction(f, 1024) * power(-14) if e == 0 else (1 + Fraction(f, 1024)) * power(e - 15)
        return -v if sign else v
    k, p, _ = shape(byte)
    half = 1 << (k - 1)
    if code == half:
        return NAN
    if code in (half - 1, 2 * half - 1):
        return PLUS if code < half else MINUS
    if code > half:
        return -decode(byte, code - half)
    bias = 1 << (k - p - 1)
    fraction, e = Fraction(code % (1 << (p - 1)), 1 << (p - 1)), code >> (p - 1)
    return fraction * power(1 - bias) if e == 0 else (1 + fraction) * power(e - bias)


def table(byte):
    """The code of each reading, and the largest finite one."""
    if byte not in TABLES:
        codes = {}
        for code in range(1 << shape(byte)[0]):
            codes.setdefault(decode(byte, code), code)
        if byte == 0:
            codes[NAN] = 0x7E00
        TABLES[byte] = codes, max(v for v in codes if not isinstance(v, str))
    return TABLES[byte]


def floor_log2(x):
    e = x.numerator.bit_length() - x.denominator.bit_length()
    return e if power(e) <= x else e - 1


def rounded(byte, rule, x):
    _, p, least = shape(byte)
    e = max(floor_log2(abs(x)), least) - p + 1
    scaled = abs(x) / power(e)
    low = math.floor(scaled)
    rest = scaled - low
    away = {
        0: rest > Fraction(1, 2) or (rest == Fraction(1, 2) and low % 2 == 1),
        1: rest >= Fraction(1, 2),
        2: x > 0 and rest > 0,
        3: x < 0 and rest > 0,
        4: False,
    }[rule]
    size = (low + (1 if away else 0)) * power(e)
    return size if x > 0 else -size


def project(byte, rule, mode, x):
    codes, top = table(byte)
    if x == NAN:
        return codes[NAN], "none"
    z = x if x in (PLUS, MINUS, 0) else rounded(byte, rule, x)
    negative = z == MINUS or (z != PLUS and z < 0)
    end, infinity = (-top, MINUS) if negative else (top, PLUS)
    if z in (PLUS, MINUS):
        z = end if mode == 0 else z
    elif abs(z) > top:
        overflows = rule in (0, 1) or rule == (3 if negative else 2)
        z = infinity if mode == 2 and overflows else end
    order = {PLUS: math.inf, MINUS: -math.inf}
    a, b = order.get(z, z), order.get(x, x)
    return codes[z], "exact" if a == b else "low" if a < b else "high"


def times(x, y, scale):
    if NAN in (x, y):
        return NAN
    if x in (PLUS, MINUS) or y in (PLUS, MINUS):
        if 0 in (x, y):
            return NAN
        below = [v == MINUS or (v != PLUS and v < 0) for v in (x, y)]
        return MINUS if below[0] != below[1] else PLUS
    return x * y * power(scale)


def total(terms):
    if NAN in terms or (PLUS in terms and MINUS in terms):
        return NAN
    for infinity in (PLUS, MINUS):
        if infinity in terms:
            return infinity
    return terms.get("sum", Fraction(0))


def bring(register, terms):
    """A register is how often each special term occurs, the sum of the others, and the count."""
    for t in terms:
        if isinstance(t, str):
            register[t] = register.get(t, 0) + 1
        else:
            register["sum"] = register.get("sum", Fraction(0)) + t
        register["count"] = register.get("count", 0) + 1


class Fault(Exception):
    pass


def need(holds, number, layer, place):
    if not holds:
        raise Fault("fault %d %s %d\n" % (number, layer, place))


def is_format(b):
    return b in FORMATS


def code_bytes(f):
    return 2 if f == 0 else 1


def perform(number, place, kind, body, registers):
    lengths = {1: len(body) == 1, 2: len(body) in (3, 4), 3: len(body) >= 4, 4: len(body) == 2, 5: len(body) == 4}
    need(lengths[kind], 9, "record", place)
    r = body[0]
    need(r < 4, 10, "record", place + 4)
    here = registers[r]
    if kind == 1:
        here.clear()
    elif kind == 2:
        f = body[1]
        need(is_format(f), 1, "arithmetic", place + 5)
        need(len(body) - 2 == code_bytes(f), 6, "arithmetic", place + 6)
        code = int.from_bytes(body[2:], "little")
        need(code < 1 << shape(f)[0], 2, "arithmetic", place + 6)
        need(here.get("count", 0) < LIMIT, 5, "arithmetic", place)
        bring(here, [decode(f, code)])
    elif kind == 3:
        f, g = body[1], body[2]
        need(is_format(f), 1, "arithmetic", place + 5)
        need(is_format(g), 1, "arithmetic", place + 6)
        scale = body[3] - 256 if body[3] > 127 else body[3]
        need(-32 <= scale <= 31, 4, "arithmetic", place + 7)
        run, a, b = body[4:], code_bytes(f), code_bytes(g)
        need(len(run) % (a + b) == 0, 6, "arithmetic", place + 8)
        terms = []
        for i in range(0, len(run), a + b):
            x, y = int.from_bytes(run[i : i + a], "little"), int.from_bytes(run[i + a : i + a + b], "little")
            need(x < 1 << shape(f)[0], 2, "arithmetic", place + 8 + i)
            need(y < 1 << shape(g)[0], 2, "arithmetic", place + 8 + i + a)
            terms.append(times(decode(f, x), decode(g, y), scale))
        need(here.get("count", 0) + len(terms) <= LIMIT, 5, "arithmetic", place)
        bring(here, terms)
    elif kind == 4:
        need(body[1] < 4, 10, "record", place + 5)
        other = dict(registers[body[1]])
        need(here.get("count", 0) + other.get("count", 0) <= LIMIT, 5, "arithmetic", place)
        for key, value in other.items():
            here[key] = here.get(key, 0) + value
    else:
        f, rule, mode = body[1:]
        need(is_format(f), 1, "arithmetic", place + 5)
        need(rule < 5, 10, "record", place + 6)
        need(mode < 3, 10, "record", place + 7)
        code, mark = project(f, rule, mode, total(here))
        return "%d %d %04x %d %s\n" % (number, r, code, here.get("count", 0), mark)
    return ""


def judge(sheet):
    text = []
    registers = [{} for _ in range(4)]
    place, number = 0, 0
    try:
        need(len(sheet) <= 65536, 11, "sheet", 65536)
        while place < len(sheet):
            number += 1
            need(len(sheet) - place >= 4, 7, "sheet", place)
            length, kind = struct.unpack_from("<HH", sheet, place)
            need(length >= 2 and place + 2 + length <= len(sheet), 7, "sheet", place)
            need(1 <= kind <= 5, 8, "sheet", place + 2)
            text.append(perform(number, place, kind, sheet[place + 4 : place + 2 + length], registers))
            place += 2 + length
    except Fault as fault:
        text.append(str(fault))
    return "".join(text)


def scattered_code(rng, f, special):
    while True:
        code = rng.randrange(1 << shape(f)[0])
        if special or not isinstance(decode(f, code), str):
            return list(code.to_bytes(code_bytes(f), "little"))


def scattered_sheet(rng):
    """Mostly lawful records, and now and then a byte, a length or a kind that is not."""
    sheet = b""
    special = rng.random() < 0.15
    for _ in range(rng.randrange(1, 60)):
        kind, r, f, g = rng.choice([1, 2, 2, 2, 3, 3, 3, 4, 5, 5, 5, 5]), rng.randrange(4), rng.choice(FORMATS), rng.choice(FORMATS)
        if kind == 1:
            body = [r]
        elif kind == 2:
            body = [r, f] + scattered_code(rng, f, special)
        elif kind == 3:
            body = [r, f, g, rng.randrange(-32, 32) % 256]
            for _ in range(rng.randrange(6)):
                body += scattered_code(rng, f, special) + scattered_code(rng, g, special)
        elif kind == 4:
            body = [r, rng.randrange(4)]
        else:
            body = [r, f, rng.randrange(5), rng.randrange(3)]
        if rng.random() < 0.004:
            body[rng.randrange(len(body))] = rng.randrange(256)
        if rng.random() < 0.002:
            body = body[:-1] if rng.random() < 0.5 else body + [rng.randrange(256)]
        if rng.random() < 0.001:
            kind = rng.randrange(65536)
        sheet += struct.pack("<HH", len(body) + 2, kind) + bytes(body)
    return sheet[: -rng.randrange(1, 4)] if rng.random() < 0.02 else sheet


def main():
    bench, seed, count = sys.argv[1], int(sys.argv[2]), int(sys.argv[3])
    rng = random.Random(seed)
    lines = 0
    for _ in range(count):
        sheet = scattered_sheet(rng)
        expected = judge(sheet)
        printed = subprocess.run([bench], input=sheet, capture_output=True, check=True).stdout.decode()
        if printed != expected:
            sys.exit("the reports differ on " + sheet.hex() + "\nhere:\n" + expected + "bench:\n" + printed)
        lines += expected.count("\n")
    print("%d sheets agree, %d lines" % (count, lines))


main()

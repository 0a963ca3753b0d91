#!/usr/bin/env python3
"""Writes the example sheets beside this file. A record is a two-byte length, a two-byte kind and a body."""
import os

HERE = os.path.dirname(os.path.abspath(__file__))
BINARY16, BINARY8P2, BINARY8P3, BINARY8P4, BINARY6P3 = 0x00, 0x82, 0x83, 0x84, 0x63


def record(kind, *body):
    return (len(body) + 2).to_bytes(2, "little") + kind.to_bytes(2, "little") + bytes(body)


def clear(register):
    return record(1, register)


def add(register, form, *code):
    return record(2, register, form, *code)


def dot(register, x, y, scale, *pairs):
    return record(3, register, x, y, scale % 256, *pairs)


def join(register, other):
    return record(4, register, other)


def read(register, form, rule, mode):
    return record(5, register, form, rule, mode)


def scattered(count):
    """Codes of finite binary8p4 and binary8p3 values of both signs."""
    codes = []
    state = 1
    for _ in range(count):
        state = (state * 1103515245 + 12345) % 2**31
        codes.append(1 + (state >> 16) % 126 + 128 * (state >> 30))
    return codes


def full(register):
    return add(register, BINARY8P4, 0x40) + join(register, register) * 32


SHEETS = {
    # every kind of record, with the reading of each register
    "first.sheet": add(0, BINARY8P4, 0x40)
    + dot(0, BINARY8P4, BINARY8P4, 0, 0x40, 0x40)
    + read(0, BINARY8P4, 0, 0)
    + add(1, BINARY16, 0x01, 0x3C)
    + dot(1, BINARY8P4, BINARY16, -3, 0x41, 0x00, 0x3C, 0xFF, 0x00, 0x00)
    + read(1, BINARY8P4, 0, 2)
    + clear(1)
    + join(1, 0)
    + join(1, 1)
    + read(1, BINARY8P3, 4, 1)
    + read(2, BINARY16, 2, 2),
    # 2^31, then 2^-10, then -2^31: nothing is lost
    "nothing-lost.sheet": add(0, BINARY8P2, 0x7E)
    + add(0, BINARY8P4, 0x01)
    + add(0, BINARY8P2, 0xFE)
    + read(0, BINARY8P4, 0, 2),
    # 10,000 products, and their sum under each rule
    "capture.sheet": dot(0, BINARY8P4, BINARY8P3, -16, *scattered(20000))
    + b"".join(read(0, BINARY8P4, rule, 2) for rule in range(5)),
    # the longest sheet: 32,760 products and a reading
    "longest.sheet": dot(0, BINARY8P4, BINARY8P3, -16, *scattered(65520)) + read(0, BINARY8P3, 0, 2),
    # 4,000 records: adds and readings in turn
    "readings.sheet": b"".join(
        add(i % 4, BINARY8P4, code) + read(i % 4, BINARY8P3, i % 5, i % 3)
        for i, code in enumerate(scattered(2000))
    ),
    # each refusal by its number
    "refused-01.sheet": add(0, 0x91, 0x40),
    "refused-02.sheet": dot(0, BINARY8P4, BINARY6P3, 0, 0xFF, 0x3F, 0x00, 0x40),
    "refused-04.sheet": dot(0, BINARY8P4, BINARY8P4, 32),
    "refused-05.sheet": full(0),
    "refused-06.sheet": dot(0, BINARY8P4, BINARY8P4, 0, 0x40, 0x40, 0x40),
    "refused-07.sheet": clear(0) + b"\x05\x00",
    "refused-08.sheet": clear(0) + record(9),
    "refused-09.sheet": record(5, 0, BINARY8P4, 0),
    "refused-10.sheet": read(0, BINARY8P4, 5, 0),
    "refused-11.sheet": clear(0) * 13107 + b"\x00\x00",
}

for name, sheet in SHEETS.items():
    with open(os.path.join(HERE, name), "wb") as out:
        out.write(sheet)

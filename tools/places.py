#!/usr/bin/env python3
"""Counts, in src/ at a commit, the places of an older style that the design pass looked for.

  python3 tools/places.py [-v] [COMMIT]

COMMIT is HEAD where none is given; -v lists the places. A row is a place to look: the page
docs/DESIGN-PASS.md says of each point which of them are of the older style, and why any stays."""
import re
import subprocess
import sys

SRC = re.compile(r"crates/[a-z_0-9]+/src/[a-z_0-9/]+\.rt$")
PROOFS = re.compile(r"crates/[a-z_0-9]+/proofs/.*\.antt$")

# A point's number, what is looked for, and its pattern over one line.
ROWS = [
    ("1", "enums", r"^\s*(pub(\(crate\))? )?enum [A-Z]"),
    ("1", "flags in a struct", r"^    (pub(\(crate\))? )?[a-z_]+: bool,$"),
    ("1", "an Option or Result taken apart by match", r"^\s*(Ok|Some)\(.*\) => |^\s*(Err\(.*\)|None) => "),
    ("1", "an Option or Result taken apart by let else", r"^\s*let (Ok|Some|\(Some)\(.*else \{"),
    ("1", "an Option or Result made by if", r"^\s*(return )?(Some|Ok)\(.*\)$|^\s*(return )?(None|Err\(.*\));?$"),
    ("1", "a function for the number of a kind", r"\bfn (from_byte|from_number|number_of|[a-z]+_number)\b"),
    ("3", "loops over a count or a test", r"^\s*(while |loop\b|for [a-z_]+ in [^{]*\.\.)"),
    ("4", "equality by hand", r"\bfn (equals|same)\b"),
    ("4", "conversion or printing by hand",
     r"\bfn (from_byte|from_number|signed|joined|biased|digits?|digit_char|write_[a-z]+|[a-z]+_word|[a-z]+_number|number_of|fault_text|decimal)\b"),
    ("4", "casts by as", r"\bas [ui](8|16|32|64|128|size)\b"),
    ("4", "bytes put together by hand", r"256 \*|/ (4096|256|16)\b"),
    ("6", "fixed arrays", r"[^\[]\[([ui](8|16|32|64|size)|[A-Z][A-Za-z]+); [0-9_]+\]"),
    ("6", "places in a run or in words by number", r"\b(run|rest|words|registers|sums|codes)\[[^\]]|\b(place|at): (usize|u32|u8)\b"),
    ("7", "a match on which step to run", r"^\s*match (\*?self|word|name|file|kind|mode|\*record|x_format|y_format|format)(\.as_str\(\))? \{"),
]
FACTS = "Sound Eight Bounded AllBounded BatchBounded BoundedIfAny Small SmallValue ScaleFits IsPlaced Narrow PairsOf InUnits Within"


def git(*args):
    return subprocess.run(["git", *args], capture_output=True, text=True, check=True).stdout


def functions(text):
    """The head of each function, from its name to its body."""
    return re.findall(r"\bfn [a-z_0-9]+.*?\n\s*\{\n", text, re.S)


def main():
    args = [a for a in sys.argv[1:] if a != "-v"]
    commit = args[0] if args else "HEAD"
    names = git("ls-tree", "-r", "--name-only", commit).split("\n")
    files = {n: git("show", f"{commit}:{n}") for n in names if SRC.match(n)}
    for point, what, pattern in ROWS:
        found = [(n, i, line.strip()) for n, text in files.items()
                 for i, line in enumerate(text.split("\n"), 1)
                 if re.search(pattern, line) and not line.lstrip().startswith("//")]
        print(f"point {point}: {what}: {len(found)}")
        if "-v" in sys.argv:
            for n, i, line in found:
                print(f"    {n}:{i}: {line}")
    heads = [(n, h) for n, text in files.items() for h in functions(text)]
    for fact in FACTS.split():
        with_it = [h for _, h in heads if re.search(rf"\b{fact}\b", h)]
        if len(with_it) >= 3:
            print(f"point 5: functions whose contract has {fact}: {len(with_it)}")
    for words in ["format rule mode", "format mode", "x_format y_format scale", "negative digits place", "scale"]:
        with_it = [h for _, h in heads if all(re.search(rf"\b{w}: ", h) for w in words.split())]
        print(f"point 5: functions with the parameters {', '.join(words.split())}: {len(with_it)}")
    proofs = {n: git("show", f"{commit}:{n}") for n in names if PROOFS.match(n)}
    answers = sum(len(re.findall(r"^(?:abbrev )?(?:pub )?[a-z][^:\n]* : goal\.", t, re.M)) for t in proofs.values())
    print(f"point 8: lines of proofs: {sum(t.count(chr(10)) for t in proofs.values())}")
    print(f"point 8: answers: {answers}")
    print(f"lines of src: {sum(t.count(chr(10)) for t in files.values())}")


main()

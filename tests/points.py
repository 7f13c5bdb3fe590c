#!/usr/bin/env python3
"""Tries the program on the point files of points.tsv, and a plain program beside it.

Usage: points.py PROGRAM FOLDER

The plain program judges each line by the definition alone: it reads all lines before it anew. It is slow, and the
reader is measured by it. The point that the program has read is seen in its report: a deck of the integer columns a, b
and c with the rows 2x <= 1 and 2x >= -1 for each gives a cut with the violation x or -x for each x but 0.
"""
import math
import os
import re
import subprocess
import sys
from fractions import Fraction

COLUMNS = [b"a", b"b", b"c"]
DECK = b"ROWS\n L a+\n G a-\n L b+\n G b-\n L c+\n G c-\nCOLUMNS\n M 'MARKER' 'INTORG'\n"
DECK += b"".join(b" %s %s+ 2 %s- 2\n" % (it, it, it) for it in COLUMNS)
DECK += b"RHS\n" + b"".join(b" S %s+ 1 %s- -1\n" % (it, it) for it in COLUMNS)
DECK += b"BOUNDS\n" + b"".join(b" FR B %s\n" % it for it in COLUMNS) + b"ENDATA\n"

ESCAPE = re.compile(r"\\\{(\d+)\}(\\x[0-9a-f]{2}|\\.|.)|\\x([0-9a-f]{2})|\\(.)")


def bytes_of(text):
    r"""The bytes that a text means: \n, \r, \t, \\, \xHH, and \{N} for N times the byte that follows."""
    def one(found):
        times, what, byte, letter = found.groups()
        if times:
            return int(times) * ESCAPE.sub(one, what)
        return chr(int(byte, 16)) if byte else {"n": "\n", "r": "\r", "t": "\t"}.get(letter, letter)
    return ESCAPE.sub(one, text).encode("latin-1")


# ---- the plain program


def fields(line):
    return [] if line.startswith(b"*") else [it for it in re.split(rb"[ \t\r]+", line) if it]


def number(text):
    """The value of a number: m * 10^e with m below 10^24, e at least -30 and the whole below 10^36."""
    found = re.fullmatch(rb"([+-]?)(\d*)\.?(\d*)(?:[eEdD]([+-]?\d+))?", text)
    if not found or text.count(b".") > 1 or not found[2] + found[3]:
        return None
    m, e = int(found[2] + found[3]), int(found[4] or 0) - len(found[3])
    if m == 0:
        return Fraction(0)
    while m % 10 == 0:
        m, e = m // 10, e + 1
    if m >= 10**24 or e < -30 or e > 36 or m * 10 ** max(e, 0) >= 10**36:
        return None
    return (-1 if found[1] == b"-" else 1) * m * Fraction(10) ** e


def value(text):
    found = re.fullmatch(rb"([+-]?\d+)/(\d+)", text)
    if not found:
        return number(text)
    p, q = int(found[1]), int(found[2])
    return None if abs(p) >= 10**36 or q >= 10**36 or q == 0 else Fraction(p, q)


def is_too_fine(values):
    denominator = math.lcm(*[it.denominator for it in values])
    return denominator > 2**62 or any(abs(it * denominator) >= 2**100 for it in values)


def kind(lines, at):
    """The kind of the first fault of the line at this place, or 0."""
    parts = fields(lines[at])
    if len(lines[at]) > 4096:
        return 11
    if not parts:
        return 0
    if len(parts) != 2:
        return 3
    if parts[0] not in COLUMNS:
        return 6
    earlier = [fields(it) for it in lines[:at]]
    if parts[0] in [it[0] for it in earlier if it]:
        return 14
    if value(parts[1]) is None:
        return 4
    return 13 if is_too_fine([value(it[1]) for it in [*earlier, parts] if it]) else 0


def plain(file):
    lines = file.split(b"\n")
    if lines[-1] == b"":
        lines.pop()
    for at in range(len(lines)):
        found = kind(lines, at)
        if found:
            return f"line {at + 1} kind {found}"
    values = {name: value(text) for name, text in filter(None, map(fields, lines))}
    return " ".join(str(values.get(it, 0)) for it in COLUMNS)


# ---- the program


def told(program, folder, file):
    with open(f"{folder}/x.txt", "wb") as out:
        out.write(file)
    words = [program, "cut", "m.mps", "o.mps", "p.txt", "--point", "x.txt", "--gen", "round"]
    ran = subprocess.run(words, cwd=folder, capture_output=True, text=True)
    refused = re.fullmatch(r"cgl: input fault: x.txt (line \d+ kind \d+)\n", ran.stderr)
    if refused and ran.returncode == 5 and not ran.stdout:
        return refused[1]
    if ran.returncode or ran.stderr:
        return f"status {ran.returncode} {ran.stderr}"
    values = [Fraction(0) for _ in COLUMNS]
    for line in ran.stdout.splitlines()[1:]:
        _, violation, _, side = line.split()
        values[int(side) // 2] = (-1) ** int(side) * Fraction(violation)
    return " ".join(map(str, values))


def main(program, folder):
    with open(f"{folder}/m.mps", "wb") as out:
        out.write(DECK)
    tried = failed = 0
    with open(os.path.join(os.path.dirname(__file__), "points.tsv"), encoding="ascii") as table:
        for line in table:
            if line.startswith("#"):
                continue
            want, text = line.rstrip("\n").split("\t")
            file = bytes_of(text)
            tried += 1
            found = {"the plain program": plain(file), "the program": told(program, folder, file)}
            wrong = [f"{it} says '{said}'" for it, said in found.items() if said != want]
            if wrong:
                failed += 1
                print(f"points: of {text!r}, which is '{want}', {' and '.join(wrong)}")
    print(f"points: {tried - failed} passed, {failed} failed")
    return 1 if failed else 0


if __name__ == "__main__":
    sys.exit(main(*sys.argv[1:3]))

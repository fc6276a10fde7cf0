#!/usr/bin/env python3
"""Judges the page of `./juvrada chart`, read from standard input, cell by cell, by docs/SPECIFICATION.md, sections "The chart of bends" and "The page of bends".
It shares no code with the program.

    bends.py < PAGE

Prints each cell that is wrong; status 0 where none is.
"""

import re
import sys
from fractions import Fraction as F
from math import floor

from heights import bend

CELL = re.compile(
    r"<g transform='translate\((\d+) (\d+)\)scale\(.86 1\)'><text class='c'>(\d+)</text>"
    r"<text y='390'>(\d\.\d{6})</text><text y='780'>([0-9a-f]{8})</text></g>"
)


def value(bits):
    """The fraction that a normal float above 0 holds."""
    return F(bits % 2**23 + 2**23) * F(2) ** (bits // 2**23 - 150)


def near(k, c, n):
    """Whether k differs from 2 to the power (c - 128) / 64 by at most one part in n of that: both to the 64th power."""
    power = F(2) ** (c - 128)
    return (1 - F(1, n)) ** 64 * power <= k**64 <= (1 + F(1, n)) ** 64 * power


def parts(k, c):
    """The most parts n, below 2**40, of which k differs by one at most."""
    low, high = 1, 2**40
    while high - low > 1:
        middle = (low + high) // 2
        low, high = (middle, high) if near(k, c, middle) else (low, middle)
    return low


def faults(c, cell):
    """What is wrong with the cell of curve byte c."""
    x, y, byte, places, bits = cell
    k = value(int(bits, 16))
    millionths = floor(k * 10**6 + F(1, 2))
    if (int(x), int(y)) != (820 + c % 16 * 1768, 1730 + c // 16 * 1190):
        yield "its place"
    if int(byte) != c:
        yield "its byte"
    if k != bend(c):
        yield "its bits: not what the formula gives"
    if not near(k, c, 2**20):
        yield "its bits: beyond one part in 1,048,576"
    if places != f"{millionths // 10**6}.{millionths % 10**6:06}":
        yield "its six places"


def main():
    cells = [match.groups() for match in CELL.finditer(sys.stdin.read())]
    wrong = [f"cell {c}: {fault}" for c, cell in enumerate(cells) for fault in faults(c, cell)]
    print(*wrong, f"{len(cells)} bends on a page, {len(wrong)} faults", sep="\n")
    if not cells:
        sys.exit(1)
    worst, byte = min((parts(value(int(cell[4], 16)), c), c) for c, cell in enumerate(cells))
    print(f"that of byte {byte} is the farthest from its power: by one part in {worst:,}, and no more")
    sys.exit(bool(wrong) or len(cells) != 256)


main()

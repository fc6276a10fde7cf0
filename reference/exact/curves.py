#!/usr/bin/env python3
"""Tries the program behind `./juvrada curve` with levels in decimal about which its answer changes, and judges each answer as fractions,
by docs/SPECIFICATION.md, sections "A curve byte for a wanted end" and "A curve byte as text". It shares no code with the program.

    curves.py PROGRAM SEED

Prints each answer that is wrong; status 0 where none is.
"""

import subprocess
import sys
from fractions import Fraction as F
from functools import cache
from math import floor

from heights import Random, bits_of, float_of, position_of, sustain_end

NEAR = F(1, 512)
CASES = 400


end = cache(sustain_end)


def decimal(x):
    """A fraction from 0 to 1 over a power of two, in decimal, to its last place."""
    places = x.denominator.bit_length() - 1
    digits = str(x.numerator * 10**places // x.denominator).zfill(places + 1)
    return f"{digits[:-places]}.{digits[-places:]}" if places else digits


def texts(random):
    """A sustain byte and levels: a float at or 1/512 from an end, or beside it; midway to the next float; just below and above that; a few places."""
    sustain, curve = random.bytes(2)
    near = float_of(end(sustain, curve) + (random.below(3) - 1) * NEAR)
    if not 0 <= near < 1:
        return
    level = position_of(max(bits_of(near) + random.below(5) - 2, 0))
    beyond = position_of(bits_of(level) + 1)
    midway = decimal((level + beyond) / 2)
    below = midway[:-1] + str(int(midway[-1]) - 1) + "9"
    for text in decimal(level), midway, midway + "000001", below, decimal(level)[: 3 + random.below(20)]:
        if len(text) <= 162 and F(text) <= 1:
            yield sustain, text


def right(sustain, text, said):
    wanted = float_of(F(text))
    answers = {c for c in range(256) if abs(end(sustain, c) - wanted) <= NEAR}
    if not answers:
        return said == ["curve byte none: no end lies within 1/512 of the level", "tried      256"]
    number = said[0].removeprefix("curve byte ")
    if not number.isdigit() or int(number) not in answers:
        return False
    parts = floor(end(sustain, int(number)) * 10**9 + F(1, 2))
    return said[1:] == [f"ends at    {parts // 10**9}.{parts % 10**9:09}", f"tried      {int(number) + 1}"]


def main():
    program, random = sys.argv[1], Random(int(sys.argv[2]))
    tried = wrong = none = 0
    while tried < CASES:
        for sustain, text in texts(random):
            said = subprocess.run([program, str(sustain), text], capture_output=True, text=True, check=True).stdout.splitlines()
            tried += 1
            none += "none" in said[0]
            if not right(sustain, text, said):
                wrong += 1
                print(f"sustain {sustain}, level {text}: {said}")
    print(f"{tried} curve bytes for a level in decimal, {none} of them none, {wrong} wrong")
    sys.exit(wrong > 0 or none in (0, tried))


main()

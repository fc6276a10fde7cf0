#!/usr/bin/env python3
"""Prints the rows of crates/NAME/proofs/ExamplesExact.antt, of sine, exp2, log2 and floor, from mpmath at 60 digits and Python's own fractions.

A row of a series is the point, the function itself there (sin, 2^s, log2) and the series as docs/SPECIFICATION.md
gives it, summed term by term; both numbers are rounded to 40 decimals. A floor and an exponent are exact.
"""

from fractions import Fraction as F
from math import factorial, floor, frexp
from struct import unpack

from mpmath import log, mp, mpf, nint, power, sinpi

mp.dps = 60
TURN = mpf("6.28318530717958647692")
LN2 = mpf("0.69314718055994530942")
TWO_OVER_LN2 = mpf("2.88539008177792681472")

TOP = F(2**24 - 1, 2**24)  # 0.99999994, the f32 below 1

SINE = [F(0), F(1, 12), F(1, 4), F(7, 24), F(1, 2), F(5, 8), F(3, 4), TOP, F(53, 10), F(6), F(-1, 96), F(-99, 100)]
EXP2 = [F(0), F(1, 2), TOP, F(1), F(127, 64), F(24), F(-1, 10**9), F(-1, 3), F(-1, 2), F(-2), F(-7, 3), F(-100, 7)]
LOG2 = [F(0), F(1), F(3, 8), F(1000), F(2**25), F(1, 3), F(1, 2), TOP, 2 * TOP, 1 + F(1, 2**23), F(3, 2), F(1, 1000)]
FLOOR = [(0, 1), (1, 3), (7, 2), (6, 2), (999, 1000), (2**40 + 1, 2), (-1, 10**9), (-1, 3), (-6, 4), (-7, 2), (-6, 2), (-1000, 1000), (-1001, 1000)]
EXPONENT = [(1, 1), (3, 2), (6, 3), (7, 4), (1000, 1), (1024, 1), (2**24 - 1, 2**23), (1, 2), (3, 8), (1, 3), (7, 8), (4, 8), (1, 1024), (1, 1025), (2**24 - 1, 2**24), (1, 2**149)]
PATTERN = [0x3F800000, 0x3F7FFFFF, 0xBE800000, 0xC0200000, 0x40FFF7CF, 0x4A800001, 0xCAFFFFFF, 0x4B000001, 0x00800000, 0xFF7FFFFF]  # of normal numbers


def real(a):
    return mpf(a.numerator) / a.denominator


def sine_series(a):
    c = a - floor(a)
    half = c if c < F(1, 2) else c - F(1, 2)
    quarter = F(1, 2) - half if half > F(1, 4) else half
    angle = real(quarter) * TURN
    total = sum((-1) ** n * angle ** (2 * n + 1) / factorial(2 * n + 1) for n in range(11))  # orders 1 to 21
    return total if c < F(1, 2) else -total


def exp2_series(s):
    part = real(s - floor(s))
    return power(2, floor(s)) * sum((LN2 * part) ** n / factorial(n) for n in range(21))  # orders 0 to 20


def exponent(a):
    e = 0
    while F(2) ** (e + 1) <= a:
        e += 1
    while F(2) ** e > a:
        e -= 1
    return e


def log2_series(x):
    if x == 0:
        return mpf(-126)
    e = exponent(x)
    m = x / F(2) ** e
    u = real((m - 1) / (m + 1))
    return e + TWO_OVER_LN2 * sum(u**j / j for j in range(1, 32, 2))


def signed(text, negative):
    return f"negℚ ({text})" if negative else text


def point(a):
    return signed(f"ratio {abs(a.numerator)} {a.denominator}", a < 0)


def decimal(v):
    n = int(nint(v * mpf(10) ** 40))
    return signed(f"decimal {abs(n)}", n < 0)


def integer(n):
    return f"negℤ (pos {-n})" if n < 0 else f"pos {n}"


def series(name, points, function, by_series):
    print(f"-- {name}")
    for a in points:
        print(f"({point(a)}, {decimal(function(a))}, {decimal(by_series(a))})")


series("sinTurnsℚ", SINE, lambda a: sinpi(2 * real(a)), sine_series)
series("exp2ℚ", EXP2, lambda a: power(2, real(a)), exp2_series)
series("log2ℚ", LOG2, lambda a: log(real(a), 2) if a else mpf(-126), log2_series)
print("-- floorℚ")
for n, d in FLOOR:
    print("(" + signed(f"ratio {abs(n)} {d}", n < 0) + f", {integer(floor(F(n, d)))})")
print("-- exponentOf")
for n, d in EXPONENT:
    print(f"({n}, {d}, {integer(exponent(F(n, d)))})")
print("-- exponent")
for b in PATTERN:
    print(f"(0x{b >> 16:04x}_{b & 0xFFFF:04x}, {integer(frexp(unpack('>f', b.to_bytes(4))[0])[1] - 1)})")

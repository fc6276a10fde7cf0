#!/usr/bin/env python3
"""Prints exact heights with their bounds, worked as fractions from docs/SPECIFICATION.md, sections "Settings", "The curves",
"Exact series" and "Exact heights". It shares no code with the rest, and has no floating-point number.

    heights.py          the list, as crates/checklist/stdin keeps it
    heights.py SEED     a list whose random part is drawn otherwise; the kept one's seed is 0

A line is five hexadecimal numbers, CODE BYTES POSITION LOW HIGH: the generator's code; the bytes that it reads, as one
number, in the order of `bytesOf` (crates/code_bytes/specs/Bytes.antt); the position's bits; and the height's bounds in units
of 2^-32. With X the exact height and q the bound of its code, LOW is (X - q) 2^32 rounded down and HIGH is
(X + q) 2^32 rounded up, both clamped to 0..2^32. A line that starts with # is a comment.
"""

import sys
from fractions import Fraction as F
from functools import cache
from math import ceil, factorial, floor, lcm

UNIT = 2**32

# ---- binary32: a finite float is the fraction that it holds


def exponent(x):
    """The e with 2^e <= x < 2^(e+1), for x above 0."""
    e = x.numerator.bit_length() - x.denominator.bit_length()
    return e if F(2) ** e <= x else e - 1


def float_of(x):
    """The float nearest to a fraction, at a tie the one with an even last digit; subnormal numbers included."""
    if x == 0:
        return F(0)
    quantum = F(2) ** (max(exponent(abs(x)), -126) - 23)
    result = round(x / quantum) * quantum  # round of a fraction: half to even
    assert abs(result) < 2**128
    return result


def add(x, y):
    return float_of(x + y)


def sub(x, y):
    return float_of(x - y)


def mul(x, y):
    return float_of(x * y)


def div(x, y):
    return float_of(x / y)


def fract(x):
    return sub(x, F(floor(x)))


def horner(coefficients, x):
    result = coefficients[-1]
    for c in reversed(coefficients[:-1]):
        result = add(c, mul(x, result))
    return result


def clamp(x, low, high):
    return low if x < low else high if high < x else x


EXP2_DECIMALS = "1 0.6931472 0.2402265 0.0555041 0.0096181 0.00133336 0.00015403 0.00001525 0.00000132"
EXP2 = [float_of(F(c)) for c in EXP2_DECIMALS.split()]
SINE = [float_of(F((-1) ** n, factorial(2 * n + 1))) for n in range(5)]
TURN_32 = float_of(F("6.2831855"))
HALF, QUARTER = F(1, 2), F(1, 4)


def exp2(x):
    c = clamp(x, F(-126), F(127))
    return mul(horner(EXP2, fract(c)), F(2) ** floor(c))


def folded(c):
    """A part of a turn from 0 to below 1, folded to a quarter turn. All of its differences are exact."""
    h = c if c < HALF else c - HALF
    return HALF - h if QUARTER < h else h


def sin_turns(x):
    c = fract(x)
    q = folded(c)
    assert float_of(q) == q
    a = mul(q, TURN_32)
    s = mul(horner(SINE, mul(a, a)), a)
    return s if c < HALF else -s


# ---- exact series. Each is summed over one denominator, so that a fraction is reduced once

TURN = F("6.28318530717958647692")
LN2 = F("0.69314718055994530942")
TWO_OVER_LN2 = F("2.88539008177792681472")


def series(x, coefficients):
    """The sum of the coefficients times the powers of x, from the power 0 on."""
    n, d = x.numerator, x.denominator
    common = lcm(*(c.denominator for c in coefficients))
    total, power = 0, 1
    for c in reversed(coefficients):
        total = total * n + c.numerator * (common // c.denominator) * power
        power *= d
    return F(total * d, common * power)


SINE_SERIES = [F((-1) ** n, factorial(2 * n + 1)) for n in range(11)]  # orders 1 to 21
EXP2_SERIES = [F(1, factorial(n)) for n in range(21)]  # orders 0 to 20
LOG2_SERIES = [F(1, j) for j in range(1, 32, 2)]


def sine_exact(p):
    c = p - floor(p)
    a = folded(c) * TURN
    s = a * series(a * a, SINE_SERIES)
    return s if c < HALF else -s


def exp2_exact(s):
    return F(2) ** floor(s) * series((s - floor(s)) * LN2, EXP2_SERIES)


def log2_exact(x):
    if x == 0:
        return F(-126)
    e = exponent(x)
    m = x / F(2) ** e
    u = (m - 1) / (m + 1)
    return e + TWO_OVER_LN2 * u * series(u * u, LOG2_SERIES)


# ---- settings: binary32


def byte(b):
    return div(F(b), F(255))


def bend(c):
    return exp2(div(F(c - 128), F(64)))


def sustain_end(s, curve):
    level, k = byte(s), mul(sub(byte(curve), HALF), F(2))
    return mul(level, add(F(1), k)) if k < 0 else add(level, mul(sub(F(1), level), k))


def envelope_settings(a, d, s, r, a_curve, d_curve, s_curve, r_curve):
    total = add(add(add(byte(a), byte(d)), HALF), byte(r))
    first = div(byte(a), total)
    second = add(first, div(byte(d), total))
    third = add(second, div(HALF, total))
    return first, second, third, byte(s), sustain_end(s, s_curve), bend(a_curve), bend(d_curve), bend(r_curve)


def fade_end(b):
    return div(byte(b), add(byte(b), HALF))


def oscillator_one_settings(source, pulse, saw, depth):
    d = mul(byte(depth), float_of(F("0.49")))
    width = add(HALF, d) if source == 0 or source >= 6 else HALF
    return saw != 0, pulse != 0, width, F(1)


# ---- exact heights, before the last clamp, at a clamped position t


def divide(t, low, high):
    return F(0) if high - low <= 0 else clamp((t - low) / (high - low), F(0), F(1))


def bent(u, k):
    return u / (u + k * (1 - u))


def envelope(t, first, second, third, sustain, held_end, attack_bend, decay_bend, release_bend):
    if t < first:
        return bent(divide(t, F(0), first), attack_bend)
    if t < second:
        return 1 + (sustain - 1) * bent(divide(t, first, second), decay_bend)
    if t < third:
        return sustain + (held_end - sustain) * divide(t, second, third)
    return held_end * (1 - bent(divide(t, third, F(1)), release_bend))


SAMPLES = [float_of(F(c)) for c in "0.72 0.18 0.95 0.41 0.08 0.63 0.31 0.86".split()]


def wrap(p):
    part = p - floor(p)
    return F(1) if p > 0 and part == 0 else part


def glide(p):
    earlier = SAMPLES[(floor(p) - 1) % 8]
    return earlier + (SAMPLES[floor(p) % 8] - earlier) * (p - floor(p))


@cache
def sine(p):
    return HALF + HALF * sine_exact(p)


SHAPES = [
    sine,
    lambda p: wrap(p) * 2 if wrap(p) < HALF else 2 - wrap(p) * 2,
    lambda p: F(1) if wrap(p) < HALF else F(0),
    wrap,
    lambda p: 1 - wrap(p),
    lambda p: SAMPLES[floor(p) % 8],
    glide,
]


def place(k):
    return add(F(-1), mul(F(k), div(F(1), F(96))))


PLACES = [place(k) for k in range(673)]


def walked(shape, slew, phase):
    at = PLACES[0]
    level = shape(at)
    for following in PLACES[1:]:
        to = min(following, phase)
        most = 2 / slew * (to - at)
        level += clamp(shape(to) - level, -most, most)
        at = to
        if at == phase:
            return level
    raise AssertionError("the walk ends by count 672")


def lfo(t, shape_byte, slew_byte):
    number = shape_byte if shape_byte <= 6 else 0
    phase = mul(t, F(6 if number >= 5 else 1))
    if slew_byte == 0:
        return SHAPES[number](phase)
    return walked(SHAPES[number], byte(slew_byte), phase)


def fade(t, end):
    return t / end if t < end else F(1)


def response(t, slope, resonance, high):
    octaves = (t - HALF) * 2 * 3
    if high:
        octaves = -octaves
    fall = log2_exact(1 + exp2_exact(2 * F(slope, 6) * octaves))
    d = octaves * (2 + resonance * 6)
    decibels = -float_of(F("3.0103")) * fall + resonance * 12 / (1 + d * d)
    return (decibels + 48) / 60


def oscillator(t, saw, pulse, width, level):
    waves = ([t * 2 - 1] if saw else []) + ([F(1 if t < width else -1)] if pulse else [])
    return HALF + HALF * level * sum(waves) / len(waves) if waves else HALF


def noise(t, level):
    at = fract(mul(add(sin_turns(mul(t, F(89))), F("1.5")), F(1013)))
    return HALF + (at - HALF) * level


# ---- codes


def height(code, b, t):
    if code <= 2:
        return envelope(t, *envelope_settings(*b))
    if code <= 6:
        return lfo(t, b[0], b[1])
    if code <= 8:
        return fade(t, fade_end(b[0]))
    if code == 9:
        return response(t, 12 if b[1] == 1 else 24, byte(b[0]), False)
    if code == 10:
        return response(t, 6, F(0), True)
    if code == 11:
        return oscillator(t, *oscillator_one_settings(*b))
    if code == 12:
        return oscillator(t, False, True, HALF, byte(b[0]))
    return noise(t, byte(b[0]))


def bound(code, b):
    if code <= 2:
        return F(1, 131072)
    return F(1, 4096) if code <= 6 and b[1] != 0 else F(1, 262144)


def position_of(bits):
    """The clamped position of a float's bits."""
    sign, field, digits = bits >> 31, bits >> 23 & 255, bits & (2**23 - 1)
    if field == 255:
        return F(0) if digits or sign else F(1)
    x = F(digits + (2**23 if field else 0)) * F(2) ** (max(field, 1) - 150)
    return clamp(-x if sign else x, F(0), F(1))


def bits_of(x):
    """The bits of a float from 0 to 1."""
    if x == 0:
        return 0
    e = max(exponent(x), -126)
    n = x / F(2) ** (e - 23)
    assert n.denominator == 1
    return n.numerator + (e + 126) * 2**23


def print_line(code, b, bits):
    x = clamp(height(code, b, position_of(bits)), F(0), F(1))
    q = bound(code, b)
    low = max(floor((x - q) * UNIT), 0)
    high = min(ceil((x + q) * UNIT), UNIT)
    number = int.from_bytes(bytes(b), "big")
    print(f"{code:x} {number:x} {bits:x} {low:x} {high:x}")


# ---- what is listed


class Random:
    """A linear congruential generator, by its upper digits."""

    def __init__(self, seed):
        self.state = seed

    def below(self, n):
        self.state = (self.state * 6364136223846793005 + 1442695040888963407) % 2**64
        return (self.state >> 33) % n

    def bytes(self, n):
        return [self.below(256) for _ in range(n)]

    def position(self):
        """The bits of a multiple of 2^-24 below 1."""
        return bits_of(F(self.below(2**24), 2**24))


COUNTS = [8, 8, 8, 3, 3, 3, 3, 1, 1, 2, 0, 4, 1, 1]
QUARTERS = [bits_of(F(n, 4)) for n in range(5)]
EIGHTHS = [bits_of(F(n, 8)) for n in range(9)]
# Beyond either edge, a NaN, -0, the smallest number, and both neighbours of 1.
ODD = [0xBF800000, 0x40000000, 0xFF800000, 0x7F800000, 0x7FC00000, 0x80000000, 0x00000001, 0x3F7FFFFF, 0x3F800001]


def print_group(title, generators, positions):
    print(f"# {title}")
    for code, b in generators:
        for bits in positions(code, b) if callable(positions) else positions:
            print_line(code, b, bits)


def ends(code, b):
    """The quarters, and the ends of an envelope's stretches with the floats beside them."""
    joins = [bits_of(x) for x in envelope_settings(*b)[:3] if 0 < x < 1]
    return QUARTERS + [bits + n for bits in joins for n in (-1, 0, 1)]


def corners():
    """Envelopes at the ends of their bytes, with stretches of no width, each of the three codes in turn."""
    blocks = []
    for times, level in [(0, 255), (255, 0), (128, 128)]:
        for curve in [0, 255]:
            blocks.append([times, times, level, times, curve, curve, 255 - curve, curve])
    blocks += [[0, 200, 100, 0, 64, 64, 128, 192], [200, 0, 100, 1, 192, 0, 127, 64], [0, 0, 255, 0, 128, 128, 0, 128]]
    return [(i % 3, b) for i, b in enumerate(blocks)]


def main():
    random = Random(int(sys.argv[1]) if len(sys.argv) > 1 else 0)
    print("# Exact heights with their bounds, printed by reference/exact/heights.py, which says what a line means.")
    print_group("An empty program.", [(code, [0] * n) for code, n in enumerate(COUNTS)], QUARTERS)
    print_group("Beyond the edges.", [(code, [85] * n) for code, n in enumerate(COUNTS)], ODD)
    print_group("Envelopes.", corners(), ends)
    print_group("Shapes, slew 0.", [(3 + shape % 4, [shape, 0, 0]) for shape in [*range(8), 255]], EIGHTHS)
    slewed = [(3 + (shape + slew) % 4, [shape, slew, 1]) for slew in [1, 128, 255] for shape in range(7)]
    print_group("Shapes, slews 1, 128 and 255.", slewed, QUARTERS)
    print_group("Fades.", [(7 + b % 2, [b]) for b in [0, 1, 2, 127, 254, 255]], QUARTERS)
    print_group("Filters.", [(9, [r, pole]) for r in [0, 128, 255] for pole in [0, 1]] + [(10, [])], EIGHTHS)
    waves = [(11, [source, pulse, saw, 255]) for source in [0, 5, 6] for pulse in [0, 1] for saw in [0, 1]]
    print_group("Oscillators.", waves + [(12, [b]) for b in [1, 128, 255]], QUARTERS)
    print_group("Noise.", [(13, [b]) for b in [1, 128, 255]], EIGHTHS)
    drawn = [(code, random.bytes(n)) for code, n in enumerate(COUNTS) for _ in range(4)]
    drawn += [(3 + shape % 4, [shape, *random.bytes(2)]) for shape in range(7)]
    print_group("Random bytes and positions.", drawn, lambda code, b: [random.position() for _ in range(3)])


if __name__ == "__main__":
    main()

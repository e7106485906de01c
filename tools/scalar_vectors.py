#!/usr/bin/env python3
"""scalar_vectors.py: writes the vectors that crates/replay_scalar reads to standard output.

usage: tools/scalar_vectors.py > crates/replay_scalar/stdin

Roots: the platform's root (math.sqrt of the f32 in double, rounded to an f32), checked to be the nearest by comparing
squares of whole numbers exactly, and that the nearest is no tie. Logarithms: L in exact rationals, as document 01 has it
with document 02's last term, rounded to units of 2^-40; and the f32 of the team's definition, computed here anew in whole
numbers. The same seed gives the same bytes. After a first line of text, all numbers big-endian, 4 bytes each but L:

    number of roots; for each the pattern of x and of its root, FFFFFFFF for "outside"
    number of logarithms; for each the pattern of x and of its logarithm, FFFFFFFF for "outside"; the size
    of L * 2^40, 8 bytes, with the top bit for its sign
"""
import math
import random
import struct
import sys
from fractions import Fraction

SEED = 3
OUTSIDE = 0xFFFFFFFF
INFINITE = 0x7F800000
LAST_TERM = 17
LOW, HIGH = -6, 24
CLOSE = Fraction(1, 2**19)


def float_of(bits):
    return struct.unpack(">f", struct.pack(">I", bits))[0]


def bits_of(x):
    return struct.unpack(">I", struct.pack(">f", x))[0]


def worth(bits):
    """A finite pattern from +0 up as an exact fraction."""
    field, digits = bits >> 23, bits & 0x7FFFFF
    return Fraction(digits, 2**149) if field == 0 else Fraction(2**23 + digits) * Fraction(2) ** (field - 150)


def root(bits):
    if bits >= INFINITE:
        return OUTSIDE
    r = bits_of(math.sqrt(float_of(bits)))
    if bits:
        x, here = worth(bits), worth(r)
        assert (worth(r - 1) + here) ** 2 < 4 * x < (here + worth(r + 1)) ** 2, hex(bits)
    return r


def exact_log(bits):
    """L: e * S(1/3) + S((m - 1)/(m + 1)) for 2^e * m."""
    e, m = (bits >> 23) - 127, 1 + Fraction(bits & 0x7FFFFF, 2**23)
    s = lambda z: 2 * sum(z**n / n for n in range(1, LAST_TERM + 1, 2))
    return e * s(Fraction(1, 3)) + s((m - 1) / (m + 1))


def cut_sum(z):
    """z + z^3/3 + .. in units of 2^-28, each power and each term cut."""
    square, power, total = z * z >> 28, z, 0
    for n in range(1, LAST_TERM + 1, 2):
        total += power // n
        power = power * square >> 28
    return total


def defined_log(bits):
    third = math.floor(2**28 * sum(Fraction(1, 3) ** n / n for n in range(1, LAST_TERM + 1, 2)))
    digits = bits & 0x7FFFFF
    units = ((bits >> 23) - 121) * third + cut_sum((digits << 28) // (digits + 2**24)) - 6 * third
    return bits_of(math.copysign(float_of(bits_of(float(abs(units)))), units) / 2**27)


def log(bits):
    """The pattern, and L in units of 2^-40: its size, and 2^63 more where it is negative."""
    if not (LOW + 127) << 23 <= bits <= (HIGH + 127) << 23:
        return OUTSIDE, 0
    r, exact = defined_log(bits), exact_log(bits)
    value = worth(r & 0x7FFFFFFF) * (-1 if r >> 31 else 1)
    assert abs(value - exact) <= CLOSE, hex(bits)
    return r, round(abs(exact) * 2**40) + (2**63 if exact < 0 else 0)


NOT_NUMBERS = [0x7F800000, 0x7F800001, 0x7FC00000, 0x7FFFFFFF, 0x80000000, 0x80000001, 0x807FFFFF, 0x80800000,
               0xBF800000, 0xC0800000, 0xFF7FFFFF, 0xFF800000, 0xFF800001, 0xFFC00000, 0xFFFFFFFF]


def root_inputs(dice):
    yield 0
    for field in range(1, 255):  # both sides of each binade, and one inside
        yield from (field << 23, (field << 23) + dice.randrange(1, 2**23 - 1), (field << 23) + 2**23 - 1)
    for k in range(23):  # subnormals: powers of two, their neighbours, any
        yield from (2**k, 2**k + 1, 2 ** (k + 1) - 1, dice.randrange(2**k, 2 ** (k + 1)))
    for k in range(60):  # squares and their neighbours
        square = bits_of(float(dice.randrange(1, 4096) ** 2) * 4.0 ** dice.randrange(-60, 50))
        yield from (square - 1, square, square + 1)
    yield from NOT_NUMBERS


def log_inputs(dice):
    first, last = (LOW + 127) << 23, (HIGH + 127) << 23
    yield from (first - 1, first, first + 1, last - 1, last, last + 1, 0, 1, INFINITE - 1, first - 2**23, last + 2**23)
    for field in range(LOW + 127, HIGH + 127):
        yield from (field << 23, (field << 23) + 1, (field << 23) + 2**22, (field << 23) + 2**23 - 1)
    for k in range(1, 64):  # close to 1, where the logarithm is small
        yield from (0x3F800000 + k * k, 0x3F800000 - k * k)
    for _ in range(200):
        yield dice.randrange(first, last + 1)
    yield from NOT_NUMBERS


def main():
    dice = random.Random(SEED)
    roots, logs = list(root_inputs(dice)), list(log_inputs(dice))
    out = bytearray(b"Made by tools/scalar_vectors.py, seed %d: roots by the platform, checked by exact squares; "
                    b"L in exact rationals to n = %d, the f32 by the definition.\n" % (SEED, LAST_TERM))
    out += struct.pack(">I", len(roots))
    for b in roots:
        out += struct.pack(">II", b, root(b))
    out += struct.pack(">I", len(logs))
    for b in logs:
        out += struct.pack(">IIQ", b, *log(b))
    sys.stdout.buffer.write(out)
    print(f"{len(roots)} roots, {len(logs)} logarithms, {len(out)} bytes", file=sys.stderr)


main()

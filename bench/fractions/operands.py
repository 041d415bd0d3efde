"""Numbers for the benchmark of steps and of what is wide on the way.

Each line is a name, a colon, and numbers: of a sum two, of a step three (x, a and b of x - a b).
"""
import random
from fractions import Fraction
from math import gcd

TOP = 2**127
ROWS = 300
rng = random.Random(11)


def bits(count):
    """A number of just so many bits."""
    return rng.getrandbits(count - 1) | 1 << (count - 1)


def sign():
    return rng.choice((1, -1))


def plain(num_bits, den_bits):
    return Fraction(sign() * bits(num_bits), bits(den_bits))


def over_one_denominator(size, times):
    """A step over one denominator, with a whole factor, that fits at each operation."""
    den = bits(size)
    return Fraction(sign() * bits(size), den), Fraction(sign() * bits(size), den), Fraction(sign() * bits(times))


def with_long_product():
    """A whole value of 126 bits, less a product of 253 bits over the denominator of x."""
    while True:
        value, times, den = bits(126), bits(126), bits(126)
        factor = value * den // times
        rest = value * den - factor * times
        if factor < TOP and gcd(factor * times, den) == 1:
            return Fraction(rest, den), Fraction(-factor, den), Fraction(times)


def with_long_fractions():
    """The same, with a factor of the denominator of x below each number."""
    while True:
        value, times, below, beside = bits(126), bits(126), bits(63), bits(63)
        den = below * beside
        factor = value * den // times
        rest = value * den - factor * times
        if factor < TOP and gcd(factor * times, den) == 1:
            return Fraction(rest, den), Fraction(-factor, below), Fraction(times, beside)


def with_common_factor():
    """A product with a denominator of 160 bits, of which 100 go with the denominator of x."""
    while True:
        common, rest, factor, times = bits(100), bits(60), bits(110), bits(100)
        if gcd(factor * times, common * rest) != 1 or gcd(common, rest) != 1:
            continue
        num = -factor * times * pow(rest, -1, common) % common
        if gcd(num, common) == 1:
            return Fraction(num, common), Fraction(-factor, common), Fraction(times, rest)


def long_sum():
    """A sum whose numerator over one denominator has 128 bits, and goes with a 2."""
    den = bits(127) & ~1
    return Fraction(bits(127) | 1, den), Fraction(bits(127) | 1, den)


def longest_sum():
    """A sum whose numerator over the least common denominator has some 188 bits, of which 63 go."""
    while True:
        common, across = bits(63), bits(62)
        if gcd(common, across) != 1:
            continue
        value = bits(125)
        start = value * common % across
        other = start + across * rng.randrange((TOP - start) // across)
        num = (value * common - other) // across
        if abs(num) < TOP and gcd(num, common) == 1 and gcd(other, common * across) == 1:
            return Fraction(num, common), Fraction(other, common * across)


GROUPS = [
    ("sum, 128 bits on the way", long_sum),
    ("sum, 188 bits on the way", longest_sum),
    ("step, whole numbers of 16 bits", lambda: (plain(16, 1), plain(16, 1), plain(16, 1))),
    ("step, 8 over 8 bits", lambda: (plain(8, 8), plain(8, 8), plain(8, 8))),
    ("step, 16 over 16 bits", lambda: (plain(16, 16), plain(16, 16), plain(16, 16))),
    ("step, 31 over 31 bits", lambda: (plain(31, 31), plain(31, 31), plain(31, 31))),
    ("step, 60 over 60 bits", lambda: over_one_denominator(60, 30)),
    ("step, 100 over 100 bits", lambda: over_one_denominator(100, 20)),
    ("step, product of 253 bits", with_long_product),
    ("step, fractions with 253 bits", with_long_fractions),
    ("step, common factor of 100 bits", with_common_factor),
]

if __name__ == "__main__":
    for name, make in GROUPS:
        for _ in range(ROWS):
            print(f"{name}: " + " ".join(f"{n.numerator}/{n.denominator}" for n in make()))

"""Exact numbers, as the formats spell them and as the program bounds them."""

import re
from fractions import Fraction
from math import gcd

BOUND = 1 << 127  # a number of 128 bits with a sign is less than this
FRACTION = re.compile("(0|-?[1-9][0-9]{0,38})(?:/([1-9][0-9]{0,38}))?")


def plus(x, y, times=1):
    """The sum of x and so many times y.

    It is reckoned over the least common denominator. OverflowError where a number on the way
    does not fit into 128 bits, since the program says so there.
    """
    y = y * times
    common = gcd(x.denominator, y.denominator)
    left = x.numerator * (y.denominator // common)
    right = y.numerator * (x.denominator // common)
    below = x.denominator * (y.denominator // common)
    for number in (y.numerator, y.denominator, left, right, left + right, below):
        if abs(number) >= BOUND:
            raise OverflowError
    return x + y


def fraction_of(word):
    """The fraction that a word spells, or None.

    A fraction has one spelling: in lowest terms, without a denominator of 1, without zeros in
    front, with a sign only before a negative one, and within 128 bits.
    """
    match = FRACTION.fullmatch(word)
    if not match or match[2] == "1":
        return None
    top, bottom = int(match[1]), int(match[2] or 1)
    is_right = gcd(top, bottom) == 1 and max(abs(top), bottom) < BOUND
    return Fraction(top, bottom) if is_right else None

"""Kept numbers in exact whole numbers: zero, or s * 2^e with s from 2^31 to 2^32 - 1. A side is 0 (low) or 1 (high)."""
from fractions import Fraction

ZERO = (0, 0)
ONE = (2**31, -31)


def is_kept(x):
    significand, _ = x
    return significand >= 2**31 or x == ZERO


def value(x):
    significand, exponent = x
    return significand * Fraction(2) ** exponent


def after(x):
    """The next kept number above one that is not zero."""
    significand, exponent = x
    if significand + 1 < 2**32:
        return significand + 1, exponent
    return 2**31, exponent + 1


def rounded(side, numerator, denominator=1, exponent=0):
    """numerator / denominator * 2^exponent: the greatest kept number not above it, or the least not below it."""
    if numerator == 0:
        return ZERO
    # The quotient gets 32 or 33 binary digits.
    shift = 32 + denominator.bit_length() - numerator.bit_length()
    whole, rest = divmod(numerator << max(shift, 0), denominator << max(-shift, 0))
    low = whole, exponent - shift
    if whole >= 2**32:
        low, rest = (whole // 2, exponent - shift + 1), rest + whole % 2
    return after(low) if side and rest else low


def product(side, x, y):
    return rounded(side, x[0] * y[0], 1, x[1] + y[1])


def plus(side, x, y):
    exponent = min(x[1], y[1])
    return rounded(side, (x[0] << x[1] - exponent) + (y[0] << y[1] - exponent), 1, exponent)


def quotient(side, x, divisor):
    return rounded(side, x[0], divisor, x[1])


def bounds(exact):
    """Both sides of a fraction, held to what a kept number on each side is."""
    low, high = (rounded(side, exact.numerator, exact.denominator) for side in (0, 1))
    assert low == high == ZERO if exact == 0 else value(low) <= exact < value(after(low))
    assert high == (low if value(low) == exact else after(low))
    return low, high

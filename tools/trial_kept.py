"""Prints what crates/trial_kept must print, in exact fractions.

A kept number is zero, or s * 2^e with s from 2^31 to 2^32 - 1. The low result of a step is the greatest kept number
not above the exact result, the high one the least kept number not below it.

    python3 tools/trial_kept.py > crates/trial_kept/stdout
"""
import struct
from fractions import Fraction

from kept import ZERO, bounds, value
from trial_support import SEED, following, line


def results(name, given, exact):
    low, high = bounds(Fraction(exact))
    line(name, *given, "=", *low, "..", *high)


def pair(x, y):
    results("product", x + y, value(x) * value(y))
    results("sum", x + y, value(x) + value(y))


def quotient(x, divisor):
    results("quotient", x + (divisor,), value(x) / divisor)


def ratio(n, m):
    results("ratio", (n, m), Fraction(n, m))


def shown(x):
    """The bits of the f64, which is there from 2^-800 to below 2^224."""
    if value(x) < Fraction(1, 2**800):
        answer = "below"
    elif value(x) >= 2**224:
        answer = "above"
    else:
        significand, exponent = x
        bits = (exponent + 1054) * 2**52 + (significand - 2**31) * 2**21
        assert Fraction(struct.unpack(">d", bits.to_bytes(8, "big"))[0]) == value(x)
        answer = f"{bits:016x}"
    line("f64", *x, "=", answer)


INTEGERS = [
    0, 1, 3, 64, 2**31 - 1, 2**31, 2**32 - 1, 2**32, 2**32 + 1, 2**33 - 2, 2**33 - 1, 2**63 - 1, 2**63, 2**63 + 1,
    1832624140942590534, 2**64 - 2**32, 2**64 - 2**32 + 1, 2**64 - 1,
]
BASIS_POINTS = [0, 1, 2, 625, 1000, 3000, 3333, 5000, 6667, 7000, 9000, 9999, 10000, 10001, 2**32 - 1]
SIGNIFICANDS = [2**31, 2**31 + 1, 0xAAAAAAAB, 3 * 2**30, 2**32 - 2**16, 2**32 - 2, 2**32 - 1]
EXPONENTS = [0, 1, 30, 31, 32, 33, 1000, -1, -30, -31, -32, -33, -1000]
DIVISORS = [1, 2, 3, 7, 10000, 640000, 2**31, 2**32 - 1]
RATIO_DIVISORS = [1, 3, 10000, 2**32 - 1, 2**32, 2**32 + 1, 0x2AAAAAAAB, 3 * 2**32, 2**34 - 1]
SHOWN_EXPONENTS = [-832, -831, -830, -31, 0, 100, 192, 193]


def edges():
    line("zero", "=", *ZERO)
    line("one", "=", *bounds(Fraction(1))[0])
    for n in INTEGERS:
        results("integer", (n,), n)
    for p in BASIS_POINTS:
        results("basis points", (p,), Fraction(p, 10000))
    operands = [ZERO] + [(s, -31) for s in SIGNIFICANDS]
    for x in operands:
        pair(ZERO, x)
        pair(x, ZERO)
    for exponent in EXPONENTS:
        for t in SIGNIFICANDS:
            for s in SIGNIFICANDS:
                pair((s, 0), (t, exponent))
    small, large = (2**32 - 1, -80000), (2**32 - 1, 100)
    pair(small, large)
    pair(large, small)
    pair(small, small)
    for divisor in DIVISORS:
        for x in operands:
            quotient(x, divisor)
    shown(ZERO)
    for exponent in SHOWN_EXPONENTS:
        for s in SIGNIFICANDS:
            shown((s, exponent))


def random_cases():
    """Exponents from -1140 to 140; the second lies within 40 of the first, or in one case of four anywhere."""
    first = SEED
    for _ in range(250):
        second = following(first)
        place = first % 1201
        other = place + second % 81 if second % 4 > 0 else second % 1281
        x = 2**31 + (first >> 33), place + 40 - 1140
        y = 2**31 + (second >> 33), other - 1140
        pair(x, y)
        quotient(x, second % (2**32 - 1) + 1)
        quotient(y, first % 1000 + 1)
        shown(x)
        first = following(second)


def ratios():
    """The edges, then numbers of full and of random length, and quotients of 32 digits at most that leave nothing."""
    for m in RATIO_DIVISORS:
        for n in INTEGERS:
            ratio(n, m)
    first = SEED
    for _ in range(100):
        second = following(first)
        ratio(first, second % (2**34 - 1) + 1)
        ratio(first >> second % 64, (second >> first % 64) % (2**34 - 1) + 1)
        odd = first % 2**19 * 2 + 2**20 + 1
        ratio(odd * (2**31 + (second >> 33)), odd * 2**13)
        first = following(second)


edges()
random_cases()
ratios()

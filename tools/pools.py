"""A pool by the six steps, and by those of the beta-binomial, in exact whole numbers: each product, sum and quotient is rounded
once. A side is 0 (low) or 1 (high)."""
import struct
from fractions import Fraction
from functools import lru_cache, reduce
from math import comb, floor

from kept import ONE, ZERO, is_kept, plus, product, quotient, rounded, value

WHOLE = 10000
LARGEST_POOL = 100
# The largest pool of a shift list, and of the program column.
REPORT_POOL = 64
# The most assets whose counts of orders are worked out exactly.
EXACT_ASSETS = 64
SCREEN_POOL = 20
TRANCHES = 8
UNITS = 100000
HALF = Fraction(1, 2)
LEAST_SHOWN = (2**31, -831)
# The bytes of a store file's head.
FILE_HEAD = 12


@lru_cache(maxsize=None)
def summed_counts(side, n):
    """C(n,0) to C(n,n): row by row, by sums from ones at both ends."""
    if n == 0:
        return [ONE]
    before = summed_counts(side, n - 1)
    return [ONE] + [plus(side, x, y) for x, y in zip(before, before[1:])] + [ONE]


def counts(side, n):
    """The counts of orders C(n,0) to C(n,n)."""
    if n > EXACT_ASSETS:
        return summed_counts(side, n)
    return [rounded(side, comb(n, j)) for j in range(n + 1)]


def row_chances(side, row):
    """The chances of 0 to n defaults, from row n."""
    return [product(side, count, entry) for count, entry in zip(counts(side, len(row) - 1), row)]


@lru_cache(maxsize=256)
def steps(side, n, p, rho):
    """Rows 0 to n, and the chances of 0 to n defaults."""
    p_, a, rho_, q = (rounded(side, x, WHOLE) for x in (p, WHOLE - p, rho, WHOLE - rho))
    conditional, joint = p_, p_
    power = ONE
    weights = []
    rows = [[ONE]]
    for k in range(1, n + 1):
        weights.append(product(side, a, power))
        power = product(side, power, q)
        if k > 1:
            conditional = plus(side, product(side, conditional, q), rho_)
            joint = product(side, joint, conditional)
        row = list(rows[k - 1])
        for s in range(1, k):
            old = list(row)
            for j in range(k - s):
                row[j] = plus(side, old[j], product(side, rho_, old[j + 1]))
        rows.append([product(side, row[j], weights[j]) for j in range(k)] + [joint])
    return rows, row_chances(side, rows[n])


def beta_quotients(n, j, p, rho):
    """The fractions whose product is entry j of row n of the beta-binomial, as numerators and denominators."""
    q, a = WHOLE - rho, WHOLE - p
    return [
        (p * q + t * rho * WHOLE if t < j else a * q + (t - j) * rho * WHOLE, WHOLE * (q + t * rho))
        for t in range(n)
    ]


@lru_cache(maxsize=256)
def beta_steps(side, n, p, rho):
    """Row n of the beta-binomial as the only row, and the chances of 0 to n defaults."""
    row = [
        reduce(lambda entry, factor: product(side, entry, rounded(side, *factor)), beta_quotients(n, j, p, rho), ONE)
        for j in range(n + 1)
    ]
    return [row], row_chances(side, row)


def tails(side, chances):
    """The tail at each k, added from n down."""
    total, result = ZERO, []
    for chance in reversed(chances):
        total = plus(side, total, chance)
        result.insert(0, total)
    return result


def loss_units(n, x, recovery, lower, upper):
    """What x defaults of n assets take from a tranche."""
    return max(0, min(x * (WHOLE - recovery) - lower * n, (upper - lower) * n))


def loss(side, chances, recovery, lower, upper):
    """The expected loss of a tranche."""
    n = len(chances) - 1
    most = (upper - lower) * n
    total = ZERO
    for x, chance in enumerate(chances):
        units = loss_units(n, x, recovery, lower, upper)
        total = plus(side, total, product(side, chance, rounded(side, units)))
    return quotient(side, total, most)


def layer(side, chances, i, j):
    """The expected loss of the layer from the i-th to the j-th default: the mean of the tails at i to j, added from i up."""
    total = reduce(lambda total, tail: plus(side, total, tail), tails(side, chances)[i:j + 1], ZERO)
    return quotient(side, total, j - i + 1)


def in_units(x):
    """A fraction in whole units, to nearest; what is exactly half way goes up."""
    return floor(UNITS * x + HALF)


def printed_tails(chances):
    """The tails in whole units, from the chances of the low side. That past n is zero."""
    return [UNITS] + [in_units(value(x)) for x in tails(0, chances)[1:]] + [0]


def printed_rows(chances):
    printed = printed_tails(chances)
    return [printed[k] - printed[k + 1] for k in range(len(chances))]


def shifts(chances, base):
    """The printed tails at 0 to n from chances of the low side, less those from others."""
    return [x - y for x, y in zip(printed_tails(chances), printed_tails(base))][:len(chances)]


@lru_cache(maxsize=256)
def chance_units(side, n, p, rho):
    """The chances of 0 to n defaults in units, not rounded."""
    return [UNITS * value(x) for x in steps(side, n, p, rho)[1]]


def row_passes(low, high, claim):
    """Some number from low to high is at most half a unit from the claim, all of them in units."""
    return low <= claim + HALF and claim <= high + HALF


def first_to_fail(low, high, claims, passes=row_passes):
    """The first row whose claim does not pass, or None. Claims behind the last row are not looked at."""
    return next((k for k, row in enumerate(zip(low, high, claims)) if not passes(*row)), None)


def bits(x):
    """The f64 of a kept number from 2^-800 to below 2^224, by its bits."""
    significand, exponent = x
    word = (exponent + 1054) * 2**52 + (significand - 2**31) * 2**21
    assert Fraction(struct.unpack(">d", word.to_bytes(8, "big"))[0]) == value(x)
    return f"{word:016x}"


def loss_answer(low, high):
    """Untouched, faint or shown, with the bits of its numbers."""
    if high == ZERO:
        return ("untouched",)
    if value(low) < value(LEAST_SHOWN):
        return "faint", bits(high if value(high) > value(LEAST_SHOWN) else LEAST_SHOWN)
    return "shown", bits(low), bits(high)


def places(n):
    """The places of a store of rows 0 to n."""
    return (n + 1) * (n + 2) // 2


def first(grounds):
    """The number of the first ground that applies, or 0."""
    return next((number for number, applies in grounds if applies), 0)


def assets_ground(n, most=LARGEST_POOL):
    return [(1, n == 0 or n > most)]


def pool_grounds(n, p, rho, screen=False, most=LARGEST_POOL):
    """With 11 directly after 1 on the quote screen."""
    return assets_ground(n, most) + [(11, n > SCREEN_POOL)] * screen + [(2, p > WHOLE), (3, rho > WHOLE)]


def report_grounds(n, p, rho):
    """Of a shift list, and of the program column."""
    return pool_grounds(n, p, rho, most=REPORT_POOL)


def store_ground(n, lengths):
    return [(7, any(length < places(n) for length in lengths))]


def fill_refusal(n, p, rho, lengths):
    return first(pool_grounds(n, p, rho) + store_ground(n, lengths))


def row_refusal(n, k, length):
    return first(assets_ground(n) + store_ground(n, [length]) + [(9, k > n)])


def entries_ground(number, n, entries):
    return [(number, entries < n + 1)]


def entries_refusal(grounds, number, n, lengths, entries):
    """Of a call that writes entries 0 to n to a slice beside the store, with the grounds that it tries before these."""
    return first(grounds + store_ground(n, lengths) + entries_ground(number, n, entries))


def column_refusal(n, p, rho, lengths, units, screen=False):
    return entries_refusal(pool_grounds(n, p, rho, screen), 8, n, lengths, units)


def shift_refusal(n, p, rho, lengths, entries):
    return entries_refusal(report_grounds(n, p, rho), 10, n, lengths, entries)


def tranche_grounds(recovery, lower, upper):
    return [(4, recovery > WHOLE), (5, upper > WHOLE), (6, not lower < upper)]


def counted_grounds(tranches, count):
    """13, and those of each tranche within the count, one tranche after the other."""
    grounds = [ground for tranche in tranches[:count] for ground in tranche_grounds(*tranche)]
    return [(13, count == 0 or count > TRANCHES)] + grounds


def loss_refusal(n, p, rho, tranches, count, lengths, screen=False):
    return first(pool_grounds(n, p, rho, screen) + counted_grounds(tranches, count) + store_ground(n, lengths))


def layer_refusal(n, p, rho, i, j, lengths):
    return first(pool_grounds(n, p, rho) + [(14, not 1 <= i <= j <= n)] + store_ground(n, lengths))


def desk_grounds(n, p, rho, expected, k, ceiling, lengths):
    """Of a read of row k, of the head of the store, and of the probability and the correlation that are expected of it."""
    grounds = pool_grounds(n, p, rho) + store_ground(n, lengths)
    return grounds + [(15, (p, rho) != expected), (9, k > n), (16, k > ceiling)]


def file_length(n):
    """The bytes of a store file."""
    return FILE_HEAD + 8 * (n + 1) * (n + 2)


def file_grounds(n, p, rho, length, lengths, entries):
    """Of writing a store file of so many bytes and of reading one, by its head, with the entries of both sides that go into it or
    that it holds."""
    grounds = [(17, length < FILE_HEAD)] + pool_grounds(n, p, rho) + [(17, length != file_length(n))] + store_ground(n, lengths)
    return grounds + [(18, not all(map(is_kept, entries)))]


def beta_pool_grounds(n, p, rho):
    return pool_grounds(n, p, rho) + [(12, rho == WHOLE)]


def beta_column_refusal(n, p, rho, units):
    return first(beta_pool_grounds(n, p, rho) + entries_ground(8, n, units))


def beta_loss_refusal(n, p, rho, tranches, count):
    return first(beta_pool_grounds(n, p, rho) + counted_grounds(tranches, count))

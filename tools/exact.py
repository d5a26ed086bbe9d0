"""Bounds, losses, printed tails, columns, verdicts and shift lists held to the exact model, whose chances are worked out by the
closed form.

A model is its correlation after i defaults, and its steps."""
from collections import namedtuple
from fractions import Fraction
from functools import lru_cache
from itertools import accumulate
from math import comb, prod

from pools import UNITS, WHOLE, beta_quotients, beta_steps, chance_units, layer, loss, loss_units, printed_rows, printed_tails
from pools import shifts, steps, tails

Model = namedtuple("Model", "correlation steps")
# The most assets whose bounds have the finer distance, and whose printed rows are the nearer ones.
FINE_POOL = 64


def constant(rho, i):
    """rho, as a numerator and a denominator."""
    return rho, WHOLE


def decaying(rho, i):
    """rho / (1 + i * rho)."""
    return rho, WHOLE + i * rho


MOODY = Model(constant, steps)
BETA = Model(decaying, beta_steps)


@lru_cache(maxsize=64)
def joints(n, p, rho, model=MOODY):
    """m_0 to m_n, as numerators over the first of them."""
    conditionals = [(p, WHOLE)]
    for i in range(n - 1):
        (conditional, whole), (correlation, one) = conditionals[i], model.correlation(rho, i)
        conditionals.append((conditional * (one - correlation) + correlation * whole, whole * one))
    joint = [prod(whole for _, whole in conditionals)]
    for conditional, whole in conditionals:
        joint.append(joint[-1] * conditional // whole)
    return joint


def closed_form(joint, j, k):
    """P(j,k), over the same denominator."""
    return sum((-1)**i * comb(k - j, i) * joint[j + i] for i in range(k - j + 1))


def entries(joint):
    """P(0,k) to P(k,k) for k from 0 to n, over the same denominator: the differences of m_0 to m_n."""
    differences = [joint]
    for _ in joint[1:]:
        last = differences[-1]
        differences.append([x - y for x, y in zip(last, last[1:])])
    return [[differences[k - j][j] for j in range(k + 1)] for k in range(len(joint))]


@lru_cache(maxsize=64)
def exact_chances(n, p, rho, model=MOODY):
    """The chances of 0 to n defaults, as numerators over one denominator."""
    joint = joints(n, p, rho, model)
    chances = [comb(n, j) * closed_form(joint, j, n) for j in range(n + 1)]
    assert sum(chances) == joint[0] and min(chances) >= 0
    return chances, joint[0]


@lru_cache(maxsize=64)
def exact_tails(n, p, rho, model=MOODY):
    """The tails at 0 to n, over the same denominator."""
    chances, whole = exact_chances(n, p, rho, model)
    return list(accumulate(reversed(chances)))[::-1], whole


def library_parts(k):
    """Bounds of an entry of row k, and of a chance, a tail and a loss of k assets, are at most one part in so many apart."""
    return 100000 if k <= FINE_POOL else 50000


def screen_parts(k):
    """The same on the screen."""
    return 1000000


def hold_apart(parts, low, high, numerator, whole):
    """Two bounds enclose the exact value and are at most one part in so many of it apart. Their exponents are from -80,000 to
    100."""
    assert all(-80000 <= exponent <= 100 for _, exponent in (low, high))
    least = min(low[1], high[1], 0)
    low, high = ((significand << exponent - least) * whole for significand, exponent in (low, high))
    numerator <<= -least
    assert low <= numerator <= high and parts * (high - low) <= numerator


@lru_cache(maxsize=None)
def hold_bounds(n, p, rho, model=MOODY, parts=library_parts):
    """That of every entry of the rows that are made, every chance and every tail."""
    (low_rows, low), (high_rows, high) = (model.steps(side, n, p, rho) for side in (0, 1))
    joint = joints(n, p, rho, model)
    exact_rows = entries(joint)
    assert exact_rows[n] == [closed_form(joint, j, n) for j in range(n + 1)]
    for low_row, high_row in zip(low_rows, high_rows):
        k = len(low_row) - 1
        for pair, numerator in zip(zip(low_row, high_row), exact_rows[k]):
            hold_apart(parts(k), *pair, numerator, joint[0])
    for bounds, (exact, whole) in [
        (zip(low, high), exact_chances(n, p, rho, model)),
        (zip(tails(0, low), tails(1, high)), exact_tails(n, p, rho, model)),
    ]:
        for pair, numerator in zip(bounds, exact):
            hold_apart(parts(n), *pair, numerator, whole)


def exact_loss(n, p, rho, recovery, lower, upper, model=MOODY):
    """The expected loss of a tranche, as a numerator and a denominator."""
    chances, whole = exact_chances(n, p, rho, model)
    units = sum(chance * loss_units(n, x, recovery, lower, upper) for x, chance in enumerate(chances))
    return units, whole * (upper - lower) * n


def hold_loss(n, p, rho, recovery, lower, upper, model=MOODY, parts=library_parts):
    """That of the tranche loss of step 6."""
    low, high = (loss(side, model.steps(side, n, p, rho)[1], recovery, lower, upper) for side in (0, 1))
    hold_apart(parts(n), low, high, *exact_loss(n, p, rho, recovery, lower, upper, model))


def pool_loss(p, recovery):
    """The expected loss of a pool, in basis points."""
    return Fraction(p * (WHOLE - recovery), WHOLE)


def hold_touching(n, p, rho, tranches, model=MOODY):
    """The expected losses of tranches that touch from 0 to 10,000 with one recovery add to that of the pool."""
    losses = [(upper - lower) * Fraction(*exact_loss(n, p, rho, *rest, lower, upper, model)) for *rest, lower, upper in tranches]
    assert sum(losses) == pool_loss(p, tranches[0][0])


def exact_layer(n, p, rho, i, j):
    """The mean of the tails at i to j, as a numerator and a denominator."""
    exact, whole = exact_tails(n, p, rho)
    return sum(exact[i:j + 1]), whole * (j - i + 1)


def hold_layer(n, p, rho, i, j):
    """That of the loss of a layer. The exact one is the loss of the tranche that has its attachments, whole or not, and no
    recovery; that of all defaults is p."""
    low, high = (layer(side, steps(side, n, p, rho)[1], i, j) for side in (0, 1))
    exact = exact_layer(n, p, rho, i, j)
    hold_apart(library_parts(n), low, high, *exact)
    attachments = Fraction(WHOLE * (i - 1), n), Fraction(WHOLE * j, n)
    assert Fraction(*exact) == Fraction(*exact_loss(n, p, rho, 0, *attachments))
    assert (i, j) != (1, n) or Fraction(*exact) == Fraction(p, WHOLE)


@lru_cache(maxsize=None)
def hold_column(n, p, rho, model=MOODY):
    """What is promised of the printed tails and of the column: at most half a unit above the exact tail and less than 0.8 below it,
    above 64 assets 1.3; rows that add to 100,000, none below zero, each less than 1.5 units off, above 64 assets 2."""
    low = model.steps(0, n, p, rho)[1]
    printed, rows = printed_tails(low), printed_rows(low)
    exact, whole = exact_tails(n, p, rho, model)
    exact = exact + [0]
    below, off = (8, 15) if n <= FINE_POOL else (13, 20)
    assert printed[0] == UNITS and printed[n + 1] == 0 and sum(rows) == UNITS and min(rows) >= 0
    assert all(-below * whole < 10 * (printed[k] * whole - UNITS * exact[k]) <= 5 * whole for k in range(n + 2))
    assert all(10 * abs(rows[k] * whole - UNITS * (exact[k] - exact[k + 1])) < off * whole for k in range(n + 1))


def nearest(n, p, rho, down=False):
    """The exact chances in whole units, to nearest; what is exactly half way goes up, or down."""
    chances, whole = exact_chances(n, p, rho)
    return [(2 * UNITS * chance + whole - down) // (2 * whole) for chance in chances]


def hold_check(n, p, rho, claims, failing):
    """What is promised of a check that names a row, or none: the rows before it are at most half a unit and the distance of the
    bounds off, and it is more than half a unit off. So rows that are all at most half a unit off pass."""
    low, high = (chance_units(side, n, p, rho) for side in (0, 1))
    chances, whole = exact_chances(n, p, rho)
    # How much more than one unit twice the distance of a row is, over the same denominator.
    more = [2 * abs(claim * whole - UNITS * chance) - whole for claim, chance in zip(claims, chances)]
    assert all(more[k] <= 0 or more[k] <= 2 * (high[k] - low[k]) * whole for k in range(n + 1 if failing is None else failing))
    assert failing is None or more[failing] > 0


@lru_cache(maxsize=None)
def hold_shifts(n, p, rho):
    """What is promised of the list: 0 at 0, each entry less than 1.3 units off, the sum less than 1.3 * n."""
    entries = shifts(steps(0, n, p, rho)[1], steps(0, n, p, 0)[1])
    (exact, whole), (base, same) = exact_tails(n, p, rho), exact_tails(n, p, 0)
    assert whole == same and sum(exact[1:]) * WHOLE == sum(base[1:]) * WHOLE == n * p * whole
    assert entries[0] == 0 and max(map(abs, entries)) <= UNITS
    assert all(10 * abs(entries[k] * whole - UNITS * (exact[k] - base[k])) < 13 * whole for k in range(n + 1))
    assert 10 * abs(sum(entries[1:])) < 13 * n


@lru_cache(maxsize=None)
def hold_quotients(n, p, rho):
    """The quotients of the beta-binomial multiply to its closed form."""
    joint = joints(n, p, rho, BETA)
    for j in range(n + 1):
        numerators, denominators = zip(*beta_quotients(n, j, p, rho))
        assert prod(numerators) * joint[0] == closed_form(joint, j, n) * prod(denominators) and min(denominators) > 0


def hold_implied(n, p, moody, beta, recovery, lower, upper):
    """Two correlations that imply one loss, each in its model: Moody's loss is between those of the beta-binomial one basis point
    below and above."""
    between = Fraction(*exact_loss(n, p, moody, recovery, lower, upper))
    others = [Fraction(*exact_loss(n, p, beta + step, recovery, lower, upper, BETA)) for step in (-1, 1)]
    assert min(others) < between < max(others)


@lru_cache(maxsize=None)
def hold_same(n, p, rho):
    """Both models have the same exact chances: of up to two assets, and at correlation 0."""
    (chances, whole), (others, other) = exact_chances(n, p, rho), exact_chances(n, p, rho, BETA)
    assert [x * other for x in chances] == [x * whole for x in others]

"""Prints what crates/trial_checks must print, by tools/pools.py. Every verdict is held to the exact model, and the cases tell the
test of a row from others like it.

    python3 tools/trial_checks.py claims > crates/trial_checks/stdin
    python3 tools/trial_checks.py > crates/trial_checks/stdout
"""
import sys
from collections import namedtuple

from exact import nearest
from kept import value
from pools import HALF, UNITS, WHOLE, chance_units, first_to_fail, places, printed_rows, row_chances, steps, tails
from trial_pool import LARGE_ROWS, OTHERS, ample, check, corners, lengths_of, longer
from trial_support import SEED, following, line

# A check: what it has to answer, or None where any answer will do that holds, and what it is given.
Case = namedtuple("Case", "wanted pool claims lengths other")
NONE = [0] * 4
LARGEST = 2**32 - 1
PASSED = ("passed",)
THREE = (3, 1000, 3000)
HUNDRED = (100, 1000, 3000)
# Pools whose own column fails, with the row; then some whose own column passes.
OWN_FAILS = [
    ((2, 5437, 9764), 1), ((3, 1000, 4039), 1), ((3, 50, 15), 1), ((3, 4792, 2999), 2), ((5, 1000, 500), 4), ((6, 1000, 0), 1),
    ((6, 3258, 500), 4), ((8, 2640, 713), 7), ((8, 1179, 9356), 5), ((10, 100, 9238), 4), ((20, 4185, 7628), 11),
    ((64, 250, 500), 1), ((64, 1000, 3000), 3), ((65, 250, 500), 10), ((65, 1000, 3000), 9), ((99, 250, 500), 2),
    ((99, 1000, 3000), 4), ((100, 250, 500), 1), (HUNDRED, 6),
]
OWN_PASSES = [
    (1, 87, 500), THREE, (2, 5000, 500), (2, 100, 0), (3, 6158, 1000), (4, 2500, 0), (5, 2500, 0), (5, 4643, 1000),
    (6, 5915, 1000), (8, 100, 5968), (8, 7305, 616), (64, 0, 5000), (64, 1, 9999), (65, 1, 9999), (99, 1, 9999),
    (100, 1, 9999), (100, 10000, 0),
]
# A chance is exactly half way between two units; in the last three the bounds are on either side of it.
HALVES = [
    (2, 1250, 0), (2, 1250, 5000), (2, 2500, 1250), (2, 2500, 2500), (2, 5000, 625), (2, 5000, 9375), (2, 8750, 0), (3, 2500, 0),
    (3, 5000, 5000), (3, 7500, 0), (4, 2500, 0), (4, 7500, 0), (6, 5000, 0), (8, 5000, 0), (2, 50, 0), (2, 1150, 0), (3, 1500, 0),
]
# In row n half a unit is between the bounds.
BETWEEN = [
    (68, 9881, 200), (94, 9979, 1), (95, 9942, 100), (97, 9952, 100), (99, 9967, 2), (99, 9970, 20), (100, 9922, 50),
    (100, 9973, 3),
]
# A row and a claim there that passes because the last product of the low chance is rounded down, or that of the high one up.
BY_ROUNDING = [
    ((5, 3863, 500), 2, 30612), ((5, 3616, 1000), 3, 17938), ((7, 4584, 4000), 4, 11070), ((10, 5271, 2000), 6, 12504),
    ((20, 6781, 1500), 12, 8099), ((3, 2341, 2500), 1, 27466), ((3, 4509, 3000), 1, 29588), ((5, 4827, 3500), 4, 9918),
    ((10, 3895, 1500), 7, 6887), ((20, 7200, 3500), 13, 6485),
]


def case(wanted, pool, claims, lengths=None, other=()):
    return Case(wanted, pool, claims, lengths or ample(pool[0], other=other), other)


def changed(claims, *changes):
    """The claims with others in some rows."""
    claims = list(claims)
    for k, claim in changes:
        claims[k] = claim
    return claims


def moved(claims, *moves):
    """The claims with something added in some rows."""
    return changed(claims, *((k, claims[k] + more) for k, more in moves))


def own(n, p, rho):
    """The column that the library prints."""
    return printed_rows(steps(0, n, p, rho)[1])


def exact_pools():
    """Of every size, some more of up to 20 assets, and those at the ends of p and rho."""
    word = SEED
    for n in [*range(1, 101), *range(1, 21), *range(1, 21), 64, 65, 99, 100]:
        word = following(word, 2)
        # Every third has a small probability.
        p, rho = ((each >> 8) % (WHOLE + 1) for each in (word, following(word)))
        yield n, p // 20 if word % 3 == 0 else p, rho
    for n in (1, 2, 20, 65, 100):
        for p, rho in corners():
            yield n, p, rho


def exact_columns():
    """The exact chances rounded to nearest: what is half way goes up, then down where that is another column."""
    for pool in exact_pools():
        up, down = nearest(*pool), nearest(*pool, down=True)
        yield case(PASSED, pool, up)
        if down != up:
            yield case(PASSED, pool, down)


def halves():
    """Chances that are exactly half way between two units: both pass, and those next to them fail."""
    for pool in HALVES:
        up, down = nearest(*pool), nearest(*pool, down=True)
        rows = [k for k, (x, y) in enumerate(zip(up, down)) if x != y]
        assert rows and (chance_units(0, *pool)[rows[0]] == chance_units(1, *pool)[rows[0]]) == (pool not in HALVES[-3:])
        yield case(PASSED, pool, up)
        yield case(PASSED, pool, down)
        for k in rows:
            for wanted, claim in [
                (("fails", k), down[k] - 1), (PASSED, down[k]), (PASSED, up[k]), (("fails", k), up[k] + 1),
            ]:
                yield case(wanted, pool, changed(up, (k, claim)))


def own_columns():
    for pool, row in OWN_FAILS:
        yield case(("fails", row), pool, own(*pool))
    for pool in OWN_PASSES:
        yield case(PASSED, pool, own(*pool))


def one_off():
    """One unit up and down, in each row."""
    for pool in [(1, 5000, 0), THREE, (4, 9000, 100), (10, 250, 1200), (20, 4185, 7628), (100, 500, 250)]:
        claims = nearest(*pool)
        for k, claim in enumerate(claims):
            for more in [1] + [-1] * (claim > 0):
                yield case(None, pool, moved(claims, (k, more)))


def two_off():
    """Two rows are wrong: the first is named. Then the first alone, and the last."""
    for pool in [THREE, (20, 1000, 3000), (65, 1000, 3000), HUNDRED]:
        n, claims = pool[0], nearest(*pool)
        for i, j in [(0, n), (0, 1), (1, 2), (n - 1, n), (n // 2, n // 2 + 1), (1, n)]:
            yield case(("fails", i), pool, moved(claims, (i, 9), (j, 7)))
            yield case(("fails", i), pool, changed(moved(claims, (i, 2)), (j, LARGEST)))
        for k in (0, n):
            yield case(("fails", k), pool, moved(claims, (k, 3)))


def far_off():
    """The same in every row, and large numbers in one row."""
    for pool in [(1, 0, 0), (1, 10000, 0), THREE, (3, 0, 3000), (3, 10000, 3000), (64, 1000, 3000), HUNDRED]:
        n, claims = pool[0], nearest(*pool)
        for claim in (0, 1, UNITS, 2**31, LARGEST):
            yield case(None, pool, [claim] * (n + 1))
        for k in sorted({0, n // 2, n}):
            for claim in (2**31 - 1, 2**31, LARGEST, UNITS, UNITS + 1):
                yield case(("fails", k) if claim - claims[k] > 1 else None, pool, changed(claims, (k, claim)))
            for more in (2**16, 2**17, 2**31, 2**32 - 2**17):
                yield case(("fails", k), pool, moved(claims, (k, more)))


def other_columns():
    """The tails, the chances of another pool, the chances in the other order, and in basis points."""
    for pool in [THREE, (20, 1000, 3000), (65, 1000, 3000)]:
        n, p, rho = pool
        claims = nearest(*pool)
        for column in [
            [sum(claims[k:]) for k in range(n + 1)], nearest(n, p, rho + 1), nearest(n, p + 1, rho), nearest(n, p, 0),
            nearest(n + 1, p, rho), nearest(n, WHOLE - p, rho), claims[::-1], [claim // 10 for claim in claims],
        ]:
            yield case(None, pool, column)
    # The tail at 0 is the chance of no default, where p is zero.
    yield case(PASSED, (3, 0, 3000), [UNITS, 0, 0, 0])
    yield case(("fails", 1), (3, 10000, 3000), [0] + [UNITS] * 3)


def claim_lengths():
    """What stands behind row n is not looked at; one place short, and none."""
    for pool in [(1, 1000, 3000), THREE, (20, 1000, 3000), (64, 1000, 3000), (65, 1000, 3000), (99, 1000, 3000), HUNDRED]:
        n, claims = pool[0], nearest(*pool)
        for behind in [[], [0], [1], [LARGEST], [0] * 5, [UNITS, 2**31, LARGEST, 7, 1], claims[-1:] * 2]:
            yield case(PASSED, pool, claims + behind)
            yield case(("fails", n), pool, moved(claims, (n, 2)) + behind)
        for count in (n, 0):
            yield case(("refusal", 8), pool, claims[:count])


def pool_grounds():
    claims = nearest(*THREE)
    most = [0] * LARGE_ROWS
    for n in (0, 101, LARGEST):
        for given in ([], claims, most):
            yield case(("refusal", 1), (n, 1000, 3000), given)
    for n in (1, 100):
        yield case(PASSED, (n, 1000, 3000), nearest(n, 1000, 3000))
    yield case(PASSED, (3, 10000, 3000), nearest(3, 10000, 3000))
    yield case(PASSED, (3, 1000, 10000), nearest(3, 1000, 10000))
    for much in (10001, LARGEST):
        yield case(("refusal", 2), (3, much, 3000), claims)
        yield case(("refusal", 3), (3, 1000, much), claims)


def order():
    """Several grounds at once: each of the claims, of places for the store, and of the pool."""
    for number, pool in [
        (1, (0, 1000, 3000)), (1, (101, 1000, 3000)), (1, (0, 10001, 10001)), (1, (101, 10001, 3000)), (1, (101, 1000, 10001)),
        (2, (3, 10001, 3000)), (2, (3, 10001, 10001)), (3, (3, 1000, 10001)), (0, THREE), (0, HUNDRED),
    ]:
        for lengths in (ample(pool[0]), NONE):
            for claims in ([], [LARGEST] * min(pool[0], 100)):
                yield case(("refusal", number or (7 if lengths == NONE else 8)), pool, claims, lengths)
        right = nearest(*pool) if number == 0 else [UNITS] * LARGE_ROWS
        yield case(("refusal", number or 7), pool, right, NONE)


def store_lengths():
    """Each slice one place short in turn, with claims that fit and with too few; longer ones; and the stores of other pools, which
    a refusal leaves."""
    for n in (1, 3, 20, 64, 65, 100):
        pool, exact = (n, 1000, 3000), places(n)
        claims = nearest(*pool)
        wrong = moved(claims, (n // 2, 2))
        for lent in lengths_of(exact):
            fits = lent == [exact] * 4
            yield case(PASSED if fits else ("refusal", 7), pool, claims, lent)
            yield case(("refusal", 8 if fits else 7), pool, claims[:n], lent)
        for lent in ([exact] * 4, longer(exact)):
            yield case(("fails", n // 2), pool, wrong, lent)
        yield case(PASSED, pool, claims, longer(exact))
        for other in OTHERS + [(100, 500, 250)]:
            yield case(PASSED, pool, claims, other=other)
            yield case(("fails", n // 2), pool, wrong, other=other)
            yield case(("refusal", 8), pool, claims[:n], other=other)
    for number, pool in [(1, (0, 1000, 3000)), (1, (101, 1000, 3000)), (2, (3, 10001, 3000)), (3, (3, 1000, 10001))]:
        yield case(("refusal", number), pool, [LARGEST] * 4, other=(100, 500, 250))


def between():
    """Half a unit is between the bounds: both claims next to it pass, one of them by the high bound alone, the other by the low
    one. Those next to them fail."""
    for pool in BETWEEN:
        n, claims = pool[0], nearest(*pool)
        low, high = (chance_units(side, *pool)[n] for side in (0, 1))
        down = int(low)
        assert low < down + HALF < high
        for wanted, claim in [(("fails", n), down - 1), (PASSED, down), (PASSED, down + 1), (("fails", n), down + 2)]:
            yield case(wanted, pool, changed(claims, (n, claim)))


def by_rounding():
    for pool, k, claim in BY_ROUNDING:
        yield case(PASSED, pool, changed(nearest(*pool), (k, claim)))


def random_pools():
    word = SEED
    for most, count in [(20, 60), (64, 20), (100, 20)]:
        for _ in range(count):
            word = following(word, 3)
            n, p, rho = 1 + (word >> 8) % most, (following(word) >> 8) % (WHOLE + 1), (following(word, 2) >> 8) % (WHOLE + 1)
            yield word, (n, p // 50 if word % 4 == 0 else p, rho)


def spoilt(word, claims):
    """The claims with a few of them changed by up to two units, and one in eight times one that is any number."""
    for _ in range(word % 4):
        word = following(word)
        k = (word >> 8) % len(claims)
        claims = changed(claims, (k, max(0, claims[k] + (word >> 32) % 5 - 2)))
    return changed(claims, ((word >> 8) % len(claims), (word >> 20) % 2**32)) if word % 8 == 0 else claims


def random_checks():
    """Four checks of each pool: some claims are longer, some shorter, and some stores too short."""
    for word, pool in random_pools():
        claims, exact = nearest(*pool), places(pool[0])
        for _ in range(4):
            word = following(word, 5)
            given = spoilt(word, claims) + [(following(word) >> 30) % 2**32] * ((word >> 40) % 6)
            short = (word >> 50) % 16
            if short == 0:
                given = given[:(word >> 8) % len(claims)]
            yield case(None, pool, given, lengths_of(exact)[1 + word % 4] if short == 1 else None)


def cases():
    for kind in [
        exact_columns, halves, own_columns, one_off, two_off, far_off, other_columns, claim_lengths, pool_grounds, order,
        store_lengths, between, by_rounding, random_checks,
    ]:
        yield from kind()


# Tests of a row that are not the right one.
WRONG = {
    "low bound alone": lambda low, high, claim: abs(claim - low) <= HALF,
    "high bound alone": lambda low, high, claim: abs(claim - high) <= HALF,
    "middle": lambda low, high, claim: abs(claim - (low + high) / 2) <= HALF,
    "no half unit": lambda low, high, claim: low <= claim <= high,
    "one unit": lambda low, high, claim: low <= claim + 1 and claim <= high + 1,
    "one unit below": lambda low, high, claim: low <= claim + 1 and claim <= high + HALF,
    "one unit above": lambda low, high, claim: low <= claim + HALF and claim <= high + 1,
    "less than half a unit below": lambda low, high, claim: low < claim + HALF and claim <= high + HALF,
    "less than half a unit above": lambda low, high, claim: low <= claim + HALF and claim < high + HALF,
    "from below alone": lambda low, high, claim: low <= claim + HALF,
    "from above alone": lambda low, high, claim: claim <= high + HALF,
    "bounds the other way round": lambda low, high, claim: high <= claim + HALF and claim <= low + HALF,
    "31 bits": lambda low, high, claim: low <= claim % 2**31 + HALF and claim % 2**31 <= high + HALF,
}


def wrong_answers(pool, claims):
    """What checks that are wrong would name."""
    n = pool[0]
    low, high = (chance_units(side, *pool) for side in (0, 1))
    for name, passes in WRONG.items():
        yield name, first_to_fail(low, high, claims, passes)
    tail_units = [[UNITS * value(x) for x in tails(side, steps(side, *pool)[1])] for side in (0, 1)]
    yield "tails", first_to_fail(*tail_units, claims)
    inner = [[UNITS * value(x) for x in row_chances(1 - side, steps(side, *pool)[0][n])] for side in (0, 1)]
    yield "low chances rounded up", first_to_fail(inner[0], high, claims)
    yield "high chances rounded down", first_to_fail(low, inner[1], claims)
    yield "rows from 1", first_to_fail(low[1:], high[1:], claims[1:])
    yield "rows below n", first_to_fail(low[:n], high[:n], claims)
    yield "claims behind row n", first_to_fail(low + [0], high + [0], claims)
    last = first_to_fail(low[::-1], high[::-1], claims[n::-1])
    yield "last row", None if last is None else n - last


def main():
    given = list(cases())
    assert all(len(each.claims) <= LARGE_ROWS for each in given)
    if sys.argv[1:] == ["claims"]:
        line(len(given))
        for _, pool, claims, lengths, other in given:
            line(*(other or NONE[:3]), *pool, *lengths, len(claims), *claims)
        return
    told = set()
    for wanted, *inputs in given:
        answer = check(*inputs)
        assert wanted in (None, answer)
        if answer[0] != "refusal":
            row = None if answer == PASSED else answer[1]
            told |= {name for name, other in wrong_answers(*inputs[:2]) if other != row}
    assert told == {name for name, _ in wrong_answers(THREE, own(*THREE))}


if __name__ == "__main__":
    main()

"""Prints what crates/trial_hundred must print, by tools/pools.py. Every bound, every column and every loss is held to the exact
model.

    python3 tools/trial_hundred.py > crates/trial_hundred/stdout
"""
from math import comb

from exact import BETA, MOODY
from kept import product, rounded
from pools import EXACT_ASSETS, LEAST_SHOWN, bits, loss, places, printed_tails, summed_counts
from trial_pool import LARGE_PLACES, LARGE_ROWS, OTHERS, REFUSED, SPREAD, WHOLE_ARRAYS, corners, fill, fill_over, filled_row
from trial_pool import large_pool, lengths_of, list_lengths, listed, listed_over, longer, made, random_losses, row, tranche_loss
from trial_pool import tranche_losses

NONE = [0] * 4
LARGEST = 2**32 - 1
HUNDRED = (100, 1000, 3000)
TRANCHE = (4000, 1000, 3000)
COLUMNS = {"": "column", "beta": "beta column"}
MODELS = {"": MOODY, "beta": BETA}


def column(library, pool, lengths=None, units=LARGE_ROWS):
    listed(COLUMNS[library], *pool, lengths, units)


def all_pools(n):
    between = [(n, 1000, 3000), (n, 5000, 0), (n, 5000, 5000), (n, 2, 9998)]
    for pool in between:
        fill(*pool)
    for library in COLUMNS:
        for pool in [(n, p, rho) for p, rho in corners()] + between:
            column(library, pool)
        for pool in between:
            tranche_loss(*pool, *TRANCHE, library=library)
        for pool in between:
            tranche_losses(library, pool, SPREAD, 8)


def wrong():
    """More than 100 assets, and nothing else wrong; then everything. Then 100 assets with one thing right after the other."""
    for pool in [(101, 1000, 3000), (LARGEST, 1000, 3000)]:
        yield pool, WHOLE_ARRAYS
    for pool in [(101, 10001, 10001), (100, 10001, 10001), (100, 1000, 10001), (100, 1000, 10000), HUNDRED]:
        yield pool, NONE
    yield HUNDRED, WHOLE_ARRAYS


def refusals():
    for pool, lengths in wrong():
        fill(*pool, lengths)
    for library in COLUMNS:
        for pool, lengths in wrong():
            column(library, pool, lengths, 100)
        for pool, lengths in wrong():
            tranche_loss(*pool, *REFUSED, lengths, library)
        for tranches, count in [([REFUSED] * 8, 0), (SPREAD, 9), (SPREAD, 8)]:
            for pool, lengths in wrong():
                tranche_losses(library, pool, tranches, count, lengths)
    for case in [(101, 0, LARGE_PLACES), (101, 102, LARGE_PLACES), (101, 0, 0), (100, 101, 5150)]:
        row(*case)


def lengths(n):
    pool, exact = (n, 1000, 3000), places(n)
    lent = lengths_of(exact) + [longer(exact)]
    for given in lent:
        fill(*pool, given)
    for given in lent:
        tranche_losses("", pool, SPREAD, 8, given)
    list_lengths("column", n, exact)
    for units in (n + 1, n):
        column("beta", pool, units=units)
    for k, length in [(0, exact), (1, exact + 5), (n, exact), (n + 1, exact), (n, exact - 1), (n + 1, exact - 1)]:
        row(n, k, length)


def stores():
    for k in range(102):
        filled_row(*HUNDRED, k)
    for reader, k in [(1, 1), (64, 0), (64, 64), (64, 65), (65, 65), (99, 99), (99, 100), (101, 0)]:
        filled_row(*HUNDRED, k, reader)
    cases = [(other, 100) for other in OTHERS] + [((100, 500, 250), n) for n in (3, 64, 65)]
    cases += [((100, 10000, 10000), 100), ((100, 500, 250), 101)]
    for other, n in cases:
        fill_over(other, n, 1000, 3000)
    for other, n in cases:
        listed_over("column", other, n, 1000, 3000, LARGE_ROWS)


def otherwise(side, row):
    """The chances from row n, with counts of orders by sums of up to 64 assets, and worked out exactly of more."""
    n = len(row) - 1
    counts = summed_counts(side, n) if n <= EXACT_ASSETS else [rounded(side, comb(n, j)) for j in range(n + 1)]
    return [product(side, count, entry) for count, entry in zip(counts, row)]


def digits():
    """Other counts of orders would give another unit, and change both bounds of the loss."""
    for library, *pool in [
        ("", 64, 1100, 2800), ("", 65, 1600, 1500), ("", 70, 5800, 500), ("beta", 83, 3600, 2900), ("beta", 99, 5300, 2300),
        ("", 100, 5200, 1400),
    ]:
        for side, (rows, chances) in enumerate(made(*pool, MODELS[library])):
            others = otherwise(side, rows[-1])
            assert side or printed_tails(chances) != printed_tails(others)
            assert loss(side, chances, *TRANCHE) != loss(side, others, *TRANCHE)
        column(library, pool)
        tranche_loss(*pool, *TRANCHE, library=library)


def edges():
    """Losses a few kept numbers above 2^-800, on both sides of it, and below it, twice each; far below it, and far above it."""
    for n, *tranches in [
        (65, (6633, 3145, 9824), (8755, 1152, 8546), (8499, 1396, 7096), (8627, 1274, 7821), (9072, 858, 6676), (7779, 2069, 8984)),
        (100, (7752, 1482, 7970), (8853, 755, 8553), (9131, 572, 6517), (6906, 2040, 9919), (9386, 403, 9049), (8030, 1299, 5934)),
    ]:
        losses = tranche_losses("", (n, 1, 0), tranches + [(0, 9999, 10000), (0, 0, 10000)], 8)[1]
        assert [answer[0] for answer in losses] == ["shown"] * 2 + ["faint"] * 5 + ["shown"]
        assert [answer[1] == bits(LEAST_SHOWN) for answer in losses] == [False] * 4 + [True] * 3 + [False]


for n in (64, 65, 99, 100):
    all_pools(n)
refusals()
for n in (65, 99, 100):
    lengths(n)
stores()
digits()
edges()
for pool, tranches, count in random_losses(100, [large_pool]):
    for library in COLUMNS:
        column(library, pool)
    for library in COLUMNS:
        tranche_losses(library, pool, tranches, count)

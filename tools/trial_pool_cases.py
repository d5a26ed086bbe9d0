"""Prints what crates/trial_pool_cases must print, by tools/pools.py.

    python3 tools/trial_pool_cases.py > crates/trial_pool_cases/stdout
"""
from math import comb

from kept import ZERO, plus, rounded, value
from pools import in_units, printed_tails
from trial_pool import OTHERS, STORES, fill, filled_row, lengths_of, listed, lists, longer, made, row, tranche_loss

LARGEST = 2**32 - 1


def fills():
    for pool in [
        (3, 1000, 3000), (0, 1000, 3000), (1, 1000, 3000), (64, 1000, 3000), (101, 1000, 3000), (LARGEST, 1000, 3000),
        (3, 10000, 3000), (3, 10001, 3000), (3, LARGEST, 3000), (3, 1000, 10000), (3, 1000, 10001), (3, 1000, LARGEST),
        (64, 10000, 3000), (101, 10001, 3000), (0, 10001, 10001), (3, 10001, 10001),
    ]:
        fill(*pool)
    for n in (1, 2, 64):
        for p, rho in [(0, 0), (0, 3000), (0, 10000), (5000, 0), (5000, 10000), (10000, 0), (10000, 10000)]:
            fill(n, p, rho)
    for n, exact in STORES:
        for lengths in lengths_of(exact) + [longer(exact)]:
            fill(n, 1000, 3000, lengths)
    for pool in [(101, 1000, 3000), (3, 10001, 3000), (3, 1000, 10001), (3, 1000, 3000)]:
        fill(*pool, [0] * 4)


def rows():
    for n, exact in STORES:
        for k, length in [(0, exact), (1, exact + 5), (n, exact), (n + 1, exact), (n, exact - 1), (n + 1, exact - 1)]:
            row(n, k, length)
    for case in [
        (3, 2, 10), (64, 63, 2145), (0, 0, 2145), (0, 0, 0), (101, 0, 2150), (101, 102, 0), (LARGEST, LARGEST, 0),
        (64, LARGEST, 2145),
    ]:
        row(*case)
    for k in (0, 2, 3, 4):
        filled_row(3, 1000, 3000, k)
    filled_row(64, 1000, 3000, 64)


def losses():
    for tranche in [
        (4000, 1000, 3000), (4000, 0, 6000), (4000, 6000, 10000), (0, 0, 10000), (10000, 0, 10000), (10001, 0, 10000),
        (4000, 0, 10001), (4000, 3000, 3000), (4000, 2999, 3000), (4000, 3001, 3000), (4000, 0, 1), (4000, 0, 0),
        (4000, 10000, 10000), (4000, 9999, 10000), (10001, 10001, 10001), (4000, 10001, 10001),
        (LARGEST, LARGEST, LARGEST), (4000, LARGEST, 0),
    ]:
        tranche_loss(3, 1000, 3000, *tranche)
    for case in [
        (64, 1, 0, 0, 9999, 10000), (61, 1, 0, 6337, 3596, 6423), (61, 1, 0, 0, 9999, 10000), (60, 1, 0, 0, 9999, 10000),
        (64, 0, 3000, 0, 0, 10000), (64, 10000, 3000, 4000, 0, 10000), (64, 1000, 10000, 0, 9999, 10000),
        (1, 0, 3000, 0, 0, 10000), (1, 10000, 0, 0, 0, 10000), (0, 1000, 3000, 10001, 0, 10000),
        (101, 1000, 3000, 4000, 0, 10000), (3, 10001, 3000, 10001, 0, 10000), (3, 1000, 10001, 10001, 0, 10000),
    ]:
        tranche_loss(*case)
    for n, exact in STORES:
        for lengths in lengths_of(exact) + [longer(exact)]:
            tranche_loss(n, 1000, 3000, 4000, 1000, 3000, lengths)
        tranche_loss(n, 1000, 3000, 4000, 3000, 3000, [exact - 1] * 4)
    for other in OTHERS:
        tranche_loss(3, 1000, 3000, 4000, 1000, 3000, other=other)
    tranche_loss(3, 1000, 3000, 4000, 3000, 3000, other=OTHERS[0])


def added(numbers):
    """The low sum of kept numbers, in their order."""
    total = ZERO
    for x in numbers:
        total = plus(0, total, x)
    return total


def digits():
    """Pools whose last digits depend on how steps 4 and 5 round."""
    # A tail added from k up would have another unit, and so would certainty less the other chances.
    for pool in [
        (5, 8200, 3850), (9, 8500, 5700), (10, 6250, 3400), (12, 5350, 5100), (16, 6100, 7350), (20, 7600, 5000),
        (28, 6600, 2500), (35, 7300, 5900), (48, 8500, 1300), (53, 8500, 4700), (62, 7900, 4200), (64, 9600, 2800),
    ]:
        low = made(*pool)[0][1]
        printed = printed_tails(low)
        assert any(
            printed[k] != in_units(value(added(low[k:]))) and printed[k] != in_units(1 - value(added(low[:k])))
            for k in range(1, len(low))
        )
        listed("column", *pool)
    # The exact count of orders times the entry, rounded once, would give another unit, or change both bounds.
    for pool in [(40, 3400, 1600), (47, 6700, 1300), (54, 4400, 4100), (64, 5800, 2500)]:
        rows, low = made(*pool)[0]
        once = [rounded(0, comb(pool[0], j) * s, 1, e) for j, (s, e) in enumerate(rows[-1])]
        assert printed_tails(low) != printed_tails(once)
        listed("column", *pool)
    for case in [
        (37, 4000, 1000, 0, 3000, 6000), (39, 4500, 0, 6000, 300, 700), (41, 7000, 5000, 6000, 1000, 3000),
        (43, 2500, 8000, 2500, 1000, 2000), (46, 5500, 1000, 3500, 1500, 1600), (48, 3000, 2000, 5000, 2000, 4000),
        (50, 8000, 500, 4000, 1000, 3000), (53, 3500, 100, 5000, 0, 1000), (56, 6000, 0, 2500, 5000, 10000),
        (59, 5000, 3000, 0, 0, 10000), (62, 2000, 3000, 3500, 0, 300), (64, 6500, 50, 4000, 2000, 4000),
    ]:
        tranche_loss(*case)


def edges():
    """Losses around 2^-800, of pools with probability 1 and correlation 0."""
    for n, *tranche in [
        # The low side is 2^-800, then a few kept numbers above it: shown.
        (64, 2845, 6731, 9192), (64, 4583, 5096, 6959), (61, 8748, 1216, 7510),
        # The low side is a few below it, then the high side a few above it: faint with the high bound.
        (64, 4786, 4905, 6699), (62, 9056, 913, 7827), (61, 2928, 6950, 9417), (64, 3023, 6563, 8978),
        # The high side is a few below it: faint with 2^-800.
        (64, 8871, 1062, 1453), (61, 8816, 1157, 4244),
        # The low side is between 2^-800 and 2^-799, then between 2^-801 and 2^-800.
        (60, 5000, 4950, 5200), (64, 5000, 4700, 6000), (60, 5000, 4950, 5400), (64, 5000, 4700, 8000),
    ]:
        tranche_loss(n, 1, 0, *tranche)


fills()
rows()
lists("column")
losses()
digits()
edges()

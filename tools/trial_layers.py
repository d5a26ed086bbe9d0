"""Prints what crates/trial_layers must print, by tools/pools.py. Every loss is held to the exact model.

    python3 tools/trial_layers.py > crates/trial_layers/stdout
"""
from pools import LEAST_SHOWN, WHOLE, bits, places
from trial_pool import OTHERS, layer_loss, lengths_of, longer, random_layers, tranche_loss

NONE = [0] * 4
FAR = 2**31
LARGEST = 2**32 - 1
THREE = (3, 1000, 3000)
# The assets, the layer, and the attachments of its tranche.
BESIDE = [
    (1, 1, 1, 0, 10000), (2, 1, 1, 0, 5000), (2, 2, 2, 5000, 10000), (4, 2, 3, 2500, 7500), (5, 1, 5, 0, 10000),
    (5, 4, 4, 6000, 8000), (8, 3, 7, 2500, 8750), (10, 1, 3, 0, 3000), (10, 10, 10, 9000, 10000), (16, 2, 15, 625, 9375),
    (20, 2, 15, 500, 7500), (20, 20, 20, 9500, 10000), (25, 5, 5, 1600, 2000), (40, 1, 39, 0, 9750), (50, 11, 50, 2000, 10000),
    (80, 21, 60, 2500, 7500), (100, 1, 1, 0, 100), (100, 34, 67, 3300, 6700), (100, 1, 100, 0, 10000), (3, 1, 3, 0, 10000),
    (64, 5, 32, 625, 5000), (65, 14, 26, 2000, 4000), (99, 1, 99, 0, 10000),
]


def refused_by(number, *call, **over):
    """A call that is refused by this ground, or accepted where it is 0."""
    assert layer_loss(*call, **over)[0] == number


def pools(n, i, j):
    """Probability and correlation at their ends and between them. A loss is zero where p is, and only there."""
    for p, rho in [
        (1000, 3000), (1, 9999), (9999, 1), (0, 0), (0, 10000), (5000, 0), (5000, 10000), (10000, 0), (10000, 10000),
    ]:
        (kind, *_), = layer_loss((n, p, rho), i, j)[1]
        assert kind == ("shown" if p else "untouched")


def layers(n, middle):
    """One default, the first, one between and the last; from the first on, up to the last, and all."""
    for i, j in [(1, 1), (middle, middle), (n, n), (1, middle), (middle, n), (1, n)]:
        pools(n, i, j)


def beside():
    """Each layer, and the tranche that has the same attachments and no recovery. The bounds of both are held to one exact loss, by
    hold_layer and hold_loss."""
    for n, i, j, lower, upper in BESIDE:
        assert (lower * n, upper * n) == (WHOLE * (i - 1), WHOLE * j)
        for p, rho in [(1000, 3000), (250, 500)]:
            layer_loss((n, p, rho), i, j)
            tranche_loss(n, p, rho, 0, lower, upper)


def shown(above, pool, i, j):
    """The loss is shown, or both its bounds are below 2^-800."""
    answer, = layer_loss(pool, i, j)[1]
    assert answer[0] == "shown" if above else answer == ("faint", bits(LEAST_SHOWN))


def faint():
    for i in range(60, 65):
        for j in (i, 64):
            shown(i < 62, (64, 1, 0), i, j)
    for n, p, i, last in [(98, 8, 83, 92), (89, 3, 73, 79), (94, 5, 78, 87)]:
        for j in (last, last + 1):
            shown(j == last, (n, p, 0), i, j)
    shown(True, (76, 5, 0), 74, 74)
    shown(True, (100, 5, 0), 79, 100)
    for i in (66, 67, 100):
        shown(i < 67, (100, 1, 0), i, i)
    for i in (99, 100):
        shown(i < 100, (100, 1, 1), i, 100)


def layer_edges(n):
    """Each of i and j at 0, at 1, at the last default, one behind it, and far behind it."""
    numbers = (0, 1, n, n + 1, FAR, LARGEST)
    for i in numbers:
        for j in numbers:
            refused_by(0 if 0 < i <= j <= n else 14, (n, 1000, 3000), i, j)


def neighbours(n, i, j):
    """Two defaults next to each other in both orders, and each of them alone."""
    for number, first, last in [(0, i, j), (14, j, i), (0, i, i), (0, j, j)]:
        refused_by(number, (n, 1000, 3000), first, last)


def pool_edges():
    for number, n in [(1, 0), (0, 1), (0, 100), (1, 101), (1, LARGEST)]:
        refused_by(number, (n, 1000, 3000), 1, 1)
    for number, p in [(0, 10000), (2, 10001), (2, LARGEST)]:
        refused_by(number, (3, p, 3000), 2, 3)
    for number, rho in [(0, 10000), (3, 10001), (3, LARGEST)]:
        refused_by(number, (3, 1000, rho), 2, 3)


def order():
    """A layer that is wrong in each way, with enough places and with none; then a right one with none."""
    for number, pool in [
        (1, (0, 1000, 3000)), (1, (101, 1000, 3000)), (1, (LARGEST, 1000, 3000)), (1, (0, 10001, 10001)),
        (1, (101, 10001, 3000)), (1, (101, 1000, 10001)), (2, (3, 10001, 3000)), (2, (3, 10001, 10001)), (3, (3, 1000, 10001)),
        (0, THREE), (0, (100, 1000, 3000)),
    ]:
        for lengths in (None, NONE):
            for i, j in [(0, 1), (2, 1), (1, 102), (LARGEST, 0)]:
                refused_by(number or 14, pool, i, j, lengths)
        refused_by(number or 7, pool, 1, 1, NONE)


def lengths(n):
    """Also on the stores of other pools, which a refusal leaves."""
    pool, exact = (n, 1000, 3000), places(n)
    for i in (1, 0):
        for lent in lengths_of(exact):
            refused_by(14 if i == 0 else 0 if lent == [exact] * 4 else 7, pool, i, n, lent)
    refused_by(0, pool, 1, n, longer(exact))
    for number, i, j in [(0, 1, n), (14, n, 0)]:
        for other in OTHERS:
            refused_by(number, pool, i, j, other=other)


def stores():
    """Over what a pool of 100 assets left."""
    for number, i, j, pool in [
        (0, 2, 3, THREE), (0, 2, 65, (65, 1000, 3000)), (0, 2, 100, (100, 1000, 3000)), (14, 2, 101, (100, 1000, 3000)),
        (1, 1, 1, (0, 1000, 3000)), (1, 1, 1, (101, 1000, 3000)), (2, 1, 1, (3, 10001, 3000)), (3, 1, 1, (3, 1000, 10001)),
        (14, LARGEST, 0, THREE), (14, 0, LARGEST, THREE),
    ]:
        refused_by(number, pool, i, j, other=(100, 500, 250))


pools(1, 1, 1)
for n, middle in [(20, 10), (64, 21), (65, 33), (100, 60)]:
    layers(n, middle)
beside()
faint()
for n in (1, 3, 100):
    layer_edges(n)
for n, i, j in [(3, 1, 2), (64, 40, 41), (100, 99, 100)]:
    neighbours(n, i, j)
pool_edges()
order()
for n in (1, 3, 20, 64, 65, 100):
    lengths(n)
stores()
for pool, i, j in random_layers(100):
    layer_loss(pool, i, j)

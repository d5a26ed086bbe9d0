"""Prints what crates/trial_screen must print, by tools/pools.py. Every bound of an accepted pool is held to the exact model.

    python3 tools/trial_screen.py > crates/trial_screen/stdout
"""
from trial_pool import LARGE_ROWS, OTHERS, ROWS, lengths_of, list_lengths, listed, lists, longer, random_cases, small_pool
from trial_pool import tranche_loss

NONE = [0] * 4
LARGEST = 2**32 - 1


def column(n, p=1000, rho=3000, lengths=None, units=ROWS):
    listed("screen column", n, p, rho, lengths, units)


def loss(n, recovery, lower, upper, p=1000, rho=3000, lengths=None, other=()):
    tranche_loss(n, p, rho, recovery, lower, upper, lengths, "screen", other)


def around(n, units=ROWS):
    column(n, units=units)
    loss(n, 4000, 1000, 3000)
    column(n, 10001, 10001, NONE, 0)
    loss(n, 10001, 10001, 10001, 10001, 10001, NONE)


def each_wrong(n, units=ROWS):
    column(n, p=10001, units=units)
    column(n, rho=10001, units=units)
    column(n, lengths=NONE, units=units)
    column(n, units=0)
    loss(n, 0, 0, 10000, p=10001)
    loss(n, 0, 0, 10000, rho=10001)
    loss(n, 10001, 0, 10000)
    loss(n, 4000, 0, 10001)
    loss(n, 4000, 3000, 3000)
    loss(n, 4000, 0, 10000, lengths=NONE)


def two_wrong(n):
    column(n, 10001, 10001)
    column(n, rho=10001, lengths=NONE)
    column(n, lengths=NONE, units=0)
    loss(n, 0, 0, 10000, 10001, 10001)
    loss(n, 10001, 0, 10000, rho=10001)
    loss(n, 10001, 0, 10001)
    loss(n, 4000, 10001, 10001)
    loss(n, 4000, 3000, 3000, lengths=NONE)


def losses(n, exact):
    for tranche in [(10000, 0, 10000), (0, 9999, 10000), (4000, 2999, 3000), (4000, 6000, 10000)]:
        loss(n, *tranche)
    for p, rho in [(0, 10000), (5000, 0), (5000, 10000), (10000, 0), (10000, 10000)]:
        loss(n, 0, 1000, 3000, p, rho)
    for lengths in lengths_of(exact):
        loss(n, 4000, 1000, 3000, lengths=lengths)
    for other in OTHERS:
        loss(n, 4000, 1000, 3000, other=other)


for n in (0, 1, 20, 21, 64, 101, LARGEST):
    around(n)
for n in (20, 21, 64, 101):
    each_wrong(n)
for n in (65, 100):
    around(n, LARGE_ROWS)
    each_wrong(n, LARGE_ROWS)
two_wrong(20)
lists("screen column")
list_lengths("screen column", 20, 231)
list_lengths("screen column", 21, 253)
for n, exact in [(1, 3), (20, 231), (21, 253)]:
    losses(n, exact)
loss(20, 4000, 1000, 3000, lengths=longer(231))
for n, p, rho, *tranche in random_cases(300, small_pool):
    listed("column", n, p, rho)
    column(n, p, rho)
    tranche_loss(n, p, rho, *tranche)
    loss(n, *tranche, p, rho)

"""Prints what crates/trial_beta must print, by tools/pools.py. Every bound and every column of the beta-binomial is held to the
exact model, and the quotients of its steps to the closed form.

    python3 tools/trial_beta.py > crates/trial_beta/stdout
"""
from exact import BETA, hold_implied, hold_quotients
from trial_pool import HALF_WAY, REFUSED, ROWS, half_way, list_corners, list_half_way, list_pools, listed, no_places
from trial_pool import random_cases, tranche_loss

CALL = "beta column"
LARGEST = 2**32 - 1


def column(places, n, p, rho):
    listed(CALL, n, p, rho, entries=places)


def loss(recovery, lower, upper, n, p, rho):
    tranche_loss(n, p, rho, recovery, lower, upper, library="beta")


def lengths(n, rho):
    for places in (n + 1, n, n + 6):
        column(places, n, 1000, rho)


def each_wrong(n, rho):
    for p in (10000, 10001):
        loss(0, 0, 10000, n, p, rho)
    for tranche in [
        (10000, 0, 10000), (10001, 0, 10000), (4000, 0, 10001), (4000, 2999, 3000), (4000, 3000, 3000), (4000, 3001, 3000),
        (0, 9999, 10000), (4000, 6000, 10000),
    ]:
        loss(*tranche, n, 1000, rho)


def order():
    for pool in [
        (0, 10001, 10000), (101, 10001, 10000), (0, 1000, 10000), (3, 10001, 10001), (3, 10001, 10000), (3, 1000, 10001),
        (3, 1000, 10000), (3, 1000, 9999), (LARGEST, LARGEST, LARGEST), (3, LARGEST, LARGEST), (3, 1000, LARGEST),
    ]:
        column(0, *pool)
        loss(*REFUSED, *pool)
    for *tranche, rho in [
        (4000, 3000, 3000, 10000), (4000, 0, 10001, 10000), (10001, 0, 10001, 9999), (4000, 10001, 10001, 9999),
        (10001, 3000, 3000, 9999),
    ]:
        loss(*tranche, 3, 1000, rho)


def losses(n):
    for p in (0, 1, 9999, 10000):
        for rho in (0, 1, 9999, 10000):
            loss(0, 1000, 3000, n, p, rho)
        loss(0, 9999, 10000, n, p, 1)


def both(n, rho):
    """By both models."""
    listed("column", n, 1000, rho)
    column(ROWS, n, 1000, rho)
    tranche_loss(n, 1000, rho, 4000, 1000, 3000)
    loss(4000, 1000, 3000, n, 1000, rho)


def printed_figures():
    """The pool of Figures 3 to 5 of source document 000, and the correlations of its Table 2."""
    for n in (2, 30):
        listed("column", n, 1000, 1000)
        column(ROWS, n, 1000, 1000)
    for lower, upper, moody, beta in [(300, 600, 127, 126), (600, 900, 316, 315), (900, 1200, 616, 611), (1200, 2200, 978, 973)]:
        hold_implied(50, 184, moody, beta, 3500, lower, upper)
        tranche_loss(50, 184, moody, 3500, lower, upper)
        loss(3500, lower, upper, 50, 184, beta)


# Pools beside those of the cases.
for n in range(1, 13):
    for p in (0, 1, 300, 1000, 3333, 5000, 9999, 10000):
        for rho in (0, 1, 300, 1000, 3333, 5000, 9999):
            hold_quotients(n, p, rho)
list_pools(CALL)
for n in (1, 2, 64):
    list_corners(CALL, n)
no_places(CALL)
for n, rho in [(1, 3000), (3, 9999), (3, 10000), (64, 3000)]:
    lengths(n, rho)
list_half_way(CALL)
assert all(half_way(n, p, rho, BETA) for n, p, rho in HALF_WAY if n == 2 or rho == 0) and half_way(3, 2500, 5000, BETA)
column(ROWS, 3, 2500, 5000)
order()
for n, rho in [(1, 3000), (64, 9999), (64, 10000)]:
    each_wrong(n, rho)
for n in (1, 2, 64):
    losses(n)
for n, rho in [(1, 3000), (1, 9999), (2, 1), (2, 3000), (2, 9999), (20, 0), (64, 0), (3, 3000), (50, 3000), (3, 10000)]:
    both(n, rho)
printed_figures()
for n, p, rho, *tranche in random_cases(300):
    column(ROWS, n, p, rho)
    loss(*tranche, n, p, rho)

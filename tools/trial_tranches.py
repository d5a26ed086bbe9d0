"""Prints what crates/trial_tranches must print, by tools/pools.py. Every loss is held to the exact model.

    python3 tools/trial_tranches.py > crates/trial_tranches/stdout
"""
from trial_pool import LIBRARIES, OTHERS, REFUSED, SPREAD, lengths_of, longer, random_losses, tranche_losses

NONE = [0] * 4
LARGEST = 2**32 - 1
THREE = (3, 1000, 3000)
FAINT = [
    (0, 9999, 10000), (4786, 4905, 6699), (0, 0, 10000), (8871, 1062, 1453), (10000, 0, 10000), (2845, 6731, 9192),
    (0, 9999, 10000), (3023, 6563, 8978),
]
# What each of 4, 5 and 6 refuses.
WRONG = {4: (10001, 0, 10000), 5: (4000, 0, 10001), 6: (4000, 3000, 3000)}


def with_at(tranches, place, tranche):
    return tranches[:place] + [tranche] + tranches[place + 1:]


def refused_by(number, *call):
    """A call that is refused by this ground, or accepted where it is 0."""
    assert tranche_losses(*call)[0] == number


def at_place(number, library, count, place, tranche):
    refused_by(number, library, THREE, with_at(SPREAD, place, tranche), count)


def counts(library):
    for count in (0, 1, 2, 7, 8, 9, LARGEST):
        refused_by(0 if 1 <= count <= 8 else 13, library, THREE, SPREAD, count)


def places(library):
    """Each ground on both sides of its edge, at each place, within the count and past it."""
    for number, tranche in [*WRONG.items(), (6, (4000, 3001, 3000))]:
        for count in (1, 4, 8):
            for place in range(8):
                at_place(number if place < count else 0, library, count, place, tranche)
    for tranche in [(10000, 0, 10000), (0, 9999, 10000), (4000, 2999, 3000)]:
        for place in range(8):
            at_place(0, library, 8, place, tranche)


def two_wrong(library):
    for place in (0, 3, 7):
        for number, tranche in [
            (4, (10001, 0, 10001)), (4, (10001, 3000, 3000)), (5, (4000, 10001, 10001)), (4, REFUSED), (4, (LARGEST,) * 3),
        ]:
            at_place(number, library, 8, place, tranche)
    for first, second in [(0, 1), (2, 5), (6, 7)]:
        for number, tranche in WRONG.items():
            for other in WRONG.values():
                refused_by(number, library, THREE, with_at(with_at(SPREAD, first, tranche), second, other), 8)


def order(library):
    """The count wrong, then also every tranche, and no places; every tranche wrong and no places; no places, also with a wrong
    count. Before each pool stands what the library, the screen and the beta-binomial refuse it by."""
    for *numbers, pool in [
        (1, 1, 1, (0, 1000, 3000)), (1, 1, 1, (101, 1000, 3000)), (0, 11, 0, (21, 1000, 3000)), (0, 11, 12, (64, 1000, 10000)),
        (2, 2, 2, (3, 10001, 3000)), (3, 3, 3, (3, 1000, 10001)), (0, 0, 12, (3, 1000, 10000)), (1, 1, 1, (0, 10001, 10001)),
        (0, 0, 0, THREE),
    ]:
        number = numbers[LIBRARIES.index(library)]
        for count in (0, 9):
            refused_by(number or 13, library, pool, SPREAD, count)
        for count in (0, 9, 1):
            refused_by(number or (4 if count == 1 else 13), library, pool, [REFUSED] * 8, count, NONE)
        refused_by(number or 13, library, pool, SPREAD, 9, NONE)
        refused_by(number or (0 if library == "beta" else 7), library, pool, SPREAD, 8, NONE)
    for number, tranche in WRONG.items():
        for count in (0, 9):
            at_place(13, library, count, 0, tranche)
        refused_by(number, library, THREE, with_at(SPREAD, 7, tranche), 8, NONE)


def pools(library):
    for n in (1, 3, 20, 21, 64):
        for p, rho in [(1000, 3000), (0, 0), (0, 10000), (1, 1), (5000, 0), (5000, 10000), (10000, 1), (10000, 10000)]:
            tranche_losses(library, (n, p, rho), SPREAD, 8)
        for p, rho in [(1, 0), (1000, 3000)]:
            tranche_losses(library, (n, p, rho), FAINT, 8)


def orders(library):
    """The same tranches in three orders; then one of them at every place."""
    for pool, tranches in [(THREE, SPREAD), ((20, 500, 1000), SPREAD), ((64, 1, 0), FAINT)]:
        refusal, losses = tranche_losses(library, pool, tranches, 8)
        assert tranche_losses(library, pool, tranches[::-1], 8) == (refusal, losses[::-1])
        assert tranche_losses(library, pool, tranches[3:] + tranches[:3], 8) == (refusal, losses[3:] + losses[:3])
        assert tranche_losses(library, pool, tranches[:1] * 8, 8) == (refusal, losses[:1] * 8)
        if tranches == FAINT and not refusal:
            kinds = [loss[0] for loss in losses]
            assert kinds == ["faint", "faint", "shown", "faint", "untouched", "shown", "faint", "faint"]


def past(library):
    """Each count twice, the second time with records past it that would be refused."""
    for count in range(7, 0, -1):
        answer = tranche_losses(library, THREE, SPREAD, count)
        assert tranche_losses(library, THREE, SPREAD[:count] + [REFUSED] * (8 - count), count) == answer


def lengths(library, n, exact):
    """Also on the stores of other pools, which a refusal leaves."""
    pool = (n, 1000, 3000)
    for lent in lengths_of(exact) + [longer(exact)]:
        tranche_losses(library, pool, SPREAD, 8, lent)
    for other in OTHERS:
        tranche_losses(library, pool, SPREAD, 8, other=other)
    tranche_losses(library, pool, SPREAD, 9, other=OTHERS[0])
    tranche_losses(library, pool, with_at(SPREAD, 7, WRONG[6]), 8, other=OTHERS[0])


for library in LIBRARIES:
    for cases in (counts, places, two_wrong, order, pools, orders, past):
        cases(library)
for library, n, exact in [
    ("", 1, 3), ("", 3, 10), ("", 20, 231), ("", 64, 2145), ("screen", 1, 3), ("screen", 20, 231), ("screen", 21, 253),
]:
    lengths(library, n, exact)
for pool, small, tranches, count in random_losses(150):
    for library in LIBRARIES:
        tranche_losses(library, small if library == "screen" else pool, tranches, count)

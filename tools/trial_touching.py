"""Prints what crates/trial_touching must print, by tools/pools.py. Every loss is held to the exact model. Where tranches touch from
0 to 10,000 with one recovery, the printed numbers times the widths add to at most and to at least the expected loss of the pool; the
cases tell these sums from others like them. With the word sums it checks printed lines from what they say alone.

    python3 tools/trial_touching.py cuts > crates/trial_touching/stdin
    python3 tools/trial_touching.py > crates/trial_touching/stdout
    python3 tools/trial_touching.py sums < crates/trial_touching/stdout
"""
import struct
import sys
from collections import Counter, namedtuple
from contextlib import redirect_stdout
from fractions import Fraction
from io import StringIO
from math import ceil, floor

from exact import hold_touching, pool_loss
from pools import TRANCHES, WHOLE
from trial_pool import LIBRARIES, REFUSED, models_of, tranche_losses
from trial_support import SEED, following, line

# A call, and what it is a case of.
Case = namedtuple("Case", "kind library pool tranches")
# What a line says: the pool, the tranches within the count, and the loss of each, or no losses where the call was refused.
Printed = namedtuple("Printed", "pool tranches losses")
# A loss: untouched, faint or shown, and the two numbers that it carries.
Loss = namedtuple("Loss", "kind low high")
KINDS = ("untouched", "faint", "shown")
# The cases of which the sums are promised: of the second kind both are exact, and one of the third has losses of every kind.
TOUCHING = ("touching", "exact", "every kind")
SIZES = [1, 2, 3, 20]
LARGE_SIZES = [21, 64, 65, 100]
ENDS = [0, 1, WHOLE - 1, WHOLE]
TWENTY = (20, 1000, 3000)
# Pools whose chances are kept without rounding, with a recovery and cut points by which the losses are.
EXACT = [
    ((1, 5000, 0), 0, []), ((1, 5000, 3000), 0, [1, 9999]), ((1, 625, 0), 0, [1000, 3000, 3001]),
    ((1, 7500, 9999), 5000, [2500, 5000]), ((1, 10000, 0), 0, range(1, 8)), ((2, 5000, 0), 0, [5000]),
    ((2, 5000, 5000), 0, [2500, 5000]), ((2, 2500, 0), 5000, [1250, 2500, 5000]), ((3, 10000, 5000), 0, [1, 2, 9999]),
    ((20, 10000, 0), 7500, [2500]), ((20, 0, 3000), 0, [1, 9999]), (TWENTY, 10000, range(1, 8)),
]
# Pools, a recovery and cut points by which the lower losses are shown, a higher one is faint and the highest is untouched.
EVERY_KIND = [
    ((64, 1, 0), 1000, [100, 2000, 8900, 9000]), ((64, 1, 0), 1, [9998, 9999]), ((65, 1, 0), 4000, [100, 5950, 6000]),
    ((100, 1, 0), 1000, [1, 300, 3000, 7500, 8000, 8999, 9000]), ((100, 1, 1), 1, [9998, 9999]),
    ((100, 3, 0), 2000, [10, 7000, 7900, 8000]), ((100, 1, 0), 500, [7200, 7500, 7800, 8100, 8400, 9000, 9500]),
]
# Tranches that do not touch from 0 to 10,000 with one recovery.
APART = {
    "gap": [[(4000, 0, 2000), (4000, 2001, 10000)], [(0, 0, 1000), (0, 1000, 4000), (0, 7000, 10000)]],
    "overlap": [[(4000, 0, 2001), (4000, 2000, 10000)], [(0, 0, 10000), (0, 0, 10000)], [(0, 0, 1000), (0, 0, 10000)]],
    "first lower attachment": [[(4000, 1, 10000)], [(0, 1000, 5000), (0, 5000, 10000)]],
    "last upper attachment": [[(0, 0, 9999)], [(4000, 0, 1000), (4000, 1000, 3000)], [(4000, 0, 1000), (4000, 1000, 6000)]],
    "two recoveries": [[(0, 0, 3000), (1, 3000, 10000)], [(4000, 0, 500), (0, 500, 10000)]],
    "another order": [[(4000, 3000, 10000), (4000, 0, 3000)], [(0, 500, 3000), (0, 0, 500), (0, 3000, 10000)]],
}
REFUSED_POOLS = [("", (101, 1000, 3000)), ("screen", (21, 1000, 3000)), ("beta", (3, 1000, 10000))]


def cut(recovery, points):
    """Tranches that touch from 0 to 10,000."""
    ends = [0, *points, WHOLE]
    return [(recovery, lower, upper) for lower, upper in zip(ends, ends[1:])]


def sizes(library):
    return SIZES if library == "screen" else SIZES + LARGE_SIZES


def random_pool(word, library):
    """Probability and correlation are often at their ends. The beta-binomial has no full correlation."""
    n, p, rho = ((following(word, i) >> 8) for i in range(3))
    n = sizes(library)[n % len(sizes(library))]
    p = [0, 1, WHOLE, p % 200, p % 200, p % 2000, p % WHOLE, p % WHOLE][word % 8]
    rho = [*ENDS, rho % 1000, rho % 3000, rho % WHOLE, rho % WHOLE][following(word) % 8]
    return n, p, rho - (library == "beta" and rho == WHOLE)


def random_points(word, count, recovery):
    """So many cut points: neighbours, or random ones with 1, 9,999 and the most that can be lost among some of them."""
    if word % 5 == 0:
        first = 1 + (word >> 8) % (WHOLE - count)
        return range(first, first + count)
    points = {point for point in [(), (1,), (WHOLE - 1, 1), (WHOLE - recovery,)][word % 5 - 1][:count] if 0 < point < WHOLE}
    while len(points) < count:
        word = following(word)
        points.add(1 + (word >> 8) % (WHOLE - 1))
    return sorted(points)


def random_cuts():
    """Of each library cuts into one to eight tranches, by recoveries at the ends and others."""
    word = SEED
    for library in LIBRARIES:
        for count in range(1, TRANCHES + 1):
            word = following(word, 7)
            for recovery in [*ENDS, 0, 4000, 4000, *((following(word, i) >> 8) % WHOLE for i in range(3))]:
                word = following(word, 7)
                points = random_points(following(word), count - 1, recovery)
                yield Case("touching", library, random_pool(following(word, 2), library), cut(recovery, points))


def known_cuts():
    """Cuts next to both ends, those whose sums are exact, and those with losses of every kind."""
    for library in LIBRARIES:
        for recovery in (0, 4000):
            for points in (range(1, 8), range(9993, 10000), [1, 9999], range(5997, 6004)):
                yield Case("touching", library, TWENTY, cut(recovery, points))
        for pool, recovery, points in EXACT:
            yield Case("exact", library, pool, cut(recovery, points))
        if library != "screen":
            for pool, recovery, points in EVERY_KIND:
                yield Case("every kind", library, pool, cut(recovery, points))


def others():
    """Tranches that do not touch, and refused pools."""
    for library in LIBRARIES:
        for kind, lists in APART.items():
            for tranches in lists:
                yield Case(kind, library, TWENTY, tranches)
    for library, pool in REFUSED_POOLS:
        yield Case("refused", library, pool, cut(4000, [3000]))


def line_of(case):
    """The line that the call prints. The records behind the tranches would be refused."""
    text = StringIO()
    count = len(case.tranches)
    with redirect_stdout(text):
        tranche_losses(case.library, case.pool, case.tranches + [REFUSED] * (TRANCHES - count), count)
    return text.getvalue()


def number(word):
    """The exact value of an f64, from its bits."""
    return Fraction(struct.unpack(">d", bytes.fromhex(word))[0])


def loss_in(kind, *words):
    """A loss, from the word that names it and those behind that."""
    if kind == "shown":
        return Loss(kind, number(words[0]), number(words[1]))
    return Loss(kind, 0, number(words[0]) if kind == "faint" else 0)


def read(text):
    words = text.split()
    start = words.index("losses")
    assert (words[start + 4], words[start + 6]) == ("count", "tranches") and "past" not in words
    count = int(words[start + 5])
    n, p, rho, *fields = map(int, words[start + 1:start + 4] + words[start + 7:start + 7 + 3 * count])
    losses = [loss_in(*words[i:i + 3]) for i, word in enumerate(words) if word in KINDS]
    assert len(losses) == (0 if "refusal" in words else count)
    return Printed((n, p, rho), list(zip(fields[::3], fields[1::3], fields[2::3])), losses)


def touch(tranches):
    """Whether tranches touch from 0 to 10,000 and have one recovery."""
    recoveries, lowers, uppers = zip(*tranches)
    return len(set(recoveries)) == 1 and (*lowers, WHOLE) == (0, *uppers)


def promised(printed):
    return printed.losses != [] and touch(printed.tranches)


def amount(printed):
    """The expected loss of the pool by the first recovery, in basis points."""
    return pool_loss(printed.pool[1], printed.tranches[0][0])


def sums(tranches, losses):
    """The low and the high numbers, times the widths."""
    widths = [upper - lower for _, lower, upper in tranches]
    return [sum(width * loss[side] for width, loss in zip(widths, losses)) for side in (1, 2)]


def hold(printed):
    low, high = sums(printed.tranches, printed.losses)
    return low <= amount(printed) <= high


def wrong_readings(printed):
    """Sums and amounts that are not the right ones, and whether they hold."""
    (_, p, _), tranches, losses = printed
    (low, high), right = sums(tranches, losses), amount(printed)
    for name, wrong in [
        ("amount without the recovery", p), ("amount of the recovery", p - right), ("amount as a part", right / WHOLE),
        ("amount rounded down", floor(right)), ("amount rounded up", ceil(right)),
    ]:
        yield name, low <= wrong <= high
    for name, (least, most) in [
        ("no widths", sums([(0, 0, 1)] * len(losses), losses)),
        ("one width for all", sums([(0, 0, Fraction(WHOLE, len(losses)))] * len(losses), losses)),
        ("widths from 0", sums([(0, 0, upper) for _, _, upper in tranches], losses)),
        ("without the first", sums(tranches[1:], losses[1:])), ("without the last", sums(tranches[:-1], losses[:-1])),
        ("high for low", (high, high)), ("low for high", (low, low)),
    ]:
        yield name, least <= right <= most


def hold_case(case, printed):
    """What a printed line of a case has to say."""
    assert (printed.pool, printed.tranches) == (case.pool, case.tranches)
    assert promised(printed) == (case.kind in TOUCHING) and (printed.losses == []) == (case.kind == "refused")
    low, high = sums(printed.tranches, printed.losses)
    if case.kind in TOUCHING:
        assert hold(printed)
        n, p, rho = case.pool
        for model in models_of(case.library, n, rho):
            hold_touching(n, p, rho, case.tranches, model)
    assert case.kind != "exact" or low == amount(printed) == high
    assert case.kind != "every kind" or {loss.kind for loss in printed.losses} == set(KINDS)
    assert case.kind != "another order" or hold(printed)


def hold_spread(given):
    """The touching cases have every number of tranches and every size of each library, and p and rho at their ends."""
    cuts = [case for case in given if case.kind in TOUCHING]
    for library in LIBRARIES:
        own = [case for case in cuts if case.library == library]
        assert {len(case.tranches) for case in own} == set(range(1, TRANCHES + 1))
        assert {case.pool[0] for case in own} == set(sizes(library))
        assert {case.pool[1] for case in own} > {0, 1, WHOLE}
        assert {case.pool[2] for case in own} > set(ENDS[:3] if library == "beta" else ENDS)


def summary(texts):
    """Holds the sums of printed lines, and says what was there."""
    lines = [read(text) for text in texts]
    cuts = [printed for printed in lines if promised(printed)]
    assert all(hold(printed) for printed in cuts)
    kinds = Counter(loss.kind for printed in cuts for loss in printed.losses)
    found = [(*sums(printed.tranches, printed.losses), amount(printed)) for printed in cuts]
    apart = max((high - low) / right for low, high, right in found if right)
    print(
        f"{len(lines)} lines, {len(cuts)} touch with {', '.join(f'{kinds[kind]} {kind}' for kind in KINDS)};",
        f"{sum(low == right for low, _, right in found)} low sums and",
        f"{sum(high == right for _, high, right in found)} high ones are exact;",
        f"the two are at most {float(apart):.3g} of the amount apart",
    )


def main():
    if sys.argv[1:] == ["sums"]:
        summary(sys.stdin)
        return
    given = [*random_cuts(), *known_cuts(), *others()]
    if sys.argv[1:] == ["cuts"]:
        line(len(given))
        for _, library, pool, tranches in given:
            line(LIBRARIES.index(library), *pool, len(tranches), *(field for tranche in tranches for field in tranche))
        return
    hold_spread(given)
    readings, told, broken = set(), set(), set()
    for case in given:
        text = line_of(case)
        print(text, end="")
        printed = read(text)
        hold_case(case, printed)
        if case.kind in TOUCHING:
            for name, holds in wrong_readings(printed):
                readings.add(name)
                if not holds:
                    told.add(name)
        elif not hold(printed):
            broken.add(case.kind)
    assert told == readings and broken == {*APART, "refused"} - {"another order"}


if __name__ == "__main__":
    main()

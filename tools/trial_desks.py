"""Prints what crates/trial_desks must print, by tools/trial_stores.py. The cases tell the desk's read from others like it.

    python3 tools/trial_desks.py steps > crates/trial_desks/stdin
    python3 tools/trial_desks.py > crates/trial_desks/stdout
"""
from itertools import product

from kept import ZERO
from pools import LARGEST_POOL, WHOLE, desk_grounds, first, places
from trial_pool import SPREAD, WHOLE_ARRAYS, lengths_of, longer, made
from trial_stores import ENTRIES, FILL, LARGEST, NO_HEADS, Stores, accepting, answer_of, check, drawing, layer, listing, losses
from trial_stores import part, row_start

NONE = [0] * 4
SIZES = (1, 3, 64, 65, 100)
THREE = (3, 1000, 3000)
FIVE = (5, 200, 400)
# The pool of a store, and the one that it is filled for next.
REFILLS = [
    (THREE, (3, 1001, 3000)), (THREE, (3, 1000, 3001)), (THREE, (3, 999, 2999)), (THREE, (5, 1000, 3000)),
    (THREE, (2, 1000, 3000)), (THREE, (1, 1000, 3000)), (FIVE, (2, 400, 200)), ((2, 400, 200), FIVE), ((20, 0, 0), (20, 0, 1)),
    ((20, 10000, 0), (21, 10000, 0)), ((64, 1000, 3000), (65, 1000, 3000)), ((65, 1000, 3000), (64, 1000, 3001)),
    (THREE, (100, 1000, 3000)), ((100, 1000, 3000), THREE), ((100, 500, 250), (100, 9000, 100)), ((100, 500, 250), (99, 500, 250)),
]


def wrong_grounds(head, expected, k, ceiling, lengths):
    """The grounds of reads that are wrong: one left out, two in the other order, or one that is another."""
    n, p, rho = head
    right = desk_grounds(n, p, rho, expected, k, ceiling, lengths)
    for at, (number, _) in enumerate(right):
        yield f"no {number}", right[:at] + right[at + 1:]
        if at:
            yield f"{number} earlier", right[:at - 1] + [right[at], right[at - 1]] + right[at + 1:]
    for name, number, applies in [
        ("100 assets", 1, n == 0 or n > 99), ("no assets", 1, n > LARGEST_POOL), ("p of 10,000", 2, p >= WHOLE),
        ("rho of 10,000", 3, rho >= WHOLE), ("room for the row alone", 7, min(lengths) < row_start(k + 1)),
        ("room for one more", 7, min(lengths) <= places(n)), ("low significands", 7, min(lengths[1:]) < places(n)),
        ("high significands", 7, min(lengths[0], *lengths[2:]) < places(n)), ("high exponents", 7, min(lengths[:3]) < places(n)),
        ("low exponents", 7, min(*lengths[:2], lengths[3]) < places(n)), ("p alone", 15, p != expected[0]),
        ("rho alone", 15, rho != expected[1]), ("both", 15, p != expected[0] and rho != expected[1]),
        ("other way round", 15, (rho, p) != expected), ("above", 15, p > expected[0] or rho > expected[1]),
        ("below", 15, p < expected[0] or rho < expected[1]), ("row n", 9, k >= n), ("row n + 1", 9, k > n + 1),
        ("at the ceiling", 16, k >= ceiling), ("over the ceiling", 16, k > ceiling + 1), ("ceiling on n", 16, n > ceiling),
    ]:
        yield name, [(each, applies if each == number else old) for each, old in right]


def wrong_rows(head, k, slices):
    """Other rows for an accepted read."""
    start = row_start(k)
    right = part(slices, start, k + 1)
    yield "one place on", part(slices, start + 1, k + 1)
    yield "one place back", part(slices, max(0, start - 1), k + 1)
    yield "next row", part(slices, row_start(k + 1), k + 2)
    yield "one entry more", part(slices, start, k + 2)
    yield "one entry less", part(slices, start, k)
    yield "entries to the end", part(slices, start, ENTRIES)
    yield "sides the other way round", right[::-1]
    yield "low side twice", [right[0]] * 2
    yield "exponents the other way round", part(slices[:2] + slices[:1:-1], start, k + 1)
    yield "rows of the head", [side[0][k] + [ZERO] * (LARGEST_POOL - k) for side in made(*head)]


def wrong_reads(given, slices):
    """What reads that are wrong would answer."""
    head, _, k, *_ = given
    refusal = first(desk_grounds(*head, *given[1:]))
    for name, grounds in wrong_grounds(*given):
        yield name, answer_of(grounds, slices, k)
    yield "row on a refusal", (refusal, part(slices, row_start(k), k + 1))
    if not refusal:
        for name, row in wrong_rows(head, k, slices):
            yield name, (0, row)


# ---- cases

def two_desks(desks):
    """Two desks with ceilings of their own, and the rows that both, one or none of them may read."""
    for n, *ceilings in [(1, 0, 1), (3, 1, 3), (3, 0, 2), (20, 7, 20), (64, 20, 64), (65, 64, 65), (100, 40, 100)]:
        desks.marks(n)
        desks.call(FILL, (n, 1000, 3000), NO_HEADS[1])
        for row in range(n + 2) if n in (1, 3, 100) else sorted({0, 1, ceilings[0], ceilings[0] + 1, n - 1, n, n + 1}):
            for ceiling in ceilings:
                desks.read(row, ceiling, wanted=9 if row > n else 16 if row > ceiling else 0)


def refills(desks):
    """One store for two pools, one after the other: reads by the new head, and by the old one, under which stands what the second
    fill left."""
    for at, (old, new) in enumerate(REFILLS):
        desks.marks(200 + at)
        desks.call(FILL, old, NO_HEADS[at % len(NO_HEADS)])
        desks.read(old[0], wanted=0)
        calls = accepting(new)
        desks.call(calls[at % len(calls)], new)
        same = old[1:] == new[1:]
        rows = sorted({row for n in (old[0], new[0]) for row in (0, 1, n, n + 1)})
        for head in (None, old):
            for row in rows:
                desks.read(row, head=head, wanted=9 if row > (head or new)[0] else 0)
        for head, expected in [(None, old), (old, new)]:
            for row in (0, new[0]):
                desks.read(row, head=head, expected=expected[1:], wanted=None if same else 15)


def other_heads(desks):
    """Heads that no call handed back: over random words, which are no kept numbers, and over a store of another pool."""
    desks.marks(300)
    for n in (0, 1, 2, 3, 20, 63, 64, 65, 99, 100, 101, 2**31, LARGEST):
        for row in sorted({0, min(n, 100), min(n, 100) + 1}):
            desks.read(row, LARGEST, (n, 1000, 3000), wanted=1 if not 1 <= n <= 100 else 9 if row > n else 0)
    for much in (0, 1, 9999, 10000, 10001, 2**31, LARGEST):
        for row in (0, 3):
            for head, number in [((3, much, 3000), 2), ((3, 1000, much), 3), ((3, much, much), 2)]:
                desks.read(row, head=head, wanted=number if much > WHOLE else 0)
    desks.call(FILL, (20, 1000, 3000))
    for n in (1, 19, 21, 30, 100):
        for row in sorted({0, n - 1, n, 20, 21, n + 1}):
            desks.read(row, head=(n, 7, 9), wanted=9 if row > n else 0)


def edges(desks):
    """What is expected, the row and the ceiling, each next to where it is refused and far from there."""
    for n in SIZES:
        p, rho = 1000, 3000
        desks.marks(400 + n)
        desks.call(FILL, (n, p, rho))
        for expected in [
            (p, rho), (p + 1, rho), (p - 1, rho), (p, rho + 1), (p, rho - 1), (p + 1, rho + 1), (p + 1, rho - 1), (rho, p), (0, 0),
            (0, rho), (p, 0), (p + 2**16, rho), (p, rho + 2**31), (LARGEST, LARGEST),
        ]:
            desks.read(n, expected=expected, wanted=0 if expected == (p, rho) else 15)
        for row in (0, n - 1, n, n + 1, n + 256, n + 2**16, 2**31, LARGEST):
            desks.read(row, LARGEST, wanted=9 if row > n else 0)
        for row in sorted({0, 1, n}):
            for ceiling in sorted({0, max(row - 1, 0), row, row + 1, 100, LARGEST - 1, LARGEST}):
                desks.read(row, ceiling, wanted=16 if row > ceiling else 0)
    desks.read(LARGEST, LARGEST - 1, wanted=9)


def order(desks):
    """Every choice of grounds: the first of them is given. No assets leave no row above a ceiling."""
    desks.marks(500)
    desks.call(FILL, THREE)
    for applies in product((False, True), repeat=7):
        assets, probability, correlation, short, unexpected, above, over = applies
        n = (101 if short or over and not above else 0) if assets else 3
        p, rho = 10001 if probability else 1000, 10001 if correlation else 3000
        row = n + 1 if above else min(n, 3)
        desks.read(row, row - 1 if over else row, (n, p, rho), (p, rho - 1) if unexpected else None, NONE if short else None,
                   first(zip((1, 2, 3, 7, 15, 9, 16), applies)))


def lengths(desks):
    """Each slice one place short in turn and with no places, longer slices, and slices that have the row and not the store."""
    for n in SIZES:
        exact = places(n)
        desks.marks(600 + n)
        desks.call(FILL, (n, 1000, 3000))
        for lent in [
            *lengths_of(exact), longer(exact), WHOLE_ARRAYS, NONE, [places(n - 1)] * 4,
            *([0 if at == empty else exact for at in range(4)] for empty in range(4)),
        ]:
            for row in (0, n):
                desks.read(row, lengths=lent, wanted=7 if min(lent) < exact else 0)


def refused_calls():
    """Calls that fill a store, each with what it is refused by: its pool and its lengths, then what is its own."""
    short = [places(3)] * 3 + [places(3) - 1]
    for call in accepting(THREE):
        for number, pool, lent in [
            (1, (0, 1000, 3000), None), (1, (101, 1000, 3000), None), (2, (3, 10001, 3000), None), (3, (3, 1000, 10001), None),
            (7, THREE, short),
        ]:
            yield number, call, pool, lent
    for name, number in [("column", 8), ("screen column", 8), ("shifts", 10)]:
        yield number, listing(name, 3), THREE, None
    for library in ("", "screen"):
        for number, tranches, count in [
            (13, [], 0), (13, SPREAD, 9), (4, [(10001, 0, 1)], 1), (5, [(0, 0, 10001)], 1), (6, [(0, 5, 5)], 1),
        ]:
            yield number, losses(library, tranches, count), THREE, None
    for call in (listing("screen column"), losses("screen")):
        yield 11, call, (21, 1000, 3000), None
    for i, j in [(0, 1), (2, 1), (1, 4)]:
        yield 14, layer(i, j), THREE, None
    yield 1, listing("shifts"), (65, 1000, 3000), None
    yield 8, check([1, 2, 3]), THREE, None


def calls(desks):
    """The head that each call hands back, and a read by it: after a refusal, over the store whose head came and with heads that no
    pool can have; then accepted."""
    desks.marks(700)
    desks.call(FILL, FIVE, NO_HEADS[0])
    for at, (number, call, pool, lent) in enumerate(refused_calls()):
        for head in (FIVE, NO_HEADS[at % len(NO_HEADS)]):
            desks.call(call, pool, head, lent, number)
            desks.read(2, wanted=0 if head == FIVE else None)
    for call in accepting(THREE):
        for head in (FIVE, *NO_HEADS):
            desks.call(FILL, FIVE)
            desks.call(call, THREE, head)
            for row in (3, 4):
                desks.read(row, wanted=9 if row > 3 else 0)
            desks.read(5, head=FIVE, wanted=0)


def agreeing_stores(desks):
    """Two stores that agree in the places of a row give one answer."""
    for n in SIZES:
        for row in sorted({0, 1, n // 2, n}):
            desks.marks(800 + n)
            desks.call(FILL, (n, 1000, 3000))
            answer, before = desks.read(row, wanted=0), desks.slices
            desks.marks(1000 + n, range(row_start(row), row_start(row + 1)))
            assert all(old != new for old, new in zip(before, desks.slices))
            assert desks.read(row) == answer


def random_pool(draw):
    n = draw([*range(1, 21), *range(1, 21), 64, 65, 100, 0, 101])
    p, rho = (draw([0, 1, 500, 1000, 2500, 9999, WHOLE, draw(range(WHOLE + 1)), draw([WHOLE + 1, LARGEST])]) for _ in range(2))
    return n, p, rho


def random_lengths(draw, n):
    exact = places(min(n, LARGEST_POOL))
    return draw([None] * 8 + lengths_of(exact) + [longer(exact)])


def random_call(draw, n):
    entries = draw([n + 1, n + 1, n, n + 5])
    claims = [draw(range(50000)) for _ in range(entries)]
    return draw([
        FILL, FILL, check(claims), losses(count=draw([0, 1, 8])), losses("screen", count=draw([1, 3, 9])),
        layer(draw([0, 1, 2]), draw([1, n, n + 1])), *(listing(name, entries) for name in ("column", "screen column", "shifts")),
    ])


def random_steps(desks):
    """Calls on random pools, each with reads by its head, by the one before, and by others."""
    draw = drawing()
    for at in range(150):
        pool, old = random_pool(draw), desks.head
        desks.call(random_call(draw, pool[0]), pool, draw([None, None, random_pool(draw)]), random_lengths(draw, pool[0]), None)
        if at % 25 == 0:
            desks.marks(2000 + at)
        for _ in range(4):
            head = draw([None, None, None, old, random_pool(draw)])
            n, p, rho = head or desks.head
            last = min(n, LARGEST_POOL)
            row = draw([0, last // 2, max(last - 1, 0), last, last, last, last + 1, LARGEST])
            ceiling = draw([row, row, row, max(row - 1, 0), LARGEST_POOL, 0, LARGEST])
            expected = draw([None] * 6 + [(p ^ 1, rho), (p, rho ^ 1)])
            desks.read(row, ceiling, head, expected, random_lengths(draw, n))


def main():
    desks = Stores(wrong_reads)
    for cases in [two_desks, refills, other_heads, edges, order, lengths, calls, agreeing_stores, random_steps]:
        cases(desks)
    desks.print()


if __name__ == "__main__":
    main()

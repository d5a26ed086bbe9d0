"""The steps that crates/trial_stores takes and the lines that it prints of them, by tools/pools.py. Every store that a call fills
is held to the exact model."""
import sys
from collections import namedtuple
from functools import lru_cache

from kept import ZERO
from pools import LARGEST_POOL, REPORT_POOL, SCREEN_POOL, TRANCHES, desk_grounds, first, printed_rows, steps
from trial_pool import LARGE_PLACES, LARGE_ROWS, LIBRARIES, LISTS, PLACES, REFUSED, SPREAD, WHOLE_ARRAYS, after_fill, ample
from trial_pool import check_words, checked, fill_words, layer_of, loss_words, losses_of, made, store_words, tranche_words
from trial_support import SEED, checksum, following, line

ENTRIES = LARGEST_POOL + 1
# Of a row up to this one every entry is printed.
SMALL = 4
LARGEST = 2**32 - 1
# Heads that no pool can have.
NO_HEADS = [(0, 0, 0), (101, 1000, 3000), (3, 10001, 3000), (3, 1000, 10001), (LARGEST, LARGEST - 1, LARGEST - 2)]
# A call that fills a store: its name, the numbers that it is given by, its words for a pool, the lengths and what the arrays held,
# and what it was given beside the pool, before the lengths and behind them.
Call = namedtuple("Call", "name numbers words before behind claims", defaults=[(), (), ()])
FILL = Call("fill", [0], lambda pool, lengths, slices: fill_words(*pool, lengths, slices))


def listing(name, entries=LARGE_ROWS):
    """A column or a shift list, with so many places."""
    numbers = {"column": [1, 0], "screen column": [1, 1], "shifts": [2]}[name]
    words = LISTS[name]
    return Call(name, [*numbers, entries], lambda pool, lengths, slices: words(*pool, lengths, entries, slices), behind=[entries])


def losses(library="", tranches=SPREAD, count=TRANCHES):
    """The records past the count would be refused."""
    records = (list(tranches[:count]) + [REFUSED] * TRANCHES)[:TRANCHES]
    given = [number for record in records[:count] for number in record]

    def words(pool, lengths, slices):
        return loss_words(library, pool, *losses_of(library, *pool, records, count, lengths), lengths, slices)

    name = f"{library} losses".strip()
    return Call(name, [3, LIBRARIES.index(library), count, *given], words, before=tranche_words(records, count))


def layer(i, j):
    def words(pool, lengths, slices):
        return loss_words("", pool, *layer_of(pool, i, j, lengths), lengths, slices)

    return Call("layer", [4, i, j], words, before=[i, j])


def check(claims):
    def words(pool, lengths, slices):
        return check_words(pool, claims, checked(pool, claims, lengths), lengths, slices)

    return Call("check", [5], words, claims=claims)


def own_check(n, p, rho):
    """A check of the column that the library prints."""
    return check(printed_rows(steps(0, n, p, rho)[1]))


def accepting(pool):
    """A call of each kind that accepts the pool."""
    calls = [FILL, listing("column"), losses(), layer(1, pool[0]), own_check(*pool)]
    if pool[0] <= REPORT_POOL:
        calls.append(listing("shifts"))
    if pool[0] <= SCREEN_POOL:
        calls += [listing("screen column"), losses("screen")]
    return calls


# ---- reads

def row_start(k):
    return k * (k + 1) // 2


def part(slices, start, count):
    """So many entries from a place on, on either side, and zeros behind them."""
    end = start + count
    sides = [[*zip(slices[side][start:end], slices[2 + side][start:end])] for side in (0, 1)]
    return [(side + [ZERO] * ENTRIES)[:ENTRIES] for side in sides]


NOTHING = part([[]] * 4, 0, 0)


def answer_of(grounds, slices, k):
    """What a read answers: a refusal or 0, and both sides of the row."""
    refusal = first(grounds)
    return refusal, NOTHING if refusal else part(slices, row_start(k), k + 1)


# ---- steps

@lru_cache(maxsize=None)
def random_words(seed, array):
    """What the steps put in one of the four arrays, of which the last two hold integers."""
    word, words = following(SEED ^ (4 * seed + array), 2), []
    for _ in range(LARGE_PLACES):
        word = following(word)
        words.append(word % 2**31 - (word >> 32) % 2**31 if array > 1 else word % 2**32)
    return words


class Stores:
    """A store with its head, the steps so far, and the lines that the program has to print; with the names of wrong calls, and of
    those that some case tells from the right one. Wrong reads may be given: what they would answer, by what a read is given and
    what the arrays hold."""

    def __init__(self, wrong_reads=lambda given, slices: []):
        self.slices, self.head, self.wrong_reads = [[0] * LARGE_PLACES] * 4, (0, 0, 0), wrong_reads
        self.steps, self.lines, self.names, self.told = [], [], set(), set()
        self.checksums = {}

    def put(self, slices):
        self.slices, self.checksums = slices, {}

    def slice_words(self, lengths):
        """The checksums of the arrays, worked out once for what they hold."""
        key = tuple(length > PLACES for length in lengths)
        if key not in self.checksums:
            self.checksums[key] = store_words([], lengths, self.slices)
        return self.checksums[key]

    def step(self, kind, head, numbers, words):
        """Given by numbers, with the head that was handed back last where there is none, and printed as words."""
        self.steps.append([kind, *([0] if head is None else [1, *head]), *numbers])
        self.lines.append(words)

    def marks(self, seed, stay=range(0)):
        """Random words in every place but some."""
        words = [random_words(seed, array) for array in range(4)]
        self.put([new[:stay.start] + old[stay.start:stay.stop] + new[stay.stop:] for new, old in zip(words, self.slices)])
        self.steps.append([0, seed, stay.start, stay.stop])
        self.lines.append(["marks", seed, "but", stay.start, stay.stop, *self.slice_words(WHOLE_ARRAYS)])

    def call(self, call, pool, head=None, lengths=None, wanted=0):
        """A call that fills the store, or is refused as wanted; any answer will do where that is None."""
        came, lengths = head or self.head, lengths or ample(pool[0])
        words = call.words(pool, lengths, self.slices)
        refusal = words[1] if words[0] == "refusal" else 0
        assert wanted in (None, refusal)
        if not refusal:
            self.put(after_fill(made(*pool), self.slices))
        self.head = came if refusal else pool
        given = ["head", *came, call.name, *pool, *call.before, "lengths", *lengths, *call.behind]
        at = words.index("slices")
        self.step(1, head, [*call.numbers, *pool, *lengths, len(call.claims), *call.claims],
                  [*given, *words[:at], "head", *self.head, *words[at:]])

    def read(self, row, ceiling=LARGEST_POOL, head=None, expected=None, lengths=None, wanted=None):
        """A read that is refused as wanted; any answer will do where that is None. Gives the answer."""
        came = head or self.head
        given = came, tuple(expected or came[1:]), row, ceiling, lengths or ample(came[0])
        answer = refusal, sides = answer_of(desk_grounds(*came, *given[1:]), self.slices, row)
        assert wanted in (None, refusal)
        self.tell(answer, self.wrong_reads(given, self.slices))
        words = ["read", *came, "expects", *given[1], "row", row, "ceiling", ceiling, "lengths", *given[4], "refusal", refusal]
        for name, side in zip(("low", "high"), sides):
            shown = side[:row + 1] if refusal == 0 and row <= SMALL else []
            parts = [[x[at] for x in side] for at in (0, 1)]
            words += [name, *(x[0] for x in shown), *(x[1] for x in shown), checksum(*parts)]
        self.step(2, head, [*given[1], row, ceiling, *given[4]], words + self.slice_words(given[4]))
        return answer

    def tell(self, answer, others):
        """Which wrong calls the case tells from the right one."""
        for name, other in others:
            self.names.add(name)
            if other != answer:
                self.told.add(name)

    def print(self):
        """The steps, how many first, or the lines."""
        assert self.told == self.names, self.names - self.told
        if sys.argv[1:] == ["steps"]:
            line(len(self.steps))
        for words in self.steps if sys.argv[1:] == ["steps"] else self.lines:
            line(*words)


def drawing():
    """Draws one of some, by random words."""
    word = SEED

    def draw(choices):
        nonlocal word
        word = following(word)
        return choices[(word >> 8) % len(choices)]

    return draw

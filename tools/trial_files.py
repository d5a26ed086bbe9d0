"""Prints what crates/trial_files must print, by tools/trial_stores.py, and writes the files that it compares with. The cases tell
the two calls from others like them.

    python3 tools/trial_files.py steps > crates/trial_files/stdin
    python3 tools/trial_files.py > crates/trial_files/stdout
    python3 tools/trial_files.py data
"""
import sys
from collections import namedtuple
from functools import lru_cache
from itertools import product
from pathlib import Path

from kept import ONE, ZERO, is_kept
from pools import FILE_HEAD, LARGEST_POOL, WHOLE, file_grounds, file_length, first, places
from trial_pool import WHOLE_ARRAYS, ample, lengths_of, longer, made, slices_of
from trial_stores import FILL, LARGEST, NO_HEADS, Stores, drawing
from trial_support import SEED, checksum, following

BUFFER = 84100
# The checksum is of so many bytes where no more are lent, and a file of at most so many is printed whole.
FEW, SHOWN = 7500, 172
DATA = Path(__file__).parents[1] / "crates/trial_files/data"
# The pools of the data files.
POOLS = {n: (n, p, rho) for n, p, rho in [(1, 1000, 3000), (3, 250, 1250), (20, 1000, 3000), (64, 500, 250), (100, 1000, 3000)]}
TWO = (2, 400, 200)
THREE = (3, 1000, 3000)
MIN, MAX = -2**31, 2**31 - 1
KEPT = [(2**31, 0), (2**31, MIN), (2**32 - 1, MAX), (2**32 - 1, -1), (2**31 + 1, 1), ZERO]
NOT_KEPT = [(2**31 - 1, 0), (2**31 - 1, MIN), (1, 0), (1, -1), (0, 1), (0, -1), (0, MIN), (0, MAX), (2**30, 2**30)]

# A layout: the slices in the order of the file, whether they are in planes, and the order of the bytes of a number and of one of
# the head. The slices are the low and the high significands, then the low and the high exponents.
Layout = namedtuple("Layout", "arrays planes number head", defaults=[(0, 2, 1, 3), True, "little", "little"])
RIGHT = Layout()
LAYOUTS = {
    "big-endian": Layout(number="big", head="big"), "big-endian arrays": Layout(number="big"),
    "big-endian head": Layout(head="big"), "one number after the other": Layout(planes=False),
    "exponents first": Layout((2, 0, 3, 1)), "high side first": Layout((1, 3, 0, 2)),
    "both significands first": Layout((0, 1, 2, 3)), "both exponents first": Layout((2, 3, 0, 1)),
    "low side twice": Layout((0, 2, 0, 2)),
}


# ---- files

def laid(head, slices, layout=RIGHT):
    """The bytes of a head and of slices, whatever their lengths."""
    parts = [number.to_bytes(4, layout.head) for number in head]
    for at in layout.arrays:
        numbers = [(number % 2**32).to_bytes(4, layout.number) for number in slices[at]]
        parts += zip(*numbers) if layout.planes else numbers
    return b"".join(map(bytes, parts))


def encoded(head, slices, layout=RIGHT):
    """The bytes of a file."""
    return laid(head, [numbers[:places(head[0])] for numbers in slices], layout)


def head_in(file, layout=RIGHT):
    return tuple(int.from_bytes(file[at:at + 4], layout.head) for at in range(0, FILE_HEAD, 4))


def decoded(file, layout=RIGHT, signed=True):
    """The slices that a file holds, of as many places as its length gives."""
    count, slices = max(len(file) - FILE_HEAD, 0) // 16, [[]] * 4
    for start, at in zip(range(FILE_HEAD, len(file), max(4 * count, 1)), layout.arrays):
        part = file[start:start + 4 * count]
        numbers = [part[i::count] if layout.planes else part[4 * i:4 * i + 4] for i in range(count)]
        slices[at] = [int.from_bytes(number, layout.number, signed=signed and at > 1) for number in numbers]
    return slices


def sides_of(slices, count):
    """The entries of the first places, on the low and on the high side."""
    return [[*zip(slices[side][:count], slices[2 + side][:count])] for side in (0, 1)]


def entries_of(slices, count):
    low, high = sides_of(slices, count)
    return low + high


# ---- wrong calls

Given = namedtuple("Given", "head lengths length slices file")


def wrong_kept(slices, count):
    """Whether wrong tests find an entry that is no kept number."""
    low, high = sides_of(slices, count)
    for name, entries in [
        ("low side alone", low), ("high side alone", high), ("all but the first", low[1:] + high[1:]),
        ("all but the last", low[:-1] + high[:-1]), ("all but the last of the high side", low + high[:-1]),
    ]:
        yield name, not all(map(is_kept, entries))
    for name, test in [
        ("above 2^31", lambda s, e: s > 2**31 or s == e == 0), ("from 2^31 - 1", lambda s, e: s >= 2**31 - 1 or s == e == 0),
        ("any zero", lambda s, e: s >= 2**31 or s == 0), ("no zero", lambda s, e: s >= 2**31),
        ("zero below 1", lambda s, e: s >= 2**31 or s == 0 >= e), ("zero from 0", lambda s, e: s >= 2**31 or s == 0 <= e),
        ("any of exponent 0", lambda s, e: s >= 2**31 or e == 0), ("up to 2^31", lambda s, e: s <= 2**31),
        ("exponents from -2^31 + 1", lambda s, e: (s >= 2**31 and e > MIN) or s == e == 0),
    ]:
        yield name, not all(test(*entry) for entry in low + high)


def wrong_grounds(right, given, head, slices):
    """One left out, two in the other order, or one that is another."""
    (n, p, rho), length, lengths = head, given.length, given.lengths
    for at, (number, _) in enumerate(right):
        yield f"no {number} at {at}", right[:at] + right[at + 1:]
        if at:
            yield f"{number} before {right[at - 1][0]}", right[:at - 1] + [right[at], right[at - 1]] + right[at + 1:]
    others = [
        ("11 bytes for a head", 0, length < 11), ("more than a head", 0, length <= FILE_HEAD), ("99 assets", 1, n == 0 or n > 99),
        ("no assets", 1, n > LARGEST_POOL), ("p of 10,000", 2, p >= WHOLE), ("rho of 10,000", 3, rho >= WHOLE),
        ("that length or more", 4, length < file_length(n)), ("that length or less", 4, length > file_length(n)),
        ("one byte more", 4, length not in (file_length(n), file_length(n) + 1)),
        ("in 16 bytes", 4, length // 16 != file_length(n) // 16),
        ("half as many", 4, length != FILE_HEAD + 8 * places(n)), ("room for the last row", 5, min(lengths) < n + 1),
        ("room for one more", 5, min(lengths) <= places(n)),
        *((f"slice {at} of any length", 5, min(lengths[:at] + lengths[at + 1:]) < places(n)) for at in range(4)),
    ]
    if 0 < n <= LARGEST_POOL:
        others += [(name, 6, applies) for name, applies in wrong_kept(slices, places(n))]
    for name, at, applies in others:
        yield name, right[:at] + [(right[at][0], applies)] + right[at + 1:]


def wrong_writes(given):
    """What wrong calls would leave in the file, with their refusal."""
    right = write_grounds(given)
    refusal = first(right)
    file = encoded(given.head, given.slices) if refusal in (0, 18) else given.file
    for name, grounds in wrong_grounds(right, given, given.head, given.slices):
        wrong = first(grounds)
        yield name, (wrong, given.file if wrong else file)
    if not all(map(is_kept, entries_of(given.slices, places(given.head[0]) + 1))):
        yield "one place more", (refusal or 18, given.file)
    if refusal == 18:
        yield "written before 18", (18, file)
    if not refusal:
        for name, layout in LAYOUTS.items():
            yield name, (0, encoded(given.head, given.slices, layout))
        magnitudes = given.slices[:2] + [[abs(e) for e in part] for part in given.slices[2:]]
        yield "exponents without signs", (0, encoded(given.head, magnitudes))
        yield "correlation before probability", (0, encoded((given.head[0], *given.head[:0:-1]), given.slices))


def written_over(old, new):
    """Slices after others were written to their first places."""
    return [part + before[len(part):] for part, before in zip(new, old)]


def wrong_reads(given):
    """What wrong calls would leave in the slices, with their refusal and the head that they would hand back."""
    head, slices = head_in(given.file), decoded(given.file)
    right = read_grounds(given)
    refusal, after = first(right), written_over(given.slices, slices)
    for name, grounds in wrong_grounds(right, given, head, slices):
        wrong = first(grounds)
        yield name, (wrong, given.head, given.slices) if wrong else (0, head, after)
    if refusal:
        yield "head of the file on a refusal", (refusal, head, given.slices)
    if refusal == 18:
        yield "written before 18", (18, given.head, after)
        for side in (0, 1):
            parts = [part if at % 2 == side else [] for at, part in enumerate(slices)]
            yield f"side {side} written before 18", (18, given.head, written_over(given.slices, parts))
    if not refusal:
        for name, layout in LAYOUTS.items():
            yield name, (0, head_in(given.file, layout), written_over(given.slices, decoded(given.file, layout)))
        yield "exponents without signs", (0, head, written_over(given.slices, decoded(given.file, signed=False)))
        yield "head that came", (0, given.head, after)
        yield "correlation before probability", (0, (head[0], *head[:0:-1]), after)
        yield "zeros behind", (0, head, [part + [0] * (len(old) - len(part)) for part, old in zip(slices, given.slices)])


def write_grounds(given):
    return file_grounds(*given.head, given.length, given.lengths, entries_of(given.slices, places(given.head[0])))


def read_grounds(given):
    slices = decoded(given.file)
    return file_grounds(*head_in(given.file), given.length, given.lengths, entries_of(slices, len(slices[0])))


# ---- steps

@lru_cache(maxsize=None)
def random_bytes(seed):
    word, result = following(SEED ^ seed, 2), bytearray()
    for _ in range(BUFFER):
        word = following(word)
        result.append(word % 256)
    return bytes(result)


class Files(Stores):
    """With a buffer for files."""

    def __init__(self):
        super().__init__()
        self.buffer, self.seed = bytes(BUFFER), 0

    def bytes(self, seed):
        self.buffer = random_bytes(seed)
        self.steps.append([3, seed])
        self.lines.append(["bytes", seed])

    def put_bytes(self, place, new):
        self.buffer = self.buffer[:place] + new + self.buffer[place + len(new):]
        self.steps.append([4, place, len(new), *new])
        self.lines.append(["put", place, len(new)])

    def put_file(self, file):
        """A file at the start of the buffer: its bytes from the first to the last that is not there."""
        others = [place for place, byte in enumerate(file) if byte != self.buffer[place]]
        if others:
            self.put_bytes(others[0], file[others[0]:others[-1] + 1])

    def entry(self, side, place, significand, exponent):
        slices = [list(part) for part in self.slices]
        slices[side][place], slices[2 + side][place] = significand, exponent
        self.put(slices)
        self.steps.append([5, side, place, significand, *([1, -1 - exponent] if exponent < 0 else [0, exponent])])
        self.lines.append(["entry", side, place, significand, exponent])

    def fresh(self):
        """Other marks than before in the store."""
        self.seed = self.seed % 8 + 1
        self.marks(self.seed)

    def given(self, head, lengths, length):
        lent = [part[:count] for part, count in zip(self.slices, lengths)]
        return Given(head, lengths, length, lent, self.buffer[:length])

    def write(self, head=None, lengths=None, length=None, wanted=0):
        """A call that writes a file, or is refused as wanted; any answer will do where that is None."""
        came = head or self.head
        lengths, length = lengths or ample(came[0]), file_length(came[0]) if length is None else length
        given = self.given(came, lengths, length)
        refusal = first(write_grounds(given))
        assert wanted in (None, refusal)
        file = given.file if refusal else encoded(came, given.slices)
        self.tell((refusal, file), ((f"write: {name}", other) for name, other in wrong_writes(given)))
        self.buffer = file + self.buffer[length:]
        shown = [file.hex()] if refusal == 0 and length <= SHOWN else []
        word = checksum(self.buffer[:FEW] if length <= FEW else self.buffer)
        self.step(6, head, [*lengths, length],
                  ["write", *came, "lengths", *lengths, "bytes", length, "refusal", refusal, "file", *shown, word])

    def read_file(self, head=None, lengths=None, length=None, wanted=0):
        """A call that reads a file; the same."""
        came, stored = head or self.head, head_in(self.buffer)
        lengths = lengths or ample(stored[0])
        length = min(file_length(stored[0]), BUFFER) if length is None else length
        given = self.given(came, lengths, length)
        refusal = first(read_grounds(given))
        assert wanted in (None, refusal)
        after = given.slices if refusal else written_over(given.slices, decoded(given.file))
        self.head = came if refusal else stored
        self.tell((refusal, self.head, after), ((f"read: {name}", other) for name, other in wrong_reads(given)))
        if not refusal:
            self.put(written_over(self.slices, after))
        self.step(7, head, [*lengths, length],
                  ["read file", *came, "lengths", *lengths, "bytes", length, "refusal", refusal, "head", *self.head,
                   *self.slice_words(lengths)])
        return refusal

    def compare(self, name, same=True):
        """Whether the buffer starts with a data file."""
        file = data_file(name)
        self.steps.append([8, name])
        assert file is None or same == (self.buffer[:len(file)] == file)
        self.lines.append(["compare", name, *(["missing"] if file is None else [len(file), "same" if same else "different"])])

    def load(self, name):
        file = data_file(name) or b""
        self.buffer = file + self.buffer[len(file):]
        self.steps.append([9, name])
        self.lines.append(["load", name, len(file) or "missing"])


def data_file(name):
    return encoded(POOLS[name], slices_of(made(*POOLS[name]))) if name in POOLS else None


def write_data():
    DATA.mkdir(exist_ok=True)
    for name in POOLS:
        (DATA / f"{name:03}").write_bytes(data_file(name))


# ---- cases

def pool_files(files):
    """Files of filled stores beside the data files: written, read back over other words, read by a desk, written again; and the
    data files, read."""
    for n, pool in POOLS.items():
        files.marks(100 + n)
        files.bytes(100 + n)
        files.call(FILL, pool, NO_HEADS[1])
        files.compare(n, False)
        files.write()
        files.compare(n)
        files.fresh()
        files.read_file(NO_HEADS[n % 5])
        for row in sorted({0, 1, n}):
            files.read(row, wanted=0)
        files.read(n + 1, wanted=9)
        files.bytes(200 + n)
        files.write()
        files.compare(n)
        files.bytes(300 + n)
        files.fresh()
        files.load(n)
        files.compare(n)
        files.read_file((5, 200, 400))
        files.read(n, expected=pool[1:], wanted=0)
    for name in (0, 2, 21, 101, 999):
        files.compare(name)
        files.load(name)


def over_others(files):
    """Files over longer and shorter ones, and stores over other stores, under the head of the file."""
    for at, (old, new) in enumerate([
        ((20, 1000, 3000), THREE), (THREE, (20, 9000, 1)), (TWO, (1, 0, 10000)), ((65, 1, 0), (20, 500, 10000)),
    ]):
        files.bytes(400 + at)
        for pool in (old, new):
            files.call(FILL, pool)
            files.write()
        files.call(FILL, old)
        files.read_file()
        files.read(new[0], wanted=0)
        files.read(old[0], head=old)
        files.write()


def damaged(byte):
    return (byte + 1) % 256, byte ^ 128, 0


def damages(files):
    """Each byte of small files in turn, by 1, by 128 and to 0."""
    for pool in [(1, 1000, 3000), (1, 0, 0), (2, 10000, 5000)]:
        files.bytes(500)
        files.call(FILL, pool)
        files.write()
        file = files.buffer[:file_length(pool[0])]
        files.fresh()
        for place, byte in enumerate(file):
            for value in damaged(byte):
                files.put_bytes(place, bytes([value]))
                if not files.read_file((7, 7, 7), ample(100), len(file), None):
                    files.fresh()
            files.put_bytes(place, bytes([byte]))


def lengths_of_file(n):
    """Lengths that no file of n assets has."""
    exact = file_length(n)
    near = {exact + more for more in (-16, -8, -4, -1, 1, 4, 8, 15, 16, 32)}
    others = {0, 1, 11, 12, 13, file_length(n - 1), file_length(n + 1), FILE_HEAD + 8 * places(n), 2 * exact}
    return sorted(length for length in near | others if length <= BUFFER)


def file_lengths(files):
    for n in (1, 3, 20, 64, 100):
        files.bytes(600 + n)
        files.call(FILL, (n, 300, 700))
        files.write()
        for length in lengths_of_file(n):
            files.write(length=length, wanted=17)
        files.fresh()
        for length in lengths_of_file(n):
            files.read_file(length=length, wanted=17)
        files.read_file()


def heads(files):
    """Heads that the calls refuse and accept, over entries that are no store of theirs."""
    files.bytes(700)
    files.call(FILL, (100, 1000, 3000))
    numbers = [0, 1, 9999, 10000, 10001, 10256, 2**16 + 1, 2**31, LARGEST]
    for head, number in [
        *(((n, 1000, 3000), 0 if 1 <= n <= 100 else 1) for n in (0, 1, 99, 100, 101, 257, 2**16 + 1, 2**31, LARGEST)),
        *(((3, p, 3000), 2 * (p > WHOLE)) for p in numbers), *(((3, 1000, rho), 3 * (rho > WHOLE)) for rho in numbers),
        ((1, WHOLE, WHOLE), 0), *((head, 1 if head[0] != 3 else 2 if head[1] > WHOLE else 3) for head in NO_HEADS),
    ]:
        length = min(file_length(head[0]), BUFFER)
        files.write(head, WHOLE_ARRAYS, length, number)
        if number:
            files.put_file(encoded(head, [[]] * 4))
        files.read_file((9, 9, 9), WHOLE_ARRAYS, length, number)
    files.bytes(701)
    for n in (0, 1):
        files.put_file(encoded((n, 1000, 3000), [[]] * 4))
        for length in (11, 12, 13, 28):
            files.read_file(length=length, wanted=17 if n or length < 12 else 1)


def slice_lengths(files):
    """Each slice one place short in turn and with no places, and longer slices; the words behind them stay."""
    for n in (1, 3, 20, 64, 100):
        exact = places(n)
        files.marks(800 + n)
        files.bytes(800 + n)
        files.call(FILL, (n, 1000, 3000))
        lents = [
            *lengths_of(exact), longer(exact), WHOLE_ARRAYS, [0] * 4, [places(n - 1)] * 4, [n + 1] * 4,
            *([0 if at == empty else exact for at in range(4)] for empty in range(4)),
        ]
        for lent in lents:
            files.write(lengths=lent, wanted=7 if min(lent) < exact else 0)
        for lent in lents:
            if min(lent) >= exact:
                files.fresh()
            files.read_file(lengths=lent, wanted=7 if min(lent) < exact else 0)


def with_entry(slices, side, place, x):
    slices = [list(part) for part in slices]
    slices[side][place], slices[2 + side][place] = x
    return slices


def written_entries(files):
    """Entries at the first, the last and one more place of either side, in what is written. What is accepted is read back."""
    for n in (1, 3):
        files.call(FILL, (n, 1000, 3000))
        places_of = [(side, place, beyond) for side in (0, 1) for place, beyond in [(0, 0), (places(n) - 1, 0), (places(n), 1)]]
        for side, place, beyond in places_of:
            old = files.slices[side][place], files.slices[2 + side][place]
            for x in KEPT + NOT_KEPT:
                files.entry(side, place, *x)
                files.bytes(900 + n)
                files.write(wanted=18 if x in NOT_KEPT and not beyond else 0)
                if x in KEPT and not beyond:
                    files.fresh()
                    files.read_file((9, 9, 9))
            files.entry(side, place, *old)


def read_entries(files):
    """Entries at both ends of either side, and between, in what is read."""
    for n in (1, 3):
        files.bytes(950 + n)
        files.call(FILL, (n, 1000, 3000))
        files.write()
        files.fresh()
        file = files.buffer[:file_length(n)]
        slices = decoded(file)
        for side, place in product((0, 1), (0, 1, places(n) - 1)):
            for x in KEPT + NOT_KEPT:
                files.put_file(encoded((n, 1000, 3000), with_entry(slices, side, place, x)))
                if not files.read_file(wanted=18 if x in NOT_KEPT else 0):
                    files.fresh()
            files.put_file(file)


def order(files):
    """Every choice of grounds: the first of them is given."""
    for at, applies in enumerate(product((False, True), repeat=6)):
        assets, probability, correlation, other, short, unkept = applies
        n = (101 if short else 0) if assets else 3
        head = n, 10001 if probability else 1000, 10001 if correlation else 3000
        files.call(FILL, THREE)
        files.entry(at % 2, 0, *(0, 1) if unkept else ONE)
        for cut in (False, True):
            length = (0, 4, 8, 11)[at % 4] if cut else min(file_length(n), BUFFER) + other
            wanted = first(zip((17, 1, 2, 3, 17, 7, 18), (cut, *applies)))
            lengths = [0] * 4 if short else None
            files.write(head, lengths, length, wanted)
            files.put_file(encoded(head, files.slices)[:file_length(3)])
            if not wanted:
                files.fresh()
            files.read_file((9, 9, 9), lengths, length, wanted)


def random_kept(draw):
    return draw([draw(KEPT), (2**31 + draw(range(2**31)), draw(range(MIN, 2**31)))])


def random_files(files):
    """Files of random entries, of which in one file in three some entry is no kept number: read, and written again."""
    draw = drawing()
    for at in range(60):
        n = draw([1, 1, 1, 2, 3])
        count = 2 * places(n)
        entries = [random_kept(draw) for _ in range(count)]
        if at % 3 == 0:
            entries[draw(range(count))] = draw(NOT_KEPT)
        low, high = entries[:count // 2], entries[count // 2:]
        head = n, draw([0, 1, 5000, WHOLE]), draw([0, 1, 5000, WHOLE])
        files.put_file(encoded(head, [[x[part] for x in side] for part in (0, 1) for side in (low, high)]))
        files.fresh()
        if not files.read_file(wanted=None):
            files.bytes(1000 + at)
            files.write()
            files.read_file()


def random_pool(draw):
    n = draw([*range(1, 21), 1, 1, 2, 2, 3, 64, 100, 0, 101, LARGEST])
    p, rho = (draw([0, 1, 500, 1000, 9999, WHOLE, draw(range(WHOLE + 1)), draw([WHOLE + 1, LARGEST])]) for _ in range(2))
    return n, p, rho


def random_damage(files, draw):
    """A byte of the file, or an entry of the store."""
    n = min(files.head[0], LARGEST_POOL)
    if draw([True, False]):
        files.put_bytes(draw(range(file_length(n))), bytes([draw(range(256))]))
    else:
        files.entry(draw([0, 1]), draw(range(places(n))), *draw(KEPT + NOT_KEPT))


def random_lent(draw, n):
    """Lengths of the slices and of the file, most often right."""
    exact, length = places(min(n, LARGEST_POOL)), file_length(min(n, LARGEST_POOL))
    lengths = draw([None] * 6 + [draw(lengths_of(exact)), longer(exact)])
    return lengths, min(draw([length] * 8 + [length - 1, length + 1, draw(range(2 * length)), 11, 12]), BUFFER)


def random_steps(files):
    """Fills, damages, files written and read, each with a head that is its own or another."""
    draw = drawing()
    for at in range(160):
        pool = random_pool(draw)
        files.call(FILL, pool, draw([None, pool]), None, None)
        if at % 20 == 0:
            files.bytes(2000 + at)
        if draw([True, False, False]):
            random_damage(files, draw)
        head = draw([None, None, None, random_pool(draw)])
        files.write(head, *random_lent(draw, (head or files.head)[0]), None)
        if draw([True, False, False]):
            random_damage(files, draw)
        if draw([True, False]):
            files.fresh()
        files.read_file(draw([None, random_pool(draw)]), *random_lent(draw, head_in(files.buffer)[0]), None)
        files.read(min(files.head[0], LARGEST_POOL) // 2)


def main():
    if sys.argv[1:] == ["data"]:
        return write_data()
    files = Files()
    for cases in [
        pool_files, over_others, damages, file_lengths, heads, slice_lengths, written_entries, read_entries, order, random_files,
        random_steps,
    ]:
        cases(files)
    files.print()


if __name__ == "__main__":
    main()

"""Writes the files that crates/trial_disk reads, and prints what it must print: the bytes of store files by tools/trial_files.py, from
the rows of tools/pools.py.

    python3 tools/trial_disk.py > crates/trial_disk/stdout
"""
import errno
from pathlib import Path

from pools import FILE_HEAD, LARGEST_POOL, file_grounds, file_length, first, places, pool_grounds, steps
from trial_files import decoded, entries_of, head_in, laid
from trial_support import SEED, following, line

DATA = Path(__file__).parent.parent / "crates/trial_disk/data"
THREE = (3, 1000, 3000)
# The inputs, by the names of their files.
POOLS = {
    "1": (1, 2500, 5000), "3": THREE, "20": (20, 250, 1200), "64": (64, 1000, 3000), "100": (100, 1000, 3000),
    "certain": (64, 10000, 0), "0": (0, 1000, 3000), "101": (101, 1000, 3000), "p_10001": (3, 10001, 3000),
    "rho_10001": (3, 1000, 10001),
}
NO_LINES = {"no_line": b"3 1000\n", "two_lines": b"3 1000 3000\n3 1000 3000\n"}
LONGER = b"\xa5" * 1000


# ---- the file

def file_of(head, arrays):
    """From the arrays in the order of the file: significands and exponents of the low side, then of the high side."""
    return laid(head, [arrays[at] for at in (0, 2, 1, 3)])


def arrays_of(pool):
    """What a fill leaves: significands and exponents of the low side, then of the high side."""
    entries = [[entry for row in steps(side, *pool)[0] for entry in row] for side in (0, 1)]
    return [[entry[part] for entry in side] for side in entries for part in (0, 1)]


def contents(data):
    """The head and the four arrays of a file."""
    slices = decoded(data)
    return head_in(data), [slices[at] for at in (0, 2, 1, 3)]


def read_refusal(data):
    """Of a read into slices that are long enough."""
    slices = decoded(data)
    return first(file_grounds(*head_in(data), len(data), [places(LARGEST_POOL)] * 4, entries_of(slices, len(slices[0]))))


# ---- what is printed

def checksum(data):
    word = SEED
    for byte in data:
        word = following(word ^ byte)
    return f"{word:016x}"


def show(data):
    if data is None:
        line("no file")
    else:
        line("file of", len(data), "bytes", checksum(data))


def error(what, number):
    line(f"{what}, error {number}")


def compared(data, head, arrays):
    """What the program says of a file that it has read."""
    refusal = read_refusal(data)
    if refusal:
        line("read back: refused", refusal)
        return
    read_head, read_arrays = contents(data)
    count = places(head[0])
    same_entries = all(len(read) >= count and read[:count] == array for read, array in zip(read_arrays, arrays))
    heads, entries = "the same" if read_head == head else "another", "the same" if same_entries else "other"
    line(f"read back: {heads} head, {entries} entries")


def answered(name, keeps=True):
    """What the program says of an input whose path is that of a file which it can write. Gives the bytes of the file, or None if
    nothing is written. A file that does not keep them is empty when it is read."""
    line("input", name)
    if name not in POOLS:
        line("refused line")
        return None
    pool = POOLS[name]
    refusal = first(pool_grounds(*pool))
    if refusal:
        line("refused", refusal)
        return None
    arrays = arrays_of(pool)
    data = file_of(pool, arrays)
    assert len(data) == file_length(pool[0]) and contents(data) == (pool, arrays)
    line("written", len(data), "bytes")
    compared(data if keeps else b"", pool, arrays)
    return data


def failed(what, number):
    """The same of a path that fails, for three assets."""
    line("input", 3)
    error(what, number)


# ---- cases

def stores():
    held = None
    show(held)
    for name in [
        "1", "3", "20", "64", "100", "no_line", "two_lines", "no_such_input", "0", "101", "p_10001", "rho_10001", "64", "certain", "20",
        "3", "1",
    ]:
        written = answered(name)
        held = held if written is None else written
        show(held)


def paths():
    show(LONGER)
    show(answered("3"))
    answered("no_line")
    answered("101")
    show(None)
    failed("cannot open to write", errno.ENOENT)
    answered("101")
    failed("cannot open to write", errno.ENOENT)
    failed("cannot open to write", errno.EISDIR)
    failed("cannot open to write", errno.EINVAL)
    failed("cannot open to write", errno.ENAMETOOLONG)
    failed("cannot write", errno.ENOSPC)
    answered("3", keeps=False)


def changed(arrays, at, place, by):
    """The arrays with one number changed."""
    return [array[:place] + [array[place] + by] + array[place + 1:] if at == which else array for which, array in enumerate(arrays)]


def files():
    """The files that a store of three assets is compared with, by name."""
    n, p, rho = THREE
    arrays = arrays_of(THREE)
    data = file_of(THREE, arrays)
    yield "same", data
    yield "other_probability", file_of((n, p + 1, rho), arrays)
    yield "other_correlation", file_of((n, p, rho + 256), arrays)
    for name, pool in [("other_pool", (n, p, rho + 1)), ("fewer_assets", (n - 1, p, rho)), ("more_assets", (n + 1, p, rho))]:
        yield name, file_of(pool, arrays_of(pool))
    for name, place in [("first", 0), ("last", places(n) - 1)]:
        for at, part in enumerate(["low_significand", "low_exponent", "high_significand", "high_exponent"]):
            yield f"{name}_{part}", file_of(THREE, changed(arrays, at, place, 2**24 if at % 2 else 1))
    yield "empty", b""
    yield "eleven_bytes", data[:11]
    yield "head_alone", data[:FILE_HEAD]
    yield "one_byte_less", data[:-1]
    yield "one_byte_more", data + b"\0"
    yield "longer_than_largest", file_of((LARGEST_POOL, p, rho), arrays_of((LARGEST_POOL, p, rho))) + b"\0"
    for name, head in [
        ("no_assets", (0, p, rho)), ("too_many_assets", (101, p, rho)), ("high_probability", (n, 10001, rho)),
        ("high_correlation", (n, p, 10001)),
    ]:
        yield name, file_of(head, arrays)
    yield "no_kept_number", file_of(THREE, changed(arrays, 2, places(n) - 1, -2**31))


def main():
    DATA.mkdir(exist_ok=True)
    for name, pool in POOLS.items():
        (DATA / name).write_bytes(b"%d %d %d\n" % pool)
    for name, text in NO_LINES.items():
        (DATA / name).write_bytes(text)
    (DATA / "longer").write_bytes(LONGER)
    error("no path", errno.EINVAL)
    stores()
    paths()
    for name, data in files():
        (DATA / name).write_bytes(data)
        line("compare", name)
        compared(data, THREE, arrays_of(THREE))
    line("compare", "no_such_file")
    error("cannot open to read", errno.ENOENT)
    line("compare", ".")
    error("cannot read", errno.EISDIR)


if __name__ == "__main__":
    main()

"""Writes the files that crates/trial_console answers, one of each length from 0 to 64 bytes, and prints what it must print.

    python3 tools/trial_console.py > crates/trial_console/stdout
"""
from pathlib import Path

from trial_column_lines import answer

DATA = Path(__file__).parent.parent / "crates/trial_console/data"


def field(digits, length):
    """The first digits, or all with zeros before them."""
    return digits[:length].rjust(length, b"0")


def contents(length):
    """A line, where the length is that of one: the longest fields last."""
    if length < 6:
        return b"3 1000"[:length]
    if length > 18:
        return b"00003 01000 03000\n".ljust(length, b"0")
    last = min(5, length - 5)
    middle = min(5, length - 4 - last)
    first = length - 3 - last - middle
    return b" ".join([field(b"3", first), field(b"1000", middle), field(b"3000", last)]) + b"\n"


def main():
    DATA.mkdir(exist_ok=True)
    for length in range(65):
        data = contents(length)
        assert len(data) == length
        (DATA / f"{length:02}").write_bytes(data)
        print(*answer(data), sep="\n")


if __name__ == "__main__":
    main()

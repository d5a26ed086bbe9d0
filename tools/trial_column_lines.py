"""Prints what crates/trial_column_lines must print: for each input the number of its case and the answer of the program column,
worked out by tools/pools.py.

    python3 tools/trial_column_lines.py > crates/trial_column_lines/stdout
    python3 tools/trial_column_lines.py input > crates/trial_column_lines/stdin
"""
import re
import sys

from exact import hold_column
from pools import first, printed_rows, printed_tails, report_grounds, steps

# The bytes of crates/trial_column_lines/stdin.
INPUT = b"00003 01000 03000\n" + b"x" * 46 + b"3 1000 3000\n"

INPUTS = [
    # Tables.
    b"3 1000 3000\n",
    b"00003 01000 03000\n",
    b"1 0 0\n",
    b"1 10000 10000\n",
    b"2 5000 0\n",
    b"2 5000 10000\n",
    b"10 250 1200\n",
    b"64 1000 3000\n",
    b"64 0 10000\n",
    b"64 10000 0\n",
    # Refusals.
    b"0 1000 3000\n",
    b"65 1000 3000\n",
    b"3 10001 3000\n",
    b"3 1000 10001\n",
    b"65 10001 0\n",
    b"64 10001 10001\n",
    b"99999 99999 99999\n",
    b"00000 0 0\n",
    # Fields that are no number, too few or too many.
    b"000003 1000 3000\n",
    b"3 1000 003000\n",
    b"+3 1000 3000\n",
    b"3 -1000 3000\n",
    b"3 1000 3000.0\n",
    b"three 1000 3000\n",
    b"3 0x10 3000\n",
    b"3 1000 30:0\n",
    b"3 1000 30/0\n",
    b"3 1000\n",
    b"3 1000 3000 0\n",
    # Fields that are not one space apart.
    b" 3 1000 3000\n",
    b"3 1000 3000 \n",
    b"3  1000 3000\n",
    b"3\t1000 3000\n",
    b"3,1000,3000\n",
    b"3\n1000\n3000\n",
    b"3 1000\x003000\n",
    # Not one newline at the end.
    b"",
    b"\n",
    b"3 1000 3000",
    b"3 1000 3000\n\n",
    b"3 1000 3000\n3 1000 3000\n",
    b"3 1000 3000\n\x00",
    b"3 1000 3000\x00\n",
    b"3 1000 3000\r\n",
    b"3 1000 3000\r",
    # Long inputs, and the start of one.
    b"1" * 4096,
    b"3 0 0\n",
    b"3 0 0\n" + b"0" * 4000,
    # A line of 18 bytes with something after it.
    b"00003 01000 03000\n\n",
    b"00003 01000 03000\n" + b"0" * 45,
    b"00003 01000 03000\n" + b"0" * 46,
    b"00003 01000 03000\n" + b"0" * 47,
    # The bytes of crates/trial_column_lines/stdin, as the program reads them: 64 bytes, then the rest.
    INPUT[:64],
    INPUT[64:],
    # Tails that are exactly half way between two units, the low side of the last two below that.
    b"2 5000 625\n",
    b"3 5000 5000\n",
    b"6 5000 0\n",
    b"2 50 0\n",
    b"2 1150 0\n",
    # Pools that the library accepts, and the first that it refuses.
    b"66 1000 3000\n",
    b"100 1000 3000\n",
    b"100 0 0\n",
    b"101 1000 3000\n",
    b"100 10001 10001\n",
]


def table(n, p, rho):
    hold_column(n, p, rho)
    chances = steps(0, n, p, rho)[1]
    lines = zip(range(n + 1), printed_rows(chances), printed_tails(chances))
    return ["defaults units tail"] + [f"{k} {row} {tail}" for k, row, tail in lines]


def answer(data):
    fields = re.fullmatch(rb"([0-9]{1,5}) ([0-9]{1,5}) ([0-9]{1,5})\n", data)
    if fields is None:
        return ["refused line"]
    pool = [int(field) for field in fields.groups()]
    number = first(report_grounds(*pool))
    return [f"refused {number}"] if number > 0 else table(*pool)


def main():
    if sys.argv[1:] == ["input"]:
        sys.stdout.buffer.write(INPUT)
    else:
        for number, data in enumerate(INPUTS, 1):
            print(f"case {number}", *answer(data), sep="\n")


if __name__ == "__main__":
    main()

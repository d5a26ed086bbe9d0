"""Prints what crates/trial_shift must print, by tools/pools.py.

    python3 tools/trial_shift.py > crates/trial_shift/stdout
"""
from trial_pool import LARGE_ROWS, WHOLE_ARRAYS, list_corners, listed, lists, random_cases, report_pool

lists("shifts")
for n in (1, 2, 64):
    list_corners("shifts", n)
for n in (64, 65, 100, 101):
    listed("shifts", n, 1000, 3000, WHOLE_ARRAYS, LARGE_ROWS)
for n, p, rho, *_ in random_cases(300, report_pool):
    listed("shifts", n, p, rho)

"""Works the six steps, and those of the beta-binomial, out in exact whole numbers and prints the figures of small pools. It
stops at the first that none of Cases.antt, Tranches/Cases.antt and BetaBinomial/Cases.antt in crates/steps/proofs has.

    python3 tools/steps_figures.py
"""
from itertools import pairwise
from pathlib import Path

from kept import value
from pools import beta_steps, chance_units, first_to_fail, layer, loss, printed_rows, printed_tails, shifts, steps, summed_counts
from pools import tails

PROOFS = Path(__file__).parent.parent / "crates/steps/proofs"
CASES = "".join((PROOFS / file).read_text() for file in ("Cases.antt", "Tranches/Cases.antt", "BetaBinomial/Cases.antt"))
# Where three touching tranches start and end.
CUT = [0, 1000, 3000, 10000]
# Pools, and claimed columns of each.
VERDICTS = [
    ((2, 5000, 625), [26562, 46875, 26563]), ((2, 5000, 625), [26563, 46875, 26562]), ((2, 5000, 625), [26562, 46875, 26564]),
    ((2, 5000, 625), [26562, 46876, 26562]), ((2, 5000, 625), [26562, 46874, 26562]), ((2, 5000, 625), [26561, 46876, 26561]),
    ((3, 1000, 3000), [79032, 14005, 4895, 2068]), ((3, 500, 500), [86393, 12284, 1253, 70]),
    ((3, 500, 500), [86393, 12284, 1254, 70, 2**32 - 1]),
]


def line(text):
    """One line of the cases, which has to stand there."""
    assert text + "\n" in CASES, text
    print(text)


def digits(name, make):
    """The significands of both sides and the exponent that they share."""
    (low, exponent), (high, other) = make(0), make(1)
    assert exponent == other
    line(f"Digits ({name}) {low} {high} {-exponent - 1}")


def main():
    made = [steps(side, 3, 1000, 3000) for side in (0, 1)]
    for k in range(1, 4):
        for j in range(k + 1):
            digits(f"λ side. kept_row side 1000 3000 {k} {j}", lambda side: made[side][0][k][j])
    for j in range(4):
        digits(f"λ side. kept_defaults side 3 1000 3000 {j}", lambda side: made[side][1][j])
    for k in range(1, 4):
        digits(f"tail_of 3 1000 3000 {k}", lambda side: tails(side, made[side][1])[k])
    for lower, upper in [(1000, 3000), (0, 7000)]:
        digits(f"three_loss {lower} {upper} (lit< tt)", lambda side: loss(side, made[side][1], 4000, lower, upper))
    for i in range(1, 4):
        digits(f"layer_of 3 1000 3000 {i} 3", lambda side: layer(side, made[side][1], i, 3))
    digits("layer_of 3 500 500 1 3", lambda side: layer(side, steps(side, 3, 500, 500)[1], 1, 3))
    for j in range(5):
        digits(f"λ side. summed_count side 4 {j}", lambda side: summed_counts(side, 4)[j])
    for side, name in enumerate(["Low", "High"]):
        total = sum((upper - lower) * value(loss(side, made[side][1], 4000, lower, upper)) for lower, upper in pairwise(CUT))
        line(f"three_total {name} answered {total.numerator} {total.denominator.bit_length() - 2}")
    rows, printed = printed_rows(made[0][1]), printed_tails(made[0][1])
    for k in range(4):
        line(f"(row_of 3 1000 3000 {k} ≡ {rows[k]})")
        line(f"(printed_of 3 1000 3000 {k} ≡ {printed[k]})")
    for k, shift in enumerate(shifts(made[0][1], steps(0, 3, 1000, 0)[1])):
        line(f"(three_shift {k} ≡ {f'pos {shift}' if shift >= 0 else f'negsuc {-shift - 1}'})")
    for n, p, rho, k in [(3, 500, 500, 1), (2, 5000, 625, 2)]:
        digits(f"tail_of {n} {p} {rho} {k}", lambda side: tails(side, steps(side, n, p, rho)[1])[k])
    for n, p, rho, k in [(2, 5000, 625, 2), (2, 50, 0, 2), (3, 500, 500, 3)]:
        line(f"(printed_of {n} {p} {rho} {k} ≡ {printed_tails(steps(0, n, p, rho)[1])[k]})")
    line(f"(row_of 3 500 500 2 ≡ {printed_rows(steps(0, 3, 500, 500)[1])[2]})")
    made = [steps(side, 1, 0, 3000)[0][1] for side in (0, 1)]
    for side, name in enumerate(["Low", "High"]):
        significand, exponent = made[side][1]
        line(f"(kept_row {name} 0 3000 1 1 ≡ record {{ significand = {significand}; exponent = pos {exponent} }})")
    digits("λ side. kept_row side 0 3000 1 0", lambda side: made[side][0])
    for pool, claims in VERDICTS:
        row = first_to_fail(*(chance_units(side, *pool) for side in (0, 1)), claims)
        listed = " ∷ ".join([*map(str, claims), "[]"])
        line(f"(verdict_for {' '.join(map(str, pool))} ({listed}) ≡ {'all_pass' if row is None else f'fails_at {row}'})")
    made = [beta_steps(side, 3, 1000, 3000) for side in (0, 1)]
    for j in range(4):
        digits(f"λ side. kept_entry side 3 1000 3000 {j}", lambda side: made[side][0][-1][j])
    digits("λ side. kept_beta_defaults side 3 1000 3000 1", lambda side: made[side][1][1])
    digits("beta_tail 1", lambda side: tails(side, made[side][1])[1])
    digits("beta_loss 1000 3000 (lit< tt)", lambda side: loss(side, made[side][1], 4000, 1000, 3000))
    for k, row in enumerate(printed_rows(made[0][1])):
        line(f"(beta_row {k} ≡ {row})")


if __name__ == "__main__":
    main()

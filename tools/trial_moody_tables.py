"""Prints what crates/trial_moody_tables must print: figures of "Moody's Correlated Binomial Default Distribution" (2004), each
once for the low and once for the high bound. From Tables 1 and 2 it has the chances, from Table 4 the expected losses. The
expected losses of Table 2 are left out: it says that they are at an attachment of 20 per cent, but they are those at 21.

    python3 tools/trial_moody_tables.py > crates/trial_moody_tables/stdout
"""
# The assets and the correlation, in basis points, of each column.
TABLE_1 = (10, 0), (10, 250), (10, 500)
TABLE_2 = (10, 0), (13, 250), (19, 500)
CHANCES_1 = """
59.87%  63.07%  65.70%
31.51%  26.74%  23.19%
7.46%   7.86%   7.74%
1.05%   1.88%   2.42%
0.10%   0.38%   0.70%
0.006%  0.065%  0.185%
0.000%  0.009%  0.043%
0.000%  0.001%  0.009%
0.000%  0.000%  0.001%
0.000%  0.000%  0.000%
0.000%  0.000%  0.000%
"""
MORE_THAN_HALF = "0.000%", "0.011%", "0.054%"
CHANCES_2 = """
59.87%  55.96%  50.31%
31.51%  28.98%  25.50%
7.46%   10.64%  12.67%
1.05%   3.27%   6.16%
0.10%   0.88%   2.93%
0.006%  0.212%  1.358%
0.000%  0.045%  0.612%
0.000%  0.009%  0.268%
0.000%  0.001%  0.113%
0.000%  0.000%  0.046%
0.000%  0.000%  0.018%
-       0.000%  0.007%
-       0.000%  0.002%
-       0.000%  0.001%
-       -       0.000%
-       -       0.000%
-       -       0.000%
-       -       0.000%
-       -       0.000%
"""
# Assets, correlation, lower and upper attachment.
LOSSES_4 = [
    (13, 250, 2100, 10000, "0.0307%"),
    (13, 250, 1500, 2100, "1.7773%"),
    (19, 500, 2100, 10000, "0.0503%"),
    (19, 500, 1500, 2100, "1.8412%"),
    (15, 625, 4050, 10000, "0.0112%"),
    (15, 625, 1750, 4050, "2.5445%"),
    (36, 1000, 4050, 10000, "0.0214%"),
    (36, 1000, 1750, 4050, "2.7139%"),
]


def chances(table, column, figures, at):
    assets, correlation = column
    print("table", table, "assets", assets, "correlation", correlation)
    for defaults, row in enumerate(figures.strip().split("\n")):
        figure = row.split()[at]
        if figure != "-":
            print(defaults, figure, figure)


for at, column in enumerate(TABLE_1):
    chances(1, column, CHANCES_1, at)
    print("more than half", MORE_THAN_HALF[at], MORE_THAN_HALF[at])
for at, column in enumerate(TABLE_2):
    chances(2, column, CHANCES_2, at)
for assets, correlation, lower, upper, figure in LOSSES_4:
    print("table 4 assets", assets, "correlation", correlation, "tranche", lower, upper, figure, figure)

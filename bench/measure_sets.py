"""Measures grids whose cells are of many groups, in a folder of its own. usage: measure_sets.py OLAPD ROUNDS

The time of a case is the time that processors were busy, the best round.
"""
import os
import sys

from set_sales import MEASURES, make
from timed import run_on_files

ROWS, AGAIN = 1_000, 4
olapd, rounds = sys.argv[1], int(sys.argv[2])
# 21 by 21 by 20 members of all levels; and a quarter of the cells: those of the second level of one hierarchy alone, and fewer of another.
ALL = "MDX SELECT Crossjoin([Measures].Members, [C].Members) ON COLUMNS, Crossjoin([A].Members, [B].Members) ON ROWS FROM [Sales]\n"
PART = "MDX SELECT Crossjoin([Measures].Members, {[C].[C0], [C].[C1], [C].[C2], [C].[C3], [C]}) ON COLUMNS, Crossjoin([A].Members, [B].Members) ON ROWS FROM [Sales]\n"


def asked(lines):
    return [olapd, "run", "--schema", "sets.json"], lines


cases = {
    "open": asked(""),
    "all cold": asked(ALL),
    "all warm": asked(ALL * (1 + AGAIN)),
    "part cold": asked(PART),
    "part warm": asked(PART * (1 + AGAIN)),
}
make(ROWS)
best, told = {}, {}
for _ in range(rounds):
    for case, (words, given) in cases.items():
        *taken, text = run_on_files(words, given)
        if told.setdefault(case, text) != text:
            sys.exit(f"{case}: two rounds differ")
        best[case] = [min(it) for it in zip(taken, best.get(case, taken))]


def cells(case):
    _, position, columns, rows = told[case].split("\n", 1)[0].split()
    return int(columns) * int(rows), int(position)


def ms(case, other):
    return (best[case][1] - best[other][1]) * 1e3


# One Start and one Done for each group, the base batch and the answer.
groups = {kind: (cells(f"{kind} cold")[1] - 2) // 2 for kind in ("all", "part")}
if groups["all"] != 27 * len(MEASURES):
    sys.exit(f"{groups['all']} groups")
print(f"{len(os.sched_getaffinity(0))} cores, best of {rounds} rounds; {ROWS:,} rows, {len(MEASURES)} measures\n")
print("| cells | groups | cold busy ms | warm busy ms | warm ns a cell |\n|---|---|---|---|---|")
a_cell = {}
for kind in ("part", "all"):
    count, _ = cells(f"{kind} cold")
    cold, warm = ms(f"{kind} cold", "open"), ms(f"{kind} warm", f"{kind} cold") / AGAIN
    a_cell[kind] = warm / count
    print(f"| {count:,} | {groups[kind]} | {cold:.1f} | {warm:.1f} | {a_cell[kind] * 1e6:.0f} |")
for mark, met in {
    "the cold grid below a second": ms("all cold", "open") < 1000,
    "a cell of the greater grid within 1.5 times one of the smaller": a_cell["all"] <= 1.5 * a_cell["part"],
}.items():
    print(f"{mark}: {'met' if met else 'NOT met'}")

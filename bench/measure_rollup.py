"""Measures cells that are rolled up from a kept load of many groups, in a folder of its own. usage: measure_rollup.py OLAPD PLAIN ROUNDS

In each round each program runs once on each case, one after the other, so that what else the machine does falls on all alike. The time of
a case is the time that processors were busy, the best round.
"""
import os
import sys

from group_sales import FLAT, make
from timed import run, run_on_files

# Fact rows, one for each group; how often cells are rolled up anew.
ROWS, TIMES = 100_000, 100
olapd, plain, rounds = sys.argv[1], sys.argv[2], int(sys.argv[3])
ALL = "MDX SELECT [Other].[Side].Members ON COLUMNS, [Flat].[Member].Members ON ROWS FROM [Sales]\n"
ONE = "MDX SELECT {[Flat].[M1]} ON COLUMNS FROM [Sales]\n"
MANY = "MDX SELECT [Flat].[Member].Members ON COLUMNS FROM [Sales]\n"


def asked(lines):
    return [olapd, "run", "--schema", "groups.json"], lines


cases = {
    "olapd all": asked(ALL),
    "olapd one": asked(ALL + ONE * TIMES),
    "olapd many": asked(ALL + MANY * TIMES),
    "plain all": ([plain], "all\n"),
    "plain one": ([plain], "all\n" + "one\n" * TIMES),
    "plain many": ([plain], "all\n" + "many\n" * TIMES),
}
make(ROWS)
best, told = {}, {}
for _ in range(rounds):
    for case, (words, given) in cases.items():
        *taken, text = run_on_files(words, given)
        if told.setdefault(case, text) != text:
            sys.exit(f"{case}: two rounds differ")
        best[case] = [min(it) for it in zip(taken, best.get(case, taken))]


def grids(text):
    """The grids of an output, each without the line with its position."""
    return [it.split("\n", 1)[1] for it in text.split("GRID ")[1:]]


for kind in ("one", "many"):
    if grids(told[f"olapd {kind}"]) != grids(told[f"plain {kind}"]):
        sys.exit(f"{kind}: olapd and the plain program differ")
    # Rolled up and not loaded: from one answer to the next the history grows by the answer alone.
    positions = [int(it.split(" ", 1)[0]) for it in told[f"olapd {kind}"].split("GRID ")[1:]]
    if positions != list(range(positions[0], positions[0] + TIMES + 1)):
        sys.exit(f"{kind}: a load was started")


def ms(program, kind):
    return (best[f"{program} {kind}"][1] - best[f"{program} all"][1]) * 1e3 / TIMES


print(f"{len(os.sched_getaffinity(0))} cores, rustc {run(['rustc', '--version'], '')[1].split()[1]}, best of {rounds} rounds; 100,000 groups, rolled up {TIMES} times\n")
print("| from 100,000 groups to | olapd busy ms | plain busy ms |\n|---|---|---|")
for name, kind in (("one cell", "one"), (f"{FLAT:,} cells in one query", "many")):
    print(f"| {name} | {ms('olapd', kind):.2f} | {ms('plain', kind):.2f} |")
print()
for mark, met in {"one cell in at most 10 ms": ms("olapd", "one") <= 10, f"{FLAT:,} cells in at most 30 ms": ms("olapd", "many") <= 30}.items():
    print(f"{mark}: {'met' if met else 'NOT met'}")

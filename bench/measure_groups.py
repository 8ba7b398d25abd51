"""Measures grids of many groups in a folder of its own. usage: measure_groups.py OLAPD PLAIN ROUNDS

olapd and the plain program are given a line at a time, and what is told of a line is the time that its processor was busy from the line to
the end of its reply, as the system counts it to the nanosecond. In each round each program is begun anew, one after the other, so that
what else the machine does falls on both alike. Of `sqlite3` it is what a run with the query takes longer than one without. Told is the
best round of each.
"""
import os
import sys

from group_sales import OTHER, make
from timed import Talk, run, run_on_files

ROWS, AGAIN, FEW = 1_000_000, 4, 20
olapd, plain, rounds = sys.argv[1], sys.argv[2], int(sys.argv[3])
ALL = "MDX SELECT [Other].[Side].Members ON COLUMNS, [Flat].[Member].Members ON ROWS FROM [Sales]\n"
DEEP = "MDX SELECT [Other].[Side].Members ON COLUMNS, [Deep].[Five].Members ON ROWS FROM [Sales]\n"
TEN = ", ".join(f"[Other].[S{k + 1}]" for k in range(10))
SOME = f"MDX SELECT {{{TEN}}} ON COLUMNS, [Flat].[Member].Members ON ROWS FROM [Sales]\n"
TABLES = """CREATE TABLE flat (flat_id INTEGER PRIMARY KEY, member TEXT);
CREATE TABLE other (other_id INTEGER PRIMARY KEY, side TEXT);
CREATE TABLE facts (flat_id INTEGER, other_id INTEGER, units INTEGER);
.mode csv
.import --skip 1 flat.csv flat
.import --skip 1 other.csv other
.import --skip 1 groups.csv facts
.mode tabs
"""
QUERY = "SELECT member, side, sum(units) FROM facts JOIN flat USING (flat_id) JOIN other USING (other_id) GROUP BY member, side;\n"
# How each program is asked: whether it is ready, for all cells, for few, and for all of six columns.
PROGRAMS = {
    "olapd": ([olapd, "run", "--schema", "groups.json"], ("AFTER 1\n", "\n"), {"all": ALL, "few": SOME, "deep": DEEP}),
    "plain": ([plain], ("ready\n", ".\n"), {"all": "all\n", "few": "few\n"}),
}


def grid(text):
    """A grid without the line with its position."""
    return text.split("\n", 1)[1]


def values(text):
    """The values of a grid, row by row."""
    return [line.split("\t")[2:] for line in text.splitlines() if line.startswith("R\t")]


def cases(program, kind):
    """The cases that are measured on one run of a program."""
    if kind == "deep":
        return [("cold deep", "deep", 1), ("warm deep", "deep", AGAIN)]
    return [("cold", "all", 1), ("warm", "all", AGAIN), ("few", "few", FEW)]


best, told = {}, {}


def note(case, seconds, text, shown=grid):
    if told.setdefault(case, shown(text)) != shown(text):
        sys.exit(f"{case}: two rounds differ")
    best[case] = min(seconds, best.get(case, seconds))


def talk(program, kind):
    """Runs a program once, and notes what each case takes for each time."""
    words, (ready, end), lines = PROGRAMS[program]
    talk = Talk(words)
    talk.ask(ready, end)
    for case, asked, times in cases(program, kind):
        each = [talk.ask(lines[asked]) for _ in range(times)]
        for _, text in each:
            note(f"{program} {case}", sum(seconds for seconds, _ in each) / times, text)
    talk.end()


make(ROWS)
for _ in range(rounds):
    for program, kind in (("olapd", "flat"), ("plain", "flat"), ("olapd", "deep")):
        talk(program, kind)
    for case, given in (("sqlite3 open", TABLES), ("sqlite3 cold", TABLES + QUERY)):
        _, seconds, text = run_on_files(["sqlite3", "-batch", ":memory:"], given)
        note(case, seconds, text, str)

for case in ("cold", "warm", "few"):
    if told[f"olapd {case}"] != told[f"plain {case}"]:
        sys.exit(f"{case}: olapd and the plain program differ")
for case in ("cold", "warm"):
    if values(told[f"olapd {case} deep"]) != values(told[f"olapd {case}"]):
        sys.exit("the grids of six columns and those of two differ")
sums = {}
for line in told["sqlite3 cold"].splitlines():
    member, side, units = line.split("\t")
    sums[member, side] = units
for line in told["olapd cold"].splitlines()[OTHER:-1]:
    title, *row = line[2:].split("\t")
    member = title.removeprefix("[Flat].[").removesuffix("]")
    if row != [sums.pop((member, f"S{k + 1}"), "") for k in range(OTHER)]:
        sys.exit(f"of {title} olapd and sqlite3 differ")
if sums:
    sys.exit("sqlite3 has groups that olapd has not")

best["sqlite3 cold"] -= best["sqlite3 open"]
rustc, version = (run([it, "--version"], "")[1].split() for it in ("rustc", "sqlite3"))
print(f"{len(os.sched_getaffinity(0))} cores, rustc {rustc[1]}, sqlite3 {version[0]}, best of {rounds} rounds; {ROWS:,} rows, 100,000 groups\n")
print("| grid | olapd busy ms | plain busy ms | sqlite3 busy ms |\n|---|---|---|---|")
for name, case in (("cold, 100,000 cells", "cold"), ("warm, 100,000 cells", "warm"), ("warm, 10,000 cells", "few"), ("cold, 100,000 cells, six columns", "cold deep"), ("warm, 100,000 cells, six columns", "warm deep")):
    times = [f"{best[f'{it} {case}'] * 1e3:.1f}" if f"{it} {case}" in best else "" for it in ("olapd", "plain", "sqlite3")]
    print(f"| {name} | {' | '.join(times)} |")
cold, warm, few = (best[f"olapd {it}"] for it in ("cold", "warm", "few"))
print(f"\ncold: {cold / best['plain cold']:.2f} times the plain program, sqlite3 {best['sqlite3 cold'] / cold:.1f} times olapd; warm: {warm / few:.1f} times that of 10,000")
marks = {
    "cold within twice the plain program": cold <= 2 * best["plain cold"],
    "cold five times as fast as sqlite3": best["sqlite3 cold"] >= 5 * cold,
    "warm below a second": warm < 1,
    "warm within 12 times that of 10,000 cells": warm <= 12 * few,
}
for mark, met in marks.items():
    print(f"{mark}: {'met' if met else 'NOT met'}")

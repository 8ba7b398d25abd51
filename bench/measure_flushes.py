"""Measures flushes in sessions, in a folder of its own. usage: measure_flushes.py OLAPD PLAIN ROUNDS

In each round each program runs once on each case, one after the other, so that what else the machine does falls on all alike. The time of
a case is the time that processors were busy, the best round; the time from start to end is printed beside it.
"""
import os
import sqlite3
import sys

from flush_steps import BATCH, first_difference, grids, lines, make_batches, words
from group_sales import FLAT, OTHER, make
from timed import run, run_on_files

# Fact rows; rounds of append, flush and query; partial flushes between two looks; how often a look is made again; kept loads, and
# flushes over them.
ROWS, TURNS, FLUSHES, AGAIN, LOADS, OVER = 100_000, 1_000, 100, 4, 100, 1_000
olapd, plain, rounds = sys.argv[1], sys.argv[2], int(sys.argv[3])

turns = [["sides"]]
for i in range(TURNS):
    k = 1 + i * 37 % OTHER
    turns += [["append", k], ["side", k], ["sides"]]
flushed = [["all"], *(["flat", 1 + i * (FLAT // FLUSHES)] for i in range(FLUSHES)), ["all"]]
loads = [["row", 1 + i] for i in range(LOADS)]
# The steps of each case.
cases = {
    "open": [],
    "one query": turns[:1],
    "turns": turns,
    "look": [["all"]],
    "looks": [["all"]] * (1 + AGAIN),
    "flushed": flushed,
    "flushed looks": flushed + [["all"]] * AGAIN,
    "loads": loads,
    "loads flushed": loads + [["flat", 1 + i % LOADS] for i in range(OVER)],
}
programs = {
    "olapd": ([olapd, "run", "--schema", "groups.json"], lines),
    "plain": ([plain], words),
    "sqlite3": ([sys.executable, os.path.join(os.path.dirname(os.path.abspath(__file__)), "sqlite_flushes.py")], words),
}
make(ROWS)
make_batches()
best, told = {}, {}
for _ in range(rounds):
    for case, steps in cases.items():
        for program, (command, given) in programs.items():
            *taken, text = run_on_files(command, given(steps))
            if told.setdefault((case, program), text) != text:
                sys.exit(f"{case}: two rounds of {program} differ")
            best[case, program] = [min(it) for it in zip(taken, best.get((case, program), taken))]

for case in cases:
    mine = grids(told[case, "olapd"])
    for program in ("plain", "sqlite3"):
        if mine != grids(told[case, program]):
            sys.exit(f"{case}: the grids of olapd and of {program} differ")
# What is kept at the end is told by a run of its own, since it takes time too.
differences = []
for case, steps in cases.items():
    seen = [*steps, ["cache"]]
    text = run_on_files(programs["olapd"][0], lines(seen))[2]
    found = first_difference(seen, text) or first_difference(steps, told[case, "olapd"])
    if found:
        differences.append(f"{case}: {found}")


def spent(program, whole, more, less, times=1):
    """What a case takes longer than another, in ms for each of so many times."""
    return (best[more, program][not whole] - best[less, program][not whole]) / times * 1e3


def turn(program, whole=False):
    return spent(program, whole, "turns", "one query", TURNS)


def before(program, whole=False):
    return spent(program, whole, "looks", "look", AGAIN)


def reload(program, whole=False):
    return spent(program, whole, "flushed", "look")


def after(program, whole=False):
    return spent(program, whole, "flushed looks", "flushed", AGAIN)


def flush(program, whole=False):
    return spent(program, whole, "loads flushed", "loads", OVER)


rustc = run(["rustc", "--version"], "")[1].split()[1]
print(f"{len(os.sched_getaffinity(0))} cores, rustc {rustc}, sqlite3 {sqlite3.sqlite_version}, best of {rounds} rounds; {ROWS:,} rows, batches of {BATCH}\n")
print("| | olapd busy ms | plain busy ms | sqlite3 busy ms | olapd ms | plain ms | sqlite3 ms |\n|---|---|---|---|---|---|---|")
for name, of in (
    (f"append, flush and query of {OTHER:,} cells, each of {TURNS:,} rounds", turn),
    (f"look at {FLAT * OTHER:,} cells, before", before),
    (f"{FLUSHES:,} flushes, and the look that loads what they cover", reload),
    (f"look at {FLAT * OTHER:,} cells, after", after),
    (f"flush over {LOADS:,} kept loads", flush),
):
    print(f"| {name} | {' | '.join(f'{of(it, whole):.3f}' for whole in (False, True) for it in programs)} |")
print(f"\na look after {FLUSHES:,} flushes: {after('olapd') / before('olapd'):.2f} times that before")
marks = {
    f"a flush under 1 ms with {LOADS:,} kept loads": flush("olapd") < 1,
    "a look after the flushes within twice that before": after("olapd") <= 2 * before("olapd"),
    "only what was flushed is loaded again": not differences,
}
for mark, met in marks.items():
    print(f"{mark}: {'met' if met else 'NOT met'}")
for it in differences:
    print(f"- {it}")

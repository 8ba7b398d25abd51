"""Measures the cases below. usage: measure.py OLAPD PLAIN ROUNDS, in the folder of rows.csv and ids.csv.

In each round each program runs once on each case, one after the other, so that what else the machine does falls on all
alike. The time of a program is its best round, from its start to its end; its memory is its greatest resident set. Busy is the time of
the processors over all threads, in further runs.
"""
import os
import sys

from timed import busy, memory, run

CASES = [
    ("rows.csv", "units", "sum", []),
    ("rows.csv", "units", "sum", ["time_id", "1"]),
    ("rows.csv", "units", "avg", []),
    ("rows.csv", "customer", "distinct-count", []),
    ("ids.csv", "id", "distinct-count", []),
]
SQL = {"sum": "sum({})", "avg": "avg({})", "distinct-count": "count(DISTINCT {})"}
# The mark is for this file alone.
MARKED, TARGET_PLAIN, TARGET_SQLITE = "rows.csv", 1.5, 10


def script(file, column, aggregator, pairs):
    with open(file) as it:
        columns = ", ".join(f"{name} INTEGER" for name in it.readline().strip().split(","))
    # The import writes an empty field as an empty text.
    value = SQL[aggregator].format(f"nullif({column}, '')")
    where = " AND ".join(f"{name} = {field}" for name, field in zip(pairs[::2], pairs[1::2]))
    return f"""CREATE TABLE facts ({columns});
.mode csv
.import --skip 1 {file} facts
SELECT {value} FROM facts{' WHERE ' * bool(where)}{where};
"""


def agrees(aggregator, mine, other):
    return abs(float(mine) - float(other)) < 0.00501 if aggregator == "avg" else mine == other


olapd, plain, rounds = sys.argv[1], sys.argv[2], int(sys.argv[3])
programs = [
    [
        ([olapd, "cell", file, column, aggregator, *pairs], ""),
        ([plain, file, column, aggregator, *pairs], ""),
        (["sqlite3", "-batch", ":memory:"], script(file, column, aggregator, pairs)),
    ]
    for file, column, aggregator, pairs in CASES
]
best, told = {}, {}
for _ in range(rounds):
    for case, three in enumerate(programs):
        for i, (words, given) in enumerate(three):
            seconds, told[case, i] = run(words, given)
            best[case, i] = min(seconds, best.get((case, i), seconds))

rustc, sqlite = (run([it, "--version"], "")[1].split() for it in ("rustc", "sqlite3"))
print(f"{len(os.sched_getaffinity(0))} cores, rustc {rustc[1]}, sqlite3 {sqlite[0]}, best of {rounds} rounds\n")
heads = "cell|answer|olapd ms|plain ms|sqlite3 ms|olapd / plain|sqlite3 / olapd|olapd busy ms|plain busy ms|olapd MB|plain MB|sqlite3 MB"
print(f"| {heads.replace('|', ' | ')} |\n{'|---' * (heads.count('|') + 1)}|")
met = True
for case, (file, column, aggregator, pairs) in enumerate(CASES):
    mine, other, table = (told[case, i] for i in range(3))
    if mine != other or not agrees(aggregator, mine, table):
        sys.exit(f"{CASES[case]}: olapd says {mine}, the plain program {other}, sqlite3 {table}")
    a, b, c = (best[case, i] for i in range(3))
    if file == MARKED:
        met = met and a <= TARGET_PLAIN * b and c >= TARGET_SQLITE * a
    times = f"{a * 1e3:.0f} | {b * 1e3:.0f} | {c * 1e3:.0f} | {a / b:.2f} | {c / a:.1f}"
    sizes = " | ".join(f"{memory(*it):.1f}" for it in programs[case])
    work = " | ".join(f"{busy(*it) * 1e3:.0f}" for it in programs[case][:2])
    print(f"| {' '.join([file, column, aggregator, *pairs])} | {mine} | {times} | {work} | {sizes} |")
told_mark = "met" if met else "not met"
print(f"\n{MARKED}: at most {TARGET_PLAIN} times the plain program's time, and {TARGET_SQLITE} times as fast as sqlite3: {told_mark}")

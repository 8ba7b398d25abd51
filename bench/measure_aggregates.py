"""Measures aggregate tables that are built and checked, and loads from one beside loads from the facts, in a folder of its own.
usage: measure_aggregates.py AGGREGATES PLAIN ROUNDS

A build, a check and a load are what a run with some of them takes longer than one without, for each: of the time that processors were
busy, the best of all rounds. How it stands to the plain program is also told round by round: the middle of all rounds, since the
speed of a machine may change from one minute to the next.
"""
import os
import statistics
import sys

from agg_sales import make
from timed import run, run_on_files

ROWS, LATER = 1_000_000, 10_000
# How often a table is built, or its file checked, in a run: so often that reading the files, which a run without any takes as well, is
# the lesser part of it.
TIMES = {"olapd": 20, "plain": 20, "sqlite3": 2}
# How often a load is run that reads the facts, and one that reads a table.
LOADS = {"facts": 10, "table": 400}
aggregates, plain, rounds = sys.argv[1], sys.argv[2], int(sys.argv[3])
make(ROWS, LATER)


def read(file):
    with open(file) as it:
        return it.read()


FILES = [read(it) for it in ("schema.json", "time.csv", "store.csv", "sales.csv", "later.csv")]
RIGHT = {measures: run([plain, str(measures), "1"], "")[1] + "\n" for measures in (1, 3)}
COLUMNS = {1: "SUM(units) AS units", 3: "SUM(units) AS units, SUM(price) AS price, MAX(units) AS most"}


def asked(words, measures):
    return [aggregates], "=\n".join([words + "\n", FILES[0] + "\n", *FILES[1:], RIGHT[measures]])


def place_of(measures):
    return 0 if measures == 1 else 1


# Loads of the sum of the units: of one cell, and of a cell for each month. A table by month and city may be read, built over the first batch.
HEADERS = {"one cell": "sum:", "48 cells, by month": "sum:1"}
VERSIONS = {"no later rows": 1, f"{LATER:,} later rows": 2}


def load_asked(header, version, source, times):
    return asked(f"load {VERSIONS[version]} {'-' if source == 'facts' else '0@1'} {HEADERS[header]} {times}", 1)


def sql(measures, times):
    lines = [".mode csv", *(f".import {it}.csv {it}" for it in ("time", "store", "sales")),
             "CREATE TABLE facts AS SELECT time_id, store_id, CAST(NULLIF(units, '') AS INTEGER) AS units,"
             " CAST(price AS INTEGER) AS price FROM sales;",
             "CREATE UNIQUE INDEX times ON time(time_id);", "CREATE UNIQUE INDEX stores ON store(store_id);"]
    for _ in range(times):
        lines += ["DROP TABLE IF EXISTS agg;",
                  f"CREATE TABLE agg AS SELECT month, city, COUNT(*) AS fact_count, {COLUMNS[measures]} FROM facts JOIN time USING (time_id)"
                  " JOIN store USING (store_id) GROUP BY month, city;"]
    if times:
        lines.append("SELECT * FROM agg;")
    return ["sqlite3", ":memory:"], "\n".join(lines) + "\n"


cases = {}
for measures in (1, 3):
    place = place_of(measures)
    cases["olapd", measures, "none"] = asked(f"build {place} 0", measures)
    cases["olapd", measures, "build"] = asked(f"build {place} {TIMES['olapd']}", measures)
    cases["olapd", measures, "check"] = asked(f"check {place} {TIMES['olapd']}", measures)
    cases["plain", measures, "none"] = [plain, str(measures), "0"], ""
    cases["plain", measures, "build"] = [plain, str(measures), str(TIMES["plain"])], ""
    cases["sqlite3", measures, "none"] = sql(measures, 0)
    cases["sqlite3", measures, "build"] = sql(measures, TIMES["sqlite3"])
for source, times in LOADS.items():
    for header in HEADERS:
        for version in VERSIONS:
            cases[header, version, source, "none"] = load_asked(header, version, source, 0)
            cases[header, version, source, "loads"] = load_asked(header, version, source, times)
told = {}
each = {case: [] for case in cases}
for _ in range(rounds):
    for case, (words, given) in cases.items():
        _, busy, text = run_on_files(words, given)
        told[case] = text
        each[case].append(busy)
best = {case: min(busys) for case, busys in each.items()}
for measures in (1, 3):
    place = place_of(measures)
    for kind in ("build", "check"):
        if told["olapd", measures, kind].strip() != f"2400 groups of table {place} in version 1":
            sys.exit(f"{kind}: {told['olapd', measures, kind]}")
    if sorted(told["sqlite3", measures, "build"].split()) != sorted(RIGHT[measures].split()[1:]):
        sys.exit("sqlite3 and the plain program differ")


def each_ms(program, measures, kind):
    """How long one took in each round: what a run took above one without any in the same round."""
    return [(busy - none) * 1e3 / TIMES[program] for busy, none in zip(each[program, measures, kind], each[program, measures, "none"])]


def ms(program, measures, kind):
    return (best[program, measures, kind] - best[program, measures, "none"]) * 1e3 / TIMES[program]


def in_the_middle(measures, kind):
    """How many times as long as the plain program in the same round, in the middle of all rounds."""
    return statistics.median(own / plain for own, plain in zip(each_ms("olapd", measures, kind), each_ms("plain", measures, "build")))


print(f"{len(os.sched_getaffinity(0))} cores, rustc {run(['rustc', '--version'], '')[1].split()[1]}, sqlite3 {run(['sqlite3', '--version'], '')[1].split()[0]}, best of {rounds} rounds; {ROWS:,} rows, 2,400 groups\n")
print("| measures | build busy ms | check busy ms | plain busy ms | sqlite3 busy ms |\n|---|---|---|---|---|")
for measures in (1, 3):
    print(f"| {measures} | {ms('olapd', measures, 'build'):.1f} | {ms('olapd', measures, 'check'):.1f} | {ms('plain', measures, 'build'):.1f} | {ms('sqlite3', measures, 'build'):.1f} |")
print()
for measures, mark in ((1, 1.5), (3, 3)):
    for kind in ("build", "check"):
        beside = ms("olapd", measures, kind) / ms("plain", measures, "build")
        print(f"{kind}, {measures} measures: {beside:.2f} times the plain program (mark {mark}): {'met' if beside <= mark else 'NOT met'}")
        beside = in_the_middle(measures, kind)
        print(f"{kind}, {measures} measures: {beside:.2f} times the plain program in the middle of the rounds (mark {mark}): {'met' if beside <= mark else 'NOT met'}")
        beside = ms("sqlite3", measures, "build") / ms("olapd", measures, kind)
        print(f"{kind}, {measures} measures: {beside:.1f} times as fast as sqlite3 (mark 5): {'met' if beside >= 5 else 'NOT met'}")


def load_ms(header, version, source):
    return (best[header, version, source, "loads"] - best[header, version, source, "none"]) * 1e3 / LOADS[source]


def is_right(header, version):
    """The load from the table reads its groups and the later rows, and has the groups and the worth of the load from the facts."""
    later = LATER if VERSIONS[version] == 2 else 0
    from_facts, from_table = (told[header, version, source, "loads"].split() for source in ("facts", "table"))
    return from_facts[:2] == ["facts", str(ROWS + later)] and from_table[:3] == ["table", "0", str(2_400 + later)] and from_facts[2:] == from_table[3:]


units = sum(int(line.split(",")[3] or 0) for line in RIGHT[1].split()[1:])
if told["one cell", "no later rows", "facts", "loads"].split()[3] != str(units):
    sys.exit("a load and the plain program differ")
print("\n| load | rows | from the facts busy ms | from the table busy ms | times as fast |\n|---|---|---|---|---|")
for header in HEADERS:
    for version in VERSIONS:
        if not is_right(header, version):
            sys.exit(f"{header}, {version}: {[told[header, version, source, 'loads'] for source in LOADS]}")
        facts, table = (load_ms(header, version, source) for source in LOADS)
        print(f"| {header} | {version} | {facts:.1f} | {table:.3f} | {facts / table:.0f} |")
print()
for version, mark in zip(VERSIONS, (50, 10)):
    beside = load_ms("one cell", version, "facts") / load_ms("one cell", version, "table")
    print(f"a load of one cell, {version}: {beside:.0f} times as fast from the table (mark {mark}): {'met' if beside >= mark else 'NOT met'}")

"""Measures the grids of `olapd run` in a folder of its own. usage: measure_grids.py OLAPD PLAIN ROUNDS

In each round each program runs once on each case, one after the other, so that what else the machine does falls on all
alike; a case that takes long runs once. The time of a program is its best round, from its start to its end,
with files as its input and output. Busy is the time of the processors, the best round too. Its memory is its greatest resident
set, in a further run.
"""
import os
import sys

from grid_sales import MEASURES, make
from timed import memory, run, run_on_files

CITIES, SMALL, LARGE = 100, 100_000, 1_000_000
# The cities of the grids over SMALL rows, with how often each is asked again when it is warm, and the rows under CITIES cities.
BY_CELLS = {CITIES: 100, 1_000: 20, 10_000: 2}
BY_ROWS = [SMALL, 250_000, 500_000, LARGE]
AGAIN_SQLITE = 3
# A run in which the processors are busy for more seconds is long.
LONG = 5
PROGRAMS = ("olapd", "plain", "sqlite3")
LINE = "MDX SELECT [Measures].Members ON COLUMNS, [Store].[City].Members ON ROWS FROM [Sales]\n"
TABLES = """CREATE TABLE time (time_id INTEGER PRIMARY KEY, year TEXT, quarter TEXT, month TEXT);
CREATE TABLE store (store_id INTEGER PRIMARY KEY, state TEXT, city TEXT);
CREATE TABLE facts (time_id INTEGER, store_id INTEGER, customer INTEGER, units INTEGER, sales INTEGER, change INTEGER);
.mode csv
.import --skip 1 time.csv time
.import --skip 1 {name}_store.csv store
.import --skip 1 {name}.csv facts
"""
# The import writes an empty field as an empty text.
INDEXES = """UPDATE facts SET units = NULL WHERE units = '';
CREATE INDEX by_time ON facts (time_id);
CREATE INDEX by_store ON facts (store_id);
.mode tabs
"""
QUERY = f"""SELECT '[Store].[' || state || '].[' || city || ']', {', '.join(sql for *_, sql in MEASURES)}
FROM facts JOIN time USING (time_id) JOIN store USING (store_id) GROUP BY state, city;
"""

olapd, plain, rounds = sys.argv[1], sys.argv[2], int(sys.argv[3])
sqlite = ["sqlite3", "-batch", ":memory:"]


def name_of(rows, cities):
    return f"r{rows}c{cities}"


def again(rows, cities):
    """How often a warm run asks for the grid once more."""
    return BY_CELLS[cities]


def cases_of(rows, cities):
    """The cases of `olapd` and of the plain program, and those of sqlite3."""
    name, warm = name_of(rows, cities), 1 + again(rows, cities)
    words, tables = [olapd, "run", "--schema", f"{name}.json"], TABLES.format(name=name)
    two = {"olapd open": (words, ""), "olapd cold": (words, LINE), "olapd warm": (words, LINE * warm)}
    for kind, times in (("open", 0), ("cold", 1), ("warm", warm)):
        two[f"plain {kind}"] = ([plain, name, str(times)], "")
    third = {
        "sqlite3 import": (sqlite, tables),
        "sqlite3 open": (sqlite, tables + INDEXES),
        "sqlite3 cold": (sqlite, tables + INDEXES + QUERY),
        "sqlite3 warm": (sqlite, tables + INDEXES + QUERY * (1 + AGAIN_SQLITE)),
    }
    return two, third


def grids(text):
    """The grids of an output, each without its position: the numbers of columns and rows, and the lines after them."""
    found = []
    for line in text.splitlines():
        if line.startswith("GRID "):
            found.append([line.split()[2:]])
        elif not found or found[-1][-1] == ".":
            sys.exit(f"a line that is of no grid: {line}")
        else:
            found[-1].append(line)
    return found


def agrees(aggregator, mine, other):
    if aggregator == "avg" and mine and other:
        return abs(float(mine) - float(other)) < 0.00501
    return mine == other


def compare(size, mine, other, queries):
    """Ends with an error where the plain program, or a grid after the first, tells another grid."""
    mine, other = grids(mine), grids(other)
    if len(mine) != queries or any(it != mine[0] for it in mine):
        sys.exit(f"{size}: olapd's answers to one query differ, or are not {queries}")
    if mine != other:
        a, b = next((a, b) for a, b in zip(mine[0] + [None], other[0] + [None]) if a != b)
        sys.exit(f"{size}: olapd says {a}, the plain program {b}")


def compare_table(size, mine, table, times):
    """Ends with an error where sqlite3 tells other values: a city that it has no row of is empty."""
    lines = table.splitlines()
    count = len(lines) // times
    if lines != lines[:count] * times:
        sys.exit(f"{size}: sqlite3's answers to one query differ")
    told = dict(line.split("\t", 1) for line in lines[:count])
    for line in grids(mine)[0]:
        if line[:2] != "R\t":
            continue
        title, *values = line[2:].split("\t")
        others = told.pop(title, "\t" * (len(MEASURES) - 1)).split("\t")
        if len(values) != len(others) or not all(agrees(it[2], a, b) for it, a, b in zip(MEASURES, values, others)):
            sys.exit(f"{size}: of {title} olapd says {values}, sqlite3 {others}")
    if told:
        sys.exit(f"{size}: sqlite3 has rows that olapd has not: {list(told)[:3]}")


main = [(SMALL, CITIES), (LARGE, CITIES)]
by_cells, by_rows = [(SMALL, cities) for cities in BY_CELLS], [(rows, CITIES) for rows in BY_ROWS]
sizes = list(dict.fromkeys(main + by_cells + by_rows))
best, told, cases = {}, {}, {}
for size in sizes:
    make(*size, name_of(*size))
    two, third = cases_of(*size)
    for case, it in two.items():
        cases[size, case] = it
    if size in main:
        for case, it in third.items():
            cases[size, case] = it
    else:
        # Its answer alone is wanted.
        *_, told[size, "sqlite3 cold"] = run_on_files(*third["sqlite3 cold"])
for _ in range(rounds):
    for key, (words, given) in cases.items():
        before = best.get(key)
        if before and before[1] > LONG:
            continue
        *taken, text = run_on_files(words, given)
        if told.setdefault(key, text) != text:
            sys.exit(f"{key}: two rounds differ")
        best[key] = [min(it) for it in zip(taken, before or taken)]

for size in sizes:
    queries = 1 + again(*size)
    compare(size, told[size, "olapd cold"], told[size, "plain cold"], 1)
    compare(size, told[size, "olapd warm"], told[size, "plain warm"], queries)
    if grids(told[size, "olapd cold"])[0] != grids(told[size, "olapd warm"])[0]:
        sys.exit(f"{size}: olapd's cold grid and its warm one differ")
    compare_table(size, told[size, "olapd cold"], told[size, "sqlite3 cold"], 1)
    if (size, "sqlite3 warm") in told:
        compare_table(size, told[size, "olapd cold"], told[size, "sqlite3 warm"], 1 + AGAIN_SQLITE)


def ms(size, case, busy=False):
    return best[size, case][busy] * 1e3


def size_of(size, case):
    return f"{memory(*cases[size, case]):.1f}"


def cold(size, program, busy):
    """A cold grid in ms: the opening's own time is taken off."""
    return ms(size, f"{program} cold", busy) - ms(size, f"{program} open", busy)


def warm(size, program, busy):
    more = AGAIN_SQLITE if program == "sqlite3" else again(*size)
    return (ms(size, f"{program} warm", busy) - ms(size, f"{program} cold", busy)) / more


def table(heads, lines):
    heads = heads.split("|")
    print(f"\n| {' | '.join(heads)} |\n{'|---' * len(heads)}|")
    for line in lines:
        print(f"| {' | '.join(line)} |")


def of_each(measured, size, busy, programs=PROGRAMS[:2]):
    """What a cold grid takes, or a warm one, of each program."""
    return [f"{measured(size, it, busy):.3f}" for it in programs]


def of_run(size, case):
    """The line of a case."""
    three = [f"{it} {case}" for it in PROGRAMS]
    times = [f"{ms(size, it):.1f}" for it in three]
    if case == "open":
        times[2] = f"{ms(size, 'sqlite3 import'):.1f} (import), {times[2]} (and indexes)"
    return [f"{size[0]:,}", case, *times, *(f"{ms(size, it, True):.1f}" for it in three), *(size_of(size, it) for it in three)]


def of_cells(size, busy):
    """The line of a grid by its cells."""
    cells = len(MEASURES) * size[1]
    one = [f"{warm(size, it, busy) * 1e6 / cells:.0f}" for it in PROGRAMS[:2]]
    return [f"{len(MEASURES)} x {size[1]:,}", *of_each(cold, size, busy), *of_each(warm, size, busy), *one]


def of_size(size):
    """The line of a grid by its cells, with what it takes of memory."""
    cases = ("olapd open", "olapd cold", "olapd warm", "plain warm")
    return [f"{len(MEASURES)} x {size[1]:,}", f"{len(told[size, 'olapd cold']):,}", *(size_of(size, it) for it in cases)]


def of_rows(size, busy):
    """The line of a grid by the rows under it."""
    one = [f"{cold(size, it, busy) * 1e6 / size[0]:.0f}" for it in PROGRAMS[:2]]
    return [f"{size[0]:,}", *of_each(cold, size, busy), *one]


rustc, version = (run([it, "--version"], "")[1].split() for it in ("rustc", "sqlite3"))
print(f"{len(os.sched_getaffinity(0))} cores, rustc {rustc[1]}, sqlite3 {version[0]}, best of {rounds} rounds")
print(f"\n{len(MEASURES)} measures by {CITIES} cities; a warm run has {1 + BY_CELLS[CITIES]} queries, and {1 + AGAIN_SQLITE} of sqlite3")
heads = "rows|case|olapd ms|plain ms|sqlite3 ms|olapd busy ms|plain busy ms|sqlite3 busy ms|olapd MB|plain MB|sqlite3 MB"
table(heads, [of_run(size, case) for size in main for case in ("open", "cold", "warm")])
for busy, name in ((False, ""), (True, " busy")):
    heads = f"rows|cold grid{name} ms: olapd|plain|sqlite3|warm grid{name} ms: olapd|plain|sqlite3"
    table(heads, [[f"{size[0]:,}", *of_each(cold, size, busy, PROGRAMS), *of_each(warm, size, busy, PROGRAMS)] for size in main])
print(f"\nBy cells, over {SMALL:,} rows; the warm runs have {', '.join(str(1 + it) for it in BY_CELLS.values())} queries")
for busy, name in ((False, ""), (True, " busy")):
    heads = f"cells|cold grid{name} ms: olapd|plain|warm grid{name} ms: olapd|plain|ns a cell of a warm grid: olapd|plain"
    table(heads, [of_cells(size, busy) for size in by_cells])
table("cells|bytes of the grid|olapd MB: open|cold|warm|plain MB: warm", [of_size(size) for size in by_cells])
print(f"\nBy rows, {len(MEASURES)} x {CITIES} cells")
for busy, name in ((False, ""), (True, " busy")):
    heads = f"rows|cold grid{name} ms: olapd|plain|ns a row of a cold grid: olapd|plain"
    table(heads, [of_rows(size, busy) for size in by_rows])

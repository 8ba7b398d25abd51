"""Measures `olapd run` over the schemas of two sizes. usage: measure_run.py OLAPD PLAIN ROUNDS, in the folder of sales.py's files.

In each round each program runs once on each case, one after the other, so that what else the machine does falls on all
alike. The time of a program is its best round, from its start to its end; its memory is its greatest resident set.
"""
import os
import subprocess
import sys

from timed import memory, run

LINE = "MDX SELECT {[Time].[Y1]} ON COLUMNS FROM [Sales]\n"
WARM = 1000
TABLES = """CREATE TABLE time (time_id INTEGER PRIMARY KEY, year TEXT, quarter TEXT, month TEXT);
CREATE TABLE store (store_id INTEGER PRIMARY KEY, state TEXT, city TEXT);
CREATE TABLE facts (time_id INTEGER, store_id INTEGER, customer INTEGER, units INTEGER);
.mode csv
.import --skip 1 time.csv time
.import --skip 1 store.csv store
.import --skip 1 {facts} facts
"""
INDEXES = "CREATE INDEX by_time ON facts (time_id);\nCREATE INDEX by_store ON facts (store_id);\n"
QUERY = "SELECT sum(nullif(units, '')) FROM facts JOIN time USING (time_id) WHERE year = 'Y1';\n"


def held(name):
    """The resident set in bytes once the cache is open and a line is answered, while the input waits."""
    with subprocess.Popen([olapd, "run", "--schema", f"{name}.json"], stdin=subprocess.PIPE, stdout=subprocess.PIPE, text=True) as it:
        it.stdin.write("HELLO\n")
        it.stdin.flush()
        it.stdout.readline()
        with open(f"/proc/{it.pid}/status") as status:
            size = next(int(line.split()[1]) for line in status if line.startswith("VmRSS"))
        it.communicate("")
    return size * 1024


olapd, plain, rounds = sys.argv[1], sys.argv[2], int(sys.argv[3])
sqlite = ["sqlite3", "-batch", ":memory:"]
cases = {}
for name in ("small", "large"):
    words, tables = [olapd, "run", "--schema", f"{name}.json"], TABLES.format(facts=f"{name}.csv")
    cases[name, "olapd open"] = (words, "")
    cases[name, "olapd cold"] = (words, LINE)
    cases[name, "olapd warm"] = (words, LINE * (1 + WARM))
    cases[name, "plain open"] = ([plain, f"{name}.csv", "0"], "")
    cases[name, "plain cold"] = ([plain, f"{name}.csv", "1"], "")
    cases[name, "plain warm"] = ([plain, f"{name}.csv", str(1 + WARM)], "")
    cases[name, "sqlite3 import"] = (sqlite, tables)
    cases[name, "sqlite3 indexes"] = (sqlite, tables + INDEXES)
    cases[name, "sqlite3 cold"] = (sqlite, tables + INDEXES + QUERY)
    cases[name, "sqlite3 warm"] = (sqlite, tables + INDEXES + QUERY * (1 + WARM // 100))
best, told = {}, {}
for _ in range(rounds):
    for case, (words, given) in cases.items():
        seconds, told[case] = run(words, given)
        best[case] = min(seconds, best.get(case, seconds))

rustc, version = (run([it, "--version"], "")[1].split() for it in ("rustc", "sqlite3"))
print(f"{os.cpu_count()} cores, rustc {rustc[1]}, sqlite3 {version[0]}, best of {rounds} rounds\n")
print("| rows | case | ms | MB |\n|---|---|---|---|")
for case, (words, given) in cases.items():
    print(f"| {case[0]} | {case[1]} | {best[case] * 1e3:.1f} | {memory(words, given):.1f} |")


def answer(text):
    return next(line for line in text.splitlines() if line.startswith("R\t\t"))[3:]


for name in ("small", "large"):
    mine, other, table = answer(told[name, "olapd cold"]), told[name, "plain cold"].strip(), told[name, "sqlite3 cold"].strip()
    if not mine == other == table:
        sys.exit(f"{name}: olapd says {mine}, the plain program {other}, sqlite3 {table}")


def spent(name, program, more, less, queries=1):
    return (best[name, f"{program} {more}"] - best[name, f"{program} {less}"]) / queries * 1e3


print("\n| rows | answer | cold query ms: olapd | plain | sqlite3 | warm query ms: olapd | plain | sqlite3 |\n|---|---|---|---|---|---|---|---|")
for name in ("small", "large"):
    cold = " | ".join(f"{spent(name, it, 'cold', base):.2f}" for it, base in (("olapd", "open"), ("plain", "open"), ("sqlite3", "indexes")))
    warm = " | ".join(f"{spent(name, it, 'warm', 'cold', many):.4f}" for it, many in (("olapd", WARM), ("plain", WARM), ("sqlite3", WARM // 100)))
    print(f"| {name} | {answer(told[name, 'olapd cold'])} | {cold} | {warm} |")
a, b, c = (best["large", it] for it in ("olapd open", "plain open", "sqlite3 import"))
print(f"\nopening large: {a / b:.2f} times the plain program's time (mark: at most 2), {c / a:.1f} times as fast as sqlite3's import (mark: above 1)")
print(f"memory held: {(held('large') - held('small')) / 900_000:.1f} bytes for a fact row of two dimensions and two fact columns (mark: at most 44)")

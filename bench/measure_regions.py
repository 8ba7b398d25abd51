"""Measures flushes of ranges in a folder of its own. usage: measure_regions.py OLAPD ROUNDS

A run answers AGAIN flushes of all members of a level, and one answers none: a flush takes what the first takes longer than the second, for
each of them. No load is kept, so what is measured is reading the line, finding the region, and writing the flush down. The best of all
rounds.
"""
import json
import os
import sys

from sales import dimension
from timed import run_on_files

MEMBERS, AGAIN = 100_000, 20
olapd, rounds = sys.argv[1], int(sys.argv[2])


def table(name, lines):
    with open(name, "w") as out:
        out.writelines(lines)


table("flat.csv", ["flat_id,member\n", *(f"{k + 1},M{k + 1}\n" for k in range(MEMBERS))])
table("deep.csv", ["deep_id,one,two,three\n", *(f"{k + 1},A{k // 10_000},B{k // 100},M{k + 1}\n" for k in range(MEMBERS))])
table("facts.csv", ["flat_id,deep_id,units\n", "1,1,1\n"])
with open("regions.json", "w") as out:
    json.dump({
        "dimensions": [dimension("Flat", "flat.csv", "flat_id", ["Member"]), dimension("Deep", "deep.csv", "deep_id", ["One", "Two", "Three"])],
        "cubes": [{
            "name": "Sales",
            "fact": "facts.csv",
            "dimensions": [{"source": "Flat", "foreignKey": "flat_id"}, {"source": "Deep", "foreignKey": "deep_id"}],
            "measures": [{"name": "Units", "column": "units", "aggregator": "sum"}],
        }],
    }, out)

RANGES = {
    "one level": f"RANGE([Flat].[M1], [Flat].[M{MEMBERS}])",
    "three levels": f"RANGE([Deep].[A0].[B0].[M1], [Deep].[A9].[B999].[M{MEMBERS}])",
}
# What is asked for, and the replies to it: the first entry is the base batch.
cases = {}
for name, region in RANGES.items():
    cases[f"{name}, by itself"] = f"FLUSH [Sales] {region}\n", ["ERR 13 REGION MEASURES"] * AGAIN
    cases[f"{name}, with the measures"] = f"FLUSH [Sales] CROSSJOIN(MEASURES, {region})\n", [f"FLUSHED {k + 2}" for k in range(AGAIN)]
words = [olapd, "run", "--schema", "regions.json"]
best = {}
for _ in range(rounds):
    for case, (line, replies) in {"none": ("", []), **cases}.items():
        seconds, busy, text = run_on_files(words, line * AGAIN)
        if text.splitlines() != replies:
            sys.exit(f"{case}: {text[:200]}")
        before = best.get(case, (seconds, busy))
        best[case] = min(seconds, before[0]), min(busy, before[1])
print(f"{len(os.sched_getaffinity(0))} cores, best of {rounds} rounds; {MEMBERS:,} members\n")
print("| range | ms | busy ms |\n|---|---|---|")
taken = {case: [(best[case][k] - best["none"][k]) / AGAIN * 1e3 for k in (0, 1)] for case in cases}
for case, (whole, busy) in taken.items():
    print(f"| {case} | {whole:.1f} | {busy:.1f} |")
print(f"\na range within 100 ms: {'met' if all(busy <= 100 for _, busy in taken.values()) else 'NOT met'}")

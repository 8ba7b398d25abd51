"""Measures how cells are found over many kept loads. usage: measure_index.py FINDS PLAIN ROUNDS

A run keeps 1,000 loads and finds 10,000 cells, each in its load, TIMES times over. A case is the index or a plain walk, and loads
of ten different column sets or of one. What finding takes is what such a run takes longer than one that finds nothing, for
each time: the best of all rounds, of the time that the processor is busy.
"""
import os
import sys
import subprocess

LOADS, CELLS, TIMES = 1_000, 10_000, 20
# Each load, from 1 to the last, is found for as many cells.
SUM = CELLS // LOADS * LOADS * (LOADS + 1) // 2
MARK = 3
programs, rounds = dict(index=sys.argv[1], plain=sys.argv[2]), int(sys.argv[3])


def run(shelf, sets, times):
    with open("asked", "w") as it:
        it.write(f"{sets} {times} 0")
    with open("asked") as asked, open("told", "w") as told:
        ran = subprocess.Popen([programs[shelf]], stdin=asked, stdout=told)
        _, status, used = os.wait4(ran.pid, 0)
    ran.returncode = os.waitstatus_to_exitcode(status)
    with open("told") as told:
        text = told.read().strip()
    if ran.returncode or text != str(SUM * times):
        sys.exit(f"{shelf}, {sets} column sets, {times} times: status {ran.returncode}, {text}")
    return used.ru_utime + used.ru_stime


cases = [(shelf, sets) for sets in (10, 1) for shelf in ("index", "plain")]
without = dict.fromkeys(cases, float("inf"))
with_finds = dict(without)
for _ in range(rounds):
    for case in cases:
        without[case] = min(without[case], run(*case, 0))
        with_finds[case] = min(with_finds[case], run(*case, TIMES))
taken = {case: max((with_finds[case] - without[case]) / TIMES, 1e-9) for case in cases}

print(f"{len(os.sched_getaffinity(0))} cores, best of {rounds} rounds\n")
print(f"| {CELLS:,} cells over {LOADS:,} loads | index ms | plain ms | plain / index |\n|---|---|---|---|")
for sets, name in ((10, "ten column sets"), (1, "one column set")):
    index, plain = taken["index", sets], taken["plain", sets]
    print(f"| {name} | {index * 1e3:.1f} | {plain * 1e3:.1f} | {plain / index:.2f} |")
met = taken["plain", 10] >= MARK * taken["index", 10]
print(f"\nmark: the index is at least {MARK} times as fast with ten column sets: {'met' if met else 'NOT MET'}")

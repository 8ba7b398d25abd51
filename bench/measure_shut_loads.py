"""Measures flushes over many kept loads, and tests one that finds no memory. usage: measure_shut_loads.py OLAPD PLAYS FAILING ROUNDS

A session makes LOADS loads, each after a flush, and one makes as many flushes more: a flush takes what the second takes longer than
the first, for each of them. Told are the best of all rounds, and the most memory that a session held. Then each allocation of a
flush of three kept loads and one in flight fails, one at a time.
"""
import os
import struct
import subprocess
import sys

LOADS = 1_000
olapd, plays, failing, rounds = *sys.argv[1:4], int(sys.argv[4])
FLUSH = "FLUSH [Sales] MEASURES\n"
QUERY = "MDX SELECT {[Measures].[Units]} ON COLUMNS FROM [Sales]\n"


def run(more):
    with open("asked", "w") as it:
        it.write((FLUSH + QUERY) * LOADS + FLUSH * more)
    with open("asked") as asked, open("told", "w") as told:
        ran = subprocess.Popen([olapd, "run", "--schema", "sales.json"], stdin=asked, stdout=told)
        _, status, used = os.wait4(ran.pid, 0)
    ran.returncode = os.waitstatus_to_exitcode(status)
    with open("told") as told:
        lines = told.read().splitlines()
    # An append, then for each load a flush, a Start, a Done and an answer.
    last = f"FLUSHED {1 + 4 * LOADS + more}" if more else "."
    grids = sum(line.startswith("GRID ") for line in lines)
    if ran.returncode or grids != LOADS or lines[-1] != last:
        sys.exit(f"{more} flushes more: status {ran.returncode}, {grids} grids, {lines[-1:]}")
    return used.ru_utime + used.ru_stime, used.ru_maxrss


taken = {more: min(run(more) for _ in range(rounds)) for more in (0, LOADS)}
print(f"{len(os.sched_getaffinity(0))} cores, best of {rounds} rounds\n")
print(f"| {LOADS:,} loads | busy ms | MB |\n|---|---|---|")
for more, (busy, held) in taken.items():
    print(f"| each after a flush, and {more:,} flushes more | {busy * 1e3:.0f} | {held / 1024:.1f} |")
print(f"\na flush over {LOADS:,} kept loads: {(taken[LOADS][0] - taken[0][0]) / LOADS * 1e6:.0f} microseconds")

FLUSHED = "flush 3 [Sales]MEASURES"
LOOKED = "look 4 0:0=0 1:0=0 0:2=0 1:2=0"
with open("plays/flush.txt", "w") as it:
    it.write(f"""== calls 100: a flush
append 1 sales.csv => version 1 at 1
look 1 0:0=0 1:0=0 0:2=0 => loading
deliver 0 => ended
deliver 0 => ended
deliver 0 => ended
look 2 1:2=0 => loading
{FLUSHED} => entry 9
deliver 0 => ended
{LOOKED} => loading
entries => 18
""")
KEPT = "answer 10: Whole(15) of 1 Whole(3) of 1 Whole(15) of 1 Whole(3) of 1"
RIGHT = {
    "ok a flush": "flushed",
    f"a flush:\n{FLUSHED} => no memory, not entry 9\n{LOOKED} => {KEPT}, not loading\nentries => 10, not 18": "refused, and nothing changed",
}
counts = dict.fromkeys([*RIGHT.values(), "no memory before the flush, or after it"], 0)
wrong = at = 0
while True:
    at += 1
    with open("count", "wb") as out:
        out.write(bytes(8))
    ran = subprocess.run([plays, "flush.txt"], cwd="plays", stdin=subprocess.DEVNULL, capture_output=True, text=True,
                         env={**os.environ, "LD_PRELOAD": failing, "FAIL_COUNT": os.path.abspath("count"), "FAIL_AT": str(at)})
    with open("count", "rb") as given:
        made = struct.unpack("<Q", given.read())[0]
    if made < at:
        break
    said = ran.stdout.strip()
    # The program itself may find no memory, so that a line is not read, or a call that is no flush.
    elsewhere = "\n" not in said or any(
        "memory" in line and not line.startswith(FLUSHED) for line in said.splitlines())
    if said in RIGHT:
        counts[RIGHT[said]] += 1
    elif elsewhere:
        counts["no memory before the flush, or after it"] += 1
    else:
        wrong += 1
        print(f"allocation {at}: status {ran.returncode}, {said}")
print(f"\n{at - 1} allocations, each failed once:")
for what, many in counts.items():
    print(f"- {what}: {many}")
print(f"- went wrong: {wrong}")
sys.exit(1 if wrong or not counts["refused, and nothing changed"] else 0)

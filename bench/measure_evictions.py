"""Counts what evictions take. usage: measure_evictions.py FINDS PLAIN

A run keeps 1,000 loads of one group and ten column sets, and takes the oldest 500 out, one after another. What this takes is the
instructions of the function that does it and of what it calls, counted by valgrind's callgrind. The loads' memory is given back in it.
"""
import re
import subprocess
import sys
import tempfile

EVICTIONS = 500
SUM = EVICTIONS * (EVICTIONS + 1) // 2
MARK = 2


def counted(program, text, name):
    """The instructions of a function, by a part of its name, and of what it calls."""
    with tempfile.NamedTemporaryFile() as file:
        words = ["valgrind", "--tool=callgrind", f"--callgrind-out-file={file.name}", program]
        ran = subprocess.run(words, input=text, capture_output=True, text=True)
        if ran.returncode or ran.stdout.strip() != str(SUM):
            sys.exit(f"{program}: status {ran.returncode}, {ran.stdout} {ran.stderr}")
        words = ["callgrind_annotate", "--inclusive=yes", "--threshold=100", file.name]
        table = subprocess.run(words, capture_output=True, text=True, check=True).stdout
    found = re.findall(rf"^ *([\d,]+) \([ \d.]+%\)  \S+::{name}\b", table, re.M)
    if len(found) != 1:
        sys.exit(f"{program}: the function {name} is not told once, but in {found}")
    return int(found[0].replace(",", ""))


finds, plain = sys.argv[1:]
by_index = counted(finds, f"10 0 {EVICTIONS}", "evict")
by_map = counted(finds, f"10 map {EVICTIONS}", "take_out")
by_plain = counted(plain, f"{EVICTIONS}", "evict")
print(f"| {EVICTIONS} of 1,000 loads go | instructions each | index / this |\n|---|---|---|")
for name, all_of_them in (("index", by_index), ("map of the same loads", by_map), ("map of plain Rust", by_plain)):
    print(f"| {name} | {all_of_them / EVICTIONS:.0f} | {by_index / all_of_them:.2f} |")
print(f"\nmark: evictions take at most {MARK} times as long as the removal of the same loads from a map: {'met' if by_index <= MARK * by_map else 'NOT MET'}")

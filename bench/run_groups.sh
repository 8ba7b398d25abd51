#!/usr/bin/env bash
# Measures grids over 1,000,000 rows of 100,000 groups: `olapd run` beside a plain Rust program and sqlite3. README.md says what it
# prints.
# usage: bench/run_groups.sh [ROUNDS]   (5, if not given; OLAPD names another olapd)
source "$(dirname "$0")/begin.sh" plain_groups
python3 "$here/measure_groups.py" "$olapd" ./plain "${1:-5}"

#!/usr/bin/env bash
# Measures grids of ten measures by all cities: `olapd run` beside a plain Rust program and sqlite3. README.md says what it
# prints.
# usage: bench/run_grids.sh [ROUNDS]   (5, if not given; OLAPD names another olapd)
source "$(dirname "$0")/begin.sh" plain_grids
python3 "$here/measure_grids.py" "$olapd" ./plain "${1:-5}"

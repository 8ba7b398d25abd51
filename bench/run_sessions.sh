#!/usr/bin/env bash
# Measures `olapd run` beside a plain Rust program and sqlite3, over 100,000 and 1,000,000 fact rows. README.md says what
# it prints.
# usage: bench/run_sessions.sh [ROUNDS]   (5, if not given; OLAPD names another olapd)
source "$(dirname "$0")/begin.sh" plain_sales
python3 "$here/sales.py" 100000 small
python3 "$here/sales.py" 1000000 large
python3 "$here/measure_run.py" "$olapd" ./plain "${1:-5}"

#!/usr/bin/env bash
# Measures flushes in sessions: `olapd run` beside a plain Rust program and the sqlite3 of Python. README.md says what it prints.
# usage: bench/run_flushes.sh [ROUNDS]   (5, if not given; OLAPD names another olapd)
source "$(dirname "$0")/begin.sh" plain_flushes
python3 "$here/measure_flushes.py" "$olapd" ./plain "${1:-5}"

#!/usr/bin/env bash
# Measures olapd beside a plain Rust program and sqlite3, over files of 1,000,000 records. README.md says what it prints.
# usage: bench/run.sh [ROUNDS]   (7, if not given; OLAPD names another olapd)
source "$(dirname "$0")/begin.sh" plain
python3 "$here/rows.py" 1000000
python3 "$here/measure.py" "$olapd" ./plain "${1:-7}"

#!/usr/bin/env bash
# Measures cells that are rolled up from a kept load of 100,000 groups: `olapd run` beside a plain Rust program. README.md says what it
# prints.
# usage: bench/run_rollup.sh [ROUNDS]   (5, if not given; OLAPD names another olapd)
source "$(dirname "$0")/begin.sh" plain_groups
python3 "$here/measure_rollup.py" "$olapd" ./plain "${1:-5}"

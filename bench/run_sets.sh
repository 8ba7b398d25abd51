#!/usr/bin/env bash
# Measures grids of eleven measures by the members of all levels of three hierarchies, whose cells are of 297 groups. README.md says
# what it prints.
# usage: bench/run_sets.sh [ROUNDS]   (5, if not given; OLAPD names another olapd)
source "$(dirname "$0")/begin.sh" ""
python3 "$here/measure_sets.py" "$olapd" "${1:-5}"

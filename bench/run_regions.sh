#!/usr/bin/env bash
# Measures flushes of ranges over 100,000 members. README.md says what it prints.
# usage: bench/run_regions.sh [ROUNDS]   (5, if not given; OLAPD names another olapd)
source "$(dirname "$0")/begin.sh" ""
python3 "$here/measure_regions.py" "$olapd" "${1:-5}"

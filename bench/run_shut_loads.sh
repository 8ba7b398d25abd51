#!/usr/bin/env bash
# Measures flushes over many kept loads, and lets each allocation of a flush fail, one at a time. README.md says what it prints.
# It needs the built programs `olapd` and `play_cases`, and a C compiler.
# usage: bench/run_shut_loads.sh [ROUNDS]   (5, if not given; OLAPD and PLAY_CASES name other programs, CC another compiler)
source "$(dirname "$0")/begin.sh" ""
plays=$(realpath -m "${PLAY_CASES:-$here/../crates/play_cases/out/play_cases}")
[ -x "$plays" ] || { echo "no program $plays: run 'rt run' in crates/play_cases" >&2; exit 1; }
"${CC:-cc}" -O2 -Wall -shared -fPIC -o failing.so "$here/failing.c"
cp "$here"/../examples/sales/*.csv "$here"/../examples/sales/*.json .
mkdir plays
cp "$here"/../crates/play_cases/data/*.csv "$here"/../crates/play_cases/data/*.json plays
python3 "$here/measure_shut_loads.py" "$olapd" "$plays" "$folder/failing.so" "${1:-5}"

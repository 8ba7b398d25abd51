#!/usr/bin/env bash
# Measures how much memory an answer of 100,000 cells of three columns takes in the history of a session. README.md says what it prints.
# usage: bench/run_answers.sh   (OLAPD names another olapd)
source "$(dirname "$0")/begin.sh" ""
python3 "$here/measure_answers.py" "$olapd"

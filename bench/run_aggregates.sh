#!/usr/bin/env bash
# Measures aggregate tables over 1,000,000 fact rows, built and checked, beside a plain Rust program and sqlite3; and loads from them, beside
# loads from the facts. README.md says what it prints.
# usage: bench/run_aggregates.sh [ROUNDS]   (5, if not given)
set -euo pipefail
here=$(cd "$(dirname "${BASH_SOURCE[0]}")" && pwd)
source "$here/parts.sh"
folder=$(mktemp -d)
trap 'rm -rf "$folder"' EXIT
cp "$here/../HANDLES" "$here/../LICENSE" "$here/../crates.txt" "$folder"
mkdir "$folder/crates"
cp -r "$here/../crates/." "$folder/crates"
copy_parts opened measured
copy_parts aggregates measured
echo "measured: olap_meaning catalog_tables olap_catalog cube_schema dim_tables fact_rows segment_header segment_body measure_folds fact_reader fact_versions agg_tables segment_load" >> "$folder/crates.txt"
cd "$folder/crates/measured"
rt run < /dev/null > "$folder/log" 2>&1 || { cat "$folder/log"; exit 1; }
rustc -O --edition 2021 "$here/plain_aggregates.rs" -o "$folder/plain"
cd "$folder"
python3 "$here/measure_aggregates.py" "$folder/crates/measured/out/measured" ./plain "${1:-5}"

#!/usr/bin/env bash
# Counts what it takes to evict the oldest 500 of 1,000 kept loads, by the index, from a map of the same loads and from one of plain Rust. README.md says what it prints.
# usage: bench/run_evictions.sh
set -euo pipefail
here=$(cd "$(dirname "${BASH_SOURCE[0]}")" && pwd)
source "$here/parts.sh"
folder=$(mktemp -d)
trap 'rm -rf "$folder"' EXIT
cp "$here/../HANDLES" "$here/../LICENSE" "$here/../crates.txt" "$folder"
mkdir "$folder/crates"
cp -r "$here/../crates/." "$folder/crates"
copy_parts index finds
echo "finds: olap_meaning catalog_tables olap_catalog cube_schema dim_tables segment_header segment_body cache_flush segment_index indexmap" >> "$folder/crates.txt"
rustc -O --edition 2021 "$here/plain_evictions.rs" -o "$folder/plain"
cd "$folder/crates/finds"
echo "10 0 0" | rt run > "$folder/log" 2>&1 || { cat "$folder/log"; exit 1; }
cd "$folder"
python3 "$here/measure_evictions.py" "$folder/crates/finds/out/finds" "$folder/plain"

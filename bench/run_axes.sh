#!/usr/bin/env bash
# Measures how long the meaning of a query takes over a dimension of 1,000,000 records, and what a catalog of them takes. README.md says
# what it prints.
# usage: bench/run_axes.sh [ROUNDS]   (5, if not given)
set -euo pipefail
here=$(cd "$(dirname "${BASH_SOURCE[0]}")" && pwd)
source "$here/parts.sh"
folder=$(mktemp -d)
trap 'rm -rf "$folder"' EXIT
cp "$here/../HANDLES" "$here/../LICENSE" "$here/../crates.txt" "$folder"
mkdir "$folder/crates"
cp -r "$here/../crates/." "$folder/crates"
copy_parts opened measured
copy_parts axes measured
echo "measured: olap_meaning catalog_tables olap_catalog cube_schema dim_tables mdx_reader cell_request" >> "$folder/crates.txt"
cd "$folder/crates/measured"
rt run < /dev/null > "$folder/log" 2>&1 || { cat "$folder/log"; exit 1; }
python3 "$here/axes.py" "$PWD/out/measured" "${1:-5}"

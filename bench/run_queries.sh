#!/usr/bin/env bash
# Measures how long the longest line takes to be read as a query. README.md says what it prints.
# usage: bench/run_queries.sh [ROUNDS]   (5, if not given)
set -euo pipefail
here=$(cd "$(dirname "${BASH_SOURCE[0]}")" && pwd)
folder=$(mktemp -d)
trap 'rm -rf "$folder"' EXIT
mkdir -p "$folder/crates/queries/src"
cp "$here/../HANDLES" "$here/../LICENSE" "$folder"
for crate in olap_meaning query_meaning text_forms mdx_reader; do
    cp -r "$here/../crates/$crate" "$folder/crates"
    grep "^$crate:" "$here/../crates.txt" >> "$folder/crates.txt"
done
echo "queries: mdx_reader" >> "$folder/crates.txt"
cat > "$folder/crates/queries/src/main.rt" <<'END'
//! Reads its input as a query, a hundred times.
#![tactic(auto)]

use mdx_reader::read_query;
use std::alloc::Global;
use std::io::Read;

fn is_query(alloc: Global, text: &str) -> bool {
    if text.len() >= 4_294_967_296 {
        return false;
    }
    read_query(alloc, text).is_ok()
}

fn main(rt: HostRuntime) {
    let alloc = rt.alloc();
    let mut input = rt.stdin();
    let mut text = String::new(alloc);
    let _ = input.read_to_string(&mut text);
    let mut all = true;
    for _ in 0..100 {
        all = is_query(alloc, text.as_str()) && all;
    }
    let _ = println!(rt; "{}", all);
}
END
cd "$folder/crates/queries"
rt run < /dev/null > "$folder/log" 2>&1 || { cat "$folder/log"; exit 1; }
python3 "$here/queries.py" "$PWD/out/queries" "${1:-5}"

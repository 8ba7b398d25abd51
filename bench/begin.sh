# Sourced by the other scripts: compiles the plain program of the given name, if it is not empty, finds olapd, and goes to a folder
# of its own, which is removed at the end.
set -euo pipefail
here=$(cd "$(dirname "${BASH_SOURCE[0]}")" && pwd)
folder=$(mktemp -d)
trap 'rm -rf "$folder"' EXIT
[ -z "$1" ] || rustc -O --edition 2021 "$here/$1.rs" -o "$folder/plain"
olapd=$(realpath -m "${OLAPD:-$here/../crates/olapd/out/olapd}")
[ -x "$olapd" ] || { echo "no program $olapd: run 'rt run' in crates/olapd" >&2; exit 1; }
cd "$folder"

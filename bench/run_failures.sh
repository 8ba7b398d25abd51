#!/usr/bin/env bash
# Lets each allocation of a session of `olapd run` fail, one at a time, and tests what the session then answers. README.md says
# what it prints. It needs a C compiler.
# usage: bench/run_failures.sh   (OLAPD names another olapd, CC another compiler)
source "$(dirname "$0")/begin.sh" ''
"${CC:-cc}" -O2 -Wall -shared -fPIC -o failing.so "$here/failing.c"
cp "$here"/../examples/sales/* .
python3 "$here/failures.py" "$olapd" "$PWD/failing.so"

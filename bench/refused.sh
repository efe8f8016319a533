#!/usr/bin/env bash
# Refuses the program memory: plays small evenings, and serves one, over and over, and in the k-th run the k-th allocation finds none, for
# each k up to a run that asks no more. In the same way each receive and each send of a server fails. What has to hold of each run stands in
# bench/refused.py.
#   bench/refused.sh [PROGRAM]
# PROGRAM is crates/tabletop/out/tabletop unless given. It needs a C compiler (CC, else cc) and Python 3.
set -eu
bench=$(cd "$(dirname "$0")" && pwd)
program=${1:-$bench/../crates/tabletop/out/tabletop}
if [ ! -x "$program" ]; then
    echo "bench/refused.sh: no program at $program; ./tabletop builds it" >&2
    exit 2
fi
work=$(mktemp -d)
trap 'rm -rf "$work"' EXIT
"${CC:-cc}" -O1 -shared -fPIC -o "$work/refuse.so" "$bench/refuse.c" -ldl
python3 -B "$bench/refused.py" "$program" "$work"

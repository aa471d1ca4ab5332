#!/usr/bin/env bash
# Times the parts of an answer on the types of gate.py: both sides compiled, the table of bounds, the whole search, and the path to its
# witness; first of 512 types, then of 4,096.
# usage: bench/search.sh [FOLDER]    FOLDER keeps the built program for the next run.
set -eu
top=$(cd "$(dirname "$0")/.." && pwd)
work=${1:-$(mktemp -d)}
. "$top/bench/build.sh"
build_bench "$top" "$work" search_time search_main.rt.txt "pg_cert pg_check pg_least pg_link pg_pairs pg_schema"
for types in 512 4096; do
    python3 "$top/bench/inputs/gate.py" "$work/types_$types" "$types"
    for kind in graph chain front circle mesh; do
        echo "$kind of $types:"
        "$work/crates/search_time/out/search_time" "$work/types_$types/$kind"
    done
done

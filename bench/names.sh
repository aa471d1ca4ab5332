#!/usr/bin/env bash
# Times linking of one file of 300 KB with nested messages of long names, beside protoc on the same file.
# Each name is kept in full, and so costs the length of those around it; protoc does the same.
# usage: bench/names.sh [FOLDER]    FOLDER keeps the built program for the next run, also that of bench/link.sh.
set -eu
top=$(cd "$(dirname "$0")/.." && pwd)
work=${1:-$(mktemp -d)}
. "$top/bench/build.sh"
[ -x "$work/crates/link_time/out/link_time" ] || build_bench "$top" "$work" link_time link_main.rt.txt "pg_link"
python3 "$top/bench/inputs/names.py" "$work/names"
cd "$work/names"
python3 "$top/bench/timed.py" 10 "$work/crates/link_time/out/link_time" "$work/names" -- protoc --descriptor_set_out=../names.bin f1023.proto

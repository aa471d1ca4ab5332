#!/usr/bin/env bash
# Times linking of 1,024 files with 4,096 message types and 50,000 uses of them, beside protoc on the same files.
# usage: bench/link.sh [FOLDER]    FOLDER keeps the built program for the next run.
set -eu
top=$(cd "$(dirname "$0")/.." && pwd)
work=${1:-$(mktemp -d)}
. "$top/bench/build.sh"
build_bench "$top" "$work" link_time link_main.rt.txt "pg_link"
python3 "$top/bench/inputs/link.py" "$work/files"
cd "$work/files"
python3 "$top/bench/timed.py" 10 "$work/crates/link_time/out/link_time" "$work/files" -- protoc --descriptor_set_out=../link.bin f1023.proto
# What `link` alone takes, by its own clock: the process above also makes room for the program and drops the trees.
for _ in $(seq 10); do "$work/crates/link_time/out/link_time" "$work/files"; done | sort -k2n | head -1

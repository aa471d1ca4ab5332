#!/usr/bin/env bash
# Times a file of 4,096 message types with 15 fields each, from its bytes to a checked schema, beside protoc on the same file; then files
# with bodies of 1,000 and of 10,000 fields, members, maps, values and a tenth as many reserved ranges, of which the second should take ten
# times as long as the first.
# usage: bench/rules.sh [FOLDER]    FOLDER keeps the built program for the next run.
set -eu
top=$(cd "$(dirname "$0")/.." && pwd)
work=${1:-$(mktemp -d)}
. "$top/bench/build.sh"
build_bench "$top" "$work" rules_time rules_main.rt.txt "pg_check pg_link"
python3 "$top/bench/inputs/rules.py" "$work/files"
cd "$work/files"
ls -l m.proto
python3 "$top/bench/timed.py" 10 "$work/crates/rules_time/out/rules_time" "$work/files" -- protoc --descriptor_set_out=../rules.bin m.proto
for count in 1000 10000; do
    python3 "$top/bench/inputs/rules.py" "$work/large_$count" "$count"
    echo "bodies of $count:"
    "$work/crates/rules_time/out/rules_time" "$work/large_$count"
done

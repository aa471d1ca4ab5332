#!/usr/bin/env bash
# Times decode of messages of 1,000 and of 10,000 fields, after which 100,000 records alternate between the members of a oneof: next to
# each other, around all other fields, in a oneof for each two fields, and the first two again in a child that comes in pieces, one record
# in each. The number of fields should make little difference. Then it times such a child in which a field is a zero or a number by turns,
# fields that come by falling number, and the third kind's fields in such a child: these take time by the fields.
# usage: bench/oneofs.sh [FOLDER]    FOLDER keeps the built program for the next run.
set -eu
top=$(cd "$(dirname "$0")/.." && pwd)
work=${1:-$(mktemp -d)}
. "$top/bench/build.sh"
build_bench "$top" "$work" oneofs oneofs_main.rt.txt "pg_wire pg_schema pg_dyn anyhow"
for kind in 1 2 3 4 5 6 7 8; do
    for count in 1000 10000; do
        "$work/crates/oneofs/out/oneofs" "$kind" "$count" 100000
    done
done

#!/usr/bin/env bash
# Times decode of maps of 10,000, 30,000 and 100,000 entries: with rising keys, falling ones, keys all about, falling ones in two maps
# by turns, and two keys by turns. A hundred thousand should take some ten times as long as ten thousand. Then it times maps in a
# child: one whose entries each have a record of their own, with falling keys and with rising ones, and one with a record for every 17
# entries, with falling keys. Twice as many should take some twice as long.
# usage: bench/maps.sh [FOLDER]    FOLDER keeps the built program for the next run.
set -eu
top=$(cd "$(dirname "$0")/.." && pwd)
work=${1:-$(mktemp -d)}
. "$top/bench/build.sh"
build_bench "$top" "$work" maps maps_main.rt.txt "pg_wire pg_schema pg_dyn anyhow"
for kind in 1 2 3 4 5; do
    for count in 10000 30000 100000; do
        "$work/crates/maps/out/maps" "$kind" "$count"
    done
done
for kind in 6 7 8; do
    for count in 10000 20000; do
        "$work/crates/maps/out/maps" "$kind" "$count"
    done
done

#!/usr/bin/env bash
# Times decode, decode_ref, encode and encode_ref of messages of codec.proto, from 81 bytes to 10 MB, beside C++ DynamicMessage, with and
# without an arena, and python3-protobuf. Then each of our times divided by that of the fastest of these, and the memory that reading the
# lists of 10 MB takes.
# usage: bench/codec.sh [FOLDER]    FOLDER keeps the built program for the next run.
# Wants Debian's libprotobuf-dev, protobuf-compiler, python3-protobuf and g++.
set -eu
top=$(cd "$(dirname "$0")/.." && pwd)
work=${1:-$(mktemp -d)}
. "$top/bench/build.sh"
build_bench "$top" "$work" codec_time codec_main.rt.txt "pg_schema pg_dyn pg_link pg_check anyhow"
g++ -O2 -o "$work/codec" "$top/bench/programs/codec.cc" -lprotobuf -lpthread
protoc --proto_path="$top/bench/inputs" --descriptor_set_out="$work/codec.pb" codec.proto
mkdir -p "$work/files"
/usr/bin/python3 "$top/bench/programs/codec.py" write "$work/codec.pb" "$work/files"
{
    "$work/crates/codec_time/out/codec_time" "$top/bench/inputs" "$work"/files/*.bin
    "$work/codec" "$work/codec.pb" "$work"/files/*.bin
    /usr/bin/python3 "$top/bench/programs/codec.py" time "$work/codec.pb" "$work"/files/*.bin
} | tee "$work/times.txt"
python3 "$top/bench/codec_ratios.py" < "$work/times.txt"
for list in "$work/files/List.list10.bin" "$work/files/Packed.packed.bin"; do
    echo "memory of reading $(basename "$list"): $(stat -c %s "$list") bytes"
    python3 "$top/bench/timed.py" 5 "$work/crates/codec_time/out/codec_time" lend "$top/bench/inputs" "$list" -- \
        "$work/crates/codec_time/out/codec_time" read "$top/bench/inputs" "$list" -- \
        "$work/codec" "$work/codec.pb" arena "$list" -- "$work/codec" "$work/codec.pb" read "$list"
done

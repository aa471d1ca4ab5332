#!/usr/bin/env bash
# Times the lexer and the parser on a source file of 4 MB, beside protoc on the same file.
# usage: bench/source_file.sh [FOLDER]    FOLDER keeps the built program for the next run.
set -eu
top=$(cd "$(dirname "$0")/.." && pwd)
work=${1:-$(mktemp -d)}
. "$top/bench/build.sh"
build_bench "$top" "$work" text_time source_file_main.rt.txt "pg_lex pg_syntax"
python3 "$top/bench/inputs/source_file.py" 4190000 > "$work/text.proto"
for turn in 1 2 3 4 5; do
    "$work/crates/text_time/out/text_time" "$work/text.proto"
done
cd "$work"
echo "protoc --descriptor_set_out:"
time protoc --descriptor_set_out=text.bin text.proto

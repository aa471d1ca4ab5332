#!/usr/bin/env bash
# Times `protogate compile` of a source file of 4 MB, with comments and without, and of 1,024 files, and `protogate gate` on that file's set
# as both sides, beside protoc: compiling the same files, and reading and writing the same set twice. Then it times a quarter of the types
# and of the files: four times as many should take some four times as long.
# usage: bench/sets.sh [FOLDER]
set -eu
top=$(cd "$(dirname "$0")/.." && pwd)
work=${1:-$(mktemp -d)}
mkdir -p "$work"
# The program with large pages and without fast bins, as the script at the top starts it.
protogate="$work/protogate"
printf '#!/bin/sh\nGLIBC_TUNABLES=glibc.malloc.hugetlb=1:glibc.malloc.mxfast=0 exec "%s" "$@"\n' "$top/crates/protogate/out/protogate" > "$protogate"
chmod 755 "$protogate"
python3 "$top/bench/inputs/sets.py" "$work/text.proto"
python3 "$top/bench/inputs/sets.py" "$work/bare.proto" 3700 bare
python3 "$top/bench/inputs/sets.py" "$work/quarter.proto" 925
python3 "$top/bench/inputs/link.py" "$work/files"
python3 "$top/bench/inputs/link.py" "$work/fewer" 256
PROTOGATE_PROVED_ONLY=1 "$top/protogate" --help > "$work/help.txt" || [ $? -eq 4 ]

# compile FOLDER FILE WHAT
compile() {
    echo "compile $2: $3"
    (cd "$work/$1" && python3 "$top/bench/timed.py" 5 "$protogate" compile "$2" -- \
        protoc --include_imports --descriptor_set_out=/dev/null "$2")
}

# gate NAME: the set of NAME.proto as both sides
gate() {
    protoc --include_imports --descriptor_set_out="$1.bin" "$1.proto"
    echo "gate $1.bin: $(stat -c %s "$1.bin") bytes a side"
    python3 "$top/bench/timed.py" 5 "$protogate" gate --old "$1.bin" --new "$1.bin" --type bench.items.Item0 -- \
        sh -c "protoc --descriptor_set_in=$1.bin --descriptor_set_out=of_protoc.bin $1.proto && protoc --descriptor_set_in=$1.bin --descriptor_set_out=of_protoc.bin $1.proto"
}

cd "$work"
for text in text bare quarter; do
    compile . $text.proto "$(stat -c %s $text.proto) bytes"
done
compile files f1023.proto "1024 files"
compile fewer f255.proto "256 files"
gate text
gate quarter

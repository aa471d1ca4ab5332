#!/usr/bin/env bash
# Times `protogate gate-all` on whole repositories, beside protoc compiling both sides with all that they import, and on a quarter of each:
# 1,024 files with 4,096 types, one file with 4,095 types, 4,096 types in a circle, one type of 24,000 fields that come into one oneof, and a
# package of Debian where it is installed (libignition-msgs-dev, 186 files). In each other one field of one type changes. Then `examples/ci/gate.sh` on the 1,024 files, git included.
# The goals: gate-all at most 0.35 of protoc's time in each, its memory at most protoc's; gate.sh at most 1.0 of protoc's time; the whole at
# most 5 times as long as a quarter.
# usage: bench/repository.sh [FOLDER]
set -eu
top=$(cd "$(dirname "$0")/.." && pwd)
work=${1:-$(mktemp -d)}
mkdir -p "$work"
# The program with large pages and without fast bins, as the script at the top starts it.
protogate="$work/protogate"
printf '#!/bin/sh\nGLIBC_TUNABLES=glibc.malloc.hugetlb=1:glibc.malloc.mxfast=0 exec "%s" "$@"\n' "$top/crates/protogate/out/protogate" > "$protogate"
chmod 755 "$protogate"
PROTOGATE_PROVED_ONLY=1 "$top/protogate" --help > "$work/help.txt" || [ $? -eq 4 ]

# make_files NAME FILES: so many files in NAME/old and NAME/new. The first type of the first file, to which all others lead, changes.
make_files() {
    rm -rf "${work:?}/$1"
    python3 "$top/bench/inputs/link.py" "$work/$1/old" "$2"
    cp -R "$work/$1/old" "$work/$1/new"
    sed -i 's/^message Type0_0 {$/&\n  uint32 changed = 1000;/' "$work/$1/old/f0.proto"
    sed -i 's/^message Type0_0 {$/&\n  int32 changed = 1000;/' "$work/$1/new/f0.proto"
}

# make_one NAME KIND TYPES: a kind of bench/inputs/gate.py with so many types, as one file in NAME/old and NAME/new.
make_one() {
    python3 "$top/bench/inputs/gate.py" "$work/made" "$3"
    for side in old new; do
        rm -rf "${work:?}/$1/$side"
        mkdir -p "$work/$1/$side"
        cp "$work/made/$2/$side.proto" "$work/$1/$side/m.proto"
    done
}

# Copies the package's files to ignition/old and ignition/new, where the seconds of a time have another type, and fails where it isn't there.
make_package() {
    local folder
    folder=$(dpkg -L libignition-msgs-dev 2>/dev/null | sed -n 's,/ignition/msgs/time\.proto$,,p')
    [ -n "$folder" ] || return
    for side in old new; do
        rm -rf "${work:?}/ignition/$side"
        mkdir -p "$work/ignition/$side/ignition"
        cp -R "$folder/ignition/msgs" "$work/ignition/$side/ignition"
        find "$work/ignition/$side" -type f ! -name '*.proto' -delete
    done
    sed -i 's/int64 sec /int32 sec /' "$work/ignition/new/ignition/msgs/time.proto"
}

# Sets `call` to the words that gate all files below NAME/old and NAME/new, and `peer` to what compiles them.
words_of() {
    local names
    names=$(cd "$work/$1/old" && find . -name '*.proto' | sed 's,^\./,,' | sort)
    call="$protogate gate-all --old-dir $1/old --new-dir $1/new $(echo "$names" | sed 's/.*/--old=& --new=&/' | tr '\n' ' ')"
    peer=$(for side in old new; do echo "cd $work/$1/$side && protoc --include_imports --descriptor_set_out=/dev/null" $names; done)
}

# compare NAME WHAT
compare() {
    words_of "$1"
    echo "gate-all: $2, beside protoc"
    python3 "$top/bench/timed.py" 5 $call -- sh -c "$peer"
}

# grow WHOLE QUARTER: the ratio after the first time is the growth.
grow() {
    local whole
    words_of "$1"
    whole=$call
    words_of "$2"
    echo "gate-all: $1, beside a quarter of it"
    python3 "$top/bench/timed.py" 5 $whole -- $call
}

# A repository with both sides of the 1,024 files, as `v1` and in its work tree.
make_repository() {
    rm -rf "$work/repository"
    mkdir -p "$work/repository"
    cp -R "$work/files/old" "$work/repository/proto"
    cd "$work/repository"
    git -c init.defaultBranch=main init -q
    git add proto
    git -c user.name=nobody -c user.email=nobody@localhost commit -q -m v1
    git tag v1
    cp "$work/files/new/f0.proto" proto/f0.proto
    cd "$work"
}

cd "$work"
make_files files 1024
make_files fewer_files 256
make_one graph graph 4095
make_one fewer_types graph 1024
make_one circle circle 4096
make_one smaller_circle circle 1024
make_one oneof wide 64
make_one smaller_oneof oneof 64
compare files "1,024 files with 4,096 types"
compare graph "one file with 4,095 types"
compare circle "4,096 types in a circle"
compare oneof "24,000 fields that come into one oneof"
compare smaller_oneof "6,000 fields that come into one oneof"
if make_package; then
    compare ignition "libignition-msgs-dev"
else
    echo "passed over, without the package: libignition-msgs-dev"
fi
grow files fewer_files
grow graph fewer_types
grow circle smaller_circle
grow oneof smaller_oneof
make_repository
words_of files
echo "gate.sh: 1,024 files with 4,096 types, git included, beside protoc"
cd "$work/repository"
PROTOGATE="$protogate" python3 "$top/bench/timed.py" 5 "$top/examples/ci/gate.sh" v1 proto -- sh -c "$peer"

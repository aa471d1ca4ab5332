#!/usr/bin/env bash
# How deep nested messages may be read, tested, written, copied and dropped on a stack of so many KiB: in fields, in lists and in maps; of
# how many nested types a set is written; how deep a witness `protogate gate` builds; and how deep a witness `protogate verify` reads, after
# its answer on the longest chain of types.
# usage: bench/depth.sh [FOLDER [KIB [KIND..]]]    FOLDER keeps the built program for the next run; by default the stack has 8,192 KiB.
# KIND is gate, verify, types, or CALLS:NEST; by default all. CALLS is own (messages that own their parts), lent (those that borrow them),
# relay, breaks, unshared (what another type lacks of a message) or written (a message beside its bytes), NEST is fields, lists or maps.
# PROTOGATE names the program that gate and verify run; by default it is built.
set -eu
top=$(cd "$(dirname "$0")/.." && pwd)
work=${1:-$(mktemp -d)}
mkdir -p "$work"
stack=${2:-8192}
shift $(($# < 2 ? $# : 2))
[ $# -gt 0 ] || set -- {own,lent,relay,breaks,unshared,written}:{fields,lists,maps} types gate verify
. "$top/bench/build.sh"
protogate=${PROTOGATE:-$top/crates/protogate/out/protogate}
case " $* " in
    *" gate "* | *" verify "*) [ -n "${PROTOGATE:-}" ] || PROTOGATE_PROVED_ONLY=1 "$top/protogate" --help > "$work/help.txt" || [ $? -eq 4 ] ;;
esac
case " $* " in
    *:* | *" types "*)
        build_bench "$top" "$work" depth depth_main.rt.txt "pg_lex pg_syntax pg_link pg_wire pg_schema pg_dyn pg_set pg_fds pg_pairs pg_gate anyhow"
        ;;
esac
ulimit -S -s "$stack"

# The number by which the program knows a nest.
number() {
    case $1 in fields) echo 1 ;; lists) echo 2 ;; maps) echo 3 ;; esac
}

# What is said last of a nest of the kind and as many levels.
last() {
    case $1 in
        types) "$work/crates/depth/out/depth" types 1 "$2" 2>&1 || true ;;
        *:*) "$work/crates/depth/out/depth" "${1%:*}" "$(number "${1#*:}")" "$2" 2>&1 || true ;;
        gate)
            python3 "$top/bench/inputs/circles.py" "$work/circles" "$2" > "$work/levels.txt"
            (cd "$work/circles" && "$protogate" gate --old old.proto --new new.proto --type T1 > said.txt 2>&1 || echo "status $?")
            ;;
        verify)
            python3 "$top/bench/inputs/nest.py" "$work/nest" "$2"
            (cd "$work/nest" && "$protogate" verify --old m.proto --new m.proto certificate.txt 2>&1 || true)
            ;;
    esac | tail -1
}

# What is said of a nest that is not too deep.
whole() {
    case $1 in gate) echo "status 1" ;; verify) echo "refused E807" ;; *) echo end ;; esac
}

# The gate's certificate of a chain of 4,096 types, the most that there may be, and what `verify` says of it.
chain() {
    python3 "$top/bench/inputs/gate.py" "$work"
    cd "$work/chain"
    "$protogate" gate --cert --old old.proto --new new.proto --type M0 > certificate.txt || true
    echo "a chain of 4,096 types: $("$protogate" verify --old old.proto --new new.proto certificate.txt || true)"
    cd "$top"
}

for kind in "$@"; do
    if [ "$kind" = verify ]; then chain; fi
    low=1 high=1000000
    while [ $((high - low)) -gt $((low / 200 + 1)) ]; do
        middle=$(((low + high) / 2))
        if [ "$(last "$kind" $middle)" = "$(whole "$kind")" ]; then low=$middle; else high=$middle; fi
    done
    said=$(last "$kind" $high)
    echo "$kind: $low levels; of $high the last step is: ${said:-none}"
done 2> /dev/null

#!/usr/bin/env bash
# Times `protogate gate` on types that refer to each other and on one large oneof, beside protoc compiling both sides. Then `gate` with its
# certificate, and `verify` of that certificate, on the graph and on one of a quarter of the types.
# usage: bench/gate.sh [FOLDER [TYPES]]
set -eu
top=$(cd "$(dirname "$0")/.." && pwd)
work=${1:-$(mktemp -d)}
types=${2:-4096}
python3 "$top/bench/inputs/gate.py" "$work" "$types"
python3 "$top/bench/inputs/gate.py" "$work/quarter" $((types / 4))
PROTOGATE_PROVED_ONLY=1 "$top/protogate" --help > "$work/help.txt" || [ $? -eq 4 ]
program="$top/crates/protogate/out/protogate"
cd "$work"
for kind in graph chain front circle mesh same oneof; do
    echo "$kind: $(stat -c %s $kind/old.proto) bytes a side"
    python3 "$top/bench/timed.py" 5 "$program" gate --old $kind/old.proto --new $kind/new.proto --type M0 -- \
        sh -c "protoc --descriptor_set_out=set.bin $kind/old.proto && protoc --descriptor_set_out=set.bin $kind/new.proto"
done
for kind in graph quarter/graph; do
    sides="--old $kind/old.proto --new $kind/new.proto"
    "$program" gate $sides --type M0 --cert > $kind/cert || true
    echo "$kind, with its certificate, and verify: $(stat -c %s $kind/old.proto) bytes a side, $(stat -c %s $kind/cert) of the certificate"
    python3 "$top/bench/timed.py" 5 "$program" gate $sides --type M0 --cert -- "$program" verify $sides $kind/cert -- \
        sh -c "protoc --descriptor_set_out=set.bin $kind/old.proto && protoc --descriptor_set_out=set.bin $kind/new.proto"
done

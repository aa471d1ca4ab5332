#!/usr/bin/env bash
# Times how long the program takes to start: to print its version, beside protoc, and to gate an example of a few lines, beside protoc
# compiling both sides. The version is also printed by the script that is installed, and by the one at the top, which looks whether a
# source changed.
# usage: bench/start.sh [FOLDER]
set -eu
top=$(cd "$(dirname "$0")/.." && pwd)
work=${1:-$(mktemp -d)}
"$top/tools/install.sh" "$work" >/dev/null
program=$work/libexec/protogate
cd "$top/examples"
python3 "$top/bench/timed.py" 50 "$program" --version -- "$work/bin/protogate" --version -- "$top/protogate" --version -- protoc --version
python3 "$top/bench/timed.py" 50 "$program" gate --old-dir old --new-dir new --old order.proto --new order.proto --type Order -- \
    sh -c "protoc -Iold --descriptor_set_out=/dev/null order.proto && protoc -Inew --descriptor_set_out=/dev/null order.proto"

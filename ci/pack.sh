#!/bin/sh
# Packs the gate into one file, which `python3 -I FILE` runs: pack.sh FILE. The same modules make the same bytes.
set -eu
here=$(CDPATH= cd -- "$(dirname -- "$0")" && pwd -P)
made=${1:?pack.sh FILE}
room=$(mktemp -d)
trap 'rm -rf -- "$room"' EXIT
mkdir -- "$room/gate" "$room/gate/protogate_ci" "$room/gate/protogate_ci/templates"
cp -- "$here/protogate_ci/"*.py "$room/gate/protogate_ci"
cp -- "$here/protogate_ci/templates/"* "$room/gate/protogate_ci/templates"
printf 'from protogate_ci.__main__ import start\nstart()\n' >"$room/gate/__main__.py"
find "$room/gate" -exec touch -d 2000-01-01T00:00:00Z -- {} +
python3 -I -m zipapp "$room/gate" --compress --python '/usr/bin/env -S python3 -I -B' --output "$room/packed"
chmod 755 -- "$room/packed"
mv -- "$room/packed" "$made"

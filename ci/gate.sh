#!/bin/sh
# Gates the message types of a repository: `gate.sh --help` says how.
# All it does is in the folder protogate_ci beside it, or in protogate-ci.pyz beside it, which pack.sh makes. Python takes no variable, no folder and
# no module of a user's own (-I), and finds those of this script's real folder. Where one is missing the status is 3: 1 says that a type breaks.
case $(command -v python3) in
    /*) ;;
    *)
        echo "gate.sh: there is no python3 in a folder of PATH that begins with /" >&2
        exit 127
        ;;
esac
exec python3 -I -B -c '
import os, sys
here = os.path.dirname(os.path.realpath(sys.argv.pop(1)))
packed = os.path.join(here, "protogate-ci.pyz")
sys.path.insert(0, packed if os.path.isfile(packed) else here)
try:
    from protogate_ci.__main__ import start
except BaseException as fault:
    os.write(2, ("gate.sh: what it starts cannot be read (" + str(fault) + ")" + os.linesep).encode("utf-8", "replace"))
    os._exit(3)
start()
' "$0" "$@"

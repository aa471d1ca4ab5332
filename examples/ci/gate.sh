#!/bin/sh
# Gates the message types of a folder against a revision of git: `gate.sh --help` says how.
# All it does is in gate.py and the modules beside it. Python takes no variable, no folder and no module of a user's own (-I), and finds those
# of this script's real folder. Where one is missing or broken the status is 3: 1 says that a type breaks.
case $(command -v python3) in
    /*) ;;
    *)
        echo "gate.sh: there is no python3 in a folder of PATH that begins with /" >&2
        exit 127
        ;;
esac
exec python3 -I -B -c '
import os, sys
sys.path.insert(0, os.path.dirname(os.path.realpath(sys.argv[1])))
try:
    from start import start
except BaseException as fault:
    os.write(2, ("gate.sh: start.py beside it cannot be read (" + str(fault) + ")" + os.linesep).encode("utf-8", "replace"))
    os._exit(3)
start("gate", "gate", sys.argv[2:])
' "$0" "$@"

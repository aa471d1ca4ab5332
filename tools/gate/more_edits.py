#!/usr/bin/env python3
"""Tries the edits of crates/NAME/more-edits, which the prover must refuse as it does those of must-fail, but which the gate leaves out for time.

usage: tools/gate/more_edits.py [CRATE..]    all crates that have some, where none is named

Works on a copy of the repository, over the libraries that earlier checks built in out/. The edits of a crate are tried a few in one check
(try_edits.py). Those that it can't try, since they turn more than bodies of functions, are tried by `rt must-fail` alone, which takes
minutes a crate.
"""

import glob
import os
import shutil
import subprocess
import sys
import tempfile

sys.dont_write_bytecode = True
from try_edits import plan  # noqa: E402

TOP = os.path.dirname(os.path.dirname(os.path.dirname(os.path.abspath(__file__))))
# So many edits are tried in one check.
MOST = 3


def take_more(copy, names):
    """Puts the further edits of these crates, or of all, in the place of those of the gate. Returns the crates that have some."""
    found = []
    for crate in sorted(glob.glob(f"{copy}/crates/*")):
        name = os.path.basename(crate)
        shutil.rmtree(f"{crate}/must-fail", ignore_errors=True)
        if glob.glob(f"{crate}/more-edits/*.edit") and name in (names or [name]):
            os.rename(f"{crate}/more-edits", f"{crate}/must-fail")
            found.append(name)
    return found


def left_of(copy, found):
    """Removes what try_edits.py tries, and returns the crates that have other edits."""
    for path in (path for it in plan(copy, found) for path in it.paths):
        os.remove(path)
    return [name for name in found if glob.glob(f"{copy}/crates/{name}/must-fail/*.edit")]


def main(names):
    with tempfile.TemporaryDirectory(prefix="more-edits-") as room:
        copy = f"{room}/repository"
        shutil.copytree(TOP, copy, ignore=shutil.ignore_patterns(".git", "incremental"), symlinks=True)
        subprocess.run(["git", "init", "-q", copy], check=True)
        found = take_more(copy, names)
        if not found:
            print("no such crate has more edits", file=sys.stderr)
            return 2
        status = subprocess.run([f"{copy}/tools/gate/try_edits.py", "--by", str(MOST), *found], cwd=copy, check=False).returncode
        left = left_of(copy, found)
        return max(status, subprocess.run(["rt", "must-fail", *left], cwd=copy, check=False).returncode if left else 0)


if __name__ == "__main__":
    sys.exit(main(sys.argv[1:]))

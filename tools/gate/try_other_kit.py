#!/usr/bin/env python3
"""Tries the gate and the build with another kit on the path, of which only what `rt help` documents is there (other_kit/rt).

usage: tools/gate/try_other_kit.py    a minute or two of one processor

Both are of a repository of three small crates. The gate runs over a library and its promises, with edits that each
have to be refused. The program that is built has to be there afterwards, with its stamp: of the time before the first check, and with the
line and the script of this kit.
"""

import os
import shutil
import subprocess
import sys
import tempfile

sys.dont_write_bytecode = True
import child_programs  # noqa: E402

TOP = os.path.dirname(os.path.dirname(os.path.dirname(os.path.realpath(__file__))))
# The crates that the gate is tried on: these, with as many edits.
TRIED, EDITS = ("low", "promises_low"), 3
LOW = """//! Half a number.
#![tactic(auto)]

ghost use Rattle.std.specs.Prelude.{◌≡◌, ◌/◌};

/// Half the number.
pub fn half(number: u8) -> u8
    ensures { result ≡ number / 2 }
{
    number / 2
}
"""
PROMISES = """//! The promise of `low`.
#![tactic(auto)]

ghost use Rattle.std.specs.Prelude.{◌≡◌, ◌/◌};

/// Half the number.
pub fn half(number: u8) -> u8
    ensures { result ≡ number / 2 }
{
    low::half(number)
}
"""
FILES = {
    "crates.txt": "low:\npromises_low: low\nprotogate: low\n",
    "HANDLES": "Handles allowed: none.\n",
    "crates/low/src/lib.rt": LOW,
    "crates/low/must-fail/a_third.edit": "file: src/lib.rt\nold:     number / 2\nnew:     number / 3\n",
    "crates/promises_low/src/lib.rt": PROMISES,
    "crates/promises_low/must-fail/a_quarter.edit": "file: src/lib.rt\nold: low::half(number)\nnew: low::half(number / 2)\n",
    "crates/promises_low/must-fail/no_half.edit": "file: src/lib.rt\nold: low::half(number)\nnew: number\n",
}
MAIN = """//! A program whose status is half of eight.
#![tactic(auto)]

use std::process::ExitCode;

fn main(_rt: HostRuntime) -> ExitCode {
    ExitCode::from(low::half(8))
}
"""


def write(path, text):
    os.makedirs(os.path.dirname(path), exist_ok=True)
    with open(path, "w", encoding="utf-8") as file:
        file.write(text)


def run(words, env):
    """Runs a command with the other kit on the path. Returns its status and what it said."""
    how = {"env": env, "stdin": subprocess.DEVNULL, "stdout": subprocess.PIPE, "stderr": subprocess.STDOUT, "text": True, "errors": "replace"}
    started = child_programs.start(words, **how)
    said = started.stdout.read()
    return child_programs.wait(started)[0], said


def make_repository(top):
    for path, text in {**FILES, "crates/protogate/src/main.rt": MAIN}.items():
        write(f"{top}/{path}", text)
    shutil.copytree(f"{TOP}/tools", f"{top}/tools", symlinks=True)
    subprocess.run(["git", "init", "-q", top], check=True)


def faults_of_gate(top, env):
    """Returns what is wrong with the gate of the small crates, one line each."""
    wanted = f"{len(TRIED) + EDITS} passed, 0 failed"
    status, said = run([f"{top}/tools/prove.py", *TRIED], env)
    last = said.rstrip("\n").rpartition("\n")[2]
    return [] if (status, last) == (0, wanted) else [f"the gate ended with status {status}, and not with '{wanted}':\n{said[-3000:]}"]


def faults_of_build(top, env):
    """Returns what is wrong with a build of the repository of two crates, one line each."""
    status, said = run([f"{top}/tools/build.py"], env)
    out = f"{top}/crates/protogate/out"
    if status or not os.path.isfile(f"{out}/protogate"):
        return [f"the build ended with status {status}:\n{said[-3000:]}"]
    found = []
    if subprocess.run([f"{out}/protogate"], stdin=subprocess.DEVNULL, check=False).returncode != 4:
        found.append("the program that was built is another")
    with open(f"{out}/protogate.begun", encoding="utf-8") as file:
        line, _, script, *_ = file.readlines()
    if line != subprocess.run(["rt", "version"], env=env, stdout=subprocess.PIPE, text=True, check=True).stdout:
        found.append(f"the stamp names another kit: {line}")
    if not os.path.samefile(script.strip(), f"{TOP}/tools/gate/other_kit/rt"):
        found.append("the stamp's script is another")
    read, made = os.stat(f"{out}/protogate.begun").st_mtime_ns, os.stat(f"{out}/protogate").st_mtime_ns
    if not os.stat(f"{top}/crates/low/src/lib.rt").st_mtime_ns <= read < made:
        found.append("the stamp's time isn't that before the first check")
    return found


def main():
    child_programs.on_signals()
    with tempfile.TemporaryDirectory(prefix="protogate-kit-") as top:
        # (what is kept of edits is kept here, so that each run tries them)
        env = {**os.environ, "PATH": f"{TOP}/tools/gate/other_kit:{os.environ['PATH']}", "XDG_CACHE_HOME": f"{top}/cache"}
        make_repository(f"{top}/repository")
        faults = [*faults_of_gate(f"{top}/repository", env), *faults_of_build(f"{top}/repository", env)]
    print("\n".join([*faults, f"another kit: the gate of {len(TRIED)} crates and a build, {len(faults)} faults"]))
    return 1 if faults else 0


if __name__ == "__main__":
    sys.exit(main())

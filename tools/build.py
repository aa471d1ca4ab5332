#!/usr/bin/env python3
"""Proves and builds the program: each crate once those below it are proved, as many side by side as there are processors and memory for.

usage: tools/build.py    what is built already, and unchanged, isn't built again, so a build that was stopped goes on from there

It says at the start and each minute how long it is likely to take. Another build of the same checkout waits until this one has ended. Files
beside the program say when its sources were read, and which kit proved it (stamp.py). Only a next build needs the libraries; at most 4 GB of these are
left. What only a next check of a library needs is removed once that is built; with --keep all stays, so that a build after a change takes
less time.
"""

import contextlib
import fcntl
import os
import shutil
import signal
import subprocess
import sys
import tempfile
import time

sys.dont_write_bytecode = True
sys.path.append(f"{os.path.dirname(os.path.realpath(__file__))}/gate")
import child_programs  # noqa: E402
import stamp  # noqa: E402
import times  # noqa: E402
from crates import crates_of  # noqa: E402
from kit import KEPT, copy_parts, link_built  # noqa: E402
from machine import jobs, lanes, missing, processors  # noqa: E402

TOP = os.path.dirname(os.path.dirname(os.path.realpath(__file__)))
PROGRAM = stamp.PROGRAM
# What a build takes of the disk while it runs, and what it leaves at most, in bytes.
DISK, MOST_LEFT = 6_000_000_000, 4_000_000_000
# The status with which the program ends after its help.
USAGE = 4
# So many jobs a check is faster by more of them.
MOST_JOBS = 4
# The processor seconds below which a crate was there already.
TAKEN = 4
# What a build wants on the path, and what for.
PROGRAMS = {"rt": "the kit that proves and builds", "cc": "it links the program"}


def claims(name, said):
    """Returns what rt keeps other checks out of while it works on a crate: the crate and all below it."""
    return {name, *(it.name for it in said[name].below())}


def say(text):
    print(f"protogate: {text}", file=sys.stderr, flush=True)


def lane_of(name):
    """Returns the folder in which a crate is checked while rt keeps its own folder for another check."""
    return f"{TOP}/crates/{PROGRAM}/out/lanes/{name}"


def copy_crate(name, top, is_built):
    """Copies what a check reads of a crate, with its library where that is built."""
    copy_parts(f"{TOP}/crates/{name}", f"{top}/crates/{name}")
    if is_built:
        link_built(f"{TOP}/crates/{name}", f"{top}/crates/{name}")


def open_lane(name, said):
    """Makes a repository of the crate and of the built ones below it, and returns the crate's folder there."""
    top = lane_of(name)
    shutil.rmtree(top, ignore_errors=True)
    for it in claims(name, said):
        copy_crate(it, top, it != name)
    if os.path.isdir(f"{TOP}/crates/{name}/out"):
        shutil.copytree(f"{TOP}/crates/{name}/out", f"{top}/crates/{name}/out", symlinks=True)
    with open(f"{top}/crates.txt", "w", encoding="utf-8") as file:
        file.write("".join(f"{said[it].line}\n" for it in claims(name, said)))
    return f"{top}/crates/{name}"


def close_lane(name):
    """Puts what a check made in a lane where the crate's own check would have put it. A check that was stopped leaves what it had proved."""
    made, out = f"{lane_of(name)}/crates/{name}/out", f"{TOP}/crates/{name}/out"
    if os.path.isdir(made):
        shutil.rmtree(out, ignore_errors=True)
        os.rename(made, out)
    shutil.rmtree(lane_of(name), ignore_errors=True)


class Build:
    """The crates of a build: those that are left, those whose checks run, and how long all is likely to take."""

    def __init__(self, room):
        self.room, self.said = room, crates_of(TOP)
        self.names = [*(it.name for it in self.said[PROGRAM].below()), PROGRAM]
        self.left, self.running, self.kept, self.seconds = [*self.names], {}, [], {}
        costs, below = times.read(), {it: [dep.name for dep in self.said[it].deps] for it in self.names}
        much = {it: sum(costs.get(it, times.UNKNOWN)[kind] for kind in ("proof", "programs")) for it in self.names}
        self.longest = times.chains(much, below)
        # (a check with several jobs is faster, but not by as much)
        speed = 1 + 0.45 * (min(MOST_JOBS, jobs(is_alone=False)) - 1)
        much = {it: seconds / speed for it, seconds in much.items()}
        self.progress = times.Progress({"crates": (much, below)}, max(1, round(lanes() / speed)), say)

    def choose(self):
        """Returns the crates whose check can begin now, those with the longest chain of others first."""
        ready = [it for it in self.left if it not in self.running and not any(dep.name in self.left for dep in self.said[it].deps)]
        return sorted(ready, key=lambda it: -self.longest[it])[: max(0, lanes(len(self.running)) - len(self.running))]

    def start_ready(self):
        """Starts the checks that can begin now."""
        chosen = self.choose()
        many = jobs(is_alone=len(chosen) + len(self.running) == 1)
        for name in chosen:
            taken = set().union(*(claims(it, self.said) for it in self.running))
            folder = f"{TOP}/crates/{name}" if taken.isdisjoint(claims(name, self.said)) else open_lane(name, self.said)
            self.begin(name, folder, many)
            say(f"proving {name} ({len(self.left)} of {len(self.names)} crates left)")

    def begin(self, name, folder, many):
        """Starts the crate's check. A program is run as soon as it is built: its help says that it is there."""
        words = ["rt", "run", "--", "--help"] if name == PROGRAM else ["rt", "lib", "--jobs", str(many)]
        self.progress.begin(name)
        with open(f"{self.room}/{name}", "w", encoding="utf-8") as log:
            how = {"stdin": subprocess.DEVNULL, "stdout": log, "stderr": subprocess.STDOUT}
            self.running[name] = child_programs.start(words, cwd=folder, **how)

    def ended(self):
        """Waits until one of the checks has ended, and returns its crate and status."""
        while True:
            for name, check in self.running.items():
                if os.waitid(os.P_PID, check.pid, os.WEXITED | os.WNOHANG | os.WNOWAIT):
                    status, self.seconds[name] = child_programs.wait(check)
                    return name, status
            time.sleep(0.05)

    def close(self, name, keeps):
        close_lane(name)
        if not keeps:
            clear(name)
        del self.running[name]
        self.left.remove(name)
        self.progress.end(name)
        if self.seconds[name] < TAKEN:
            self.kept.append(name)

    def run(self, keeps):
        for name in self.names:
            close_lane(name)
        try:
            with self.progress:
                while self.left:
                    self.start_ready()
                    name, status = self.ended()
                    self.close(name, keeps or status)
                    if status != (USAGE if name == PROGRAM else 0):
                        self.tell(name)
                        return False
            return True
        finally:
            self.stop()

    def stop(self):
        """Stops the checks that are running, with what they started, and waits for them."""
        if self.running:
            child_programs.end_all()

    def tell(self, name):
        """Prints what the check said of a crate that isn't proved."""
        with open(f"{self.room}/{name}", encoding="utf-8", errors="replace") as log:
            sys.stderr.write(log.read())
        say(f"{name} is not proved; what is proved is kept, and the next run goes on from there")


def clear(name):
    """Removes what only a next check of the library needs."""
    if name != PROGRAM:
        shutil.rmtree(f"{TOP}/crates/{name}/{KEPT}", ignore_errors=True)


def size_of(folder):
    """Returns the bytes that the files below a folder take of the disk."""
    return sum(512 * os.lstat(f"{at}/{it}").st_blocks for at, _, names in os.walk(folder) for it in names)


def shrink(names, most):
    """Removes the largest of these crates' libraries, until what was built takes so many bytes at most. Returns what it takes."""
    left = {it: size_of(f"{TOP}/crates/{it}/out") for it in names}
    while sum(left.values()) > most and {*left} != {PROGRAM}:
        largest = max((it for it in left if it != PROGRAM), key=left.get)
        shutil.rmtree(f"{TOP}/crates/{largest}/out", ignore_errors=True)
        del left[largest]
    return sum(left.values())


@contextlib.contextmanager
def alone():
    """Waits until no other build of this checkout runs, since they share lanes. A file of the program's folder is what is locked: rt locks the folders of
    crates, and what git has of a checkout, as this script, is another file once git has changed it."""
    os.makedirs(stamp.out_of(TOP), exist_ok=True)
    with open(f"{stamp.out_of(TOP)}/build.lock", "ab") as file:
        try:
            fcntl.flock(file, fcntl.LOCK_EX | fcntl.LOCK_NB)
        except BlockingIOError:
            say("another build runs here; waiting for it")
            fcntl.flock(file, fcntl.LOCK_EX)
        except OSError:
            # (some file systems have no locks)
            pass
        yield


def main():
    lacking = missing(PROGRAMS, {f"{TOP}/crates/{PROGRAM}/out": DISK, tempfile.gettempdir(): 0})
    for it in lacking:
        say(it)
    if lacking:
        return 2
    child_programs.on_signals()
    with alone(), tempfile.TemporaryDirectory(prefix="protogate-build-") as room:
        begun, build = stamp.read_now(TOP), Build(room)
        say(f"proving and building: {times.in_words(build.progress.left())} on {processors()} processors, where nothing is kept from earlier runs")
        keeps = "--keep" in sys.argv[1:]
        if not build.run(keeps):
            return 1
        if build.kept:
            say(f"kept from earlier runs: {' '.join(build.kept)}")
        stamp.write(TOP, begun)
        much = size_of(f"{TOP}/crates") if keeps else shrink(build.names, MOST_LEFT)
        say(f"built; a next build, or a crate of yours, needs the {much / 1e9:.1f} GB in crates/*/out: rm -rf crates/pg_*/out frees most of them")
    return 0


if __name__ == "__main__":
    sys.exit(main())

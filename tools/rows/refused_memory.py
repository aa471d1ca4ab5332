"""What the testers of the built program share, and runs of a program with its requests for memory refused, one in each run: for
try_program_memory.py, try_call_memory.py and try_rows.py."""
import argparse
import itertools
import os
import resource
import subprocess
import sys
import time

ROOT = os.path.dirname(os.path.dirname(os.path.dirname(os.path.abspath(__file__))))
# How many seconds a run may take.
LIMIT = 120
# What the library says on standard error when it refuses.
REFUSED = b"growth refused\n"
# So many requests are refused at most by one script, each in a run of its own of some two milliseconds: so both scripts take less than five
# minutes of a processor. The time of a busy machine is only told.
MOST_REQUESTS = 60_000


def build_library(room):
    """Builds the library that refuses (tools/rows/refuse_memory.c) in this folder, and returns its path. Wants cc."""
    library, source = os.path.join(room, "refuse.so"), os.path.join(ROOT, "tools/rows/refuse_memory.c")
    subprocess.run(["cc", "-O2", "-shared", "-fPIC", "-o", library, source, "-ldl"], check=True)
    return library


def options_of(doc):
    """Returns what a tester with this docstring is asked: how many runs side by side, and of which program. Ends where that isn't there."""
    parser = argparse.ArgumentParser(description=doc.partition("\n")[0])
    parser.add_argument("--jobs", type=int, default=len(os.sched_getaffinity(0)))
    parser.add_argument("program", nargs="?", default=os.path.join(ROOT, "crates/protogate/out/protogate"), type=os.path.abspath)
    options = parser.parse_args()
    if not os.access(options.program, os.X_OK):
        sys.exit(f"no program: {options.program}")
    return options


def ask_for_stack():
    hard = resource.getrlimit(resource.RLIMIT_STACK)[1]
    resource.setrlimit(resource.RLIMIT_STACK, (hard, hard))


def runs_of(library, words, folder=None, stdin=b"", is_between=False):
    """Runs a program whole, as turn 0, then with each request refused in turn until a run meets none, however it ends: all of them, or only
    those between a line `ready` and a line `done` that it prints. Gives each turn with the status, what was printed, and the faults."""
    for turn in itertools.count():
        env = {**os.environ, "REFUSE_MEMORY": str(turn), "LD_PRELOAD": library, **({"REFUSE_BETWEEN": "1"} if is_between else {})}
        how = {"cwd": folder, "env": env, "input": stdin, "capture_output": True, "timeout": LIMIT, "check": False}
        ended = subprocess.run(words, **how)
        if turn and REFUSED not in ended.stderr:
            return
        yield turn, ended.returncode, ended.stdout, ended.stderr.replace(REFUSED, b"", 1)


def line_of(counts):
    return "{refused} requests refused, {told} reported, {answered} answered, {wrong} wrong".format_map(counts)


def sums_of(counts, begun):
    """Returns what the last line says of all counts, with the seconds, and whether none was wrong and the requests were not too many."""
    used = [resource.getrusage(who) for who in (resource.RUSAGE_SELF, resource.RUSAGE_CHILDREN)]
    seconds = sum(it.ru_utime + it.ru_stime for it in used)
    is_too_much = counts["refused"] > MOST_REQUESTS
    limit = f" (more than {MOST_REQUESTS})" if is_too_much else ""
    said = f"{line_of(counts)}{limit}; {seconds:.0f} processor seconds, {time.time() - begun:.0f} by the clock"
    return said, not counts["wrong"] and not is_too_much

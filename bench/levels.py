#!/usr/bin/env python3
"""Prints how many bytes of stack each call takes for a level of nested messages: in fields, in lists and in maps. Of source files it
prints the bytes of stack for 64 nested message blocks and for a chain of 1,024 files, the most that there may be. Of nested message types
it prints them for the 97 that a set may have when it is read, and for the 4,096 of a schema.

usage: bench/levels.py PROGRAM [LEVELS]    by default 20,000 levels; PROGRAM is crates/depth/out/depth in the folder of bench/depth.sh

The program waits after each step. The system marks pages that are touched: the marks are cleared before a step, and those of the stack
are counted after it. So Linux is wanted, and a stack that holds as many levels.
"""

import re
import resource
import subprocess
import sys

CALLS = ("own", "lent", "relay", "breaks", "unshared", "written")
NESTS = {"fields": "1", "lists": "2", "maps": "3"}
TEXTS = (("parse", 64), ("link", 1024), ("types", 97), ("types", 4096))


def touched(pid):
    """Returns how many bytes of a process's stack were touched since the marks were cleared."""
    with open(f"/proc/{pid}/smaps", encoding="utf-8") as file:
        stack = file.read().partition("[stack]")[2]
    return 1024 * int(re.search(r"Referenced:\s+(\d+) kB", stack)[1])


def steps(program, calls, nest, levels):
    """Yields each step of the program with the bytes of stack that it touched."""
    words = [program, calls, NESTS[nest], str(levels), "wait"]
    run = subprocess.Popen(words, stdin=subprocess.PIPE, stderr=subprocess.PIPE, text=True)
    for line in run.stderr:
        yield line.strip(), touched(run.pid)
        with open(f"/proc/{run.pid}/clear_refs", "w", encoding="utf-8") as file:
            file.write("1")
        run.stdin.write("\n")
        run.stdin.flush()
    run.wait()


def main(program, levels="20000"):
    hard = resource.getrlimit(resource.RLIMIT_STACK)[1]
    resource.setrlimit(resource.RLIMIT_STACK, (hard, hard))
    for calls in CALLS:
        for nest in NESTS:
            found = {step: size // int(levels) for step, size in steps(program, calls, nest, levels)}
            found.pop("begin", None)
            found.pop("end", None)
            print(f"{calls}, in {nest}: " + ", ".join(f"{step} {size}" for step, size in found.items()))
    for calls, most in TEXTS:
        found = {step: size for step, size in steps(program, calls, "fields", most) if step not in ("begin", "end")}
        print(f"{calls}, {most} levels whole: " + ", ".join(f"{step} {size}" for step, size in found.items()))


if __name__ == "__main__":
    main(*sys.argv[1:])

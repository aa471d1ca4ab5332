#!/usr/bin/env python3
"""Prints how many bytes of stack a program's functions take that call themselves, alone or through others.

usage: bench/frames.py PROGRAM    wants objdump. Calls through pointers, as of a drop, aren't seen.
"""

import re
import subprocess
import sys


def functions(program):
    """The bytes of each function's frame, with what is pushed and the return address, and the functions that it calls."""
    text = subprocess.run(["objdump", "-d", "--no-show-raw-insn", program], capture_output=True, text=True, check=True).stdout
    frames, calls, name = {}, {}, None
    for line in text.splitlines():
        if found := re.match(r"^[0-9a-f]+ <(.*)>:$", line):
            name = found[1]
            frames[name], calls[name] = 8, set()
        elif found := re.search(r"sub\s+\$0x([0-9a-f]+),%rsp", line):
            frames[name] += int(found[1], 16)
        elif re.search(r"push\s+%", line):
            frames[name] += 8
        elif found := re.search(r"call\s+[0-9a-f]+ <([^>+]*)>", line):
            calls[name].add(found[1])
    return frames, calls


def reached(calls, start):
    """The functions that a function leads to."""
    seen, left = set(), [start]
    while left:
        for name in calls.get(left.pop(), ()):
            if name in calls and name not in seen:
                seen.add(name)
                left.append(name)
    return seen


def main(program):
    frames, calls = functions(program)
    leads = {name: reached(calls, name) for name in calls}
    told = set()
    for name in sorted(calls):
        if name in leads[name] and name not in told:
            circle = [name] + sorted(other for other in leads[name] if other != name and name in leads[other])
            told.update(circle)
            print(sum(frames[each] for each in circle), "bytes:", ", ".join(f"{each} {frames[each]}" for each in circle))


if __name__ == "__main__":
    main(sys.argv[1])

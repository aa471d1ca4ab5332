#!/usr/bin/env python3
"""Runs commands in turn, several times each, and prints for each its least time, its least processor time and its most memory.

usage: timed.py TIMES WORD.. [-- WORD..]..

Times are of the whole process, from its start to its end, in seconds; memory is its largest resident set, in MB. What the
commands print is thrown away; their statuses are told. Each time is followed by its ratio to that of the last command. Beside
other work on the machine the processor time says more, for a process that waits takes none.
"""
import os
import subprocess
import sys
import time


def run(words):
    """How long the command takes, how much of a processor's time, the memory that it held, and its status."""
    begin = time.perf_counter()
    process = subprocess.Popen(words, stdin=subprocess.DEVNULL, stdout=subprocess.DEVNULL, stderr=subprocess.DEVNULL)
    _, status, used = os.wait4(process.pid, 0)
    return time.perf_counter() - begin, used.ru_utime + used.ru_stime, used.ru_maxrss / 1024, os.waitstatus_to_exitcode(status)


def commands(words):
    """The words between the marks `--`."""
    found = [[]]
    for word in words:
        if word == "--":
            found.append([])
        else:
            found[-1].append(word)
    return found


def main():
    times, listed = int(sys.argv[1]), commands(sys.argv[2:])
    runs = [[] for _ in listed]
    for _ in range(times):
        for words, kept in zip(listed, runs):
            kept.append(run(words))
    least = [[min(column) for column in list(zip(*kept))[:2]] for kept in runs]
    for words, kept, (seconds, worked) in zip(listed, runs, least):
        name = " ".join([os.path.basename(words[0]), *words[1:]])[:70]
        statuses = " ".join(sorted({str(status) for *_, status in kept}))
        memory = max(memory for _, _, memory, _ in kept)
        print(
            f"{seconds:9.4f} s {seconds / least[-1][0]:5.2f}  processor {worked:8.4f} s {worked / least[-1][1]:5.2f}"
            f"  {memory:8.1f} MB  status {statuses}  {name}"
        )


main()

#!/usr/bin/env python3
"""Prints, for each file that codec.sh timed, each of our calls divided by the fastest runtime's.

usage: codec_ratios.py < WHAT_THE_PROGRAMS_PRINTED
"""
import os
import re
import sys

LINE = re.compile(r"^(\S.*?) (\S+\.bin): (\d+) bytes, (.*)$")
TIME = re.compile(r"(\w[\w ]*?) ([\d.]+) (ns|us)")
# What is read by a runtime in one way or another.
READ = ("decode", "decode on an arena")


def microseconds(text):
    """Returns the times that a line tells, by what took them."""
    return {what: float(number) / (1000 if unit == "ns" else 1) for what, number, unit in TIME.findall(text)}


def main():
    ours, peers, sizes = {}, {}, {}
    for line in sys.stdin:
        found = LINE.match(line)
        if not found:
            continue
        name = os.path.basename(found[2])
        sizes[name] = int(found[3])
        if found[1] == "protogate":
            ours[name] = microseconds(found[4])
        else:
            peers.setdefault(name, []).append(microseconds(found[4]))
    for name, times in sorted(ours.items(), key=lambda it: sizes[it[0]]):
        read = min(row[way] for row in peers[name] for way in READ if way in row)
        written = min(row["encode"] for row in peers[name])
        told = ", ".join(f"{what} {taken / (read if what.startswith('decode') else written):.2f}" for what, taken in times.items())
        print(f"of the fastest runtime, {name}: {sizes[name]} bytes, {told}")


main()

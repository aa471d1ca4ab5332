#!/usr/bin/env python3
"""Writes two schemas, old.proto and new.proto, whose shortest breaking message of the type T1 is about so many levels deep.

usage: bench/inputs/circles.py FOLDER LEVELS    prints how many levels it is

Each schema is a circle of types, each with the next one as its field 1. Both first types have a field 2, of types that differ; so a
message breaks only where both circles are at their first type, after as many levels as both lengths divide.
"""

import math
import os
import sys

# So many types a schema has at most, and some to choose others.
MOST = 4000


def lengths(levels):
    """Returns two lengths with no common divisor, whose product is about so many levels, and not fewer."""
    short = max(2, levels // MOST + 1)
    long = -(-levels // short)
    while math.gcd(long, short) != 1:
        long += 1
    return long, short


def circle(length, scalar):
    """Returns a source file of a circle of so many types, the first of which has a field of this type."""
    types = [f"message T{at} {{ T{(at + 1) % length} n = 1;{f' {scalar} x = 2;' if at == 0 else ''} }}\n" for at in range(length)]
    return 'syntax = "proto3";\n' + "".join(types)


def main(folder, levels):
    long, short = lengths(levels)
    os.makedirs(folder, exist_ok=True)
    for name, length, scalar in (("old", long, "int32"), ("new", short, "bool")):
        with open(os.path.join(folder, name + ".proto"), "w", encoding="utf-8") as file:
            file.write(circle(length, scalar))
    print(long * short)


if __name__ == "__main__":
    main(sys.argv[1], int(sys.argv[2]))

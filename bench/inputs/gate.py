#!/usr/bin/env python3
"""Writes pairs of proto3 files whose message types refer to each other, for the gate.

usage: gate.py FOLDER [TYPES]

In each folder below it are old.proto and new.proto. But for the last three they differ in one field of one type. TYPES is 4,096.
graph   so many types in one graph, 15 fields each (about 1.1 MB)
chain   so many types, each with one field of the next; the last one differs
front   the chain; the first one differs
circle  so many types, each with one field of the next in a circle, which goes to and fro in the order of the search's table
mesh    64 types, each with a field of every type
same    the graph, unchanged
oneof   one type of 6,000 fields that come into one oneof of the new side
wide    the same with 24,000 fields
"""
import os
import sys

TYPES = int(sys.argv[2]) if len(sys.argv) > 2 else 4096
MESH = 64
ONEOF = 6000
WIDE = 24000
SCALARS = ["int32", "string", "bool", "double", "bytes", "uint64", "fixed32"]


def leaf(side):
    """The field that changes."""
    return f"  {'uint32' if side == 'old' else 'int32'} changed = 1000;\n"


def graph(number, _side):
    """Fields of two further types, a list and a map, and eleven scalars."""
    yield f"  M{(2 * number + 1) % TYPES} left = 1;\n"
    yield f"  M{(2 * number + 2) % TYPES} right = 2;\n"
    yield f"  repeated M{(number * 31 + 7) % TYPES} list = 3;\n"
    yield f"  map<string, M{(number * 17 + 3) % TYPES}> by_name = 4;\n"
    for at in range(5, 16):
        yield f"  {SCALARS[(number + at) % len(SCALARS)]} f{at} = {at};\n"


def chain(number, _side):
    if number + 1 < TYPES:
        yield f"  M{number + 1} next = 1;\n"


def circle(number, _side):
    """The first type has a field of every other one, so that the table has these by number; they refer to each other from both
    ends in turn, 1, 4095, 2, 4094 and so on to the middle, and from there to 1."""
    if number == 0:
        for other in range(1, TYPES):
            yield f"  M{other} to{other} = {other};\n"
    elif number == TYPES // 2:
        yield "  M1 next = 1;\n"
    else:
        yield f"  M{TYPES - number + (1 if number > TYPES // 2 else 0)} next = 1;\n"


def mesh(number, _side):
    for other in range(MESH):
        yield f"  M{other} to{other} = {other + 1};\n"


def oneof(_number, side, fields=ONEOF):
    """Numbers from 1001 on, but none of those that proto3 reserves, 19,000 to 19,999."""
    if side == "new":
        yield "  oneof one {\n"
    for at in range(fields):
        yield f"  int32 f{at} = {1001 + at + 1000 * (at >= 17999)};\n"
    if side == "new":
        yield "  }\n"


def wide(number, side):
    return oneof(number, side, WIDE)


def write(folder, side, types, fields, changed_at):
    with open(os.path.join(folder, f"{side}.proto"), "w") as text:
        text.write('syntax = "proto3";\n')
        for number in range(types):
            text.write(f"message M{number} {{\n")
            text.writelines(fields(number, side))
            if number == changed_at:
                text.write(leaf(side))
            text.write("}\n")


def main():
    for name, types, fields, changed_at in [
        ("graph", TYPES, graph, TYPES - 1),
        ("chain", TYPES, chain, TYPES - 1),
        ("front", TYPES, chain, 0),
        ("circle", TYPES, circle, TYPES // 2),
        ("mesh", MESH, mesh, MESH - 1),
        ("same", TYPES, graph, None),
        ("oneof", 1, oneof, None),
        ("wide", 1, wide, None),
    ]:
        folder = os.path.join(sys.argv[1], name)
        os.makedirs(folder, exist_ok=True)
        for side in ("old", "new"):
            write(folder, side, types, fields, changed_at)


main()

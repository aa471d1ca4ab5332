#!/usr/bin/env python3
"""Writes proto3 files that import each other: 1,024 files with 4,096 message types and 50,000 uses of type names; or so many files, with as
many of both for each.

usage: link.py FOLDER [FILES]

The files are f0.proto to f1023.proto in the folder, and the last is the root: each file imports the eight before it, some
publicly. Of the uses in a file some name types of the file itself, some those of its imports; by one word, by
a part of the package in front, and in full.
"""
import os
import sys

FILES = int(sys.argv[2]) if len(sys.argv) > 2 else 1024
TYPES = 4
USES = 50_000 * FILES // 1024
IMPORTS = 8


def use(number, at):
    """A type name that the file of this number imports or declares."""
    other = max(number - at % (IMPORTS + 1), 0)
    name = f"Type{other}_{at % TYPES}"
    return [name, f"bench.p{other % 7}.{name}", f".bench.p{other % 7}.{name}"][at % 3 if other % 7 == number % 7 else 1 + at % 2]


def message(number, kind, uses):
    yield f"message Type{number}_{kind} {{\n"
    for at in range(uses):
        yield f"  {use(number, kind * 5 + at)} field_{at} = {at + 1};\n"
    yield "}\n"


def file(number, uses):
    yield 'syntax = "proto3";\n'
    yield f"package bench.p{number % 7};\n"
    for other in range(max(number - IMPORTS, 0), number):
        public = "public " if other == number - 1 and number % 16 == 1 else ""
        yield f'import {public}"f{other}.proto";\n'
    for kind in range(TYPES):
        share = uses // TYPES + (1 if kind < uses % TYPES else 0)
        yield from message(number, kind, share)


def main():
    folder = sys.argv[1]
    os.makedirs(folder, exist_ok=True)
    for number in range(FILES):
        uses = USES // FILES + (1 if number < USES % FILES else 0)
        with open(os.path.join(folder, f"f{number}.proto"), "w") as text:
            text.writelines(file(number, uses))


main()

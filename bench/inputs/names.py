#!/usr/bin/env python3
"""Writes a proto3 file of 30 nested messages, each with a name of 10,000 letters and 30 uses.

usage: names.py FOLDER

The file is f1023.proto in the folder.
"""
import os
import sys

DEPTH = 30
LETTERS = 10_000
USES = 30


def lines():
    yield 'syntax = "proto3";\nmessage Type { }\n'
    for depth in range(DEPTH):
        yield f"message {chr(97 + depth % 26) * LETTERS}{depth} {{\n"
        for at in range(USES):
            yield f"  Type field_{at} = {at + 1};\n"
    yield "}\n" * DEPTH


def main():
    folder = sys.argv[1]
    os.makedirs(folder, exist_ok=True)
    with open(os.path.join(folder, "f1023.proto"), "w") as text:
        text.writelines(lines())


main()

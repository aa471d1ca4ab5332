#!/usr/bin/env python3
"""Writes a proto3 source file of about 4 MB, of 3,700 message types with 32 fields each; or of so many types. Each type has a comment,
unless the last argument is `bare`.

usage: sets.py FILE [TYPES [bare]]
"""
import sys

TYPES = int(sys.argv[2]) if len(sys.argv) > 2 else 3700
IS_BARE = sys.argv[3:] == ["bare"]
SCALARS = ["int32", "string", "bool", "uint64", "bytes", "double", "sint64", "fixed32"]


def field(number, at):
    """A field of a scalar, mostly; of another type, a list or a map now and then."""
    kind = SCALARS[(number + at) % len(SCALARS)]
    if at % 8 == 3:
        return f"  Item{(number * 31 + at) % TYPES} other_item_{at} = {at};\n"
    if at % 8 == 5:
        return f"  repeated {kind} values_of_{at} = {at};\n"
    if at % 16 == 7:
        return f"  map<string, {kind}> values_by_name_{at} = {at};\n"
    if at % 16 == 14:
        return f"  optional {kind} value_of_{at} = {at};\n"
    return f"  {kind} value_of_{at} = {at};\n"


def main():
    with open(sys.argv[1], "w", encoding="utf-8") as out:
        out.write('syntax = "proto3";\n\npackage bench.items;\n\n')
        for number in range(TYPES):
            if not IS_BARE:
                out.write(f"// Item {number} is one of many that stand in one file together, as a tool writes them.\n")
            out.write(f"message Item{number} {{\n")
            out.writelines(field(number, at) for at in range(1, 33))
            out.write("}\n\n")


main()

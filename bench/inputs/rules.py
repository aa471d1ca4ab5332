#!/usr/bin/env python3
"""Writes a proto3 file with 4,096 message types of 15 fields each, about 2.5 MB, or one with large bodies.

usage: rules.py FOLDER [COUNT]

The file is m.proto in the folder. Scalars, lists, messages, an enum, maps, members of a oneof and options take turns. With COUNT it has
one message of so many fields and a tenth as many reserved ranges, one with a oneof of so many members, one of so many maps, one with so
many nested messages (up to 4,000), and an enum of so many values.
"""
import os
import sys

TYPES = 4096
SCALARS = ["int32", "int64", "uint32", "uint64", "sint32", "sint64", "bool", "double", "float", "fixed32", "fixed64",
           "sfixed32", "sfixed64", "string", "bytes"]


def field(number, at):
    """The field of this number in the message of this number."""
    scalar = SCALARS[(number + at) % len(SCALARS)]
    kinds = [
        f"{scalar} scalar_{at} = {at};",
        f"repeated {scalar} scalars_{at} = {at};",
        f"Type{(number * 7 + at) % TYPES} message_field_{at} = {at};",
        f"optional Kind kind_{at} = {at};",
        f"map<string, Type{(number + at) % TYPES}> by_name_{at} = {at};",
        f'repeated int32 packed_{at} = {at} [packed = false, json_name = "given{at}"];',
        f"oneof choice_{at} {{ {scalar} chosen_{at} = {at}; }}",
    ]
    return kinds[(number + at) % len(kinds)]


def many_types(text):
    text.write('syntax = "proto3";\nenum Kind { KIND_UNSPECIFIED = 0; KIND_OTHER = 1; }\n')
    for number in range(TYPES):
        text.write(f"message Type{number} {{\n")
        text.writelines(f"  {field(number, at)}\n" for at in range(1, 16))
        text.write("}\n")


def body(text, opening, lines):
    text.write(f"{opening} {{\n")
    text.writelines(f"  {line}\n" for line in lines)
    text.write("}\n")


def large_bodies(text, count):
    text.write('syntax = "proto3";\n')
    reserved = [f"reserved {1000000 + 10 * at} to {1000008 + 10 * at};" for at in range(count // 10)]
    body(text, "message Fields", [f"int32 field_{at} = {at};" for at in range(count, 0, -1)] + reserved)
    members = [f"int32 member_{at} = {at};" for at in range(1, count + 1)]
    body(text, "message Members", ["oneof choice {", *members, "}"])
    body(text, "message Maps", [f"map<string, int32> map_{at} = {at};" for at in range(1, count + 1) if not 19000 <= at < 20000])
    body(text, "message Nested", [f"message Inner{at} {{ }}" for at in range(min(count, 4000))])
    body(text, "enum Values", [f"VALUE_{at} = {at};" for at in range(count)])


def main():
    folder = sys.argv[1]
    os.makedirs(folder, exist_ok=True)
    with open(os.path.join(folder, "m.proto"), "w") as text:
        if len(sys.argv) > 2:
            large_bodies(text, int(sys.argv[2]))
        else:
            many_types(text)


main()

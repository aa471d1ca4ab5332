#!/usr/bin/env python3
"""Writes a proto3 source file of ordinary declarations with comments, of about the bytes that are asked for.

usage: text.py BYTES > FILE
"""
import sys

SCALARS = ["int32", "string", "bool", "uint64", "bytes", "double", "sint64", "fixed32"]


def message(n):
    """A message of eight fields, a oneof, a map, a nested message and an enum, with comments."""
    yield f"// Account {n} keeps what one user of the service has stored there.\n"
    yield f"message Account{n} {{\n"
    yield "  /* The fields are numbered by the order in which they came;\n     a number that is free again is reserved. */\n"
    for k, scalar in enumerate(SCALARS):
        label = ["", "repeated ", "optional "][k % 3]
        yield f"  {label}{scalar} {scalar}_value_{k} = {k + 1};  // the {scalar} of the account\n"
    yield f"  map<string, int64> totals = 20 [deprecated = true];\n"
    yield "  oneof owner {\n    string user_name = 21;\n    Group group = 22;\n  }\n"
    yield '  message Group {\n    repeated string members = 1 [json_name = "people"];\n    State state = 0x02;\n  }\n'
    yield f"  enum State {{\n    STATE_{n}_UNKNOWN = 0;\n    STATE_{n}_ACTIVE = 1;\n    STATE_{n}_CLOSED = -1;\n  }}\n"
    yield '  reserved 100 to 120, 200;\n  reserved "old_name";\n}\n\n'


def main():
    want = int(sys.argv[1])
    parts = ['syntax = "proto3";\n\npackage bench.accounts;\n\n']
    size = len(parts[0])
    n = 0
    while True:
        text = "".join(message(n))
        if size + len(text) > want:
            break
        parts.append(text)
        size += len(text)
        n += 1
    sys.stdout.write("".join(parts))


main()

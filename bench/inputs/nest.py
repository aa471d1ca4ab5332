#!/usr/bin/env python3
"""Writes a message type that holds itself, and a certificate of it whose witness is a message nested so deep.

usage: nest.py FOLDER LEVELS

FOLDER gets m.proto and certificate.txt. No message of the type breaks, so that a checker refuses the witness with E807, and not before
it has read all of it, by the old type and by the new one.
"""
import os
import sys


def varint(number):
    """The bytes of the number, seven bits a byte, the lowest first."""
    out = []
    while number >= 0x80:
        out.append(number & 0x7F | 0x80)
        number >>= 7
    out.append(number)
    return bytes(out)


def nested(levels):
    """A message in so many others, each in field 1 of the next."""
    fronts = []
    length = 0
    for _ in range(levels):
        front = b"\x0a" + varint(length)
        fronts.append(front)
        length += len(front)
    return b"".join(reversed(fronts))


def main():
    folder, levels = sys.argv[1], int(sys.argv[2])
    os.makedirs(folder, exist_ok=True)
    witness = nested(levels)
    with open(os.path.join(folder, "m.proto"), "w") as text:
        text.write('syntax = "proto3";\nmessage M { M next = 1; }\n')
    with open(os.path.join(folder, "certificate.txt"), "w") as text:
        text.write(f"protogate-certificate 1\nroot M M\npair M M {len(witness)}\nwitness {witness.hex()}\nend\n")


main()

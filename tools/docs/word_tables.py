#!/usr/bin/env python3
"""Prints the definitions of the specs as tables: each with what the comment above it says, and where it is.

usage: tools/docs/word_tables.py CRATE..        a table for each file of the crate's specs/, with the file's first comment above it
       tools/docs/word_tables.py --find NAME..  the definitions of these names, in all crates
       tools/docs/word_tables.py --bare         the public definitions without a comment, as FILE:LINE NAME, and how many there are

The tables are Markdown. They are printed on demand and kept nowhere, so they say what the files say.
"""

import os
import re
import sys
from collections import namedtuple

TOP = os.path.dirname(os.path.dirname(os.path.dirname(os.path.realpath(__file__))))
# The line that states the type of a public definition, or heads a record or a data type.
ITEM = re.compile(r"^(?:(?:abbrev|unfoldable|opaque) )*pub (?:(?:abbrev|unfoldable|opaque) )*(?:data |record )?([^\s:(){}]+)(?=[ :]|$)")
# Lines at which no definition begins.
OTHER = re.compile(r"^pub (use|mod)\b")
# Lines whose block holds definitions, two spaces further in.
BLOCK = re.compile(r"^(mutual$|(pub )?module )")

Definition = namedtuple("Definition", "name said path line")


def spec_files(crate):
    """Returns the crate's files of definitions, by their paths from the top."""
    found = []
    for at, folders, names in os.walk(f"{TOP}/crates/{crate}/specs"):
        folders[:] = sorted(it for it in folders if it not in ("out", "declared"))
        found += [os.path.relpath(f"{at}/{it}", TOP) for it in sorted(names) if it.endswith(".antt")]
    return found


def lines_of(path):
    with open(f"{TOP}/{path}", encoding="utf-8") as file:
        return file.read().split("\n")


def comment_above(lines, at):
    """Returns the comment that ends right above a line, as one line."""
    begin = at
    while begin and lines[begin - 1].startswith("--"):
        begin -= 1
    return " ".join(it.lstrip("-").strip() for it in lines[begin:at] if not it.startswith("-- ----"))


def unnested(lines):
    """Returns the lines of a file, those in a block of definitions as if they were outside of it."""
    found, in_block = [], False
    for line in lines:
        in_block = bool(BLOCK.match(line)) if line[:1].strip() else in_block
        found.append(line[2:] if in_block and line.startswith("  ") else line)
    return found


def head_of(path):
    """Returns the comment at the top of a file, as one line."""
    lines = lines_of(path)
    return comment_above(lines, next((at for at, it in enumerate(lines) if not it.startswith("--")), 0))


def definitions(path):
    """Returns the public definitions of a file in their order."""
    lines = unnested(lines_of(path))
    found = [(at, ITEM.match(it)) for at, it in enumerate(lines) if not OTHER.match(it)]
    return [Definition(it[1], comment_above(lines, at), path, at + 1) for at, it in found if it]


def crates():
    return sorted(it for it in os.listdir(f"{TOP}/crates") if os.path.isdir(f"{TOP}/crates/{it}/specs"))


def all_definitions():
    return [it for crate in crates() for path in spec_files(crate) for it in definitions(path)]


def row(it):
    """Returns the row of a definition; a bar in a cell would end it."""
    cells = (f"`{it.name}`", it.said, f"{it.path.partition('/specs/')[2]}:{it.line}")
    return "| " + " | ".join(cell.replace("|", "\\|") for cell in cells) + " |"


def tables(crate):
    """Yields the lines of a crate's tables."""
    yield f"## Definitions of `{crate}`"
    for path in spec_files(crate):
        found = definitions(path)
        if found:
            yield from ("", f"### {path.partition('/specs/')[2].removesuffix('.antt')}", "", head_of(path), "")
            yield from ("| Name | What it says | Where |", "|---|---|---|", *map(row, found))


def find(names):
    """Prints the definitions of these names; returns whether each name has one."""
    found = [it for it in all_definitions() if it.name in names]
    for it in found:
        print(f"{it.path}:{it.line} {it.name}: {it.said or head_of(it.path)}")
    missing = [it for it in names if it not in {one.name for one in found}]
    for it in missing:
        print(f"no public definition is named {it}", file=sys.stderr)
    return not missing


def main(words):
    if words == ["--bare"]:
        found = all_definitions()
        bare = [it for it in found if not it.said]
        print("\n".join([*(f"{it.path}:{it.line} {it.name}" for it in bare), f"{len(bare)} of {len(found)} have no comment"]))
        return 0
    if words[:1] == ["--find"] and words[1:]:
        return 0 if find(words[1:]) else 1
    if not words or any(it not in crates() for it in words):
        print(__doc__.partition("usage: ")[2], file=sys.stderr, end="")
        return 4
    for crate in words:
        print("\n".join(tables(crate)))
    return 0


if __name__ == "__main__":
    sys.exit(main(sys.argv[1:]))

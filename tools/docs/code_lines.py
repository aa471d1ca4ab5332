#!/usr/bin/env python3
"""Counts the lines of each crate of the product: code, contracts, imports, comments, definitions and proofs.

usage: tools/docs/code_lines.py    a line for each crate, and one for all of them

Code is each line of `src/` that is neither empty nor a comment, nor belongs to a contract or an import. A contract is what follows `requires`,
`ensures`, `invariant`, `decreases` or `ghost` up to its end. Definitions are the lines of `specs/`, proofs those of `proofs/`, with blank lines and
comments. After each count of code and of proofs is the one from before the crates were made smaller.
"""

import os
import re
import sys

sys.dont_write_bytecode = True
sys.path.append(f"{os.path.dirname(os.path.realpath(__file__))}/../gate")
from crates import crates_of  # noqa: E402

TOP = os.path.dirname(os.path.dirname(os.path.dirname(os.path.realpath(__file__))))
KINDS = ("code", "contracts", "imports", "comments", "definitions", "proofs")
CLAUSE = re.compile(r"(requires|ensures|invariant|decreases)\b")
# Lines of code and of proofs in November 2026, before the crates were made smaller.
BEFORE = {
    "pg_wire": (227, 1828),
    "pg_schema": (1428, 2245),
    "pg_dyn": (3626, 23186),
    "pg_lex": (569, 2944),
    "pg_syntax": (1535, 2517),
    "pg_link": (1921, 6148),
    "pg_check": (3176, 12710),
    "pg_set": (0, 0),
    "pg_fds": (3736, 19313),
    "pg_show": (293, 420),
    "pg_call": (0, 0),
    "pg_pairs": (1838, 14481),
    "pg_cert": (902, 2660),
    "pg_least": (505, 2339),
    "pg_causes": (0, 0),
    "pg_gate": (2089, 2472),
    "pg_lines": (0, 0),
    "protogate": (39, 0),
}
IMPORT = re.compile(r"(pub(\(crate\))? )?use\b|ghost use\b|(pub(\(crate\))? )?mod \w+;")


def sources(folder, ending):
    """Yields the path of each file below the folder with this ending."""
    for at, folders, names in os.walk(folder):
        folders.sort()
        yield from (f"{at}/{it}" for it in sorted(names) if it.endswith(ending))


def depth_of(line):
    """Returns by how many brackets a line opens more than it closes, comments and strings left out."""
    line = re.sub(r'"(\\.|[^"\\])*"|\'(\\.|[^\'\\])\'', "", line).partition("//")[0]
    return sum(line.count(it) for it in "([{") - sum(line.count(it) for it in ")]}")


def kinds_of(lines):
    """Yields the kind of each line of a source that isn't empty."""
    kind, depth = None, 0
    for line in lines:
        words = line.strip()
        if not words:
            continue
        if kind is None and words.startswith("//"):
            yield "comments"
            continue
        if kind is None and IMPORT.match(words):
            kind, depth = "imports", 0
        elif kind is None and (CLAUSE.match(words) or (words.startswith("ghost ") and not words.startswith("ghost use"))):
            kind, depth = "contracts", 0
        depth += depth_of(words)
        yield kind or "code"
        if kind and depth <= 0:
            kind = None


def counts_of(crate):
    """Returns the count of lines of each kind."""
    counts = dict.fromkeys(KINDS, 0)
    for path in sources(f"{crate.folder}/src", ".rt"):
        with open(path, encoding="utf-8") as file:
            for kind in kinds_of(file):
                counts[kind] += 1
    for part, kind in (("specs", "definitions"), ("proofs", "proofs")):
        for path in sources(f"{crate.folder}/{part}", ".antt"):
            with open(path, encoding="utf-8") as file:
                counts[kind] += sum(1 for _ in file)
    return counts


def row_of(name, counts, before):
    """Returns the line of a table."""
    code, proofs = (f"{counts[it]:>7,} ({old:,})" for it, old in zip(("code", "proofs"), before))
    return f"{name:<10}{code:<18}{proofs:<20}" + "".join(f"{counts[it]:>12,}" for it in KINDS[1:5])


def main():
    known = crates_of(TOP)
    counts = {it: counts_of(known[it]) for it in (*BEFORE, *(it for it in known if it.startswith("pg_") and it not in BEFORE))}
    print(f"{'crate':<10}{'   code (before)':<18}{' proofs (before)':<20}" + "".join(f"{it:>12}" for it in KINDS[1:5]))
    for name, found in counts.items():
        print(row_of(name, found, BEFORE.get(name, (0, 0))))
    whole = {kind: sum(it[kind] for it in counts.values()) for kind in KINDS}
    print(row_of("all", whole, tuple(map(sum, zip(*BEFORE.values())))))
    return 0


if __name__ == "__main__":
    sys.exit(main())

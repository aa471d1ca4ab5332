#!/usr/bin/env python3
"""Lists the lemmas and definitions that nothing cites.

usage: tools/docs/uncited.py [CRATE..]    all crates, where none is named; prints FILE:LINE NAME, and how many there are

A name counts as cited where the crate's own files have it as a word elsewhere or, if it is `pub`, those of any crate; an
operator such as ◌>>◌ where they have its sign. What is cited by uncited lemmas alone is listed too, since the search goes on without those.
It can't see what `search` and `grind` find by themselves without a name in a proof file; so take a lemma out only where the crate is
still proved without it. Answers to goals and invariants are the prover's own names, and aren't listed.
"""

import os
import re
import sys

TOP = os.path.dirname(os.path.dirname(os.path.dirname(os.path.realpath(__file__))))
ITEM = re.compile(r"^( *)(?:(?:pub|abbrev|unfoldable|opaque) )*(?:(?:data|record) )?([^\s:(){},=]+)(?: +(?:\([^)]*\)|\{[^}]*\}))* *:(?= |$)")
WORD = re.compile(r"[^\s(){}\[\],;.:λ`\"]+")
COMMENT = re.compile(r"--.*|//.*")


def texts():
    """Returns the content of each file of code, definitions and proofs, by its path."""
    found = {}
    for at, folders, files in os.walk(f"{TOP}/crates"):
        folders[:] = sorted(it for it in folders if it != "out")
        for name in sorted(files):
            if name.endswith((".rt", ".antt")):
                with open(f"{at}/{name}", encoding="utf-8") as file:
                    found[os.path.relpath(f"{at}/{name}", TOP)] = file.read()
    return found


def is_goal(path):
    return path.endswith(("/Answers.antt", "/Invariants.antt", "/Proof.antt", "/Lib.antt"))


class Unit:
    """A lemma, a definition, or a module or mutual block with all that is in it: where it begins, its names, and its words."""

    def __init__(self, path, line, lines):
        self.path, self.line, self.crate = path, line, path.split("/")[1]
        is_module = lines[0].lstrip("pub ").startswith("module ") or lines[0] == "mutual"
        found = [it for it in map(ITEM.match, lines if is_module else lines[:1]) if it and len(it[1]) <= 6]
        self.names = [it[2] for it in found]
        self.words = {word for line in lines for word in WORD.findall(line)}
        self.is_public = "pub " in lines[0] or is_module


def is_head(line):
    """Returns whether a unit begins at the line."""
    return line[:1].strip() != "" and (ITEM.match(line) is not None or "module " in line or line == "mutual")


def units_of(path, text):
    """Returns the units of a file of definitions or lemmas."""
    lines = [COMMENT.sub("", it) for it in text.split("\n")]
    heads = [at for at, line in enumerate(lines) if is_head(line) and not re.match(r"(pub )?(use|mod) ", line)]
    return [Unit(path, at + 1, lines[at:end]) for at, end in zip(heads, [*heads[1:], len(lines)])]


def roots_of(text):
    """Returns the words of a file that is all in use."""
    kept = [it for it in text.split("\n") if not re.match(r"\s*(pub )?(ghost )?(use|mod) ", it)]
    return {word for line in kept for word in WORD.findall(COMMENT.sub("", line))}


def uncited(units, roots):
    """Returns the units that no root leads to. `roots` are words by crate."""
    by_name, live = {}, set()
    for unit in units:
        for name in unit.names:
            for word in {name, *filter(None, name.split("◌"))}:
                by_name.setdefault(word, []).append(unit)
    left = [(word, crate) for crate, words in roots.items() for word in words]
    while left:
        word, crate = left.pop()
        for unit in by_name.get(word, ()):
            if unit not in live and (unit.is_public or unit.crate == crate):
                live.add(unit)
                left += [(it, unit.crate) for it in unit.words]
    return [it for it in units if it not in live]


def main(names):
    units, roots = [], {}
    for path, text in texts().items():
        if path.endswith(".antt") and not is_goal(path):
            units += units_of(path, text)
        else:
            roots.setdefault(path.split("/")[1], set()).update(roots_of(text))
    dead = [it for it in uncited(units, roots) if it.names and (not names or it.crate in names)]
    for it in dead:
        print(f"{it.path}:{it.line} {' '.join(it.names)}")
    print(f"{len(dead)} of {len(units)} are cited by nothing that counts")
    return 0


if __name__ == "__main__":
    sys.exit(main(sys.argv[1:]))

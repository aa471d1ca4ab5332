#!/usr/bin/env python3
"""Holds the set of edits: each public function of a library that isn't a law has one that the gate tries.

usage: tools/gate/held_edits.py --compare         prints the functions that have none; the status is 1 where there are some
       tools/gate/held_edits.py --list [CRATE..]  prints the edits of these crates, or of all, as the sentences that their names are, with the
                                                  files that each turns; those of `more-edits`, which are tried by hand, come last

An edit is of a function where it turns its body, or the body of a promise that calls it: a function of a crate promises_NAME that names
the library in crates.txt. A law has an empty body, or one that only calls laws of libraries.
"""

import glob
import os
import re
import sys

sys.dont_write_bytecode = True
from crates import BadEdit, crates_of, files_of_edits, texts_of_edit  # noqa: E402
from wrong_copies import Bad, Left, files_below, functions_in, text_of, turned  # noqa: E402

TOP = os.path.dirname(os.path.dirname(os.path.dirname(os.path.realpath(__file__))))
PUBLIC = re.compile(r"^( *)pub (?:const )?fn (\w+)", re.M)
# A function whose body is empty.
EMPTY = re.compile(r"^ *pub fn (\w+)(?:(?!^ *(?:pub )?fn |^ *\{$).*\n)*?.*\{\}$", re.M)
CALLED = re.compile(r"\b(\w+)(?:::<[^>]*>)?\(")
# A line of a body that only calls a function without arguments.
CALL = re.compile(r" *(\w+)\(\);| *//.*|")


def body_of(lines, function):
    return lines[function.opens + 1 : function.last]


def bodies_turned(crate):
    """Returns the functions that the crate's edits turn: the file, the name and the body of each."""
    found = set()
    for path in files_of_edits(crate.folder)[0]:
        try:
            texts = texts_of_edit(path, crate.folder).items()
            for file, text in (it for it in texts if it[0].startswith("src/")):
                old = text_of(f"{crate.folder}/{file}")
                found.update((file, it.name, "\n".join(body_of(old.split("\n"), it))) for it in turned(old, text))
        except (Bad, BadEdit, Left):
            # (the gate says so itself)
            pass
    return found


def functions_of(crate):
    """Returns the public functions of a library: the file, the name and the body's lines of each, none where that is empty."""
    found = []
    for path in (it for it in files_below(crate.folder, "src") if it.endswith(".rt")):
        text = text_of(path)
        lines = text.split("\n")
        bodies = {it.head: body_of(lines, it) for it in functions_in(text)}
        empty = {text.count("\n", 0, it.start()) for it in EMPTY.finditer(text)}
        for it in PUBLIC.finditer(text):
            head = text.count("\n", 0, it.start())
            body = [] if head in empty else bodies.get(head, ["?"])
            found.append((os.path.relpath(path, crate.folder), it[2], body))
    return found


def laws_of(functions):
    """Returns which of these functions are laws, each with its file."""
    laws = set()
    while True:
        names = {name for _, name in laws}
        calls = {(file, name): [CALL.fullmatch(it) for it in body] for file, name, body in functions}
        new = {it for it, found in calls.items() if all(call and (not call[1] or call[1] in names) for call in found)}
        if new == laws:
            return laws
        laws = new


def without_edits(top):
    """Returns the public functions of libraries that have no edit, as lines."""
    crates = crates_of(top)
    edits = {name: bodies_turned(it) for name, it in crates.items()}
    functions = {name: functions_of(it) for name, it in crates.items() if name.startswith("pg_")}
    laws, lacking = laws_of([it for found in functions.values() for it in found]), []
    for name, found in functions.items():
        promises = [it for it in crates if it.startswith("promises_") and crates[name] in crates[it].deps]
        called = {call for it in promises for _, _, body in edits[it] for call in CALLED.findall(body)}
        own = {(file, function) for file, function, _ in edits[name]}
        lacking += [f"{name}/{file}: {it}" for file, it, _ in found if (file, it) not in laws | own and it not in called]
    return lacking


def sentences(crate):
    """Yields a line for each edit of a crate: what it does, by its name, and the files that it turns."""
    by_hand = sorted(glob.glob(f"{crate.folder}/more-edits/*.edit"))
    for path in [*files_of_edits(crate.folder)[0], *by_hand]:
        with open(path, encoding="utf-8") as file:
            turns = dict.fromkeys(re.findall(r"^file: *(\S+)", file.read(), re.M))
        said = os.path.basename(path).removesuffix(".edit").replace("_", " ")
        yield f"  {said} ({', '.join(turns)}){', by hand' if path in by_hand else ''}"


def list_edits(names):
    """Prints the edits of the crates of these names, or of all that have some."""
    for name, crate in crates_of(TOP).items():
        found = [] if names and name not in names else list(sentences(crate))
        if found:
            print("\n".join([f"{name}: {len(found)}", *found]))


def main(words):
    if words[:1] == ["--list"]:
        list_edits(words[1:])
        return 0
    lacking = without_edits(TOP)
    print("\n".join([*lacking, f"public functions without an edit: {len(lacking)}"]))
    return 1 if lacking else 0


if __name__ == "__main__":
    sys.exit(main(sys.argv[1:]))

"""What crates.txt says: the crates of a repository, and the libraries that each uses. And the edits of a crate, as files."""

import os
import re

# How the file of an edit is named. Other files beside it are only to be read, and end in .md.
EDIT = re.compile(r"[A-Za-z0-9_-][A-Za-z0-9_.-]*\.edit")


class Crate:
    """A crate: its name, its line of crates.txt, its folder, and the crates of the repository that it uses."""

    def __init__(self, name, line, folder, deps):
        self.name, self.line, self.folder, self.deps = name, line, folder, deps

    def below(self):
        """Returns the crates that this one needs, lowest first, each once."""
        found = []
        for dep in self.deps:
            found += [it for it in [*dep.below(), dep] if it not in found]
        return found


def lines_of(top):
    """Returns the lines of crates.txt by crate, without comments."""
    with open(f"{top}/crates.txt", encoding="utf-8") as file:
        lines = [it.partition("#")[0].strip() for it in file]
    return {it.split()[0].rstrip(":"): it for it in lines if ":" in it}


def crates_of(top):
    """Returns the crates of the repository by name, lowest first."""
    lines, found = lines_of(top), {}

    def add(name, above):
        if name in above:
            raise SystemExit(f"crates.txt: {name} uses itself")
        if name not in found:
            used = [it for it in lines[name].partition(":")[2].split() if it in lines]
            deps = [add(it, (*above, name)) for it in used]
            found[name] = Crate(name, lines[name], f"{top}/crates/{name}", deps)
        return found[name]

    for name in lines:
        add(name, ())
    return found


def files_of_edits(folder):
    """Returns the files of the crate's edits, and those that are none."""
    good, bad = [], []
    for at, folders, files in os.walk(f"{folder}/must-fail"):
        folders.sort()
        for name in sorted(files):
            if at == f"{folder}/must-fail" and EDIT.fullmatch(name):
                good.append(f"{at}/{name}")
            elif not name.endswith(".md"):
                bad.append(f"{at}/{name}")
    return good, bad


class BadEdit(Exception):
    """An edit that can't be applied."""


def applied(text, folder):
    """Returns the contents of the crate's files with this edit, by their paths. A line 'file: PATH' names a file; a line 'old: ..', with
    what is in it once, and a line 'new: ..' after it change it. No other line is read."""
    path, old, pairs, texts = "", "", 0, {}
    for line in text.split("\n"):
        if line.startswith("file: "):
            path = line[len("file: ") :].strip()
            if os.path.normpath(path) != path or not path.startswith(("src/", "specs/", "proofs/")):
                raise BadEdit("a 'file:' line names no file below src/, specs/ or proofs/")
        elif line.startswith("old: "):
            old = line[len("old: ") :]
        elif line.startswith("new:"):
            if not path or not old:
                raise BadEdit("a 'new:' line has no 'file:' or 'old:' line before it")
            turn(texts, folder, path, old, re.sub(r"\A ", "", line[len("new:") :]))
            old, pairs = "", pairs + 1
    if not pairs:
        raise BadEdit("it has no 'old:' and 'new:' pair")
    return texts


def turn(texts, folder, path, old, new):
    """Replaces what is in the file once."""
    if path not in texts:
        if not os.path.isfile(f"{folder}/{path}"):
            raise BadEdit(f"there is no file {path}")
        with open(f"{folder}/{path}", encoding="utf-8") as file:
            texts[path] = file.read()
    count = texts[path].count(old)
    if count != 1:
        raise BadEdit(f"an 'old:' text is in {path} {count} times, and not once")
    texts[path] = texts[path].replace(old, new)


def texts_of_edit(path, folder):
    """Returns the contents of the crate's files with the edit in this file."""
    try:
        with open(path, encoding="utf-8") as file:
            return applied(file.read(), folder)
    except (OSError, ValueError) as error:
        raise BadEdit(f"it, or a file that it names, can't be read ({error})") from error

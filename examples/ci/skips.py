"""What a call leaves out: types and paths. A name may say which it is: `type:shop.Draft`, `path:drafts`."""

import os
import re

from calls import Stop, plain
from reading import Reading
from tokens import MOST_BYTES
from walks import is_skipped

KINDS = ("type", "path")
TYPE = re.compile(r"[A-Za-z_]\w*(\.[A-Za-z_]\w*)*", re.A)


class Skip:
    """A name that is left out, as it is said, its kind where it has one, its last day where the settings say it, and how messages call it."""

    def __init__(self, said, until=None, shown=None):
        kind, mark, name = said.partition(":")
        is_marked = bool(mark) and kind in KINDS
        self.said, self.until, self.shown = said, until, shown or f"--skip {said}"
        self.kind, name = (kind, name) if is_marked else (None, said)
        self.name = name.rstrip("/")

    def as_said_of(self, kind):
        """Returns the name with its kind."""
        return f"{kind}:{self.name}"


class Skips:
    """All skips of a call: the types and the paths that they leave out. `taken` has those that named something, in any release."""

    def __init__(self, skips):
        self.skips, self.taken = skips, set()
        self.types = {it.name for it in skips if it.kind != "path"}
        self.paths = {it.name for it in skips if it.kind != "type"}

    def of_type(self, name):
        """Returns the skip that leaves out a type, or nothing."""
        return next((it for it in self.skips if it.kind != "path" and it.name == name), None)

    def refuse(self, types):
        """Stops where the call names a type that is left out: there would be no answer for it."""
        for skip in filter(None, map(self.of_type, types)):
            raise Stop(4, f"{skip.name} is named, and left out too: {skip.shown}")

    def settle(self, sides, types):
        """Returns what is left out of both sides, for the record: each skip that names something there, with its kind. A name that is a type
        and a path says neither, and a type that the call names isn't left out by its path."""
        there = {"type": {it for side in sides for it in side.declared}, "path": paths_of(sides)}
        doubted = {it.name for it in self.skips if not it.kind and it.name in there["path"] and TYPE.fullmatch(it.name)}
        hidden = {name: file for side in sides for name, file in self.hidden(side, {*doubted, *types}).items()}
        for name in types:
            if name in hidden:
                raise Stop(4, f"{name} is named, and {plain(hidden[name])}, which declares it, is left out")
        there["type"].update(doubted.intersection(hidden))
        found = [told for it in self.skips for told in self.told(it, there)]
        self.taken.update(it["name"] for it in found)
        return found

    def told(self, skip, there):
        """Returns what a skip leaves out: one thing, or nothing."""
        kinds = [it for it in KINDS if skip.kind in (None, it) and skip.name in there[it]]
        if len(kinds) > 1:
            raise Stop(4, f"{skip.shown} is the name of a type and of a path: write {' or '.join(map(skip.as_said_of, kinds))}")
        return [{"name": skip.said, "kind": it, "until": skip.until} for it in kinds]

    def hidden(self, side, names):
        """Returns which of the names a side declares in files that are left out, each with its file, as far as these can be read."""
        left_out = [it for it in side.files if names and is_skipped(it, self.paths)]
        files = [it for it in left_out if os.path.getsize(f"{side.folder}/{it}") <= MOST_BYTES]
        reading = Reading(side.folder)
        reading.read(files)
        return {name: file for file in files if file in reading.known for name in reading.known[file].types if name in names}


def paths_of(sides):
    """Returns what a skip may name but types: files and folders, also as they are printed."""
    names = {name for it in sides for name in (*it.files, *it.unread, *it.walk.folders, *it.all_texts())} - {""}
    return names.union(map(plain, names))

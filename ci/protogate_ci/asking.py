"""How the program is asked: of two sides that are laid out, in each direction.

Whatever a side has is gated, skipped, refused or told. What several answers say differently of a type is refused.
"""

import filecmp
import os
import tempfile
from typing import NamedTuple, Optional

from . import answers
from .running import Stop, plain, run
from .snapshot import is_below, is_skipped, is_text, within

BACKWARD, FORWARD = "backward", "forward"
LIBRARY, EMPTY = "google/protobuf", "protogate-ci-empty.proto"
HEAD = 'syntax = "proto3";\n'
STRICT = {"PROTOGATE_PROVED_ONLY": "1", "PROTOGATE_WORDS": "no"}


class Place(NamedTuple):
    """Where something is: its path from the top, and its line and column, or nothing."""

    path: str
    line: Optional[int] = None
    column: Optional[int] = None


class Fault(NamedTuple):
    """What isn't gated: the side, the code of the program or the kind of a path, where it is, what is said of it, and its file among the roots."""

    side: str
    code: str
    place: Optional[Place]
    says: str
    root: Optional[str] = None
    status: int = 2


class Field(NamedTuple):
    """A field of a side: its full name, its type, and its place."""

    name: str
    element: Optional[str]
    place: Optional[Place]


class Cause(NamedTuple):
    """A cause, with the fields of both sides, and how each side reads the message that shows it."""

    direction: str
    why: str
    message: str
    number: int
    fields: tuple
    readings: dict

    @property
    def key(self):
        """What makes it the same cause in two releases."""
        return (self.direction, self.why, tuple((number, it.name, it.element, to.name, to.element) for number, it, to in self.fields))


class Found(NamedTuple):
    """What is found in one direction: causes by their keys, types by their names, faults, notes, and both types of each pair."""

    causes: dict
    types: dict
    faults: list
    notes: list
    pairs: dict

    def take(self, other):
        """Takes what is found of other files. Where a type isn't the same in both, it isn't known which of them is meant."""
        for key, it in other.causes.items():
            self.causes.setdefault(key, it)
        for name, told in other.types.items():
            if self.types.setdefault(name, told) != told:
                words = f"{plain(name)} is declared by files that were gated apart, by protoc's sets and without: gate one set (--old-set, --new-set)"
                self.faults.append(Fault("new", "apart", None, words))
        self.faults.extend(other.faults)
        self.notes.extend(it for it in other.notes if it not in self.notes)
        self.pairs.update(other.pairs)


# The program.


def called(words):
    name = os.environ.get("PROTOGATE") or "protogate"
    try:
        status, said, why = run([name, *words], env={**os.environ, **STRICT})
    except OSError as fault:
        raise Stop(127, f"{name} can't be run ({fault.strerror}): install it, or say where it is in PROTOGATE") from None
    if words == ["--version"] and status != 127:
        if not said.startswith(b"protogate "):
            raise Stop(127, f"{plain(name)} is no protogate: it says nothing of its version")
    elif status == 4:
        raise Stop(answers.TOO_OLD, f"{plain(name)} is too old to be asked for {words[0]} {words[1]}: {answers.MEND}")
    elif status not in (0, 1, 2, 3):
        ended = "printed too much" if status is None else f"ended with {status}"
        raise Stop(127 if status == 127 else 3, f"protogate {ended}: {plain(why.strip()[:500]) or 'it said nothing'}")
    return status, said


def look_for_program():
    return plain(os.fsdecode(called(["--version"])[1]).strip())


def protoc_paths():
    folders = [it for it in os.environ.get("PATH", os.defpath).split(os.pathsep) if os.path.isabs(it)]
    return [path for path in (os.path.join(it, "protoc") for it in folders) if os.access(path, os.X_OK) and os.path.isfile(path)]


def library_of(room):
    """Returns a folder that has the library's own files alone, from beside protoc or where Debian has them, or nothing."""
    beside = [os.path.join(os.path.dirname(os.path.realpath(it)), "..", "include") for it in protoc_paths()]
    for folder in (*beside, "/usr/include", "/usr/local/include"):
        found = os.path.realpath(os.path.join(folder, LIBRARY))
        if os.path.isfile(os.path.join(found, "timestamp.proto")):
            made = tempfile.mkdtemp(prefix="library-", dir=room)
            os.mkdir(os.path.join(made, os.path.dirname(LIBRARY)))
            os.symlink(found, os.path.join(made, LIBRARY))
            return made
    return None


# A side.


class Side:
    """A side that is laid out below a folder: where files are looked for, and its roots, each by its name among them with its path from the top.
    A descriptor set has no folders, and is its own root."""

    def __init__(self, name, room, path=None, snapshot=None):
        self.name, self.room, self.set, self.snapshot, self.library = name, room, path, snapshot, None
        self.roots, self.skipped, self.faults, self.told, self.seen = {path: path} if path else {}, set(), [], {}, set()
        self.folders = list(dict.fromkeys([*snapshot.roots, *snapshot.includes])) if snapshot else []
        # Below the one all is laid out as it is in the source. The other has what is made here: a file that declares nothing, for a side without any.
        self.into, self.own = (tempfile.mkdtemp(prefix=f"{name}-", dir=room) for _ in range(2))
        self.write(self.own, EMPTY, HEAD)
        # Where fields are, by their names, where the program doesn't say it.
        self.places = {}

    def lay(self, skipped, library, laid):
        """Lays the side out, and finds its roots. `skipped` has the paths to leave out."""
        self.snapshot.lay(self.into, laid)
        self.skipped, self.library = skipped, library
        self.told = self.snapshot.passed_over()
        for path in self.snapshot.gated(skipped):
            self.take(path)
        closed = {**self.snapshot.refused(skipped), **self.shadowed(), **self.unseen()}
        self.faults += [Fault(self.name, kind, Place(path), f"{why}, or leave it out: --skip path:{plain(path)}")
                        for path, (kind, why) in sorted(closed.items())]

    def at(self, folder, file):
        return os.path.join(self.into, folder, file)

    def take(self, path):
        """Notes a root. The program takes the first folder that has a file of its name: that has to be this file, or an equal one."""
        root = next(it for it in self.folders if is_below(path, (it,)))
        name = within(path, root)
        first = next(it for it in self.folders if os.path.lexists(self.at(it, name)))
        self.seen.add(self.snapshot.links.get(path, path))
        if first != root and not (os.path.isfile(self.at(first, name)) and filecmp.cmp(self.at(first, name), self.at(root, name), False)):
            both = f"{plain(path)} and {plain(os.path.join(first, name))}"
            words = f"{both} differ, and imports have one name for both: gate each folder in its own call"
            self.faults.append(Fault(self.name, "twice", Place(path), words))
        else:
            self.roots.setdefault(name, path)

    def shadowed(self):
        """Returns what can't be read in a folder where a later one, or the library, has something by its name: that could take its place."""
        later = {root: [*self.folders[at + 1:], *([self.library] if self.library else [])] for at, root in enumerate(self.folders)}
        return {path: why for path, why in self.snapshot.closed.items() for root, others in later.items() if path != root and is_below(path, (root,))
                and any(os.path.lexists(self.at(it, within(path, root))) for it in others)}

    def unseen(self):
        """Returns each source file below the gated folders that is neither gated nor left out for a reason."""
        snapshot = self.snapshot
        paths = [it for it in snapshot.entries if is_text(it) and snapshot.sees(os.path.dirname(it)) and not is_skipped(it, self.skipped)]
        return {it: ("unseen", f"{plain(it)} wasn't gated, and nothing says why") for it in paths if snapshot.links.get(it, it) not in self.seen}

    def path_of(self, file):
        """Returns the path of a file that the program names, from the top, or its name where it isn't in the repository."""
        return next((os.path.normpath(os.path.join(it, file)) for it in self.folders if os.path.lexists(self.at(it, file))), file)

    def words(self, prefix, roots):
        """Returns the words of a command line for some roots of this side, as the program's `old-` or `new-` one, or as the only one."""
        if self.set:
            return [f"--{prefix[:-1]}={self.set}"] if prefix else ["--", self.set]
        first, *others = self.paths()
        # (no command line has to hold all names, and no name has a line feed)
        listed = self.write(tempfile.mkdtemp(dir=self.room), "list", "".join(f"{it}\n" for it in roots or [EMPTY]))
        return [f"--{prefix}dir={first}", *(f"--{prefix}include={it}" for it in others), f"--{prefix}files-from={listed}"]

    def take_set(self, data):
        with tempfile.NamedTemporaryFile(suffix=".pb", dir=self.room, delete=False) as file:
            file.write(data)
        self.set, self.roots = file.name, {file.name: file.name}

    def write(self, folder, name, text):
        with open(os.path.join(folder, name), "xb") as file:
            file.write(os.fsencode(text))
        return file.name

    def paths(self):
        return [*(os.path.join(self.into, it) for it in self.folders), *([self.library] if self.library else []), self.own]


# An answer.


class Asked:
    """Two sides, and how the program is asked of them: whether enums are compared by names too."""

    def __init__(self, old, new, view="numbers"):
        self.sides, self.view = {"old": old, "new": new}, view

    def found(self, direction, without=()):
        roots = {side: [name for name in sorted(it.roots) if it.set or name not in without] for side, it in self.sides.items()}
        return self.found_in(direction, self.answer(direction, roots)) if any(roots.values()) else Found({}, {}, [], [], {})

    def answer(self, direction, roots):
        """Asks the program of some roots. Where the new side writes, it is the program's old one."""
        writer, reader = ("old", "new") if direction == BACKWARD else ("new", "old")
        words = ["gate-all", "--keep-going", "--json", "--explain", "--notes", f"--view={self.view}"]
        status, said = called([*words, *self.sides[writer].words("old-", roots[writer]), *self.sides[reader].words("new-", roots[reader])])
        # (which files a descriptor set has isn't known here)
        asked = {role: None if self.sides[side].set else {*roots[side]} for role, side in (("old", writer), ("new", reader))}
        return answers.read(said, status, asked)

    def found_in(self, direction, answer):
        """Returns what is found in an answer, with `old` and `new` as they are here."""
        names = {"old": "old", "new": "new"} if direction == BACKWARD else {"old": "new", "new": "old"}
        turned = {"removed": "added", "added": "removed"} if direction == FORWARD else {}
        causes = [self.cause(direction, it, names) for it in answer.of("cause")]
        types = {name: (turned.get(verdict, verdict), length) for name, (verdict, length) in answer.types.items()}
        faults = [self.fault(it, names) for it in (*answer.of("left-out"), *answer.of("refused"))]
        # (what notes say else is of the direction in which the old side is the old one)
        notes = [{**it, **{side: self.field(side, it[names[side]]) if it.get(names[side]) else None for side in ("old", "new")}}
                 for it in answer.of("note") if direction == BACKWARD or it["what"] == "method-changed"]
        return Found({it.key: it for it in causes}, types, faults, notes, {})

    def cause(self, direction, it, names):
        fields = tuple((pair["number"], *(self.field(side, pair[names[side]]) for side in ("old", "new"))) for pair in (it, *it["others"]))
        read = {side: it.get("readings", {}).get(names[side], "") for side in ("old", "new")}
        return Cause(direction, it["why"], it["message"], it["number"], fields, read)

    def field(self, side, it):
        return Field(it["name"], it.get("element"), self.place(side, it) or self.sides[side].places.get(it["name"]))

    def place(self, side, it):
        return Place(self.sides[side].path_of(it["file"]), it.get("line"), it.get("column")) if it.get("file") is not None else None

    def fault(self, it, names):
        side = names[it["side"]] if it.get("side") else "new"
        place = self.place(side, it) or (Place(self.sides[side].path_of(it["root"])) if it.get("root") else None)
        says = it.get("sentence") or it["says"] + (f" (at byte {it['byte']})" if it.get("byte") is not None else "")
        return Fault(side, it["code"], place, says, it.get("root"), 3 if it["code"] in answers.FAILURES else 2)


def types_of(side, roots):
    """Returns the names of the types that some roots of a side declare or import, or nothing where the program can't tell them."""
    status, said = called(["types", "--json", *side.words("", roots)]) if roots else (0, b"")
    return answers.names(said) if status == 0 else None

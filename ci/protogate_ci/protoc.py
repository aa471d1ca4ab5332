"""Source files that the program refuses, compiled by protoc to sets that it takes: those with custom options and the like.

protoc isn't proved. The program reads what it makes, and decides. Of a set goes what isn't proto3: what needs it for options alone is the same
without it, and what needs more of it is refused by the program, as a file that refers to nothing.
"""

import copy
import os
import tempfile

from . import sets
from .answers import FAILURES
from .asking import Asked, protoc_paths
from .running import Stop, run

# As often the program is asked of files by twos, fours and so on, once some of them are refused again.
MOST_CALLS = 64
NO_PROTO3 = "E201"


def compiled(side, names, room):
    """Returns the set that protoc makes of some roots of a side, or nothing where it refuses one."""
    paths = protoc_paths()
    if not paths:
        raise Stop(3, "--with-protoc: there is no protoc in a folder of PATH that begins with /")
    there, folders = tempfile.mkdtemp(prefix="set-", dir=room), side.paths()
    first = {name: next(it for it in folders if os.path.lexists(os.path.join(it, name))) for name in names}
    listed = side.write(there, "words", "".join(os.path.join(first[it], it) + "\n" for it in names))
    words = [*(f"-I{it}" for it in folders), "--include_imports", "--include_source_info", f"--descriptor_set_out={there}/all.pb", f"@{listed}"]
    if run([paths[0], *words], cwd=there)[0] != 0:
        return None
    with open(f"{there}/all.pb", "rb") as file:
        return file.read()


def set_of(side, names, room):
    """Returns a side that is the set which protoc makes of some roots, or nothing where one of them has none, or isn't proto3."""
    made = copy.copy(side)
    made.roots, made.places = {}, {}
    if not names:
        return made
    data = compiled(side, names, room)
    if data is None:
        return None
    try:
        files = sets.files_of(data)
        gone = {name for name, it in files.items() if sets.word(it, sets.SYNTAX) != "proto3"}
        if not gone.isdisjoint(names) or not set(names) <= set(files):
            return None
        made.take_set(b"".join(sets.encoded(1, sets.without(it, gone)) for name, it in files.items() if name not in gone))
        for name, it in files.items():
            made.places.update(sets.places_of(it, side.path_of(name)))
    except (IndexError, KeyError, TypeError):
        raise Stop(3, f"what protoc made of {len(names)} files of the {side.name} side isn't whole") from None
    return made


def may_help(fault, roots):
    is_itself = fault.place and fault.place.path == roots.get(fault.root)
    return fault.root is not None and fault.code not in FAILURES and not (fault.code == NO_PROTO3 and is_itself)


def gated(old, new, faults, directions, view, room):
    """Gates what is refused as sets that protoc makes. Yields roots that could be gated so, what is found of them in each direction, and these
    sides."""
    of_roots = [it for it in faults if it.root is not None]
    hopeless = {it.root for it in of_roots if not may_help(it, (old if it.side == "old" else new).roots)}
    pending, calls = [sorted({it.root for it in of_roots} - hopeless)], 0
    while pending and calls < MOST_CALLS:
        group, calls = pending.pop(0), calls + 1
        sides = [set_of(side, [it for it in group if it in side.roots], room) for side in (old, new)] if group else [None]
        asked = Asked(*sides, view) if None not in sides else None
        found = {it: asked.found(it) for it in directions} if asked else {}
        if found and not any(it.faults for it in found.values()):
            yield group, found, asked
        elif len(group) > 1:
            half = len(group) // 2
            pending += [group[:half], group[half:]]

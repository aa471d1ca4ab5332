"""Methods that take or answer another type than they did: the old type and the new one are gated as a pair.

A message of one field stands for a pair on both sides, whose type is the old one there and the new one here. The program compares what messages have,
whatever their types are called.
"""

import copy
import tempfile

from . import sets
from .asking import HEAD, Asked, Fault, Place, called

FILE, PAIR, FIELD = "protogate-ci-pairs.proto", "ProtogateCiPair", "pair"
CHANGED, PARTS = "method-changed", ("request", "reply")
# Of a field: its number, its label, its kind, and its type.
NUMBER, LABEL, KIND, TYPE, OPTIONAL, MESSAGE = 3, 4, 5, 6, 1, 11


class Methods:
    """The methods of a side by their names, each with the types that it takes and answers, and the file of each type."""

    def __init__(self, side, roots):
        if side.set:
            with open(side.set, "rb") as file:
                self.data = file.read()
        else:
            status, self.data = called(["compile", *side.words("", roots)])
            if status != 0:
                raise IndexError
        files = sets.files_of(self.data)
        self.methods = {name: types for it in files.values() for name, *types in sets.methods_of(it)}
        self.files = {f".{name}": file for file, it in files.items() for name, *_ in sets.messages_of(it)}

    def with_pairs(self, side, types):
        made, imports = copy.copy(side), sorted({self.files[it] for it in types})
        if side.set:
            fields = [sets.encoded(2, sets.encoded(1, FIELD.encode()) + sets.encoded(NUMBER, 1) + sets.encoded(LABEL, OPTIONAL)
                                   + sets.encoded(KIND, MESSAGE) + sets.encoded(TYPE, it.encode())) for it in types]
            messages = [sets.encoded(sets.MESSAGES, sets.encoded(1, f"{PAIR}{at}".encode()) + it) for at, it in enumerate(fields)]
            file = [sets.encoded(sets.NAME, FILE.encode()), *(sets.encoded(sets.DEPENDENCY, it.encode("utf-8", "surrogateescape")) for it in imports)]
            made.take_set(self.data + sets.encoded(1, b"".join([*file, *messages, sets.encoded(sets.SYNTAX, b"proto3")])))
        else:
            made.own, made.roots = tempfile.mkdtemp(dir=side.room), {FILE: FILE}
            quoted = (it.replace("\\", "\\\\").replace('"', '\\"') for it in imports)
            lines = [*(f'import "{it}";\n' for it in quoted), *(f"message {PAIR}{at} {{ {it} {FIELD} = 1; }}\n" for at, it in enumerate(types))]
            made.write(made.own, FILE, HEAD + "".join(lines))
        return made


def gate(asked, results, without=()):
    """Gates the pairs of two sides that were asked, and adds what is found of them to the results of each direction."""
    notes = {it["old"].name: it["new"] for found in results.values() for it in found.notes if it["what"] == CHANGED}
    if not notes:
        return
    try:
        read = {side: Methods(it, [name for name in sorted(it.roots) if name not in without]) for side, it in asked.sides.items()}
        changed = {f"{name} {part}": [it.methods[name][at] for it in read.values()] for name in sorted(notes) for at, part in enumerate(PARTS)}
        pairs = {label: it for label, it in changed.items() if it[0] != it[1]}
        sides = [it.with_pairs(asked.sides[side], [pair[at] for pair in pairs.values()]) for at, (side, it) in enumerate(read.items())]
    except (IndexError, KeyError, UnicodeEncodeError):
        for name, it in notes.items():
            for found in results.values():
                says = f"Which types {name} takes and answers isn't known, and they aren't gated as pairs."
                found.faults.append(Fault("new", "method", it.place, says))
        return
    for direction, found in results.items() if pairs else ():
        add(Asked(*sides, asked.view).found(direction), found, pairs)


def add(paired, found, pairs):
    """Adds what is found of pairs in a direction. A method's name, and whether it is of the request or the reply, stand for each pair."""
    found.faults.extend(it._replace(root=None, place=Place(FILE)) for it in paired.faults)
    for key, it in paired.causes.items():
        found.causes.setdefault(key, it)
    for at, (label, (old, new)) in enumerate(() if paired.faults else pairs.items()):
        verdict, length = paired.types.get(f"{PAIR}{at}", ("removed", None))
        found.types[label] = (verdict, length and inner(length))
        found.pairs[label] = (old[1:], new[1:])


def inner(length):
    """Returns the length of a message that is all of a field with a number below 16, whose length is told."""
    return next(it for size in range(1, 6) for it in [length - 1 - size] if max(1, (it.bit_length() + 6) // 7) == size)

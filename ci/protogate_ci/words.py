"""What is said of each thing that a run found, in sentences: what it means, for which values, and what to do."""

import json
import re
import struct
from typing import NamedTuple, Optional

from .asking import BACKWARD, Place
from .running import plain

WHY_PAGE, ERRORS_PAGE = "docs/COMPATIBILITY.md#why-it-breaks", "docs/ERRORS.md"
# As many letters of a value are shown, and as many fields of a oneof are named.
MOST_LETTERS, MOST_NAMED = 40, 8
SIDES, OLD, NEW, AN = ("old", "new"), 0, 1, ("an old", "a new")


class Finding(NamedTuple):
    """Something that a run found. `kind` begins its line, `rule` is the case, code or kind of note, and `status` what it makes the run end with."""

    kind: str
    rule: str
    subject: str
    place: Optional[Place] = None
    says: str = ""
    mend: str = ""
    status: int = 0
    since: str = ""
    page: str = ""
    details: Optional[dict] = None
    side: str = "new"

    @property
    def level(self):
        return "error" if self.status else "warning" if self.kind == "warning" else "note"

    @property
    def spot(self):
        """The place as it is on the new side: of what the old one has, the file alone."""
        return Place(self.place.path) if self.place and self.side == "old" else self.place

    @property
    def words(self):
        return " ".join(it for it in (self.says, f"What to do: {self.mend}" if self.mend else "") if it)


def listed(names, most=MOST_NAMED):
    """Returns the names as words of a sentence: the first few, and how many more there are."""
    *first, last = [*names[:most], *([f"{len(names) - most} more"] if len(names) > most else [])]
    return f"{', '.join(first)} and {last}" if first else last


def code(words):
    return f"`{plain(words)}`"


def last(name):
    return name.rpartition(".")[2]


# Values, as the program reads them.


def items(reading, number):
    """Returns the items that a side's reading has of a field of the message itself, as the program prints them."""
    return [it.split(" ", 2)[2] for it in reading.split("\n") if re.match(rf"{number} \S+ .", it)]


def letters(words):
    return words if len(words) <= MOST_LETTERS else f"{words[:MOST_LETTERS]}.."


def shown(item, element):
    """Returns an item as a person reads it, by the type of its field."""
    kind, _, value = item.partition(" ")
    value = "" if value == "-" else value
    made = {
        "key": lambda: f"the entry {letters(item)}", "msg": lambda: "a message",
        "bytes": lambda: f"the bytes {letters(value)}" if value else "no bytes",
        "int": lambda: {"0": "false", "1": "true"}.get(value, value) if element == "bool" else str(int(value)),
        "f32": lambda: repr(struct.unpack(">f", bytes.fromhex(value))[0]), "f64": lambda: repr(struct.unpack(">d", bytes.fromhex(value))[0]),
        "text": lambda: letters(json.dumps(bytes.fromhex(value).decode(), ensure_ascii=False))}
    try:
        return plain(made[kind]())
    except (KeyError, ValueError, struct.error):
        return plain(letters(item))


def misread(cause):
    """Returns which value of the message that shows a cause is misread, and as what."""
    writer, reader = (OLD, NEW) if cause.direction == BACKWARD else (NEW, OLD)
    number, *fields = cause.fields[0]
    written, read = (items(cause.readings[SIDES[it]], number) for it in (writer, reader))
    if not written or cause.why in ("name", "oneof"):
        return ""
    was, now = (listed([shown(item, fields[at].element) for item in some], 3) if some else "" for at, some in ((writer, written), (reader, read)))
    program = f"{AN[reader]} program"
    refused = re.match(r"refused (\w+)", cause.readings[SIDES[reader]])
    if refused:
        return f"a message with {was} is refused by {program} ({refused[1]})"
    if not read:
        return f"{was} {'is' if len(written) == 1 else 'are'} lost to {program}"
    return f"of {was} {program} keeps only {now}" if len(written) > len(read) else f"{was} is read as {now} by {program}"


# Causes.

WHY = {
    "unlike": "the values are of another kind, or written in another way, so that a program loses them, misreads them or refuses the message",
    "value": "some values are read as others, or refused", "name": "the enums give a number other names",
    "list-to-one": "of two items a program keeps the last, or merges them if they are messages",
    "map": "the map's keys or values are of another kind, or written in another way", "map-key": "some keys are read as others, or refused",
    "map-value": "some values of the map are read as others, or refused",
}


def names_of(cause):
    return listed([code(last(old.name)) for _, old, _ in cause.fields])


def change_of(cause):
    number, old, new = cause.fields[0]
    types = f"{code(old.element)} to {code(new.element)}"
    if last(old.name) != last(new.name):
        return f"number {number} was {code(last(old.name))} and is {code(last(new.name))} now, {types}"
    if cause.why == "list-to-one":
        return "a list became a single field" if cause.direction == BACKWARD else "a single field became a list"
    return types if old.element != new.element else ""


def why(cause):
    if cause.why == "oneof":
        come, reader = ("come into one oneof", NEW) if cause.direction == BACKWARD else ("leave their oneof", OLD)
        words = f"{names_of(cause)} {come}: of those that a message has, {AN[reader]} program keeps one alone"
    else:
        words = ": ".join(it for it in (change_of(cause), misread(cause) or WHY.get(cause.why, cause.why)) if it)
    return f"{words[0].upper()}{words[1:]}."


def mend(cause, moved=None):
    """Returns what to do about a cause. `moved` is the number at which the old field is now, where that is known."""
    number, old, new = cause.fields[0]
    name, is_backward = code(last(old.name)), cause.direction == BACKWARD
    if cause.why == "oneof":
        return f"Take {names_of(cause)} out of the oneof." if is_backward else f"Leave {names_of(cause)} in their oneof."
    added = f"{code(('' if cause.why.startswith('map') else 'optional ') + f'{new.element} {last(old.name)}_new = N;')}"
    kept = (f"ive it its type {code(old.element)} back, or keep it, add {added} with a number N that no field has had, and write both until every "
            "program reads the new one.")
    if last(old.name) != last(new.name):
        there = f", which is at {moved} now," if moved is not None else ""
        return (f"Give {name}{there} number {number} back, and {code(last(new.name))} a number that no field has had. If it is the same field by "
                f"another name, g{kept}")
    if cause.why in ("name", "map-value") and old.element == new.element:
        return "Give the number its old name back, or give what is meant now a number of its own. Where both names mean the same, compare by numbers."
    if cause.why == "list-to-one":
        return f"Make {name} {'a list' if is_backward else 'a single field'} again, or keep it as it was and add the other with a new number."
    return f"G{kept}"


# Notes.

NOTES = {
    "field-renamed": "Number {number} was {old} and is {new} now: JSON, text and code go by names.",
    "field-moved": "{old} had number {number} and has number {now} now: a program that goes by the old number doesn't see it.",
    "number-unreserved": "Number {number} of {old} was removed and isn't reserved: a later field that takes it misreads old messages. Write "
                         "`reserved {number};`.",
    "presence-dropped": "{old} could tell whether it is set, and can't any more: 0 or an empty value is taken for none.",
    "number-to-list": "{old} was a single number and is a packed list now: an old program doesn't read what a new one hands on.",
    "value-renamed": "Number {number} was {old} and is {new} now: programs and JSON that go by names take it for another value.",
    "value-gone": "Number {number} of {old} was removed: a later value that takes it is misread by programs that have the old one.",
    "method-gone": "The method {old} was removed: calls of old clients fail.",
    "service-gone": "The method {old} went with its service: calls of old clients fail.",
    "method-changed": "The method {old} has another request or reply now, or another stream: old clients call it as it was.",
}


def note(it, is_strict, others):
    """Returns the finding of a note. `others` has by type and number where each old name is now."""
    old, new = it["old"], it["new"]
    subject = (old or new).name if old or new else it["what"]
    names = {side: code(field.name if field else "?") for side, field in (("old", old), ("new", new))}
    # (a note of a kind that a later program has is told by its kind)
    words = NOTES.get(it["what"], "{old} changed ({what}).").format(what=plain(it["what"]), number=it["number"], now=it["now"], **names)
    owner = subject.rpartition(".")[0]
    if it["what"] == "field-renamed" and it["now"] is not None and others.get((owner, it["now"])) == it["number"]:
        words = (f"{names['old']} and {names['new']} exchanged their numbers {min(it['number'], it['now'])} and {max(it['number'], it['now'])}: "
                 "each program takes one for the other, whatever their types are.")
    side = "new" if new and new.place else "old"
    place = (new if side == "new" else old).place if new or old else None
    return Finding("warning", plain(it["what"]), subject, place, words, status=2 if is_strict else 0, side=side)

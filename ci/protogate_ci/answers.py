"""What the program answers: one JSON object a line. An answer that isn't whole, or that contradicts itself, the call or the program's status, is a
failure, and never a yes."""

import json
import re
from typing import NamedTuple

from .running import Stop, plain

SIDES, VERDICTS = ("old", "new"), ("compatible", "breaks", "removed", "added")
# What is said where a program is older than this one wants it, and the status for that.
TOO_OLD, MEND = 5, "install a later protogate"
# The codes of faults that aren't those of a file: no memory, and what couldn't be read.
FAILURES = ("E001", "E309")
# What objects are, by their keys: a type, one of several, the keys of an inner object, or a list of it. They may have other keys too.
PLACE = {"file": (str, None), "line": (int, None), "column": (int, None)}
NAMED = {"name": str, **PLACE}
FIELD = {"element": str, **NAMED}
PAIR = {"number": int, "old": FIELD, "new": FIELD}
SHAPES = {
    "cause": {"why": str, "length": int, "message": str, **PAIR, "others": [PAIR]},
    "reading": {"side": SIDES, "text": str}, "compatible": {"type": str}, "breaks": {"type": str, "length": int}, "removed": {"type": str},
    "added": {"type": str}, "declared": {"type": str}, "refused": {"side": (*SIDES, None), "code": str, "says": str, "byte": (int, None), **PLACE},
    "left-out": {"side": SIDES, "root": str, "code": str, "sentence": str, **PLACE},
    "note": {"what": str, "number": (int, None), "now": (int, None), "old": (NAMED, None), "new": (NAMED, None)},
}
# What each line makes the status at least.
STATUSES = {"breaks": 1, "removed": 2, "left-out": 2, "refused": 2}


class Broken(Exception):
    """An answer is none: its words say why."""


class Answer(NamedTuple):
    """What the program says of two sides: objects by their kinds, causes with their readings, and by each type its verdict and the length of a
    message that breaks."""

    kinds: dict
    types: dict

    def of(self, kind):
        return self.kinds.get(kind, [])


def fits(it, shape):
    """Returns whether a value is of a shape. A text is UTF-8, but for bytes that aren't, as a path may have them."""
    if isinstance(shape, tuple):
        return any(fits(it, one) for one in shape)
    if isinstance(shape, list):
        return isinstance(it, list) and all(fits(one, shape[0]) for one in it)
    if isinstance(shape, dict):
        return isinstance(it, dict) and all(fits(it.get(key), one) for key, one in shape.items())
    if shape is str:
        return isinstance(it, str) and not re.search("[\ud800-\udc7f\udd00-\udfff]", it)
    return type(it) is int and abs(it) < 1 << 64 if shape is int else it == shape


def objects_of(data):
    *lines, rest = data.decode("utf-8", "surrogateescape").split("\n")
    if rest:
        raise Broken("its last line has no end")
    found = []
    for line in lines:
        try:
            it = json.loads(line)
        except (ValueError, RecursionError):
            it = None
        kind = it.get("kind") if isinstance(it, dict) else None
        if kind == "cause" and all(isinstance(it.get(side), dict) and "element" not in it[side] for side in SIDES):
            raise Stop(TOO_OLD, f"the program doesn't say the types of a field that breaks: {MEND}")
        if not isinstance(kind, str) or kind not in SHAPES or not fits(it, SHAPES[kind]):
            raise Broken(f"it isn't clear what is meant by: {line[:200]}")
        found.append(it)
    return found


def whole(call):
    """Has a call that reads an answer stop where that isn't whole."""
    def reads(data, *more):
        try:
            return call(data, *more)
        except Broken as broken:
            raise Stop(3, f"the program's answer isn't whole: {plain(str(broken))[:500]}. Nothing is known of these sides") from None
    return reads


@whole
def names(data):
    return {it["type"] for it in objects_of(data) if it["kind"] == "declared"}


@whole
def read(data, status, roots):
    """Returns what was answered. `roots` has by side the names of the files that were asked for, or nothing for a set."""
    answer, last = Answer({}, {}), None
    for it in objects_of(data):
        kind = it["kind"]
        if kind == "reading":
            if last is None or len(last.setdefault("readings", {})) > 1 or it["side"] != SIDES[len(last["readings"])]:
                raise Broken("a reading belongs to no cause")
            last["readings"][it["side"]] = it["text"]
            continue
        last = it if kind == "cause" else None
        answer.kinds.setdefault(kind, []).append(it)
        if kind in VERDICTS:
            if it["type"] in answer.types:
                raise Broken(f"{it['type']} is answered twice")
            answer.types[it["type"]] = (kind, it.get("length"))
    check(answer, status, roots)
    return answer


def check(answer, status, roots):
    refused, left = answer.of("refused"), [(it["side"], it["root"]) for it in answer.of("left-out")]
    if any(len(it.get("readings", "  ")) != 2 for it in answer.of("cause")):
        raise Broken("one side's reading is missing")
    if bool(answer.of("cause")) != bool(answer.of("breaks")):
        raise Broken("a type breaks, and nothing that it breaks by is there, or the other way round")
    if answer.of("declared") or refused and (len(refused) > 1 or len(answer.kinds) > 1):
        raise Broken("it is refused, or of another question, and more than that")
    if len(set(left)) != len(left) or any(roots[side] is not None and root not in roots[side] for side, root in left):
        raise Broken("what is left out wasn't asked for, or is left out twice")
    wanted = 3 if any(it["code"] in FAILURES for it in refused) else max((STATUSES.get(it, 0) for it in answer.kinds), default=0)
    if status != wanted:
        raise Broken(f"the program ended with {status}, and the lines say {wanted}")

"""Prints the words of what `--json` printed, for tools/fuzz/fuzz.py: they have to be what the same call prints without it.

Each line has to be an object as Python's own `json` writes it without spaces, with the members of its kind in their order.
"""

import json
import os
import sys

sys.path.append(f"{os.path.dirname(os.path.realpath(__file__))}/../../examples/ci")
from codes import ERRORS  # noqa: E402

FIELD = ["name", "file", "line", "column"]
STEP = ["number", "old", "new"]
MEMBERS = {
    "compatible": ["type"],
    "breaks": ["type", "length"],
    "bound": ["type", "length"],
    "witness": ["message"],
    "step": STEP,
    "forward": [],
    "backward": [],
    "reading": ["side", "text"],
    "cause": ["why", "length", "message", *STEP, "others"],
    "note": ["what", "number", "old", "new", "now"],
    "removed": ["type"],
    "added": ["type"],
    "declared": ["type"],
    "certificate": ["text"],
    "shown": ["text"],
    "refused": ["side", "code", "file", "line", "column", "byte", "old", "new", "number", "case", "says"],
}


class Wrong(Exception):
    """What is wrong with a line."""


def has_members(of, wanted):
    if list(of) != wanted:
        raise Wrong(f"members {list(of)}")


def field_words(field):
    has_members(field, FIELD)
    place = "-" if field["file"] is None else f"{field['file']}:{field['line']}:{field['column']}"
    return f"{field['name']} {place}"


def fields_words(step):
    return f"{field_words(step['old'])} {field_words(step['new'])}"


def cause_words(it):
    others = it["others"]
    for other in others:
        has_members(other, STEP)
    numbers = [it["number"], *(other["number"] for other in others)]
    if numbers != sorted(set(numbers)):
        raise Wrong(f"numbers {numbers}")
    fields = " ".join(fields_words(step) for step in (it, *others))
    return f"cause {it['why']} {it['length']} {it['message'] or '-'} {it['number']} {fields}\n"


def note_words(it):
    number, now = ("-" if word is None else word for word in (it["number"], it["now"]))
    tells_now = it["what"] in ("field-renamed", "field-moved")
    if it["now"] is not None and not tells_now:
        raise Wrong(f"a number now of {it['what']}")
    new = "- -" if it["new"] is None else field_words(it["new"])
    return f"note {it['what']} {number} {field_words(it['old'])} {new}{f' {now}' if tells_now else ''}\n"


def place_words(it):
    """Returns where a refusal says that the fault is."""
    if it["line"] is not None:
        return f" {it['file']}:{it['line']}:{it['column']}"
    if it["byte"] is not None:
        return f" at {it['byte']}"
    words = [it["file"], it["old"], it["new"], it["number"], it["case"]]
    return "".join(f" {word}" for word in words if word not in (None, ""))


def refusal_words(it):
    if it["says"] != ERRORS[it["code"]][0]:
        raise Wrong(f"the sentence of {it['code']}")
    side = f"{it['side']} " if it["side"] else ""
    return f"refused {side}{it['code']}{place_words(it)}\n"


WORDS = {
    "compatible": lambda it: f"compatible {it['type']}\n",
    "breaks": lambda it: f"breaks {it['type']} {it['length']}\n",
    "bound": lambda it: f"bound {it['type']} {it['length']}\n",
    "witness": lambda it: f"witness {it['message'] or '-'}\n",
    "step": lambda it: f"step {it['number']} {fields_words(it)}\n",
    "forward": lambda it: "forward\n",
    "backward": lambda it: "backward\n",
    "reading": lambda it: f"{it['side']}\n{it['text']}",
    "cause": cause_words,
    "note": note_words,
    "removed": lambda it: f"removed {it['type']}\n",
    "added": lambda it: f"added {it['type']}\n",
    "declared": lambda it: f"{it['type']}\n",
    "certificate": lambda it: it["text"],
    "shown": lambda it: it["text"],
    "refused": refusal_words,
}


def line_words(line):
    """Returns the words of one line."""
    try:
        it = json.loads(line)
    except ValueError as fault:
        raise Wrong(f"no JSON: {fault}") from None
    if json.dumps(it, ensure_ascii=False, separators=(",", ":")) != line:
        raise Wrong("written otherwise")
    kind = it.get("kind")
    has_members(it, ["kind", *MEMBERS.get(kind, [])])
    return WORDS[kind](it)


def words_of(output):
    """Returns the words of an output, as bytes. A line that isn't as it has to be raises `Wrong`."""
    *lines, end = output.decode().split("\n")
    if end:
        raise Wrong("no end of the last line")
    return "".join(map(line_words, lines)).encode()

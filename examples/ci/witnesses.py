"""What `protogate gate` says of one type: the shortest message of it that breaks, the way to what breaks in it, and both readings."""

import os
import re

from calls import Stop, protogate
from cuts import fields_in

# What a step says before its field.
STEP = re.compile(r"step (\d+) (.+)", re.S)
# What an answer has more of a type that is named.
OWN = ("witness", "steps", "readings")


def answers_in(said, status, old_paths, new_paths):
    """Returns what the gate says: of each direction its verdict, or the line of a refusal. Lines that aren't whole are no answer. Its positions
    are of the paths of the two sides."""
    answers, direction, reading = [], "forward", None
    statuses = {"compatible": 0, "breaks": 1, "refused": status}
    for line in said.split("\n"):
        first, _, rest = line.partition(" ")
        step = STEP.fullmatch(line)
        if line in ("forward", "backward"):
            direction, reading = line, None
        elif line in ("old", "new") and answers:
            reading = answers[-1].setdefault("readings", {}).setdefault(line, [])
        elif reading is not None:
            reading.append(line)
        elif first in ("compatible", "breaks", "refused"):
            answers.append({"direction": direction, "verdict": first, "said": rest, "steps": [], "status": statuses[first]})
        elif first == "witness":
            answers[-1]["witness"] = "" if rest == "-" else rest
        elif step:
            answers[-1]["steps"] += [{"number": step[1], **it} for it in fields_in(step[2], old_paths, new_paths, 1) or [{}]]
    is_whole = all(it["verdict"] != "breaks" or it["steps"] and "witness" in it and len(it.get("readings", "")) == 2 for it in answers)
    is_whole = is_whole and all("old" in step for it in answers for step in it["steps"])
    if not is_whole or max([it["status"] for it in answers], default=None) != status:
        raise Stop(3, f"protogate ended with {status}, and it isn't clear what its lines say: {said[:500]}")
    return answers


def shown(lines):
    """Returns a reading as the record has it."""
    return "".join(f"{it}\n" for it in lines if it)


def settle_field(field, old, new, way, files_of):
    """Makes 'old' the old side's field, also backward, where the sides are exchanged, and adds what is at both positions. That of a set is
    looked for: `files_of` has for each side the file that declares each message type."""
    if way == "backward":
        field.update(old=field["new"], new=field["old"], old_place=field["new_place"], new_place=field["old_place"])
    for name, side, files in (("old", old, files_of[0]), ("new", new, files_of[1])):
        if field[f"{name}_place"] == "-":
            field[f"{name}_place"] = side.place_of_field(files.get(field[name].rpartition(".")[0]), field[name])
    field.update(old_text=old.line_at(field["old_place"]), new_text=new.line_at(field["new_place"]))
    field.update(old_place=old.shown(field["old_place"]), new_place=new.shown(field["new_place"]))


def settle_readings(readings, way):
    """Returns both readings: 'old' is always the old side's."""
    there = {side: shown(lines) for side, lines in readings.items()}
    return dict(old=there["new"], new=there["old"]) if way == "backward" else there


def add_witness(answer, old, new, options):
    """Adds to an answer that breaks what the gate says of its type. Another answer than this one stops the run."""
    name, way = answer["type"], answer["direction"]
    both = [(old, answer["old_file"]), (new, answer["new_file"])]
    (writer, written), (reader, read) = both if way == "forward" else both[::-1]
    sides = writer.words(written, "--old-dir", "--old") + reader.words(read, "--new-dir", "--new")
    status, said = protogate("gate", *sides, f"--type={name}", "--explain", *options)
    found = answers_in(os.fsdecode(said), status, writer.known, reader.known)
    if [(it["verdict"], it["said"]) for it in found] != [("breaks", f"{name} {answer['length']}")]:
        raise Stop(3, f"protogate ended with {status}, and its lines don't answer for {name}: {os.fsdecode(said)[:500]}")
    answer.update({it: found[0][it] for it in OWN})
    answer["readings"] = settle_readings(answer["readings"], way)
    files_of = [side.files_of_types(answer[f"{side.name}_file"]) for side in (old, new)]
    for step in answer["steps"]:
        settle_field(step, old, new, way, files_of)

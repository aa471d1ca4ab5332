"""What a record has, for those who read one: the kind of each value. docs/RECORD.md says what it means."""

import json
import re

# The version of the records. A change of what a key means makes it another one.
VERSION = 2

DIGITS = re.compile("[0-9]{1,10}")
HEXADECIMAL = re.compile("[0-9a-f]*")
WAYS, SIDES = ("forward", "backward"), ("old", "new")


class Maybe:
    """A value that may be null."""

    def __init__(self, kind):
        self.kind = kind


class Each:
    """An object whose keys are names, each with a value of one kind."""

    def __init__(self, kind):
        self.kind = kind


# A key that ends with `?` may be missing: not each answer has it, or it came within this version.
FIELD = {"old": str, "old_place": str, "old_text": Maybe(str), "new": str, "new_place": str, "new_text": Maybe(str)}
READINGS = {"old": str, "new": str}
CAUSE = {
    "case": str, "direction": WAYS, "number": DIGITS, "fields": [FIELD], "length": int, "witness": HEXADECIMAL, "readings": READINGS,
    "is_by_names": bool, "old_file": Maybe(str), "new_file": Maybe(str), "types": [str],
}
ANSWER = {
    "type": str, "verdict": ("breaks", "refused", "removed", "added", "compatible"), "direction": WAYS, "status": int,
    "old_file": Maybe(str), "new_file": Maybe(str), "said?": str, "nearest?": Maybe(str), "length?": int,
    "steps": [{**FIELD, "number": DIGITS}], "witness?": HEXADECIMAL, "readings?": READINGS, "is_by_names?": bool, "advice?": str,
}
REFUSAL = {
    "side": SIDES, "code": str, "place": str, "file": str, "text": str, "status": int, "texts": [str], "nearest": Maybe(str),
    "protoc": bool, "protoc_says": Maybe(str), "advice": Maybe(str),
}
WARNING = {"subject": str, "side": SIDES, "place": str, "words": str, "new_place": Maybe(str)}
SKIP = {"name": str, "reason": str, "until": str, "line": int, "is_over": bool}
SKIPPED = {"name": str, "kind": ("type", "path"), "until": Maybe(str)}
RUN = {
    "call": [str], "revision": str, "commit": re.compile("[0-9a-f]{40,64}"), "folder": str, "prefix": str, "both": bool,
    "view": ("numbers", "names"), "status": int, "causes": [CAUSE], "answers": [ANSWER], "refusals": [REFUSAL], "warnings": [WARNING],
    "is_empty": bool, "by_protoc?": {"old": [str], "new": [str]}, "outside": Each(Maybe(str)), "skipped?": [SKIPPED],
}
RECORD = {"format": str, "version": int, "status": int, "base?": Maybe(str), "settings?": Maybe(str), "skips": [SKIP], "runs": [RUN]}


def is_simple(value, kind):
    """Returns whether a value that isn't made of others is of a kind. (Python takes a truth for a number.)"""
    if isinstance(kind, type):
        return type(value) is kind
    return isinstance(value, str) and (value in kind if isinstance(kind, tuple) else kind.fullmatch(value) is not None)


def parts_of(value, kind, at):
    """Returns the values that a value is made of, each with its kind and where it is, or nothing where it isn't of its kind."""
    if isinstance(kind, list) and isinstance(value, list):
        return [(it, kind[0], f"{at}[{index}]") for index, it in enumerate(value)]
    if isinstance(kind, Each) and isinstance(value, dict):
        return [(it, kind.kind, f"{at}.*") for it in value.values()]
    if isinstance(kind, dict) and isinstance(value, dict):
        names = {it.rstrip("?"): it for it in kind}
        if all(name in value or name != key for name, key in names.items()):
            return [(value[name], kind[key], f"{at}.{name}") for name, key in names.items() if name in value]
    return None


def fault_in(record):
    """Returns where a record isn't as this version has it, or nothing."""
    pending = [(record, RECORD, "record")]
    for value, kind, at in pending:
        if isinstance(kind, Maybe):
            if value is None:
                continue
            kind = kind.kind
        if isinstance(kind, (list, dict, Each)):
            parts = parts_of(value, kind, at)
            if parts is None:
                return at
            pending += parts
        elif not is_simple(value, kind):
            return at
    return None


def read(path):
    """Returns the record of a file, and why it is none."""
    try:
        with open(path, encoding="utf-8") as file:
            record = json.load(file)
    except (OSError, ValueError, RecursionError) as fault:
        return None, f"{path} is no record of protogate-ci: {fault}"
    if not isinstance(record, dict) or record.get("format") != "protogate-ci":
        return None, f"{path} is no record of protogate-ci: write one by `protogate-ci --record {path} REVISION FOLDER`"
    if record.get("version") != VERSION:
        return None, f"{path} is a record of version {record.get('version')}, and this reads version {VERSION}: take both scripts of one package"
    wrong = fault_in(record)
    return record, f"{path} is no whole record of version {VERSION} (at {wrong}): write it anew" if wrong else None

"""Warnings of what no message shows today, and what hurts later or elsewhere: in a later release, in JSON, or in a call.

They never change an answer or a status. A caution has a subject (a field, an enum's value, a method or a service), the side on which it is
declared, its position there, words, and the position on the new side at which it is shown: the file alone where its lines aren't surely known.
"""

import functools

from declarations import declared_in
from places import places_of

STREAMS = {(0, 0): "no stream", (1, 0): "a stream of requests", (0, 1): "a stream of responses", (1, 1): "streams both ways"}


class Declarations:
    """What the source files of a side declare, and where. A file is read where it is asked for."""

    def __init__(self, side):
        self.side, self.known, self.read = side, {}, {}
        self.files = dict.fromkeys(it for it in side.files if it in side.was_read and it not in side.refused)

    def of(self, file):
        """Returns what a file declares, by full name."""
        if file not in self.read:
            self.read[file] = declared_in(self.side.file_of(file).descriptor) if file in self.files else {}
        return self.read[file]

    @functools.cached_property
    def files_of(self):
        """The files that declare each name: all of them are read."""
        found = {}
        for file in self.files:
            for name in self.of(file):
                found.setdefault(name, []).append(file)
        return found

    def place(self, file, kind, name, number=None):
        """Returns a name's position in a source file, or the file alone."""
        if file in self.side.sets:
            line, column = self.side.made.place(file, kind, name) or (None, None)
            return f"{file}:{line}:{column}" if line else file
        if file not in self.known:
            self.known[file] = self.places(file)
        line, column = self.known[file].get((kind, name, number), (None, None))
        return f"{file}:{line}:{column}" if line else file

    def places(self, file):
        with open(f"{self.side.folder}/{file}", "rb") as opened:
            return places_of(opened.read(), self.of(file))

    def like(self, name, file):
        """Returns the file that declares a name: the same one, or the only one."""
        if name in self.of(file):
            return file
        found = self.files_of.get(name, [])
        return found[0] if len(found) == 1 else None


class Pair:
    """What one name means in a source file of either side."""

    def __init__(self, name, old, new, old_file, new_file):
        self.name, self.sides, self.files = name, {"old": old, "new": new}, {"old": old_file, "new": new_file}
        self.old, self.new = old.of(old_file)[name], new.of(new_file)[name]

    def caution(self, side, kind, part, number, words):
        """A caution on a part. What only the old side has is shown on the new one where the whole is declared."""
        subject = f"{self.name}.{part}"
        place = self.sides[side].place(self.files[side], kind, subject, number)
        whole = self.sides["new"].place(self.files["new"], self.new.kind, self.name)
        return {"subject": subject, "side": side, "place": place, "words": words, "new_place": place if side == "new" else whole}


def removed(pair, kind, part, number, later):
    what = f"number {number} was removed and isn't reserved: a later {later} that takes it misreads old messages"
    return pair.caution("old", kind, part, number, f"{what}. Write `reserved {number};` in {pair.name}.")


def of_messages(pair):
    """Yields cautions on a message type that both sides have."""
    for number, field in pair.old.parts.items():
        now = pair.new.parts.get(number)
        if not now:
            if not pair.new.reserves(number):
                yield removed(pair, "field", field.name, number, "field")
        elif now.is_plain and (field.is_optional or field.is_member):
            was = "optional" if field.is_optional else "in a oneof"
            yield pair.caution("new", "field", now.name, number, f"the field was {was}: now 0 or an empty value can't be told from none.")


def of_enums(pair):
    """Yields cautions on an enum that both sides have."""
    for number, names in pair.old.parts.items():
        now = pair.new.parts.get(number, [])
        there = {*now}
        lost = [it for it in names if it not in there]
        if not now and not pair.new.reserves(number):
            yield removed(pair, "value", names[0], number, "value")
        elif now and lost:
            change = f"number {number} was {' and '.join(names)} and is {' and '.join(now)} now"
            before = {*names}
            new_name = next((it for it in now if it not in before), now[0])
            yield pair.caution("new", "value", new_name, number, f"{change}. Programs and JSON that go by names take it for another value.")


def of_services(pair):
    """Yields cautions on a service that both sides have."""
    for name, method in pair.old.parts.items():
        now = pair.new.parts.get(name)
        if not now:
            yield pair.caution("old", "method", name, None, "the method was removed: calls of old clients fail.")
            continue
        changes = [f"{what} was {old} and is {new} now" for what, old, new in (
            ("its request", method.request, now.request), ("its response", method.response, now.response),
            ("it", STREAMS[method.streams], STREAMS[now.streams])) if old != new]
        if changes:
            yield pair.caution("new", "method", name, None, f"{', and '.join(changes)}. Old clients call it as it was.")


def service_removed(name, old, new, file):
    """A caution on a service that the new side hasn't, shown in the file where it was, if that is still there."""
    place = old.place(file, "service", name)
    words = "the service was removed: calls of old clients fail."
    return {"subject": name, "side": "old", "place": place, "words": words, "new_place": file if file in new.files else None}


def of_other_names(old, new, files, is_whole, enums):
    """Yields cautions on enums (those named, or all) and, where all is asked for, on services."""
    for file in files:
        for name, it in old.of(file).items():
            there = new.like(name, file)
            is_same = there and new.of(there)[name].kind == it.kind
            if it.kind == "enum" and is_same and (enums is None or name in enums):
                yield from of_enums(Pair(name, old, new, file, there))
            elif it.kind == "service" and enums is None:
                if is_same:
                    yield from of_services(Pair(name, old, new, file, there))
                elif is_whole and name not in new.files_of:
                    yield service_removed(name, old, new, file)


def cautions_of(old_side, new_side, answers, names):
    """Returns the cautions on the types that were gated; without names of types, on enums and services of the files too. A file that is the
    same on both sides needs none, unless what it declares is gated against another one."""
    old, new = Declarations(old_side), Declarations(new_side)
    changed = dict.fromkeys(
        it for it in old.files if it not in new.files or old_side.file_of(it).descriptor != new_side.file_of(it).descriptor)
    gated = dict.fromkeys((it["type"], it["old_file"], it["new_file"]) for it in answers if it["verdict"] in ("compatible", "breaks"))
    if not names:
        gated = [it for it in gated if it[1] != it[2] or it[1] in changed]
    pairs = [Pair(name, old, new, *files) for name, *files in gated if name in old.of(files[0]) and name in new.of(files[1])]
    found = [it for pair in pairs for it in of_messages(pair)]
    enums = {it.enum for pair in pairs for it in pair.old.parts.values() if it.enum} if names else None
    # A service may be in a file that wasn't read.
    is_whole = len(new.files) == len(new_side.files)
    return found + list(of_other_names(old, new, changed, is_whole, enums))

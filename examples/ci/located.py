"""Where a source file declares what protoc's set says of it, by the source info of that set.

A position is taken only where the file has the name there. It is known of each name, but for names that no file has: those of entry types.
"""

import re
from bisect import bisect_right
from itertools import accumulate

from declarations import values_of
from sets import last, records, varint

# protoc counts columns from 0, and at a tab goes on to the next multiple of this.
TAB = 8
NAME = re.compile(rb"\b\w+")


def numbers_in(packed):
    """Returns the numbers of a packed list."""
    found, at = [], 0
    while at < len(packed):
        number, at = varint(packed, at)
        found.append(number)
    return tuple(found)


def starts_in(info):
    """Returns the line and column at which each part of a descriptor begins, by its path, both counted from 0."""
    locations = (dict(records(it)) for number, it in records(info) if number == 1)
    return {numbers_in(it.get(1, b"")): numbers_in(it.get(2, b""))[:2] for it in locations}


def name_of(part):
    return last(part, 1).decode()


def in_enum(enum, scope, path):
    name = scope + name_of(enum)
    yield (*path, 1), ("enum", name)
    for at, it in enumerate(values_of(enum, 2)):
        yield (*path, 2, at, 1), ("value", f"{name}.{name_of(it)}")


def in_message(message, scope, path):
    name = scope + name_of(message)
    yield (*path, 1), ("message", name)
    for at, it in enumerate(values_of(message, 2)):
        yield (*path, 2, at, 1), ("field", f"{name}.{name_of(it)}")
    for at, it in enumerate(values_of(message, 3)):
        yield from in_message(it, f"{name}.", (*path, 3, at))
    for at, it in enumerate(values_of(message, 4)):
        yield from in_enum(it, f"{name}.", (*path, 4, at))


def in_service(service, scope, path):
    name = scope + name_of(service)
    yield (*path, 1), ("service", name)
    for at, it in enumerate(values_of(service, 2)):
        yield (*path, 2, at, 1), ("method", f"{name}.{name_of(it)}")


def in_file(descriptor):
    """Yields each name that a file declares, by the path of it in its descriptor: its kind and full name."""
    package = last(descriptor, 2).decode()
    scope = f"{package}." if package else ""
    for number, inside in ((4, in_message), (5, in_enum), (6, in_service)):
        for at, it in enumerate(values_of(descriptor, number)):
            yield from inside(it, scope, (number, at))


class Line:
    """A line of a source file: which byte is at a column of protoc."""

    def __init__(self, line):
        self.line = line
        sizes = [len(it) for it in line.split(b"\t")]
        # Where each part between tabs begins, in columns and in bytes.
        self.columns = list(accumulate(sizes[:-1], lambda at, size: (at + size) // TAB * TAB + TAB, initial=0))
        self.bytes = list(accumulate(sizes[:-1], lambda at, size: at + size + 1, initial=0))

    def column_of(self, name, column):
        """Returns the column at which the line has a name, in bytes from 1, or nothing where the name isn't there."""
        part = bisect_right(self.columns, column) - 1
        at = self.bytes[part] + column - self.columns[part]
        found = NAME.match(self.line, at)
        return at + 1 if found and found[0] == name.encode() else None


def places_in(text, descriptor, info):
    """Returns the line and column of each name that a source file declares, as far as they are surely known."""
    lines, known, starts = text.split(b"\n"), {}, starts_in(info)
    found = {}
    for path, it in in_file(descriptor):
        line, column = starts.get(path) or (len(lines), 0)
        if line < len(lines):
            if line not in known:
                known[line] = Line(lines[line])
            at = known[line].column_of(it[1].rpartition(".")[2], column)
            found.update({it: (line + 1, at)} if at else {})
    return found

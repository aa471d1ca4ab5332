"""What a file of a descriptor set declares: fields, values of enums and methods, as far as a change of them is worth a warning."""

import functools
import itertools
from bisect import bisect_right

from sets import ENUM, MESSAGE, REPEATED, last, records


class Declared:
    """What a name means (a message type, an enum or a service), with its parts by number or name, and the numbers that it reserves."""

    def __init__(self, kind, name):
        self.kind, self.name, self.parts, self.reserved = kind, name, {}, []

    @functools.cached_property
    def ranges(self):
        """The reserved ranges by their first numbers, each with the highest end of those up to it."""
        ends = itertools.accumulate((end for _, end in sorted(self.reserved)), max)
        return [first for first, _ in sorted(self.reserved)], [*ends]

    def reserves(self, number):
        firsts, ends = self.ranges
        at = bisect_right(firsts, number)
        return at > 0 and number <= ends[at - 1]


class Field:
    """A field: its name, the enum that it holds, and whether it says that it was set."""

    def __init__(self, field):
        self.name = last(field, 1).decode()
        kind, is_single = last(field, 5, 0), last(field, 4, 0) != REPEATED
        self.enum = last(field, 6).decode().lstrip(".") if kind == ENUM else None
        self.is_optional = last(field, 17, 0) == 1
        self.is_member = not self.is_optional and last(field, 9, None) is not None
        self.is_plain = is_single and kind != MESSAGE and not self.is_optional and not self.is_member


class Method:
    """A method: what it takes and returns, and whether these stream."""

    def __init__(self, method):
        self.name = last(method, 1).decode()
        self.request, self.response = last(method, 2).decode().lstrip("."), last(method, 3).decode().lstrip(".")
        self.streams = last(method, 5, 0), last(method, 6, 0)


def signed(number):
    """A number of a set with its sign, which is written in 64 bits."""
    return number - (1 << 64) if number >> 63 else number


def values_of(message, number):
    return [value for one, value in records(message) if one == number]


def reserved_in(message, number, beyond):
    """Returns the ranges that a message or an enum reserves: the end of a message's is one beyond."""
    return [(signed(last(it, 1, 0)), signed(last(it, 2, 0)) - beyond) for it in values_of(message, number)]


def enum_of(message, scope):
    made = Declared("enum", f"{scope}{last(message, 1).decode()}")
    for value in values_of(message, 2):
        made.parts.setdefault(signed(last(value, 2, 0)), []).append(last(value, 1).decode())
    made.reserved = reserved_in(message, 4, 0)
    return made


def messages_of(message, scope):
    """Yields a message type, and what is declared in it, but for the entry types of maps."""
    if last(last(message, 7), 7, 0):
        return
    made = Declared("message", f"{scope}{last(message, 1).decode()}")
    made.parts = {last(it, 3, 0): Field(it) for it in values_of(message, 2)}
    made.reserved = reserved_in(message, 9, 1)
    yield made
    yield from (it for inner in values_of(message, 3) for it in messages_of(inner, f"{made.name}."))
    yield from (enum_of(it, f"{made.name}.") for it in values_of(message, 4))


def service_of(message, scope):
    made = Declared("service", f"{scope}{last(message, 1).decode()}")
    made.parts = {it.name: it for it in map(Method, values_of(message, 2))}
    return made


def declared_in(descriptor):
    """Returns what a file of a descriptor set declares, by full name."""
    package = last(descriptor, 2).decode()
    scope = f"{package}." if package else ""
    found = [it for message in values_of(descriptor, 4) for it in messages_of(message, scope)]
    found += [enum_of(it, scope) for it in values_of(descriptor, 5)] + [service_of(it, scope) for it in values_of(descriptor, 6)]
    return {it.name: it for it in found}

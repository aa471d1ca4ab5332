"""The bytes of descriptor sets, by descriptor.proto: what is read of them, and what is left out of them. One that isn't whole raises an IndexError or
a KeyError."""

import os

from .asking import Place

# Numbers of fields: of a file; of a message or a service; of a field, a method and a location.
NAME, PACKAGE, DEPENDENCY, MESSAGES, SERVICES, SOURCE_INFO, PUBLIC, WEAK, SYNTAX = 1, 2, 3, 4, 6, 9, 10, 11, 12
FIELDS, METHODS, NESTED, REQUEST, REPLY, PATH, SPAN = 2, 2, 3, 2, 3, 1, 2
# As deep messages are in messages.
MOST_DEPTH = 100


def varint(data, at):
    value = shift = 0
    while True:
        byte = data[at]
        value, shift, at = value | (byte & 127) << shift, shift + 7, at + 1
        if byte < 128:
            return value, at


def records(data):
    """Yields each record of a message: its field, its value, and all its bytes."""
    at = 0
    while at < len(data):
        begin = at
        tag, at = varint(data, at)
        if tag & 7 == 0:
            value, at = varint(data, at)
        elif tag & 7 == 2:
            length, at = varint(data, at)
            value, at = data[at : at + length], at + length
        else:
            value, at = None, at + {1: 8, 5: 4}[tag & 7]
        if at > len(data):
            raise IndexError
        yield tag >> 3, value, data[begin:at]


def all_of(data, number):
    return [value for it, value, _ in records(data) if it == number]


def word(data, number):
    return os.fsdecode((all_of(data, number) or [b""])[-1])


def numbers(data):
    found, at = [], 0
    while at < len(data):
        value, at = varint(data, at)
        found.append(value)
    return found


def encoded(number, value):
    """Returns a field with a number, or with bytes."""
    is_number = isinstance(value, int)
    made, left = bytearray([number << 3 | (0 if is_number else 2)]), value if is_number else len(value)
    while left > 127:
        made.append(left & 127 | 128)
        left >>= 7
    return bytes(made) + bytes([left]) + (b"" if is_number else value)


def files_of(data):
    return {word(it, NAME): it for it in all_of(data, 1)}


def without(file, gone):
    """Returns a file of a set that imports some others no more. Those that it hands on, or imports weakly, are named by their places."""
    kept, places = [], {}
    names = [os.fsdecode(it) for it in all_of(file, DEPENDENCY)]
    for at, name in enumerate(names):
        if name not in gone:
            places[at] = len(places)
    left = iter(names)
    for number, value, whole in records(file):
        if number in (PUBLIC, WEAK):
            kept.append(encoded(number, places[value]) if value in places else b"")
        elif number != SOURCE_INFO and not (number == DEPENDENCY and next(left) in gone):
            kept.append(whole)
    return b"".join(kept)


def messages_of(file):
    """Yields each message of a file: its full name, its way through the file, and its bytes."""
    pending = [(word(file, PACKAGE), (MESSAGES, at), it) for at, it in enumerate(all_of(file, MESSAGES))]
    for around, way, message in pending:
        name = f"{around}.{word(message, NAME)}".lstrip(".")
        yield name, way, message
        pending += [(name, (*way, NESTED, at), it) for at, it in enumerate(all_of(message, NESTED) if len(way) < 2 * MOST_DEPTH else ())]


def places_of(file, path):
    spans = {tuple(numbers(b"".join(all_of(it, PATH)))): numbers(b"".join(all_of(it, SPAN)))
             for info in all_of(file, SOURCE_INFO) for it in all_of(info, 1)}
    return {f"{name}.{word(field, NAME)}": Place(path, *(it + 1 for it in spans.get((*way, FIELDS, at, NAME), ())[:2]))
            for name, way, message in messages_of(file) for at, field in enumerate(all_of(message, FIELDS))}


def methods_of(file):
    """Yields each method of a file: its full name, and the types that it takes and answers, each with a dot before it."""
    for service in all_of(file, SERVICES):
        around = f"{word(file, PACKAGE)}.{word(service, NAME)}".lstrip(".")
        for it in all_of(service, METHODS):
            yield f"{around}.{word(it, NAME)}", word(it, REQUEST), word(it, REPLY)

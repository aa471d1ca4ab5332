"""What the files of a descriptor set are: what each imports, and which message types it declares. It reads the sets that protogate and
protoc write, and pares those of protoc down to what the gate needs."""

import functools
import os
import re

REPEATED, MESSAGE, ENUM = 3, 11, 14
# Of a file: its source info, and what the gate needs: path, package, messages, enums, options and syntax.
SOURCE_INFO, NEEDED = 9, (1, 2, 4, 5, 8, 12)
# How the field of a message type begins that holds a message, as protoc and protogate write it: its name, number, label and type, and the
# length of that type's name, which begins with a dot.
HOLDS = re.compile(rb"\n[\x00-\x7f]\w+\x18([\x80-\xff]*[\x00-\x7f]) [\x01-\x03]\(\x0b2([\x02-\x7f])\.", re.S)


def varint(data, at):
    """Returns the number that begins there, and where it ends."""
    value = shift = 0
    while True:
        value |= (data[at] & 127) << shift
        at, shift = at + 1, shift + 7
        if data[at - 1] < 128:
            return value, at


def records(data):
    """Yields the number and value of each record: a number, or bytes. Most tags, sizes and numbers are one byte, and are read at once."""
    at, end = 0, len(data)
    while at < end:
        tag, at = (data[at], at + 1) if data[at] < 128 else varint(data, at)
        kind = tag & 7
        if kind in (0, 2):
            value, at = (data[at], at + 1) if data[at] < 128 else varint(data, at)
        else:
            value = {1: 8, 5: 4}[kind]
        if kind:
            value, at = data[at : at + value], at + value
        if at > end:
            raise ValueError("the set is cut off")
        yield tag >> 3, value


def last(data, number, default=b""):
    return next((value for one, value in reversed(list(records(data))) if one == number), default)


class File:
    """A file of a set: its descriptor, its path, what it imports, its message types, in order of declaration, and the descriptor of each, the
    entry types of maps too. These are always nested, and are no message types."""

    def __init__(self, descriptor):
        self.descriptor, self.path, self.imports, self.types, self.messages = descriptor, "", [], [], {}
        package, messages = "", []
        for number, value in records(descriptor):
            if number == 1:
                self.path = os.fsdecode(value)
            elif number == 2:
                package = value.decode()
            elif number == 3:
                self.imports.append(os.fsdecode(value))
            elif number == 4:
                messages.append(value)
        for message in messages:
            self.take(message, f"{package}." if package else "", False)

    def take(self, message, scope, is_nested):
        """Takes a message type, and those in it."""
        name, options, nested = b"", b"", []
        for number, value in records(message):
            if number == 1:
                name = value
            elif number == 3:
                nested.append(value)
            elif number == 7:
                options = value
        full_name = scope + name.decode()
        self.messages[full_name] = message
        if is_nested and options and last(options, 7, 0):
            return
        self.types.append(full_name)
        for inner in nested:
            self.take(inner, f"{full_name}.", True)


# Both sides have most files alike.
file_of = functools.lru_cache(maxsize=None)(File)


def files_in(descriptor_set):
    """Returns the files of a FileDescriptorSet by path, in its order. A set that is cut off is a fault."""
    return {it.path: it for it in (file_of(descriptor) for number, descriptor in records(descriptor_set) if number == 1)}


def types_in(descriptor_set, file):
    """Returns the full names of the message types that a file of a set declares. A set without the file is a fault."""
    return files_in(descriptor_set)[file].types


def held_by(field):
    """Returns the number of a field, the name of the message type that it holds, or nothing, and its type."""
    found = HOLDS.match(field)
    if found:
        name = field[found.end() : found.end() + found[2][0] - 1]
        return varint(found[1], 0)[0], name.decode(), MESSAGE
    parts = dict(records(field))
    return parts.get(3), parts[6].decode().lstrip(".") if parts.get(5) == MESSAGE else None, parts.get(5)


@functools.lru_cache(maxsize=None)
def fields_of(message):
    """Returns the name of the message type that each field of a message type holds, by the fields' numbers, and the type of the key where it
    is the entry type of a map."""
    held, key, options = {}, None, b""
    for kind, value in records(message):
        if kind == 2:
            number, name, type_of_field = held_by(value)
            if name is not None:
                held[number] = name
            if number == 1:
                key = type_of_field
        elif kind == 7:
            options = value
    return held, key if options and last(options, 7, 0) else None


def joined(numbered):
    """Returns the bytes of records, each a number with bytes or with an unsigned number."""
    return b"".join(written(number << 3 | 2) + written(len(it)) + it if isinstance(it, bytes) else written(number << 3) + written(it)
                    for number, it in numbered)


def written(number):
    """Returns the bytes of a varint."""
    made = bytearray()
    while number > 127:
        made.append(number & 127 | 128)
        number >>= 7
    return bytes([*made, number])


def split(descriptor):
    """Returns the descriptor of a file without its source info, and that."""
    parts = list(records(descriptor))
    return joined(it for it in parts if it[0] != SOURCE_INFO), b"".join(it for number, it in parts if number == SOURCE_INFO)


def is_proto3(descriptor):
    return last(descriptor, 12) == b"proto3"


def held_in(message, scope):
    """Yields the full names of a message type, of what is declared in it, and of each type that their fields hold, with such a field's name
    where there is one."""
    parts = list(records(message))
    name = scope + last(message, 1).decode()
    yield name, None
    yield from ((f"{name}.{last(it, 1).decode()}", None) for number, it in parts if number == 4)
    yield from ((last(it, 6).decode().lstrip("."), f"{name}.{last(it, 1).decode()}") for number, it in parts if number == 2 and last(it, 6))
    yield from (it for number, inner in parts if number == 3 for it in held_in(inner, f"{name}."))


@functools.lru_cache(maxsize=None)
def names_in(descriptor):
    """Returns the full names of the message types and enums that a file declares, and of each type that its fields hold a field that does."""
    parts = list(records(descriptor))
    package = last(descriptor, 2).decode()
    scope = f"{package}." if package else ""
    found = [it for number, message in parts if number == 4 for it in held_in(message, scope)]
    declared = [name for name, field in found if field is None]
    declared += [scope + last(it, 1).decode() for number, it in parts if number == 5]
    return declared, {name: field for name, field in reversed(found) if field}


def needs_of(descriptors):
    """Returns what the messages of each file of a set need, by path: each file that declares what a field of theirs holds, with the field and
    the type that it holds. The names that a set declares are all different."""
    where = {name: path for path, it in descriptors.items() for name in names_in(it)[0]}
    found = {path: {} for path in descriptors}
    for path, it in descriptors.items():
        for name, field in names_in(it)[1].items():
            if where.get(name, path) != path:
                found[path].setdefault(where[name], (field, name))
    return found


def pared(descriptor, needs):
    """Returns the descriptor of a file with its messages, and enums, alone. It imports what these need: names in a set are full ones, so
    they need no public import. What holds options alone, as an extension or a service does, is left out."""
    parts = [it for it in records(descriptor) if it[0] in NEEDED]
    return joined([*parts, *((3, os.fsencode(it)) for it in needs)])

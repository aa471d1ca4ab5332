"""Lists of numbers of all 13 kinds, packed and not: what runtime_rows.py makes rows of."""
import struct

from google.protobuf import descriptor_pb2

from row_types import LABEL, WORDS, adding, kind_of, record, spelled, varint

FLOATS = [LABEL.TYPE_DOUBLE, LABEL.TYPE_FLOAT]
LEAST = {LABEL.TYPE_INT32: -(2**31), LABEL.TYPE_INT64: -(2**63), LABEL.TYPE_UINT32: 0, LABEL.TYPE_UINT64: 0, LABEL.TYPE_SINT32: -(2**31)}
LEAST.update({LABEL.TYPE_SINT64: -(2**63), LABEL.TYPE_FIXED32: 0, LABEL.TYPE_FIXED64: 0, LABEL.TYPE_SFIXED32: -(2**31)})
LEAST.update({LABEL.TYPE_SFIXED64: -(2**63), LABEL.TYPE_BOOL: 0})
INTEGERS = list(LEAST)
GREATEST = {kind: 1 if kind == LABEL.TYPE_BOOL else 2 ** (64 if "64" in WORDS[kind] else 32) - 1 + LEAST[kind] for kind in INTEGERS}
KINDS = FLOATS + INTEGERS
FIXED = {LABEL.TYPE_DOUBLE: 8, LABEL.TYPE_FLOAT: 4, LABEL.TYPE_FIXED32: 4, LABEL.TYPE_FIXED64: 8, LABEL.TYPE_SFIXED32: 4, LABEL.TYPE_SFIXED64: 8}
INFINITE = float("inf")


def schema(name, packed, kinds):
    """A message type with a list of each of the kinds, in their order."""
    file = descriptor_pb2.FileDescriptorProto(name=name + ".proto", syntax="proto3")
    add = adding(file.message_type.add(name=name))
    for number, kind in enumerate(kinds, 1):
        field = add("f%d" % number, number, kind, LABEL.LABEL_REPEATED)
        if not packed:
            field.options.packed = False
    return kind_of(file, name)


def numbers(first, second):
    """Integers that both kinds have: of either the least and the greatest, and some between, two of them twice."""
    some = dict.fromkeys([0, 1, -1, 5, 127, 128, 300, -300, 2**31, LEAST[first], GREATEST[first], LEAST[second], GREATEST[second]])
    least, greatest = max(LEAST[first], LEAST[second]), min(GREATEST[first], GREATEST[second])
    return [it for it in some if least <= it <= greatest] + [1, 0]


def items(kind):
    """What a list of the kind holds."""
    if kind == LABEL.TYPE_DOUBLE:
        return [0.0, -0.0, 1.5, -2.25, 5e-324, -1.7976931348623157e308, INFINITE, -INFINITE]
    if kind == LABEL.TYPE_FLOAT:
        return [0.0, -0.0, 1.5, -2.25, 2.0**-149, -(2.0**128 - 2.0**104), INFINITE, -INFINITE]
    return numbers(kind, kind)


def named(number):
    return "f%d" % number


def packed_and_not():
    """Of each kind its word, and a list of it as packed, as single and as both kinds of records."""
    packed, single = schema("N", True, KINDS)[0], schema("U", False, KINDS)[0]
    rows = []
    for number, kind in enumerate(KINDS, 1):
        held = {named(number): items(kind)}
        whole, apart = packed(**held).SerializeToString(), single(**held).SerializeToString()
        rows.append((WORDS[kind], [whole, apart, apart + whole + apart]))
    return rows


def all_lists(kind):
    """A message with all the lists."""
    return kind(**{named(number): items(it) for number, it in enumerate(KINDS, 1)}).SerializeToString()


def spelled_item(kind, item):
    """An item as crates/rows_bytes spells it."""
    if kind == LABEL.TYPE_DOUBLE:
        return "d%d" % struct.unpack("<Q", struct.pack("<d", item))
    if kind == LABEL.TYPE_FLOAT:
        return "f%d" % struct.unpack("<I", struct.pack("<f", item))
    return "%d" % item


def contents(kind, data):
    """The lists that the runtime reads, as crates/rows_bytes spells them."""
    message = kind()
    message.ParseFromString(data)
    lists = []
    for number, it in enumerate(KINDS, 1):
        found = getattr(message, named(number))
        if found:
            lists.append("%d=[%s]" % (number, " ".join(spelled_item(it, item) for item in found)))
    return " ".join(lists)


def item_bytes(r, kind):
    """An item of the kind, also a word of more bits than it has."""
    if kind in FIXED:
        size = FIXED[kind]
        return r.choice([bytes(size), b"\xff" * size, bytes(size - 1) + b"\x80", bytes(r.randrange(256) for _ in range(size))])
    return varint(r.choice([0, 1, 2, 127, 128, 2**31 - 1, 2**31, 2**32 - 1, 2**32 + 7, 2**63, 2**64 - 1]))


def records(r, depth):
    """Lists in parts, packed and not, and now and then a record that is no item."""

    def part():
        number = r.randrange(1, len(KINDS) + 1)
        kind = KINDS[number - 1]
        wire = {8: 1, 4: 5}.get(FIXED.get(kind), 0)
        if r.randrange(12) == 0:
            return r.choice([record(14, 0, varint(r.randrange(300))), record(number, *((5, bytes(4)) if wire == 1 else (1, bytes(8))))])
        if r.randrange(3) == 0:
            return record(number, wire, item_bytes(r, kind))
        return record(number, 2, b"".join(item_bytes(r, kind) for _ in range(r.randrange(4))))

    return b"".join(part() for _ in range(r.randrange(1, 6)))


def by_other_kinds():
    """Of each pair of kinds of integers, by turns, lists that are read as the one and written as the other: the declarations of the
    other type, the bytes that are read, and those that the runtime writes of the same numbers."""
    rows = []
    for packed in (True, False):
        own = schema("N" if packed else "U", packed, KINDS)[0]
        for shift in range(1, len(INTEGERS)):
            kinds = INTEGERS[shift:] + INTEGERS[:shift]
            other, text = schema("O", packed, FLOATS + kinds)
            held = {named(number): items(kind) for number, kind in enumerate(FLOATS, 1)}
            for number, (first, second) in enumerate(zip(INTEGERS, kinds), 3):
                held[named(number)] = numbers(first, second)
            rows.append((packed, text, spelled(own(**held).SerializeToString()), spelled(other(**held).SerializeToString())))
    return rows

#!/usr/bin/python3
"""Makes rows of crates/rows_bytes: byte strings, and what python3-protobuf (its C++ core) reads and writes again.

Run `/usr/bin/python3 tools/rows/runtime_rows.py` at the top of the repository. It writes the lines of crates/rows_bytes/stdin and stdout that
begin with `another runtime` anew, after the others, which are written by hand. The rows are always the same. Those of APART are what
this repository and that runtime make of bytes otherwise by choice, each with its reason; all others leave it out. The lists of numbers
are in list_rows.py.
"""
import random
import sys

from google.protobuf import descriptor_pb2
from google.protobuf.internal import api_implementation

sys.dont_write_bytecode = True
import any_order  # noqa: E402
import list_rows  # noqa: E402
from row_types import LABEL, add_entry, adding, kind_of, record, spelled, varint  # noqa: E402


def schema():
    """`message M`, the type of the first rows and of those that are taken otherwise."""
    file = descriptor_pb2.FileDescriptorProto(name="m.proto", syntax="proto3")
    message = file.message_type.add(name="M")
    add = adding(message)
    add("m", 1, LABEL.TYPE_MESSAGE, type_name=".M")
    add("a", 2, LABEL.TYPE_INT32)
    add("r", 3, LABEL.TYPE_SINT32, LABEL.LABEL_REPEATED)
    add("s", 4, LABEL.TYPE_MESSAGE, LABEL.LABEL_REPEATED, ".M.SEntry")
    add("c", 5, LABEL.TYPE_MESSAGE, LABEL.LABEL_REPEATED, ".M")
    message.oneof_decl.add(name="k")
    add("x", 6, LABEL.TYPE_STRING).oneof_index = 0
    add("y", 7, LABEL.TYPE_FIXED32).oneof_index = 0
    add_entry(message, "SEntry", LABEL.TYPE_INT32, LABEL.TYPE_STRING)
    return kind_of(file, "M")


def wide_schema():
    """`message W`, with lists of each kind, maps and a message in a oneof."""
    file = descriptor_pb2.FileDescriptorProto(name="w.proto", syntax="proto3")
    states = file.enum_type.add(name="E")
    states.value.add(name="ZERO", number=0)
    message = file.message_type.add(name="W")
    add = adding(message)
    add("f1", 1, LABEL.TYPE_INT32, LABEL.LABEL_REPEATED).options.packed = False
    add("f2", 2, LABEL.TYPE_BOOL, LABEL.LABEL_REPEATED)
    add("f3", 3, LABEL.TYPE_DOUBLE, LABEL.LABEL_REPEATED)
    add("f4", 4, LABEL.TYPE_FLOAT, LABEL.LABEL_REPEATED).options.packed = False
    add("f5", 5, LABEL.TYPE_ENUM, type_name=".E")
    add("f6", 6, LABEL.TYPE_ENUM, LABEL.LABEL_REPEATED, ".E")
    add("f7", 7, LABEL.TYPE_MESSAGE, LABEL.LABEL_REPEATED, ".W.F7Entry")
    add("f8", 8, LABEL.TYPE_MESSAGE, LABEL.LABEL_REPEATED, ".W.F8Entry")
    add("f9", 9, LABEL.TYPE_MESSAGE, LABEL.LABEL_REPEATED, ".W.F9Entry")
    message.oneof_decl.add(name="k")
    message.oneof_decl.add(name="_f13")
    add("f10", 10, LABEL.TYPE_MESSAGE, type_name=".W").oneof_index = 0
    add("f11", 11, LABEL.TYPE_BYTES).oneof_index = 0
    add("f12", 12, LABEL.TYPE_UINT64)
    stated = add("f13", 13, LABEL.TYPE_SINT64)
    stated.proto3_optional, stated.oneof_index = True, 1
    add("f14", 14, LABEL.TYPE_SFIXED64)
    add_entry(message, "F7Entry", LABEL.TYPE_STRING, LABEL.TYPE_MESSAGE, ".W")
    add_entry(message, "F8Entry", LABEL.TYPE_BOOL, LABEL.TYPE_BYTES)
    add_entry(message, "F9Entry", LABEL.TYPE_UINT64, LABEL.TYPE_DOUBLE)
    return kind_of(file, "W")


def far_schema():
    """`message F`: 36 fields, of which the first, one in the middle and the last are members of a oneof."""
    file = descriptor_pb2.FileDescriptorProto(name="f.proto", syntax="proto3")
    message = file.message_type.add(name="F")
    message.oneof_decl.add(name="k")
    add = adding(message)
    members = {1: LABEL.TYPE_INT32, 18: LABEL.TYPE_STRING, 36: LABEL.TYPE_FIXED32}
    # the members of a oneof are declared one after the other
    for number, kind in members.items():
        add("f%d" % number, number, kind).oneof_index = 0
    for number in range(2, 36):
        if number not in members:
            add("f%d" % number, number, LABEL.TYPE_INT32)
    return kind_of(file, "F")


def pair_schema():
    """`message P`: 60 oneofs of two numbers each, and a number that is in none."""
    file = descriptor_pb2.FileDescriptorProto(name="p.proto", syntax="proto3")
    message = file.message_type.add(name="P")
    add = adding(message)
    for place in range(60):
        message.oneof_decl.add(name="k%d" % place)
        for number in (2 * place + 1, 2 * place + 2):
            add("f%d" % number, number, LABEL.TYPE_INT32).oneof_index = place
    add("f121", 121, LABEL.TYPE_INT32)
    return kind_of(file, "P")


def map_schema():
    """`message K`: a map of numbers."""
    file = descriptor_pb2.FileDescriptorProto(name="k.proto", syntax="proto3")
    message = file.message_type.add(name="K")
    adding(message)("f1", 1, LABEL.TYPE_MESSAGE, LABEL.LABEL_REPEATED, ".K.F1Entry")
    add_entry(message, "F1Entry", LABEL.TYPE_INT32, LABEL.TYPE_INT32)
    return kind_of(file, "K")


def many_fields_schema():
    """`message L`: ten thousand numbers."""
    file = descriptor_pb2.FileDescriptorProto(name="l.proto", syntax="proto3")
    add = adding(file.message_type.add(name="L"))
    for number in range(1, 10_001):
        add("f%d" % number, number, LABEL.TYPE_UINT32)
    return kind_of(file, "L")


KEYS = [LABEL.TYPE_INT32, LABEL.TYPE_INT64, LABEL.TYPE_UINT32, LABEL.TYPE_UINT64, LABEL.TYPE_SINT32, LABEL.TYPE_SINT64]
KEYS += [LABEL.TYPE_FIXED32, LABEL.TYPE_FIXED64, LABEL.TYPE_SFIXED32, LABEL.TYPE_SFIXED64, LABEL.TYPE_BOOL, LABEL.TYPE_STRING]
VALUES = [LABEL.TYPE_DOUBLE, LABEL.TYPE_FLOAT] + KEYS + [LABEL.TYPE_BYTES, LABEL.TYPE_ENUM, LABEL.TYPE_MESSAGE]


def entry_schema():
    """`message T`: a map to each type of value, with all types of keys in turn."""
    file = descriptor_pb2.FileDescriptorProto(name="t.proto", syntax="proto3")
    states = file.enum_type.add(name="E")
    states.value.add(name="ZERO", number=0)
    message = file.message_type.add(name="T")
    add = adding(message)
    for number, kind in enumerate(VALUES, 1):
        add("f%d" % number, number, LABEL.TYPE_MESSAGE, LABEL.LABEL_REPEATED, ".T.F%dEntry" % number)
        name = {LABEL.TYPE_ENUM: ".E", LABEL.TYPE_MESSAGE: ".T"}.get(kind)
        add_entry(message, "F%dEntry" % number, KEYS[(number - 1) % 12], kind, name)
    add("f18", 18, LABEL.TYPE_INT32)
    add("f19", 19, LABEL.TYPE_STRING, LABEL.LABEL_REPEATED)
    return kind_of(file, "T")


def word(r):
    return varint(r.choice([0, 1, 5, 127, 300, 2**31 - 1, 2**31, 2**32 + 7, 2**64 - 1]))


def text(r):
    return r.choice([b"", b"a", b"\xc3\xa4", b"\xff", b"zz"])


def entry(r):
    return b"".join(r.choice([lambda: record(1, 0, word(r)), lambda: record(2, 2, text(r))])() for _ in range(r.randrange(3)))


def records(r, depth):
    kinds = [
        lambda: record(2, 0, word(r)),
        lambda: record(3, 0, word(r)),
        lambda: record(3, 2, b"".join(word(r) for _ in range(r.randrange(3)))),
        lambda: record(4, 2, entry(r)),
        lambda: record(6, 2, text(r)),
        lambda: record(7, 5, bytes(r.randrange(256) for _ in range(4))),
        lambda: record(9, 0, varint(r.randrange(1000))),
        lambda: record(2, 5, bytes(4)),
    ]
    if depth < 3:
        kinds += [lambda: record(1, 2, records(r, depth + 1)), lambda: record(5, 2, records(r, depth + 1))] * 2
    return b"".join(r.choice(kinds)() for _ in range(r.randrange(4)))


def fixed(r, size):
    return r.choice([bytes(size), bytes(size - 1) + b"\x80", bytes(r.randrange(256) for _ in range(size))])


def wide_entry(r, depth, key, value):
    parts = [lambda: record(1, *key(r)), lambda: record(2, *value(r, depth))]
    return b"".join(r.choice(parts)() for _ in range(r.randrange(4)))


def many(r, one):
    return b"".join(one() for _ in range(r.randrange(4)))


def wide_records(r, depth):
    def child():
        return wide_records(r, depth + 1) if depth < 3 else b""

    kinds = [
        lambda: record(1, 0, word(r)),
        lambda: record(1, 2, many(r, lambda: word(r))),
        lambda: record(2, 0, word(r)),
        lambda: record(2, 2, many(r, lambda: word(r))),
        lambda: record(3, 1, fixed(r, 8)),
        lambda: record(3, 2, many(r, lambda: fixed(r, 8))),
        lambda: record(4, 5, fixed(r, 4)),
        lambda: record(4, 2, many(r, lambda: fixed(r, 4))),
        lambda: record(5, 0, word(r)),
        lambda: record(6, 0, word(r)),
        lambda: record(6, 2, many(r, lambda: word(r))),
        lambda: record(7, 2, wide_entry(r, depth, lambda r: (2, text(r)), lambda r, depth: (2, child()))),
        lambda: record(8, 2, wide_entry(r, depth, lambda r: (0, word(r)), lambda r, depth: (2, text(r)))),
        lambda: record(9, 2, wide_entry(r, depth, lambda r: (0, word(r)), lambda r, depth: (1, fixed(r, 8)))),
        lambda: record(10, 2, child()),
        lambda: record(10, 2, child()),
        lambda: record(11, 2, text(r)),
        lambda: record(12, 0, word(r)),
        lambda: record(13, 0, word(r)),
        lambda: record(14, 1, fixed(r, 8)),
        lambda: record(14, 0, varint(r.randrange(1000))),
    ]
    return b"".join(r.choice(kinds)() for _ in range(r.randrange(5)))


def far_records(r, depth):
    """Records of all fields that are in no oneof, and then of its members by turns, with some others between them."""
    members = [
        lambda: record(1, 0, word(r)),
        lambda: record(18, 2, r.choice([b"", b"a", b"zz"])),
        lambda: record(36, 5, bytes(r.randrange(256) for _ in range(4))),
    ]
    others = [lambda: record(r.randrange(2, 18), 0, varint(r.randrange(3))), lambda: record(36, 0, varint(r.randrange(1000)))]
    front = b"".join(record(number, 0, varint(number)) for number in range(2, 36) if number != 18)
    return front + b"".join(r.choice(members * 2 + others)() for _ in range(r.randrange(5, 10)))


def pair_records(r, depth):
    """A number that is in no oneof, a member of most of the oneofs in any order, and then members by turns, with some others between."""
    places = r.sample(range(60), r.randrange(45, 61))
    front = record(121, 0, varint(1)) + b"".join(record(2 * place + r.randrange(1, 3), 0, varint(place)) for place in places)
    others = [lambda: record(121, 0, varint(r.randrange(3))), lambda: record(122, 0, varint(r.randrange(1000)))]
    later = [lambda: record(r.randrange(1, 121), 0, varint(r.randrange(100)))] * 8 + others
    return front + b"".join(r.choice(later)() for _ in range(r.randrange(10, 25)))


def item_of(kind, n):
    """The wire type and body of an item of a type, by a number below 128."""
    if kind in (LABEL.TYPE_DOUBLE, LABEL.TYPE_FIXED64, LABEL.TYPE_SFIXED64):
        return 1, bytes([n]) + bytes(7)
    if kind in (LABEL.TYPE_FLOAT, LABEL.TYPE_FIXED32, LABEL.TYPE_SFIXED32):
        return 5, bytes([n]) + bytes(3)
    if kind in (LABEL.TYPE_STRING, LABEL.TYPE_BYTES):
        return 2, bytes([n])
    if kind == LABEL.TYPE_MESSAGE:
        return 2, record(18, 0, varint(n)) + record(19, 2, bytes([n]))
    return 0, varint(n % 2 if kind == LABEL.TYPE_BOOL else n)


def other_wire(kind):
    """A wire type that no item of the type has, and a body of it."""
    return (0, varint(6)) if item_of(kind, 1)[0] != 0 else (2, varint(6))


def each_entry():
    """Of each map entries with and without key and value, in both orders, twice, and with records that neither takes between them."""
    rows = []
    for number, kind in enumerate(VALUES, 1):
        key = KEYS[(number - 1) % 12]
        k = lambda n: record(1, *item_of(key, n))
        v = lambda n: record(2, *item_of(kind, n))
        between = [record(3, 0, varint(6)), record(1, *other_wire(key)), record(2, *other_wire(kind))]
        bodies = [[], [k(3)], [v(5)], [v(5), k(3)], [k(3), v(5), v(0), k(2)], [v(0), k(3), v(5), k(0)], [between[0], k(3), between[1], v(5), between[2]]]
        rows += [record(number, 2, b"".join(body)) for body in bodies]
    return rows


# Entries of `T`, in hexadecimal: one key twice, with messages that aren't merged, and words that are one key.
ENTRIES = [
    "8a 01 06 08 04 12 02 90 01", "8a 01 07 08 04 12 03 90 01 05 8a 01 08 08 04 12 04 9a 01 01 61", "8a 01 07 12 03 90 01 05 08 04 8a 01 02 08 04",
    "8a 01 06 12 04 f8 01 81 01", "6a 04 08 05 10 01 6a 08 08 85 80 80 80 10 10 00", "5a 07 08 01 15 05 00 00 00 5a 07 08 02 15 06 00 00 00", "1a 03 0a 01 05",
    "62 03 0a 01 61 62 04 0a 02 61 62 62 02 0a 00 62 03 0a 01 5a",
]


def entries_between(r, depth):
    """Entries of few keys in any order, with other records between them."""
    kinds = []
    # a map by numbers, one by strings and one to messages
    for number in [3, 12, 17]:
        key, kind = KEYS[(number - 1) % 12], VALUES[number - 1]

        def one(number=number, key=key, kind=kind):
            parts = [record(1, *item_of(key, r.randrange(3))), record(2, *item_of(kind, r.randrange(100)))]
            return record(number, 2, b"".join(r.sample(parts, r.choice([1, 2, 2, 2]))))

        kinds += [one, one]
    kinds += [
        lambda: record(18, 0, varint(r.randrange(3))),
        lambda: record(19, 2, text(r)),
        lambda: record(30, 0, varint(r.randrange(100))),
        lambda: record(3, 0, varint(r.randrange(100))),
    ]
    return b"".join(r.choice(kinds)() for _ in range(r.randrange(4, 12)))


def look(message):
    """Has the runtime make its maps, in all messages inside."""
    for field, value in message.ListFields():
        if field.message_type and field.message_type.GetOptions().map_entry:
            made = dict(value)
            children = made.values() if field.message_type.fields_by_name["value"].message_type else []
        elif field.message_type:
            children = value if field.label == LABEL.LABEL_REPEATED else [value]
        else:
            children = []
        for child in children:
            look(child)


def again(kind, data, looks=True):
    """What the runtime writes again, or None where it refuses the bytes."""
    message = kind()
    try:
        message.ParseFromString(data)
    except Exception:
        return None
    if looks:
        look(message)
    return message.SerializeToString(deterministic=True)


def look_at_own_order(kind, count):
    """Sees to it that what the runtime writes by itself, which is in another order each time, has the records of the bytes by rising keys."""
    r = random.Random(37)
    written = []
    for _ in range(count):
        message = kind()
        message.ParseFromString(any_order.maps(r))
        look(message)
        written.append(message.SerializeToString(deterministic=False))
    assert any(data != again(kind, data) for data in written)
    assert all(any_order.sorted_records(data) == any_order.sorted_records(again(kind, data)) for data in written)


def made_rows(kind, records, count, seed, longest=60):
    """Byte strings at random."""
    r = random.Random(seed)
    rows = []
    seen = set()
    while len(rows) < count:
        data = records(r, 0)
        if r.randrange(8) == 0:
            data = data[: r.randrange(len(data) + 1)]
        if data in seen or len(data) > longest:
            continue
        seen.add(data)
        rows.append(data)
    return rows


class Lines:
    """Lines of standard input and of standard output."""

    def __init__(self):
        self.asked, self.answered = [], []

    def add(self, what, asked, answer):
        what = "another runtime" + what
        assert " | " not in what
        self.asked.append("%s | %s\n" % (what, asked))
        self.answered.append("%s | %s\n" % (what, answer))

    def add_type(self, name, text):
        self.add(": type " + name, "type " + text, "taken")

    def add_rows(self, what, kind, rows):
        """Byte strings, and what the runtime writes again."""
        for place, data in enumerate(rows, 1):
            self.add(": %s, %d" % (what, place), "again " + spelled(data), spelled(again(kind, data)))

    def add_copies(self, what, kind, rows):
        """Byte strings that the runtime takes, and what it writes again, which is what is written of a copy."""
        taken = [(data, again(kind, data)) for data in rows]
        for place, (data, back) in enumerate([it for it in taken if it[1] is not None], 1):
            self.add(": copies of %s, %d" % (what, place), "copy " + spelled(data), spelled(back))

    def add_groups(self, kind, groups):
        """Groups of byte strings in hexadecimal, each with what it shows."""
        for what, words in groups:
            self.add_rows(what, kind, [bytes.fromhex(word) for word in words])

    def add_apart(self, kind):
        for data, ours, why in APART:
            theirs = again(kind, data, looks=False)
            assert theirs != ours, data
            self.add(" takes it otherwise: " + why, "apart %s %s" % (spelled(theirs), spelled(data)), spelled(ours))

    def add_any_order(self, kind, rows):
        """Of messages that the runtime writes, their records in another order, which the runtime reads as the same messages."""
        r = random.Random(31)
        written = [it for it in (again(kind, data) for data in rows) if it]
        mixed = [(data, any_order.shuffled(r, data)) for data in written]
        others = [(data, other) for data, other in mixed if other != data]
        assert len(others) >= 20 and all(again(kind, other) == data for data, other in others)
        # entries of a map change places, and records of a message inside it
        assert any([*any_order.entries_of(data)] != [*any_order.entries_of(other)] for data, other in others)
        assert any(any_order.inside_of(data) != any_order.inside_of(other) for data, other in others)
        self.add_rows("W: messages whose records are in another order", kind, [other for _, other in others])

    def add_many(self):
        """Ten thousand entries by falling keys that are read, and that are set; and ten thousand fields that are set by falling numbers."""
        kind, text = map_schema()
        self.add_type("K", text)
        entries = [record(1, 2, record(1, 0, varint(key)) + record(2, 0, varint(1 + key % 100))) for key in range(10_999, 999, -1)]
        self.add(": ten thousand falling keys are read", "again " + spelled(b"".join(entries)), spelled(again(kind, b"".join(entries))))
        message = kind(f1={key: 1 for key in range(10_000, 0, -1)})
        held = " ".join("%d:%d" % it for it in sorted(message.f1.items()))
        self.add(": ten thousand falling keys are set", "hold <<10000 0 # 1 >>=1:", "1={%s}" % held)
        kind, _ = many_fields_schema()
        self.add_type("L", "L: uint32 f1=1<<2 10001 , uint32 f#=#>>")
        message = kind(**{"f%d" % number: 7 for number in range(10_000, 0, -1)})
        self.add(": ten thousand falling fields are set", "whole 7 =10000<<9999 0  7 =#>>", spelled(message.SerializeToString()))

    def add_lists(self):
        """Lists of numbers of all kinds, read and written packed and not, and written by a type whose lists are of other kinds."""
        others = list_rows.by_other_kinds()
        for packed, name in ((True, "N"), (False, "U")):
            kind, text = list_rows.schema(name, packed, list_rows.KINDS)
            self.add_type(name, text)
            for word, rows in list_rows.packed_and_not():
                self.add_rows("%s: lists of %s" % (name, word), kind, rows)
                self.add(": %s: what is read of a list of %s" % (name, word), "read " + spelled(rows[0]), list_rows.contents(kind, rows[0]))
            self.add_copies("%s: all lists" % name, kind, [list_rows.all_lists(kind)])
            self.add_rows("%s: lists at random" % name, kind, made_rows(kind, list_rows.records, 40, 23))
            for other, data, back in [it[1:] for it in others if it[0] == packed]:
                self.add(": type to compare with: " + other, "other " + other, "taken")
                self.add(": %s: lists of other numbers" % name, "across " + data, back)

    def put_behind(self, folder):
        """Puts them after the lines that are written by hand."""
        for name, lines in [("stdin", self.asked), ("stdout", self.answered)]:
            with open(folder + "/" + name, encoding="utf-8") as file:
                kept = [line for line in file if not line.startswith("another runtime")]
            with open(folder + "/" + name, "w", encoding="utf-8") as file:
                file.writelines(kept + lines)


NINE = "80" * 9

# Bytes of `M`, in hexadecimal, that are written in an odd way or are no message.
ODD = [
    ("groups that aren't closed where they begin", [
        "4b", "4b 54", "4b 4b 4c", "13", "0b 14", "0a 01 4b 4c", "0a 01 4c", "0a 01 0c", "22 01 4b 4c", "22 01 4c", "2a 03 4b 10 05", "32 01 4b",
    ]),
    ("wire types 6 and 7", [
        "16", "17 05", "4e 05", "10 05 4f", "0a 02 4f 05", "22 02 0e 05",
    ]),
    ("tags, lengths and words that are longer than needed", [
        "90 00 05", "90 80 80 80 00 05", "90" + NINE + "00 05", "32 81 00 61", "32 81 80 80 80 00 61", "32 81" + NINE + "00 61", "22 84 00 08 85 00 12",
        "10 85 00", "10 85 80 80 80 80 80 80 80 80 00", "10 85" + NINE + "00", "10" + NINE, "18 82 80 80 00 1a 03 84 80 00", "22 05 08 85 80 80 00",
    ]),
    ("words of ten bytes with bits above 64", [
        "10 85 80 80 80 80 80 80 80 80 7e", "10" + "ff" * 9 + "7f", "10" + NINE + "02", "10 05 10" + NINE + "7e", "1a 0b" + NINE + "7e 02", "18" + "ff" * 9 + "03",
        "22 0b 08" + NINE + "7e", "22 0b 08" + "ff" * 9 + "41",
    ]),
    ("fields of the number 0", [
        "02 00", "01 00 00 00 00 00 00 00 00", "05 00 00 00 00", "03", "06", "0a 01 00", "0a 02 00 05", "22 01 00", "22 02 00 05", "2a 02 02 00", "10 05 02 01 61",
    ]),
    ("the greatest numbers, and tags of more than 32 bits", [
        "f8 ff ff ff 0f 05", "fa ff ff ff 0f 01 61", "fd ff ff ff 0f 01 02 03 04", "c0 a3 09 05", "fa bf 09 00", "f8 ff ff ff ff 00 05", "0a 06 f8 ff ff ff 0f 05",
    ]),
    ("bodies that are cut off", [
        "3d", "3d 01 02 03", "15 00 00 00", "11 00 00 00 00 00 00 00", "11", "0d 00 00 00", "0a 03 3d 00 00", "10", "10 80", "32", "32 05 61", "0a 05 10 05",
        "22 03 08 80 80", "22 02 12 01", "22 04 15 00 00 00", "0a 02 10 80 10 05", "2a 03 0a 02 10 05", "32 ff ff ff ff 07", "0a ff ff ff ff ff ff ff ff ff 01",
    ]),
    ("packed lists that end in an item", [
        "1a 01 80", "1a 03 02 80 80", "1a 02 80 80 00", "1a 0b 80" + NINE + "01", "1a 0c" + NINE + "01 80 00", "1a 05 02",
    ]),
    ("lists, and items of another wire type", [
        "12 01 05", "12 00", "12 02 05 06 10 07", "3a 04 01 00 00 00", "32 01 61 3a 04 00 00 00 00", "3d 01 00 00 00 30 05", "08 05", "0d 00 00 00 00", "28 05",
        "20 05", "25 00 00 00 00", "1d 00 00 00 00", "19 00 00 00 00 00 00 00 00", "22 06 0a 01 05 12 01 61", "22 05 08 05 12 01 61", "22 04 08 05 10 06",
    ]),
    ("texts at the edges of UTF-8", [
        "32 01 00", "32 03 ef bf bf", "32 04 f4 8f bf bf", "32 02 c0 80", "32 03 ed a0 80", "32 03 e0 80 80", "32 04 f4 90 80 80", "32 02 c3 28", "32 01 c3",
        "32 01 80", "22 05 12 03 ed a0 80", "32 01 c3 32 02 c3 a4", "32 01 ff 3d 00 00 00 00",
    ]),
    ("a message in parts, of which one has a member that a later one overrules", [
        "0a 03 32 01 61 0a 05 3d 00 00 00 00 0a 02 10 00",
    ]),
]

# Fields of `W`, which are odd in the same way.
ODD_WIDE = [
    ("W: words and packed lists that are cut off", [
        "1a 07 00 00 00 00 00 00 00", "1a 09 00 00 00 00 00 00 00 00 00", "1a 0f" + "00" * 15, "22 03 00 00 00", "22 05 00 00 00 00 00", "19 00 00 00 00 00 00 00",
        "25 00 00 00", "71 00 00 00 00", "12 01 80", "12 02 02 80", "0a 01 80", "0a 02 80 80", "32 01 ff", "32 0b" + "ff" * 10 + "01", "4a 08 11 00 00 00 00 00 00 00",
    ]),
    ("W: words of ten bytes with bits above 64", [
        "12 0a" + NINE + "02", "12 0a" + NINE + "03", "10" + NINE + "7e", "42 0b 08" + NINE + "02", "42 0d 08" + NINE + "7f 12 00", "28" + NINE + "02",
        "28" + "ff" * 9 + "7f", "32 0a" + "ff" * 9 + "7f", "60" + "ff" * 9 + "7f", "60" + NINE + "02", "68" + "ff" * 9 + "7f", "68" + NINE + "7e", "0a 0a" + "ff" * 9 + "7f",
        "4a 0b 08" + "ff" * 9 + "7f",
    ]),
    ("W: lists, and items of another wire type", [
        "0d 00 00 00 00", "09 00 00 00 00 00 00 00 00", "15 00 00 00 00", "1d 00 00 00 00", "18 05", "21 00 00 00 00 00 00 00 00", "20 05", "2a 01 05", "2d 05 00 00 00",
        "35 05 00 00 00", "62 01 05", "6a 01 05", "72 08 00 00 00 00 00 00 00 00", "75 00 00 00 00", "50 05", "58 05", "5a 01 61 50 05", "52 00 58 05", "38 05",
        "3a 02 10 05", "3a 05 12 03 d8 01 05", "3a 0a 12 03 d8 01 05 12 03 d8 01 06", "3a 04 0a 00 15 00", "42 02 0a 00", "42 02 10 05", "4a 02 0a 00", "4a 05 15 00 00 00 00", "4a 06 08 05 12 02 00 00",
    ]),
    ("W: a message in a oneof, in parts", [
        "52 02 60 05 52 02 08 01", "52 02 60 05 58 05 52 02 08 01", "52 02 60 05 5a 01 61 52 02 08 01", "52 02 60 05 5a 00 52 02 08 01", "52 02 60 05 5a 00",
        "5a 01 61 52 00", "52 02 60 05 50 05", "52 02 60 05 52 02 60 00",
    ]),
    ("W: lists of nothing", [
        "0a 00", "12 00", "1a 00", "22 00", "32 00", "0a 00 08 05 0a 00", "1a 00 19 05 00 00 00 00 00 00 00 1a 00",
    ]),
    ("W: a message that a later member overrules, and that can't be read", [
        "52 01 0c 5a 01 61", "52 02 12 05 5a 01 61", "52 04 52 02 60 80 5a 01 61", "52 05 52 03 0a 01 80 5a 01 61", "52 07 3a 05 0a 01 ff 12 00 5a 01 61",
    ]),
    ("W: members of a oneof in the parts of an entry's value", [
        "3a 09 12 03 5a 01 61 12 02 52 00", "3a 0d 12 02 60 05 12 03 5a 01 61 12 02 60 00",
    ]),
    ("W: a message that starts again after another member", [
        "52 02 60 05 5a 01 61 52 02 08 01 5a 01 62", "52 03 d8 01 05 5a 01 61 52 03 d8 01 06", "52 05 52 03 5a 01 61 52 04 52 02 52 00",
        "12 01 01 10 00 12 02 01 00 10 01",
    ]),
]


def nest(levels):
    """A message with so many others one inside the other."""
    data = b""
    for _ in range(levels):
        data = record(1, 2, data)
    return data


# Bytes that this crate and the runtime tell apart, each with what this crate writes again or None, and why.
APART = [
    (b"\x4b\x4c", None, "a group is no record here; the runtime keeps one that is closed as unknown"),
    (b"\x10\x05\x4c", None, "an end of a group alone is no record here; the runtime ends the message at it"),
    (b"\x10\x05\x00", None, "no field has the number 0; the runtime ends the message at the byte 0"),
    (b"\x90\x80\x80\x80\x80\x00\x05", b"\x10\x05", "a tag may have up to ten bytes here; the runtime takes five"),
    (b"\x22\x80\x80\x80\x80\x80\x00", b"\x22\x04\x08\x00\x12\x00", "a length may have up to ten bytes here; the runtime takes five"),
    (b"\x90\x80\x80\x80\x10\x05", None, "a tag of 2^32 and more has no field's number; the runtime drops what is above 32 bits"),
    (b"\x48\x81\x00", b"\x48\x81\x00", "an unknown record stays byte for byte; the runtime writes its varint with the fewest bytes"),
    (b"\x0a\x02\x4b\x4c", None, "a group is no record here, inside a message neither; the runtime keeps it there"),
    (b"\x22\x02\x4b\x4c", None, "a group is no record here, inside an entry neither; the runtime keeps it until its map is read"),
    (b"\x13\x10\x05\x14", None, "a group is no record here, of a field's number neither; the runtime keeps it as unknown"),
    (b"\x10\x05\x0c\x10\x07", None, "an end of a group is no record here; the runtime ends the message at it, whatever follows"),
    (b"\x04", None, "no field has the number 0; the runtime ends the message at an end of a group of it"),
    (b"\x80\x00\x10\x05", None, "no field has the number 0, in a longer tag neither; the runtime ends the message at it"),
    (b"\xf8\xff\xff\xff\x1f\x05", None, "a tag of 2^32 and more has no field's number; the runtime keeps it as one of 32 bits"),
    (b"\x80\x80\x80\x80\x10\x05", None, "a tag of 2^32 has no field's number; the runtime takes it for the byte 0"),
    (b"\x48" + b"\xff" * 9 + b"\x7f", b"\x48" + b"\xff" * 9 + b"\x7f", "an unknown record stays byte for byte; the runtime drops bits above 64"),
    (b"\xc8\x00\x05", b"\xc8\x00\x05", "an unknown record stays byte for byte; the runtime writes its tag with the fewest bytes"),
    (b"\x4a\x81\x00\x61", b"\x4a\x81\x00\x61", "an unknown record stays byte for byte; the runtime writes its length with the fewest bytes"),
    (b"\x22\x04\x18\x07\x08\x05", b"\x22\x04\x08\x05\x12\x00", "unknown records of an entry go at once; the runtime keeps them until its map is read"),
    (b"\x22\x02\x08\x05\x22\x02\x08\x05", b"\x22\x04\x08\x05\x12\x00", "of equal keys the last entry stays; the runtime keeps both until its map is read"),
    (nest(100), None, "100 levels are too deep here; the runtime takes 100 below the first"),
]


def main():
    # a runtime in Python alone reads otherwise
    assert api_implementation.Type() == "cpp"
    lines = Lines()
    kind, text = schema()
    lines.add_type("M", text)
    lines.add_rows("M at random", kind, made_rows(kind, records, 220, 18))
    lines.add_groups(kind, ODD)
    lines.add_apart(kind)
    kind, text = wide_schema()
    lines.add_type("W", text)
    lines.add_rows("W at random", kind, made_rows(kind, wide_records, 60, 19))
    lines.add_groups(kind, ODD_WIDE)
    mapped = [any_order.maps(random.Random(seed)) for seed in range(12)]
    lines.add_any_order(kind, made_rows(kind, wide_records, 60, 29, longest=90) + mapped)
    look_at_own_order(kind, 40)
    kind, text = far_schema()
    lines.add_type("F", text)
    lines.add_rows("members that stand far apart", kind, made_rows(kind, far_records, 4, 20, longest=200))
    kind, text = pair_schema()
    lines.add_type("P", text)
    pairs = made_rows(kind, pair_records, 8, 22, longest=300)
    lines.add_rows("many oneofs", kind, pairs)
    lines.add_copies("many oneofs", kind, pairs)
    kind, text = entry_schema()
    lines.add_type("T", text)
    lines.add_rows("entries without a key or a value, in both orders, twice, and between others", kind, each_entry())
    lines.add_rows("a key twice, and keys that are one", kind, [bytes.fromhex(word) for word in ENTRIES])
    lines.add_rows("entries between other records", kind, made_rows(kind, entries_between, 30, 21, longest=120))
    lines.add_many()
    lines.add_lists()
    lines.put_behind("crates/rows_bytes")


main()

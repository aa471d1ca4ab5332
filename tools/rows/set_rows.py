#!/usr/bin/python3
"""Writes the rows of crates/rows_fds (descriptor sets by protoc, and what becomes of them when they are changed), and those rows of
crates/rows_gate that compile the same source files.

Needs protoc (3.21) and python3-protobuf. Each set is made by `protoc --include_imports --descriptor_set_out`, from source files that
declare message types before the map fields next to them, the order that protogate writes; a changed set is made of one of these by python3-protobuf.

    /usr/bin/python3 tools/rows/set_rows.py
"""
import os
import subprocess
import tempfile

from google.protobuf import descriptor_pb2 as pb

from long_rows import CRATES, files, printed, rewrite, spelled

EXAMPLES = os.path.join(os.path.dirname(CRATES), "examples")
DESCRIPTOR = "google/protobuf/descriptor.proto"

SOURCES = {
    "m.proto": 'syntax = "proto3"; message M { int32 a = 1; }',
    "maps.proto": """
syntax = "proto3";
package p.q;
message M {
  message N { string s = 1; }
  enum E { A = 0; }
  map<int32, N> by_number = 3;
  map<string, E> by_name = 1;
  map<bool, bytes> _x = 9;
}
""",
    "oneofs.proto": """
syntax = "proto3";
message M {
  oneof first { int32 a = 1; M b = 2; }
  optional string c = 7;
  oneof second { bytes d = 4; }
  optional M e = 5;
  string f = 6 [json_name = "given", deprecated = true];
  repeated int32 g = 8 [packed = false];
  repeated M h = 9 [deprecated = false];
  reserved 20, 30 to 39;
  reserved "old", "older";
}
""",
    "enums.proto": """
syntax = "proto3";
option java_package = "j";
option optimize_for = CODE_SIZE;
option java_multiple_files = false;
enum E {
  option allow_alias = true;
  ZERO = 0; NULL = 0; LESS = -1 [deprecated = true]; MOST = 2147483647;
  reserved -9 to -5, 7;
  reserved "GONE";
}
message M { option deprecated = true; repeated E e = 1; message N { enum F { F0 = 0; } F f = 1; } N n = 2; }
""",
    "services.proto": """
syntax = "proto3";
package s;
import public "m.proto";
import "enums.proto";
message R { .M m = 1; .E e = 2; }
service S {
  option deprecated = true;
  rpc Ask(R) returns (R);
  rpc Send(stream R) returns (R) { option deprecated = true; }
  rpc Watch(R) returns (stream R);
}
""",
}
# services.proto has enums.proto's M in scope beside m.proto's: the second is renamed.
SOURCES["services.proto"] = SOURCES["services.proto"].replace(".M m = 1", ".Other m = 1")
SOURCES["other.proto"] = 'syntax = "proto3"; message Other { int32 a = 1; }'
SOURCES["services.proto"] = SOURCES["services.proto"].replace('"m.proto"', '"other.proto"')
SOURCES["a.proto"] = 'syntax = "proto3"; import "b.proto"; message A { B b = 1; }'
SOURCES["b.proto"] = 'syntax = "proto3"; message B { }'
SOURCES["options.proto"] = """
syntax = "proto3";
option java_package = "a";
option java_outer_classname = "b";
option optimize_for = LITE_RUNTIME;
option java_multiple_files = true;
option go_package = "c";
option deprecated = true;
option cc_enable_arenas = false;
option objc_class_prefix = "d";
option csharp_namespace = "e";
option swift_prefix = "f";
option php_class_prefix = "g";
option php_namespace = "h";
option ruby_package = "i";
enum E { option deprecated = true; ZERO = 0; }
"""
SOURCES["d.proto"] = 'syntax = "proto3"; import public "b.proto"; import public "m.proto"; message D { B b = 1; M m = 2; }'


# The names of errors by code (docs/ERRORS.md): of bytes, of a set, and of the rules that it breaks, which have no position.
WIRE_ERRORS = {501: "VarintTooLong", 502: "Truncated", 503: "BadTag", 504: "Group", 505: "BadWireType"}
BYTES_ERRORS = {604: "NotUtf8", 608: "TooDeep"}
SET_ERRORS = {702: "NotProto3", 703: "BadType", 704: "BadReference"}
RULE_ERRORS = {
    401: "BadNumber", 402: "DuplicateNumber", 403: "ReservedNumber", 404: "ReservedName", 405: "RangeOverlap", 406: "JsonNameClash",
    407: "BadMapKey", 408: "BadOneofMember", 409: "EnumFirstNotZero", 410: "EnumAlias", 411: "BadOption", 412: "PackedNotAllowed",
    413: "TooManyTypes", 414: "EnumEmpty", 415: "BadParts",
}


def error_of(code, at):
    """Returns the whole error of a code, of bytes with the byte that it names, as rows print it."""
    if code in WIRE_ERRORS:
        return "Bytes(Wire(%s { at: %d }))" % (WIRE_ERRORS[code], at)
    if code in BYTES_ERRORS:
        return "Bytes(%s { at: %d })" % (BYTES_ERRORS[code], at)
    if code in RULE_ERRORS:
        return 'Rule(%s(Place { file: "", line: 0, column: 0 }))' % RULE_ERRORS[code]
    return SET_ERRORS[code]


def made(folder, name):
    with tempfile.NamedTemporaryFile() as out:
        subprocess.run(
            ["protoc", "-I", folder, "--include_imports", "--descriptor_set_out=" + out.name, name],
            check=True,
            stderr=subprocess.DEVNULL,
        )
        return pb.FileDescriptorSet.FromString(out.read())


def by_protoc():
    with tempfile.TemporaryDirectory() as folder:
        for name, text in SOURCES.items():
            with open(os.path.join(folder, name), "w") as file:
                file.write(text)
        return {name: made(folder, name) for name in SOURCES}


def texts_of_examples():
    """Returns the folder and the name of each source file of the repository's examples."""
    found = [(at, name) for at, _, names in os.walk(EXAMPLES) for name in names if name.endswith(".proto")]
    return sorted(found)


def bare(message):
    """The message without fields that its type doesn't have, and without options that state nothing then."""
    message.DiscardUnknownFields()
    for field, value in message.ListFields():
        inside = [] if field.message_type is None else value if field.label == field.LABEL_REPEATED else [value]
        for it in inside:
            bare(it)
        if field.name == "options" and not value.ByteSize():
            message.ClearField("options")


def without_custom_options(given):
    """The set without custom options, what declares them, and protoc's own file, which a schema of this profile doesn't have."""

    def change(s):
        for at in reversed([at for at, file in enumerate(s.file) if file.name == DESCRIPTOR]):
            del s.file[at]
        for file in s.file:
            file.ClearField("extension")
            kept = [it for it in file.dependency if it != DESCRIPTOR]
            file.ClearField("dependency")
            file.dependency.extend(kept)
        bare(s)

    return changed(given, change)


def rows_of_examples():
    """Rows of the repository's examples: the sets that protoc makes of them, what is read of each and written again. One is proto2."""
    for folder, name in texts_of_examples():
        given = made(folder, name)
        what = "protoc's set of " + os.path.relpath(os.path.join(folder, name), os.path.dirname(EXAMPLES))
        taken = all(file.syntax == "proto3" for file in given.file if file.name != DESCRIPTOR)
        written = '"%s"' % printed(without_custom_options(given).SerializeToString())
        yield what, given.SerializeToString(), written if taken else "refused " + SET_ERRORS[702]


def changed(message, change):
    copy = pb.FileDescriptorSet()
    copy.CopyFrom(message)
    change(copy)
    return copy


def first(name):
    """The first message type of the last file."""
    return lambda s: s.file[-1].message_type[0]


def with_bytes(message, data):
    """The message with these bytes after its own, as an old or a newer program may write them."""
    return message.MergeFromString(data)


def skipped(dependency, imports=1):
    """In front a file descriptor.proto that isn't proto3, which the last file imports, once or more often."""

    def change(s):
        last = s.file[-1]
        for _ in range(imports):
            last.dependency.insert(0, DESCRIPTOR)
        for at, place in enumerate(list(last.public_dependency)):
            last.public_dependency[at] = place + imports
        file = pb.FileDescriptorProto(name=DESCRIPTOR, package="google.protobuf")
        if dependency:
            file.message_type.add(name="FileOptions")
        s.file.insert(0, file)

    return change


def variants(sets):
    """Pairs of a set that is read, and the set that is written again."""
    two, maps, oneofs, public = sets["a.proto"], sets["maps.proto"], sets["oneofs.proto"], sets["d.proto"]
    one, services = sets["m.proto"], sets["services.proto"]
    rows = []

    def row(name, base, change):
        rows.append((name, changed(base, change), [base is s for s in sets.values()].index(True)))

    def swap(s):
        files = list(s.file)
        del s.file[:]
        s.file.extend(reversed(files))

    row("the other order", two, swap)
    row("services in the other order", services, lambda s: swap(s))

    def each_field(s, change):
        for file in s.file:
            stack = list(file.message_type)
            while stack:
                t = stack.pop()
                stack.extend(t.nested_type)
                for f in t.field:
                    change(f)

    def no_label(f):
        if f.label == 1:
            f.ClearField("label")

    row("no label", oneofs, lambda s: each_field(s, no_label))
    row("no label in entry types", maps, lambda s: each_field(s, no_label))

    def no_json(f):
        if f.json_name != "given":
            f.ClearField("json_name")

    row("no JSON name", maps, lambda s: each_field(s, no_json))
    row("no JSON name in oneofs", oneofs, lambda s: each_field(s, no_json))

    def false_marks(f):
        if not f.proto3_optional:
            f.proto3_optional = False

    row("false marks", oneofs, lambda s: each_field(s, false_marks))

    def no_marks(s):
        for m in s.file[-1].service[0].method:
            m.client_streaming = m.client_streaming
            m.server_streaming = m.server_streaming

    row("false streams", services, no_marks)
    row("empty package", one, lambda s: setattr(s.file[0], "package", ""))
    row("empty options", one, lambda s: s.file[0].message_type[0].options.SetInParent())
    row("empty options of a field", one, lambda s: s.file[0].message_type[0].field[0].options.SetInParent())
    row("no entry", one, lambda s: setattr(s.file[0].message_type[0].options, "map_entry", False))

    def turned(s):
        t = s.file[0].message_type[0]
        nested = list(t.nested_type)
        del t.nested_type[:]
        t.nested_type.extend(reversed(nested))

    row("entry types in front", maps, turned)

    def around(s):
        t = s.file[0].message_type[0]
        nested = list(t.nested_type)
        del t.nested_type[:]
        t.nested_type.extend([nested[1], nested[0], *nested[2:]])

    row("entry types around a declared type", maps, around)

    def other_names(s):
        for o in s.file[0].message_type[0].oneof_decl[2:]:
            o.name = "first"

    row("names of synthetic oneofs", oneofs, other_names)

    def other_places(s):
        t = s.file[0].message_type[0]
        real, synthetic = list(t.oneof_decl[:2]), list(t.oneof_decl[2:])
        del t.oneof_decl[:]
        t.oneof_decl.extend([synthetic[1], real[0], synthetic[0], real[1]])
        places = {0: 1, 1: 3, 2: 2, 3: 0}
        for f in t.field:
            if f.HasField("oneof_index"):
                f.oneof_index = places[f.oneof_index]

    row("places of synthetic oneofs", oneofs, other_places)
    row("a public index twice", public, lambda s: s.file[-1].public_dependency.extend([1, 0, 1]))
    row("descriptor.proto skipped", one, skipped(False))
    row("descriptor.proto skipped, imported twice", one, skipped(False, 2))
    row("descriptor.proto with types skipped", public, skipped(True))

    def comments(s):
        location = s.file[0].source_code_info.location.add()
        location.path.extend([4, 0])
        location.leading_comments = "text"

    row("comments", one, comments)
    row("other options", one, lambda s: s.file[0].options.MergeFromString(b"\xa8\x01\x01\x90\x01\x01"))
    row("other fields", one, lambda s: with_bytes(s.file[0].message_type[0].field[0], b"\x12\x01x\x3a\x011"))
    row("a later label", one, lambda s: with_bytes(s.file[0].message_type[0].field[0], b"\x22\x00"))
    return rows


def nested(levels):
    """Returns a set of a message type with as many more in it, each in the one before; a message inside is one level deeper (01 is a name,
    03 a type inside, 04 a type of the file)."""
    body = b"\x0a\x01M"
    for _ in range(levels):
        body = b"\x0a\x01M" + record(3, body)
    return record(1, b"\x0a\x07m.proto" + record(4, body) + b"\x62\x06proto3")


def record(number, body):
    """Returns the record of a body of less than 2^14 bytes."""
    length = bytes([len(body)]) if len(body) < 128 else bytes([len(body) & 127 | 128, len(body) >> 7])
    return bytes([8 * number + 2]) + length + body


def named_as_first(message):
    """Lets the message's second field name the entry type of its first, whose name gives the same one."""
    message.field[1].name = "byNumber"
    message.field[1].json_name = "x"
    message.field[1].type_name = message.field[0].type_name


def packed_texts(message):
    """One more list of strings, which is packed."""
    field = message.field.add(name="texts", number=9, label=3, type=9, json_name="texts")
    field.options.packed = True


def many_types(file, count):
    """Types more, until there are so many."""
    for at in range(len(file.message_type), count):
        file.message_type.add(name="N%X" % at)


def refused(sets):
    """Sets that are refused, the code, and the byte that an error of bytes names."""
    one, two, maps, oneofs = sets["m.proto"], sets["a.proto"], sets["maps.proto"], sets["oneofs.proto"]
    services, enums, public = sets["services.proto"], sets["enums.proto"], sets["d.proto"]
    rows = []

    def row(name, code, base, change):
        rows.append((name, code, changed(base, change).SerializeToString(), 0))

    def message(s):
        return s.file[-1].message_type[0]

    def field(s):
        return message(s).field[0]

    bytes_of_one = one.SerializeToString()
    rows.append(("a front", 502, bytes_of_one[:-1], 0))
    # A fault is reported at the first byte of the innermost record that has it: that of the type's name, and what follows the file.
    rows.append(("no text", 604, bytes_of_one.replace(b"\x0a\x01M", b"\x0a\x01\xff"), bytes_of_one.index(b"\x0a\x01M")))
    for what, code, behind in (("a varint of 11 bytes", 501, b"\x08" + b"\x80" * 11), ("a tag of number 0", 503, b"\x00"),
                               ("a group behind", 504, b"\x0b"), ("a wire type 6", 505, b"\x0e")):
        rows.append((what, code, bytes_of_one + behind, len(bytes_of_one)))
    # The set is at level 1, its file at 2, and the file's type at 3: so the 98th type inside is at level 101.
    rows.append(("98 types inside each other", 608, nested(98), nested(98).index(record(3, b"\x0a\x01M"))))
    # syntax
    row("proto2", 702, one, lambda s: setattr(s.file[0], "syntax", "proto2"))
    row("no syntax", 702, one, lambda s: s.file[0].ClearField("syntax"))
    row("no syntax before a type", 702, two, lambda s: (s.file[0].ClearField("syntax"), field(s).ClearField("type")))
    # codes
    row("group", 703, one, lambda s: setattr(field(s), "type", 10))
    row("no type", 703, one, lambda s: field(s).ClearField("type"))
    row("type 0", 703, one, lambda s: with_bytes(field(s), b"\x28\x00"))
    row("type 19", 703, one, lambda s: with_bytes(field(s), b"\x28\x13"))
    row("required", 703, one, lambda s: setattr(field(s), "label", 2))
    row("label 0", 703, one, lambda s: with_bytes(field(s), b"\x20\x00"))
    row("in an entry", 703, maps, lambda s: message(s).nested_type[1].field[0].ClearField("type"))
    row("codes before references", 703, two, lambda s: (setattr(field(s), "type", 10), s.file[-1].dependency.append("x")))
    # references
    row("an import that lacks", 704, two, lambda s: s.file.pop(0))
    row("an import twice", 704, two, lambda s: s.file[-1].dependency.append("b.proto"))
    row("a file twice", 704, one, lambda s: s.file.append(s.file[0]))
    row("a circle", 704, two, lambda s: s.file[0].dependency.append("a.proto"))
    row("itself", 704, one, lambda s: s.file[0].dependency.append("m.proto"))
    row("descriptor.proto lacks", 704, one, lambda s: s.file[0].dependency.append("google/protobuf/descriptor.proto"))
    row("a public index past the end", 704, public, lambda s: s.file[-1].public_dependency.append(2))
    row("a public index below 0", 704, public, lambda s: s.file[-1].public_dependency.append(-1))
    row("a name that lacks", 704, two, lambda s: setattr(field(s), "type_name", ".C"))
    row("no dot", 704, two, lambda s: setattr(field(s), "type_name", "B"))
    row("no name of a type", 704, two, lambda s: field(s).ClearField("type_name"))
    row("a name beside a scalar", 704, one, lambda s: setattr(field(s), "type_name", ".M"))
    row("a message as an enum", 704, two, lambda s: setattr(field(s), "type", 14))
    row("an enum as a message", 704, enums, lambda s: setattr(field(s), "type", 11))
    row("a field's name", 704, one, lambda s: (setattr(field(s), "type", 11), setattr(field(s), "type_name", ".M.a")))
    row("two fields of a name", 704, oneofs, lambda s: setattr(message(s).field[1], "name", "a"))
    row("two types of a name", 704, one, lambda s: s.file[0].message_type.append(s.file[0].message_type[0]))
    row("two values of a name", 704, enums, lambda s: setattr(s.file[0].enum_type[0].value[2], "name", "ZERO"))
    row("two methods of a name", 704, services, lambda s: setattr(s.file[-1].service[0].method[1], "name", "Ask"))
    row("a package as a type", 704, two, lambda s: setattr(s.file[-1], "package", "B"))
    row("a method without an input", 704, services, lambda s: s.file[-1].service[0].method[0].ClearField("input_type"))
    row("an enum as an output", 704, services, lambda s: setattr(s.file[-1].service[0].method[0], "output_type", ".E"))
    # oneofs
    row("an index past the end", 704, oneofs, lambda s: setattr(field(s), "oneof_index", 4))
    row("an index below 0", 704, oneofs, lambda s: setattr(field(s), "oneof_index", -1))
    row("optional in no oneof", 704, oneofs, lambda s: message(s).field[2].ClearField("oneof_index"))
    row("optional and repeated", 704, oneofs, lambda s: setattr(message(s).field[2], "label", 3))
    row("optional beside another", 704, oneofs, lambda s: setattr(message(s).field[2], "oneof_index", 1))
    row("two of one synthetic oneof", 704, oneofs, lambda s: setattr(message(s).field[4], "oneof_index", 2))
    # entry types
    entry = lambda s: message(s).nested_type[1]
    row("an entry on top", 704, one, lambda s: setattr(message(s).options, "map_entry", True))
    row("an entry that none names", 704, maps, lambda s: message(s).field.pop(0))
    row("an entry's name", 704, maps, lambda s: setattr(entry(s), "name", "XEntry"))
    row("an entry named twice", 704, maps, lambda s: setattr(message(s).field[1], "type_name", message(s).field[0].type_name))
    row("an entry of two fields beside a spare one", 704, maps, lambda s: named_as_first(message(s)))
    row("an entry of two fields", 704, maps, lambda s: (named_as_first(message(s)), message(s).nested_type.pop(2)))
    row("an entry of one item", 704, maps, lambda s: setattr(field(s), "label", 1))
    row("an entry as a value", 704, maps, lambda s: (setattr(entry(s).field[1], "type_name", ".p.q.M.XEntry")))
    row("an entry's key", 704, maps, lambda s: setattr(entry(s).field[0], "name", "k"))
    row("an entry's number", 704, maps, lambda s: setattr(entry(s).field[1], "number", 3))
    row("an entry's label", 704, maps, lambda s: setattr(entry(s).field[1], "label", 3))
    row("an entry's JSON name", 704, maps, lambda s: setattr(entry(s).field[1], "json_name", "v"))
    row("an entry's options", 704, maps, lambda s: setattr(entry(s).field[1].options, "deprecated", True))
    row("a deprecated entry", 704, maps, lambda s: setattr(entry(s).options, "deprecated", True))
    row("an entry of three", 704, maps, lambda s: entry(s).field.add(name="x", number=3, label=1, type=5, json_name="x"))
    row("an entry turned round", 704, maps, lambda s: entry(s).field.append(entry(s).field.pop(0)))
    row("an entry with a type", 704, maps, lambda s: entry(s).nested_type.add(name="T"))
    row("an entry with a reserved name", 704, maps, lambda s: entry(s).reserved_name.append("r"))
    row("an entry's oneof", 704, maps, lambda s: (entry(s).oneof_decl.add(name="o"), setattr(entry(s).field[0], "oneof_index", 0)))
    row("references before rules", 704, two, lambda s: (setattr(field(s), "number", 0), setattr(field(s), "type_name", ".C")))
    # rules
    row("no number", 401, one, lambda s: field(s).ClearField("number"))
    row("a number below 0", 401, one, lambda s: setattr(field(s), "number", -1))
    row("a number between", 401, one, lambda s: setattr(field(s), "number", 19000))
    row("a number twice", 402, oneofs, lambda s: setattr(message(s).field[1], "number", 1))
    row("a reserved number", 403, oneofs, lambda s: setattr(field(s), "number", 30))
    row("a reserved name", 404, oneofs, lambda s: setattr(field(s), "name", "old"))
    row("ranges overlap", 405, oneofs, lambda s: setattr(message(s).reserved_range[0], "end", 31))
    row("no start", 401, oneofs, lambda s: message(s).reserved_range[0].ClearField("start"))
    row("a JSON name twice", 406, oneofs, lambda s: setattr(field(s), "json_name", "given"))
    row("a float as a key", 407, maps, lambda s: setattr(entry(s).field[0], "type", 2))
    row("an enum as a key", 407, maps, lambda s: (setattr(entry(s).field[0], "type", 14), setattr(entry(s).field[0], "type_name", ".p.q.M.E")))
    row("a oneof without members", 408, oneofs, lambda s: message(s).oneof_decl.add(name="third"))
    row("a repeated member", 408, oneofs, lambda s: setattr(field(s), "label", 3))
    row("a map as a member", 408, maps, lambda s: (message(s).oneof_decl.add(name="o"), setattr(field(s), "oneof_index", 0)))
    row("a first value of 1", 409, enums, lambda s: setattr(s.file[0].enum_type[0].value[0], "number", 1))
    row("an alias", 410, enums, lambda s: s.file[0].enum_type[0].options.ClearField("allow_alias"))
    row("no mode", 411, enums, lambda s: with_bytes(s.file[0].options, b"\x48\x04"))
    row("packed texts", 412, oneofs, lambda s: setattr(message(s).field[5].options, "packed", True))
    row("an enum without values", 414, enums, lambda s: s.file[0].enum_type.add(name="Empty"))
    row("a name that is no word", 415, one, lambda s: setattr(message(s), "name", "9"))
    row("no name", 415, one, lambda s: message(s).ClearField("name"))
    row("a package that is none", 415, one, lambda s: setattr(s.file[0], "package", "p..q"))
    row("no name inside no name", 415, one, lambda s: (message(s).ClearField("name"), message(s).enum_type.add().value.add(name="A", number=0)))
    row("two types without a name", 704, one, lambda s: (message(s).ClearField("name"), s.file[0].message_type.add()))
    row("a dot in a name", 415, one, lambda s: setattr(message(s), "name", "a.b"))
    row("a dot in a name beside a type in a type", 415, one, lambda s: (setattr(message(s), "name", "a.b"), s.file[0].message_type.add(name="a").nested_type.add(name="b")))
    row("two types of a name with a dot", 704, one, lambda s: (setattr(message(s), "name", "a.b"), s.file[0].message_type.add(name="a.b")))
    row("a type name for a name with a dot", 704, one, lambda s: (setattr(message(s), "name", "a.b"), setattr(field(s), "type", 11), setattr(field(s), "type_name", ".a.b")))
    # The first that breaks a rule: types, enums, files. More than 4,096 types come before, and names that are no identifiers last.
    enum = lambda s: s.file[-1].enum_type[0]
    row("a type's rule before an enum's", 412, enums, lambda s: (packed_texts(message(s)), setattr(enum(s).value[2], "number", -5)))
    row("an enum's rule before a file's", 414, enums, lambda s: (s.file[0].enum_type.add(name="Empty"), with_bytes(s.file[0].options, b"\x48\x04")))
    row("a rule before names", 409, one, lambda s: (setattr(message(s), "name", "9"), s.file[0].enum_type.add(name="E").value.add(name="A", number=1)))
    row("4097 types before a type's rule", 413, one, lambda s: (many_types(s.file[0], 4097), field(s).ClearField("number")))
    return rows


def rows_of_sets(sets):
    """Rows of rows_fds: what is read and written again is the set of protoc, and what is refused is so by a code."""
    names = list(SOURCES)
    data = {name: sets[name].SerializeToString() for name in names}
    rows = [("protoc's set of %s" % name, data[name], '"%s"' % printed(data[name])) for name in names]
    for what, read, place in variants(sets):
        rows.append(("changed: " + what, read.SerializeToString(), '"%s"' % printed(data[names[place]])))
    for what, code, read, at in refused(sets):
        rows.append(("refused: " + what, read, "refused " + error_of(code, at)))
    rows.extend(rows_of_examples())
    rows.append(("97 types inside each other", nested(97), '"%s"' % printed(nested(97))))
    rows.append(("no bytes", b"", '""'))
    one = data["m.proto"]
    for length in range(1, len(one)):
        rows.append(("cut off behind byte %d" % length, one[:length], "refused " + error_of(502, 0)))
    return rows


def rows_of_texts(sets):
    """Rows of rows_gate: `compile` writes the sets of protoc."""
    here = files(*SOURCES.items())
    for name, made in sets.items():
        what = "the set that protoc makes of %s" % name
        line = " | ".join([what, "compile " + name, here])
        yield what, (line, "%s | 0 %s" % (what, printed(made.SerializeToString())))


def main():
    sets = by_protoc()
    rows = rows_of_sets(sets)
    made = {what: (" | ".join([what] + ([spelled(data)] if data else [])), "%s | %s" % (what, told)) for what, data, told in rows}
    assert len(made) == len(rows)
    rewrite("rows_fds", made)
    rewrite("rows_gate", dict(rows_of_texts(sets)))


main()

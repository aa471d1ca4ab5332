"""How rows of crates/rows_bytes declare message types and spell bytes, for runtime_rows.py and list_rows.py."""
from google.protobuf import descriptor_pb2, descriptor_pool, message_factory

LABEL = descriptor_pb2.FieldDescriptorProto


WORDS = {number: name[5:].lower() for name, number in LABEL.Type.items()}


def declared_field(message, field):
    """A field as a row declares it."""
    kind = field.type_name[1:] or WORDS[field.type]
    entries = {".%s.%s" % (message.name, entry.name): entry for entry in message.nested_type}
    label = ""
    if field.type_name in entries:
        key, value = entries[field.type_name].field
        kind = "map<%s,%s>" % (WORDS[key.type], value.type_name[1:] or WORDS[value.type])
    elif field.label == LABEL.LABEL_REPEATED:
        label = "unpacked " if field.options.HasField("packed") else "repeated "
    elif field.proto3_optional:
        label = "optional "
    elif field.HasField("oneof_index"):
        label = "k%d " % field.oneof_index
    return "%s%s %s=%d" % (label, kind, field.name, field.number)


def declared(file):
    """The message type of a file as crates/kit_schemas reads it."""
    message = file.message_type[0]
    fields = sorted(message.field, key=lambda field: field.number)
    return "%s: %s" % (message.name, ", ".join(declared_field(message, field) for field in fields))


def kind_of(file, name):
    """The class of the messages of a type in a file, and the file's declarations."""
    pool = descriptor_pool.DescriptorPool()
    pool.Add(file)
    return message_factory.MessageFactory(pool).GetPrototype(pool.FindMessageTypeByName(name)), declared(file)


def adding(message):
    """What adds a field to a message type."""

    def add(name, number, kind, label=LABEL.LABEL_OPTIONAL, type_name=None):
        field = message.field.add(name=name, number=number, type=kind, label=label)
        if type_name:
            field.type_name = type_name
        return field

    return add


def add_entry(message, name, key, value, type_name=None):
    """Adds the type of a map's entries."""
    entry = message.nested_type.add(name=name)
    entry.options.map_entry = True
    add = adding(entry)
    add("key", 1, key)
    add("value", 2, value, type_name=type_name)


def varint(n):
    out = b""
    while n > 127:
        out += bytes([n % 128 + 128])
        n //= 128
    return out + bytes([n])


def record(number, wire, body):
    head = varint(number * 8 + wire)
    return head + (varint(len(body)) + body if wire == 2 else body)


def spelled(data):
    """How a row spells bytes, and that they are refused."""
    return "refused" if data is None else data.hex() or "-"

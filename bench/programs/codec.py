"""Writes the messages of the codec benchmark, or times python3-protobuf on them.

usage: codec.py write SET FOLDER     the encodings, in FOLDER/TYPE.NAME.bin
       codec.py time SET FILE..      decode and encode of each, least of several turns

SET is the descriptor set of codec.proto.
"""
import os
import random
import sys
import time

from google.protobuf import descriptor_pb2, descriptor_pool, message_factory
from google.protobuf.internal import api_implementation


def types(path):
    """The message classes of the set, by name."""
    files = descriptor_pb2.FileDescriptorSet()
    with open(path, "rb") as stored:
        files.ParseFromString(stored.read())
    pool = descriptor_pool.DescriptorPool()
    for file in files.file:
        pool.Add(file)
    factory = message_factory.MessageFactory(pool)
    return lambda name: factory.GetPrototype(pool.FindMessageTypeByName(name))


def word(chance, length):
    return "".join(chance.choice("abcdefghijklmnop") for _ in range(length))


def fill_child(chance, child, depth):
    child.id = chance.randrange(1, 1 << 20)
    child.name = word(chance, 8)
    child.marks.extend(chance.randrange(-100, 100) for _ in range(6))
    if depth:
        fill_child(chance, child.next, depth - 1)


def scalar(chance, field):
    """A value of the field's type."""
    if field.type in (field.TYPE_STRING, field.TYPE_BYTES):
        text = word(chance, 9)
        return text if field.type == field.TYPE_STRING else text.encode()
    if field.type == field.TYPE_BOOL:
        return True
    if field.type == field.TYPE_ENUM:
        return chance.randrange(1, 3)
    if field.type in (field.TYPE_FLOAT, field.TYPE_DOUBLE):
        return chance.randrange(1, 1000) / 4
    return chance.randrange(1, 1 << chance.randrange(3, 31))


def fill_map(chance, field, content):
    """Two entries."""
    key, value = field.message_type.fields_by_name["key"], field.message_type.fields_by_name["value"]
    for at in range(2):
        name = bool(at) if key.type == key.TYPE_BOOL else scalar(chance, key)
        if value.message_type:
            fill_child(chance, content[name], 0)
        else:
            content[name] = scalar(chance, value)


def fill(chance, message):
    for field in message.DESCRIPTOR.fields:
        content = getattr(message, field.name)
        if field.message_type and field.message_type.GetOptions().map_entry:
            fill_map(chance, field, content)
        elif field.message_type and field.label == field.LABEL_REPEATED:
            fill_child(chance, content.add(), 1)
        elif field.message_type:
            fill_child(chance, content, 1)
        elif field.label == field.LABEL_REPEATED:
            content.extend(scalar(chance, field) for _ in range(6))
        else:
            setattr(message, field.name, scalar(chance, field))
    return message


def messages(kind):
    """The messages by name: a small one, one of fifty fields, lists of these, and packed lists."""
    chance = random.Random(5)
    yield "small", kind("Scalars")(a=-1, b=1 << 40, c=300, d=1 << 63, e=-1, f=6, g=7.5, h=8.5, i="twelve bytes", j=b"8 bytes.")
    mixed = fill(chance, kind("Mixed")())
    yield "mixed", mixed
    size = len(mixed.SerializeToString())
    for name, whole in (("list1", 1_000_000), ("list10", 10_000_000)):
        items = kind("List")()
        for _ in range(whole // size):
            fill(chance, items.items.add())
        yield name, items
    packed = kind("Packed")()
    packed.numbers.extend(chance.randrange(-(1 << chance.randrange(1, 31)), 1 << chance.randrange(1, 31)) for _ in range(750_000))
    packed.words.extend(chance.randrange(1 << 64) for _ in range(625_000))
    yield "packed", packed


def least(work, size):
    """The least time of several turns, in microseconds."""
    times = []
    for _ in range(max(5, min(2000, 2_000_000 // size))):
        begin = time.perf_counter()
        work()
        times.append(time.perf_counter() - begin)
    return min(times) * 1e6


def main():
    kind = types(sys.argv[2])
    if sys.argv[1] == "write":
        for name, message in messages(kind):
            with open(os.path.join(sys.argv[3], f"{message.DESCRIPTOR.name}.{name}.bin"), "wb") as file:
                file.write(message.SerializeToString())
        return
    for path in sys.argv[3:]:
        with open(path, "rb") as file:
            written = file.read()
        made = kind(os.path.basename(path).split(".")[0])
        message = made.FromString(written)
        decode = least(lambda: made.FromString(written), len(written))
        encode = least(message.SerializeToString, len(written))
        core = api_implementation.Type()
        print(f"python3-protobuf ({core}) {os.path.basename(path)}: {len(written)} bytes, decode {decode:.2f} us, encode {encode:.2f} us")


main()

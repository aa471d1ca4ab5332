"""What another program may write of a message: its records in any order, and those of a map's entries too, at every depth. For runtime_rows.py."""

from row_types import record, varint

# By the field's number, of `message W`: the maps, and where an entry of one, or a field, has a message of the same type.
MAPS, MAP_TO_MESSAGES, MESSAGE = (7, 8, 9), 7, 10
VALUE = 2
SIZES = {1: 8, 5: 4}


def number_at(data, at):
    """Returns a varint, and where the next byte is."""
    end = at
    while data[end] >= 128:
        end += 1
    return sum((byte & 127) << 7 * place for place, byte in enumerate(data[at:end + 1])), end + 1


def records_of(data):
    """Yields the number of each record, where its body begins, and its bytes."""
    at = 0
    while at < len(data):
        tag, body = number_at(data, at)
        end = body + SIZES.get(tag & 7, 0)
        if tag & 7 == 0:
            _, end = number_at(data, body)
        if tag & 7 == 2:
            length, body = number_at(data, body)
            end = body + length
        yield tag >> 3, body - at, data[at:end]
        at = end


def inside(r, number, body, record):
    """Returns the record with the message in it in another order."""
    data = record[body:]
    if number == MESSAGE:
        return bytes([8 * number + 2]) + sized(shuffled(r, data))
    if number == MAP_TO_MESSAGES:
        parts = [part if of != VALUE else bytes([8 * of + 2]) + sized(shuffled(r, part[start:])) for of, start, part in records_of(data)]
        return bytes([8 * number + 2]) + sized(b"".join(parts))
    return record


def sized(data):
    return varint(len(data)) + data


def shuffled(r, data):
    """Returns the records of a message of `W` in another order: those of one number follow one another as before, if it isn't a map's."""
    old = [(number, inside(r, number, body, record)) for number, body, record in records_of(data)]
    mixed = r.sample(old, len(old))
    kept = {number: iter([it for it in old if it[0] == number]) for number, _ in old if number not in MAPS}
    return b"".join((next(kept[it[0]]) if it[0] in kept else it)[1] for it in mixed)


def entries_of(data):
    """Yields the entries of each map of a message of `W`, in its order, at every depth, and then of a message inside its records."""
    records = [*records_of(data)]
    for number in MAPS:
        yield [record for of, _, record in records if of == number]
    for number, body, record in records:
        if number == MESSAGE:
            yield from entries_of(record[body:])


def child_of(r, depth):
    """Returns a message of `W` with a number, and perhaps a map to messages."""
    fields = [record(1, 0, varint(r.randrange(1, 300))), record(12, 0, varint(r.randrange(1, 100)))]
    return b"".join(fields) + (maps(r, depth + 1) if depth < 1 else b"")


def maps(r, depth=0):
    """Returns records of `W` with two to four entries of each map, of which one is to messages, and a message of the same type."""
    keys = r.sample(range(1, 300), 4)
    texts = [record(7, 2, record(1, 2, b"k%d" % key) + record(2, 2, child_of(r, depth))) for key in keys[:r.randrange(2, 5)]]
    numbers = [record(9, 2, record(1, 0, varint(key)) + record(2, 1, bytes([key % 256]) * 8)) for key in keys[:r.randrange(2, 5)]]
    bools = [record(8, 2, record(1, 0, varint(key)) + record(2, 2, b"b%d" % key)) for key in (0, 1)]
    inside = [record(10, 2, child_of(r, depth))] if depth < 1 else []
    return b"".join([*texts, *bools, *numbers, *inside])


def inside_of(data):
    """Returns the messages inside a message of `W`, at the first level, by the bytes in front of each: a field's number, or an entry's key."""
    found = {}
    for number, body, whole in records_of(data):
        if number == MESSAGE:
            found[number] = whole[body:]
        if number == MAP_TO_MESSAGES:
            key, *values = [part for _, _, part in records_of(whole[body:])]
            found[key] = b"".join(values)
    return found


def sorted_records(data):
    """Returns the records of a message of `W`, sorted, with those of each message inside sorted likewise."""
    found = []
    for number, body, whole in records_of(data):
        if number == MESSAGE:
            found.append((number, sorted_records(whole[body:])))
        elif number == MAP_TO_MESSAGES:
            parts = [*records_of(whole[body:])]
            found.append((number, [sorted_records(part[start:]) if of == VALUE else [(of, part)] for of, start, part in parts]))
        else:
            found.append((number, whole))
    return sorted(found, key=repr)

"""How tools/fuzz/fuzz.py changes bytes, messages, source files and certificates: each function takes a source of random numbers and what it changes."""
import functools
import re

# What is as long is not made longer.
LONGEST = 20_000

VARINTS = [0, 1, 2, 3, 5, 127, 128, 255, 300, 2**31 - 1, 2**31, 2**32 - 1, 2**32, 2**63, 2**64 - 1]
SCALARS = ("double float int32 int64 uint32 uint64 sint32 sint64 fixed32 fixed64 sfixed32 sfixed64 bool string bytes").split()
NUMBERS = ("0 1 2 3 15 16 2047 2048 18999 19000 19999 20000 536870911 536870912 2147483647 2147483648 -1 -2147483648 07 08 0x10 0xg 1.5 1e3"
           " 18446744073709551615 18446744073709551616").split()
WORDS = ("syntax import public weak package option message enum service rpc returns stream oneof map optional repeated reserved to max"
         " group extend extensions true false inf packed deprecated json_name allow_alias optimize_for java_package M N E k p.q .M .p.M"
         ' "proto3" "proto2" "m.proto" "a" "" "\\x80" "\\q" " \' // /* */ ; = { } ( ) [ ] < > , . - @ # \\ '
         " map<int32,M> map<string,bytes> [packed=true] [packed=false] [deprecated=true]").split() + SCALARS + NUMBERS
TOKEN = re.compile(rb'\w+|"[^"\n]*"|\'[^\'\n]*\'|//[^\n]*|\s+|.', re.S)


def a_slice(random, data):
    """Returns the ends of a slice, most often a short one."""
    begin = random.randrange(len(data) + 1)
    length = random.choice((1, 1, 2, 4, 8, 40, 400))
    return begin, min(len(data), begin + length)


def some_bytes(random):
    return bytes(random.choice((0, 0x0a, 0x12, 0x7f, 0x80, 0xff, random.randrange(256))) for _ in range(random.randrange(1, 6)))


def flip_bit(random, data, _):
    at = random.randrange(len(data))
    return data[:at] + bytes([data[at] ^ 1 << random.randrange(8)]) + data[at + 1:]


def put_bytes(random, data, _):
    begin, end = a_slice(random, data)
    return data[:begin] + some_bytes(random) + data[random.choice((begin, end)):]


def drop_slice(random, data, _):
    begin, end = a_slice(random, data)
    return data[:begin] + data[end:]


def repeat_slice(random, data, _):
    begin, end = a_slice(random, data)
    return data[:end] + data[begin:end] * random.choice((1, 2, 9, 70)) + data[end:]


def cut_off(random, data, _):
    return data[:random.randrange(len(data))]


def join(random, data, other):
    return data[:random.randrange(len(data) + 1)] + other[random.randrange(len(other) + 1):]


BYTE_CHANGES = (flip_bit, flip_bit, put_bytes, put_bytes, drop_slice, repeat_slice, cut_off, join)


def changed_bytes(random, data, other):
    """Returns the bytes changed in one way; `other` is of the same kind."""
    return random.choice(BYTE_CHANGES)(random, data, other)[:LONGEST] if data else some_bytes(random)


def varint(number):
    out = bytearray()
    while number > 127:
        out.append(number & 127 | 128)
        number >>= 7
    return bytes(out) + bytes([number])


def read_varint(data, at):
    """Returns the varint at an offset and where it ends, or nothing."""
    number = 0
    for length in range(min(10, len(data) - at)):
        number |= (data[at + length] & 127) << 7 * length
        if data[at + length] < 128:
            return number, at + length + 1
    return None


def body_end(data, at, wire):
    """Returns where the body of a record begins and ends, or nothing where it ends nowhere."""
    found = read_varint(data, at) if wire in (0, 2) else None
    ends = {0: (at, found and found[1]), 1: (at, at + 8), 2: found and (found[1], found[1] + found[0]), 5: (at, at + 4)}.get(wire)
    return ends if ends and ends[1] and ends[1] <= len(data) else None


@functools.lru_cache(1000)
def tokens_of(text):
    return tuple(TOKEN.findall(text))


def records_of(data):
    """Returns the records of a message as lists of number, wire type and body, or none where the bytes are no records."""
    found, at = [], 0
    while at < len(data):
        tag = read_varint(data, at)
        ends = tag and tag[0] >> 3 and body_end(data, tag[1], tag[0] & 7)
        if not ends:
            return []
        found.append([tag[0] >> 3, tag[0] & 7, data[ends[0]:ends[1]]])
        at = ends[1]
    return found


def bytes_of_records(records):
    return b"".join(varint(number << 3 | wire) + (varint(len(body)) if wire == 2 else b"") + body for number, wire, body in records)


def changed_body(random, wire, body, other):
    """Returns another body of a wire type. The body of a length is most often changed as a message in turn."""
    if wire == 0:
        return varint(random.choice((*VARINTS, random.randrange(2**64)))) + b""
    if wire == 2:
        return changed_message(random, body, other)
    return bytes(random.choice((0, 0x80, 0xff, random.randrange(256))) for _ in body)


def nested(random, data):
    """Returns a message inside as many others."""
    number = random.choice((1, 1, 1, 2, 3, 4))
    for _ in range(random.choice((1, 1, 2, 98, 99, 100, 101, 150))):
        data = varint(number << 3 | 2) + varint(len(data)) + data
    return data


def a_record(random, number):
    wire = random.choice((0, 0, 1, 2, 2, 5, random.randrange(8)))
    body = {0: varint(random.choice(VARINTS)), 1: bytes(8), 5: b"\0\0\x80\x7f"}.get(wire, random.choice((b"", b"a", b"\x80", b"\x08\x01")))
    return [random.choice((number, number, 1, 2, 3, 16, random.randrange(1, 2**29))), wire, body]


def change_records(random, records, other):
    """Changes one record, or moves it."""
    at = random.randrange(len(records))
    record = records[at]
    way = random.randrange(10)
    if way < 4:
        record[2] = changed_body(random, record[1], record[2], other)
    elif way == 4:
        del records[at]
    elif way == 5:
        records.insert(random.randrange(len(records) + 1), list(record))
    elif way == 6:
        records.insert(random.randrange(len(records)), records.pop(at))
    elif way == 7:
        records.insert(at, a_record(random, record[0]))
    elif way == 8:
        record[0] = random.choice((record[0] + 1, max(1, record[0] - 1), *(it[0] for it in records)))
    else:
        records[at] = [record[0], 2, nested(random, record[2])]


def changed_message(random, data, other):
    """Returns a message with one record changed, at some depth, lengths corrected; or with bytes changed."""
    records = records_of(data)
    if not records or random.random() < 0.15:
        return changed_bytes(random, data, other)
    change_records(random, records, other)
    return bytes_of_records(records)[:LONGEST]


def place_of(random, tokens, is_wanted):
    places = [at for at, token in enumerate(tokens) if is_wanted(token)]
    return random.choice(places) if places else None


def change_scalar(random, tokens, _):
    at = place_of(random, tokens, lambda it: it.decode("latin-1") in SCALARS)
    if at is not None:
        tokens[at] = random.choice(SCALARS).encode()


def change_label(random, tokens, _):
    at = place_of(random, tokens, lambda it: it.decode("latin-1") in (*SCALARS, "repeated", "optional"))
    if at is not None:
        label = random.choice((b"repeated ", b"optional ", b""))
        tokens[at] = label if tokens[at] in (b"repeated", b"optional") else label + tokens[at]


def change_number(random, tokens, _):
    at = place_of(random, tokens, bytes.isdigit)
    if at is not None:
        near = int(tokens[at]) + random.choice((-1, 1, 2, 5))
        tokens[at] = random.choice((str(near), str(near), random.choice(NUMBERS))).encode()


def drop_token(random, tokens, _):
    del tokens[random.randrange(len(tokens))]


def move_token(random, tokens, _):
    tokens.insert(random.randrange(len(tokens)), tokens.pop(random.randrange(len(tokens))))


def put_word(random, tokens, other):
    word = random.choice((random.choice(WORDS).encode(), random.choice(other)))
    at = random.randrange(len(tokens))
    tokens[at:at + random.choice((0, 1))] = [b" ", word, b" "]


def a_statement(random, tokens):
    """Returns the ends of the tokens up to a semicolon, after what ends the statement before."""
    end = place_of(random, tokens, lambda it: it == b";")
    if end is None:
        return 0, 0
    begin = end
    while begin and tokens[begin - 1] not in (b";", b"{", b"}"):
        begin -= 1
    return begin, end + 1


def drop_statement(random, tokens, _):
    begin, end = a_statement(random, tokens)
    del tokens[begin:end]


def put_statement(random, tokens, other):
    """Puts a statement of this source file or of another one after a statement."""
    source = random.choice((tokens, other))
    begin, end = a_statement(random, source)
    _, at = a_statement(random, tokens)
    tokens[at:at] = source[begin:end]


TEXT_CHANGES = (change_scalar,) * 6 + (change_label,) * 3 + (change_number,) * 3 + (drop_statement,) * 2 + (put_statement,) * 2 + (
    drop_token, move_token, put_word)


def changed_text(random, data, other):
    """Returns a source file with one of its tokens or statements changed, seldom with bytes changed."""
    tokens = list(tokens_of(data))
    if not tokens or random.random() < 0.06:
        return changed_bytes(random, data, other)
    random.choice(TEXT_CHANGES)(random, tokens, tokens_of(other) or [b";"])
    return b"".join(tokens)[:LONGEST]


def changed_claim(random, word):
    """Returns a bound or a witness changed: to a near number, a lower one or none; or to another message."""
    if re.fullmatch(rb"[1-9]\d{0,9}", word):
        lower = random.randrange(1, int(word) + 1)
        near = random.choice((int(word) - 1, int(word) + 1, lower, lower, 0, 2**31 - 1, 2**31, "none", "0" + word.decode()))
        return str(near).encode()
    if re.fullmatch(rb"(?:[0-9a-f]{2})+", word):
        return changed_message(random, bytes.fromhex(word.decode()), b"\x08\x01").hex().encode()
    return random.choice((b"1", b"2", b"3", b"11", b"2147483647", b"0801", b"none"))


def change_line(random, lines, at):
    """Changes the last word of a line of a certificate, seldom another word."""
    words = lines[at].split(b" ")
    if random.random() < 0.8:
        words[-1] = changed_claim(random, words[-1])
    else:
        others = [it for line in lines for it in line.split()] or [b"M"]
        words[random.randrange(len(words))] = random.choice((b"none", b"", b"x", random.choice(others), random.choice(others)))
    lines[at] = b" ".join(words)


def changed_certificate(random, data, other):
    """Returns a certificate with a line changed, most often one of a bound or the witness; seldom with bytes changed."""
    lines, way = data.split(b"\n"), random.randrange(12)
    claims = [at for at, line in enumerate(lines) if line.startswith((b"pair", b"witness"))]
    at = random.choice(claims) if claims and random.random() < 0.9 else random.randrange(len(lines))
    if way == 0:
        return changed_bytes(random, data, other)
    if way == 1:
        del lines[at]
    elif way == 2:
        lines.insert(random.choice(claims or [0]), lines[at])
    elif way == 3:
        lines.insert(random.choice(claims or [0]), lines.pop(at))
    elif way == 4:
        lines = [b"witness none" if it.startswith(b"witness") else it for it in lines]
    else:
        change_line(random, lines, at)
    return b"\n".join(lines)

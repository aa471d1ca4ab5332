#!/usr/bin/env python3
"""Writes the long rows of crates/rows_gate and crates/rows_answer: chains of messages, cut and forged sets, certificates and messages, deep
nests, and what is wanted of them.

    tools/rows/long_rows.py

A row is in crates/rows_*/stdin, and what the program has to print of it in crates/rows_*/stdout. This script makes the rows
that are too long to write by hand. What is wanted is computed here by the rules of the language, of message bytes and of certificates
(docs/MODEL.md, docs/CERTIFICATES.md, docs/ERRORS.md), never by the program. All other rows stay as they are, before these.
"""
import os
import re

CRATES = os.path.join(os.path.dirname(os.path.dirname(os.path.dirname(os.path.abspath(__file__)))), "crates")

SYNTAX = 'syntax = "proto3";\n'

# The set of `message M { int32 a = 1; }` in m.proto.
SET = bytes.fromhex("0a240a076d2e70726f746f22110a014d120c0a0161180120012805520161620670726f746f33")

TEXTS = "--old m.proto --new m.proto"

ROWS, ANSWERS = {}, {}


NAMES = {9: "\\t", 10: "\\n", 13: "\\r", 34: '\\"', 39: "\\'", 92: "\\\\"}


def escaped(byte):
    return NAMES.get(byte) or (chr(byte) if 32 <= byte < 127 else "\\x%02x" % byte)


def printed(data):
    """The bytes as the programs of rows print them."""
    return "".join(map(escaped, data.encode() if isinstance(data, str) else data))


def spelled(data):
    """The bytes as rows spell them: quotes as they are, and no spaces at the ends or round the marks that end a file or a side."""
    text = re.sub(r"\\(['\"])", r"\1", printed(data))
    return re.sub("^ | $|(?<= )[|;](?= )", lambda found: "\\x%02x" % ord(found[0]), text)


def files(*named):
    """The files of a side: pairs of a path and what is there."""
    return " ; ".join("%s=%s" % (path, spelled(data)) for path, data in named)


def row(what, words, old, new, status, text):
    """A row, with what the program prints."""
    assert what not in ROWS, what
    line = " | ".join([what, words] + ([old, new] if new else [old] if old else []))
    assert line == line.strip() and "\n" not in line, what
    ROWS[what] = line, "%s | %d %s" % (what, status, printed(text))


def message(fields):
    return SYNTAX + "message M { %s }\n" % fields


def lines(*rest):
    return SYNTAX + "".join(line + "\n" for line in rest)


def place(text, at, path):
    front = text[:at]
    return "%s:%d:%d" % (path, front.count("\n") + 1, at - (front.rfind("\n") + 1) + 1)


def field(text, name, number, path):
    """The full name and the position of the field of that number in the message of that full name."""
    start = text.index("message %s {" % name.rpartition(".")[2])
    found = re.compile(r"(\w+) = %d\b" % number).search(text, start)
    return "%s.%s %s" % (name, found[1], place(text, found.start(), path))


def step(number, old, new):
    return "step %d %s %s\n" % (number, field(*old), field(*new))


FIRST, SECOND = "protogate-certificate 1\n", "protogate-certificate 2\nview numbers\n"


def certificate(root, pairs, witness="none", heading=SECOND):
    """A certificate between types of the same names."""
    table = "".join("pair %s %s %s\n" % (name, name, bound) for name, bound in pairs)
    return "%sroot %s %s\n%switness %s\nend\n" % (heading, root, root, table, witness)


def varint(number):
    out = bytearray()
    while number > 127:
        out.append(number & 127 | 128)
        number >>= 7
    return bytes(out) + bytes([number])


def inside(body):
    """The body as the field 1 of a message."""
    return b"\x0a" + varint(len(body)) + body


def chain(scalar, last):
    """Messages C0 to Clast: C0 has a number, each other one has the one before."""
    holders = ("message C%d { C%d n = 1; }" % (at, at - 1) for at in range(1, last + 1))
    return lines("message C0 { %s a = 1; }" % scalar, *holders)


def chain_readings(last, witness):
    """How both sides read the witness of such a chain: as 2^31 and as -2^31, or neither where the number is deeper than 100 levels."""
    if last >= 100:
        # The fault is at the innermost message's record, of eight bytes.
        refused = "refused E608 at %d\n" % (len(witness) - 8)
        return "old\n%snew\n%s" % (refused, refused)
    again = b"\x08" + varint(2**64 - 2**31)
    for _ in range(last):
        again = inside(again)
    opened = "".join("  " * depth + "1 n msg\n" for depth in range(last))
    old, new = (opened + "  " * last + "1 a int %d\nagain %s\n" % (it, written.hex()) for it, written in ((2**31, witness), (-(2**31), again)))
    return "old\n%snew\n%s" % (old, new)


def chain_rows(last):
    """A number past the sign bit at the end of a chain."""
    old, new, root = chain("uint32", last), chain("int32", last), "C%d" % last
    witness, bounds = bytes.fromhex("088080808008"), [6]
    for _ in range(last):
        witness = inside(witness)
        bounds.append(len(witness))
    pairs = [("C%d" % at, bounds[at]) for at in range(last, -1, -1)]
    steps = "".join(step(1, (old, name, 1, "m.proto"), (new, name, 1, "m.proto")) for name, _ in pairs)
    breaks = "breaks %s %d\n" % (root, len(witness))
    written = certificate(root, pairs, witness.hex())
    sides = files(("m.proto", old)), files(("m.proto", new))
    what = "a chain of %d messages" % (last + 1)
    row(what, "gate %s --type %s" % (TEXTS, root), *sides, 1, breaks + "witness %s\n" % witness.hex() + steps)
    row(what + ", its table", "gate %s --type %s --cert" % (TEXTS, root), *sides, 1, written)
    row(what + ", explained", "gate %s --type %s --explain" % (TEXTS, root), *sides, 1,
        breaks + "witness %s\n" % witness.hex() + steps + chain_readings(last, witness))
    row(what + ", its table checked", "verify %s c" % TEXTS, files(("m.proto", old), ("c", written)), sides[1], 1, breaks)


def deep_chain_rows():
    """The same at the end of a chain of as many types as a schema may have: its witness is far deeper than most readers go."""
    witness, bounds, last = bytes.fromhex("088080808008"), [6], 4095
    for _ in range(last):
        witness = inside(witness)
        bounds.insert(0, len(witness))
    sides = ["M: <<1 %d M# n=1; M#: >>%s a=1" % (last + 1, scalar) for scalar in ("uint32", "int32")]
    table = ", ".join("%d %d %d" % (at, at, bound) for at, bound in enumerate(bounds))
    claim = ["check", *sides, "0 0", table]
    what = "a chain of %d types, its " % (last + 1)
    for name, words, wanted in (("bounds alone", claim, "at least %d" % len(witness)), ("witness", [*claim, witness.hex()], "breaks")):
        ANSWERS[what + name] = " | ".join([what + name, *words]), "%s%s | %s" % (what, name, wanted)


def answer_row(what, call, *words, wanted):
    ANSWERS[what] = " | ".join([what, call, *words]), "%s | %s" % (what, wanted)


def chain_calls(last):
    """A number past the sign bit at the end of a chain of types, by the calls: what is found, and what the checker says of its certificate."""
    sides = ["C%d: <<%d 0 C# n=1; C#: >>C0 n=1; C0: %s a=1" % (last, last - 1, scalar) for scalar in ("uint32", "int32")]
    witness, bounds = bytes.fromhex("088080808008"), [6]
    for _ in range(last):
        witness = inside(witness)
        bounds.insert(0, len(witness))
    table = ", ".join("%d %d %d" % (at, at, bound) for at, bound in enumerate(bounds))
    found = "0 0 | %s | %s of 0 | at least %d" % (table, witness.hex(), len(witness))
    what = "a chain of %d types, " % (last + 1)
    answer_row(what + "what is found", "search", *sides, "0 0", wanted=found)
    text = certificate("C%d" % last, [("C%d" % (last - at), bound) for at, bound in enumerate(bounds)], witness.hex())
    answer_row(what + "its text", "text", *sides, printed(text), wanted="breaks | " + printed(text))


def forged_calls():
    """The checker's answer on certificates of other sides, on a bound alone, and on a witness that is longer than a writer writes it."""
    circle = "N: N next=1, repeated N kids=2"
    flags = circle + ", bool x=3", circle + ", sint32 x=3"
    answer_row("a table of two sides that are alike, where a field has changed", "check", *flags, "0 0", "0 0 none",
               wanted="bound too high 0 0 at 3 2")
    answer_row("a bound of one byte, where a field has changed", "check", *flags, "0 0", "0 0 1", wanted="at least 1")
    answer_row("a witness with a varint of two bytes for one", "check", "M: int32 a=1", "M: bool a=1", "0 0", "0 0 2", "088200",
               wanted="witness not written")


def cut_set_rows():
    """A set that is cut off is none; no bytes at all are a set without files."""
    words, whole = "gate --old m.pb --new m.pb --type M", files(("m.pb", SET))
    row("a set without bytes", words, "m.pb=", whole, 2, "refused E901\n")
    row("a new set without bytes", words, whole, "m.pb=", 2, "refused E902\n")
    for length in range(1, len(SET)):
        what = "set cut off behind byte %d" % length
        cut = files(("m.pb", SET[:length]))
        row("a " + what, words, cut, whole, 2, "refused old E502 at 0\n")
        row("a new " + what, words, whole, cut, 2, "refused new E502 at 0\n")


def cut_certificate_rows():
    """A certificate that is cut off is none, in either version."""
    old, new = message("int32 a = 1;"), files(("m.proto", message("uint32 a = 1;")))
    for what, heading in ("a certificate", FIRST), ("a certificate of version 2", SECOND):
        whole = certificate("M", [("M", 11)], "08ffffffffffffffffff01", heading)
        for length in range(len(whole)):
            sides = files(("m.proto", old), ("c", whole[:length])), new
            row("%s cut off behind byte %d" % (what, length), "verify %s c" % TEXTS, *sides, 2, "refused E801\n")


def forged_certificate_row(what, sides, lines, refused):
    """A certificate of these lines, wrong in more than one way, between two sides: the first fault is printed."""
    text = "protogate-certificate 1\n" + "".join(line + "\n" for line in lines) + "end\n"
    old, new = files(("m.proto", sides[0]), ("c", text)), files(("m.proto", sides[1]))
    row("forged: " + what, "verify %s c" % TEXTS, old, new, 2, "refused %s\n" % refused)


def forged_rows_of_one_pair():
    """The bound of the root is asked first, then whether a writer writes the witness, then its length, then whether it is kept."""
    same = (message("int32 a = 1;"),) * 2
    signed = message("int32 a = 1;"), message("uint32 a = 1;")
    broken, kept, not_written = "witness 08ffffffffffffffffff01", "witness 0801", "witness 080008ffffffffffffffffff01"
    for what, sides, pair, witness, refused in (
        ("a bound too high, and a witness that no writer writes", signed, "pair M M 12", not_written, "E804 M M 1 2"),
        ("a bound too high, and a witness that is kept", signed, "pair M M 12", kept, "E804 M M 1 2"),
        ("no bound, and a witness that breaks", signed, "pair M M none", broken, "E804 M M 1 2"),
        ("a witness of another length, and kept", signed, "pair M M 11", kept, "E806"),
        ("no bound, and a witness that no writer writes", same, "pair M M none", "witness 0800", "E805"),
        ("no bound, and a witness that is kept", same, "pair M M none", kept, "E806"),
    ):
        forged_certificate_row(what, sides, ["root M M", pair, witness], refused)


def forged_rows_of_two_pairs():
    """The root is asked first, then pair by pair: first its children, then its bound. Pairs that the root doesn't lead to are asked too."""
    rest = ("message K { }", "message N { N next = 1; M m = 2; K k = 3; }")
    sides = tuple(lines("message M { %s a = 1; }" % it, *rest) for it in ("uint32", "int32"))
    for what, root, pairs, refused in (
        ("no root, and a pair that is missing", "K K", ["N N 8"], "E802"),
        ("no root, and a bound too high", "N N", ["M M 7"], "E802"),
        ("a pair that is missing, and a bound too high", "N N", ["N N 9", "M M 6"], "E803 K K"),
        ("a bound too high before a pair that lacks one", "N N", ["M M 7", "N N 8"], "E804 M M 1 2"),
        ("a bound too high behind a pair that lacks one", "N N", ["N N 8", "M M 7"], "E803 K K"),
        ("of two pairs that are missing the lower field's", "N N", ["N N 8"], "E803 M M"),
        ("a bound too high of a pair that isn't reached", "M M", ["M M 6", "K K none", "N N 9"], "E804 N N 2 3"),
        ("a pair that isn't reached and lacks one", "M M", ["M M 6", "N N 8"], "E803 K K"),
    ):
        forged_certificate_row(what, sides, ["root " + root, *("pair " + it for it in pairs), "witness none"], refused)


def cut_message_rows():
    """Two records of one message, cut off; and lengths of a message inside that end within its records."""
    words, text = "show --file m.proto --type M ", files(("m.proto", message("M m = 1; int32 a = 2;")))
    for what, word, status, printed_text in (
        ("two records cut off behind byte 0", "-", 0, "again -\n"),
        ("two records cut off behind byte 1", "0a", 2, "refused E502 at 0\n"),
        ("two records cut off behind byte 2", "0a02", 2, "refused E502 at 0\n"),
        ("two records cut off behind byte 3", "0a0210", 2, "refused E502 at 0\n"),
        ("two records cut off behind byte 4", "0a021005", 0, "1 m msg\n  2 a int 5\nagain 0a021005\n"),
        ("two records cut off behind byte 5", "0a0210050a", 2, "refused E502 at 4\n"),
        ("forged: a length one too high", "0a0310050a00", 2, "refused E502 at 4\n"),
        ("forged: a length one too low", "0a0110050a00", 2, "refused E502 at 2\n"),
        ("forged: a group inside", "0a010b", 2, "refused E504 at 2\n"),
        ("forged: a tag of the field 0 inside", "0a0103", 2, "refused E503 at 2\n"),
        ("forged: a length past all bytes, written long", "0affffffffffffffffff01", 2, "refused E502 at 0\n"),
    ):
        row(what, words + word, text, "", status, printed_text)


def nested_rows():
    """Messages in messages, as deep as they are read, and one deeper."""
    words, text = "show --file m.proto --type M ", files(("m.proto", message("M m = 1;")))
    deep = b""
    for _ in range(99):
        deep = inside(deep)
    shown = "".join("  " * depth + "1 m msg\n" for depth in range(99))
    row("99 messages in one another", words + deep.hex(), text, "", 0, shown + "again %s\n" % deep.hex())
    deeper = inside(deep)
    # The fault is at the innermost record, of two bytes.
    refused = "refused E608 at %d\n" % (len(deeper) - 2)
    row("100 messages in one another", words + deeper.hex(), text, "", 2, refused)


def many_types(count):
    return message("int32 a = 1;") + "".join("message M%d { }\n" % at for at in range(2, count + 1))


def many_types_rows():
    words, one = "gate %s --type M" % TEXTS, files(("m.proto", message("int32 a = 1;")))
    row("4096 message types", words, files(("m.proto", many_types(4096))), one, 0, "compatible M\n")
    # The last type is refused: each but the first has a line of its own, after two lines.
    refused = "refused old E413 m.proto:4098:9\n"
    row("4097 message types", words, files(("m.proto", many_types(4097))), one, 2, refused)


def deep_block_rows():
    words, begin = "gate %s --type M" % TEXTS, "message M { "
    deep = files(("m.proto", lines(begin * 64 + "} " * 64)))
    row("64 message blocks in one another", words, deep, deep, 0, "compatible M\n")
    deeper = files(("m.proto", lines(begin * 65 + "} " * 65)))
    refused = "refused old E207 m.proto:2:%d\n" % (64 * len(begin) + 1)
    row("65 message blocks in one another", words, deeper, files(("m.proto", message("int32 a = 1;"))), 2, refused)


# Each statement of a file but a service, with one space between two tokens of a line.
STATEMENTS = """syntax = "proto3" ;
import "b.proto" ;
import public "c" ".proto" ;
package p . q ;
option java_package = "x" "y" ;
;
message M {
option deprecated = true ;
int32 a = 1 ;
repeated p . q . E b = 2 [ packed = false , deprecated = true ] ;
optional . p . q . M c = 3 ;
map < int32 , E > d = 4 [ deprecated = false ] ;
oneof k { int32 e = 5 ; . p . M f = 6 [ json_name = "g" ] ; ; }
message N { ; }
enum F { G = 0 ; }
reserved 7 , 8 to 9 , 1000 to max ;
reserved "x" , "y" "z" ;
}
enum E {
option allow_alias = true ;
H = 0 ;
I = - 1 [ deprecated = true ] ;
reserved - 5 to - 3 , 7 , 9 to max ;
reserved "J" ;
}
"""


def closing_rows():
    """A closing parenthesis before any token after the first statement, or at the end, is unexpected."""
    first = STATEMENTS.index("\n") + 1
    places = [found.start() for found in re.finditer(r"\S+", STATEMENTS) if found.start() >= first] + [len(STATEMENTS)]
    words, one = "gate %s --type M" % TEXTS, files(("m.proto", message("int32 a = 1;")))
    for at, offset in enumerate(places, 1):
        text = STATEMENTS[:offset] + ") " + STATEMENTS[offset:]
        refused = "refused old E202 %s\n" % place(text, offset, "m.proto")
        row("a closing parenthesis at place %d" % at, words, files(("m.proto", text)), one, 2, refused)


def rewrite(folder, rows):
    """Writes the rows into stdin and stdout of that crate, after the other rows."""
    for name, at in (("stdin", 0), ("stdout", 1)):
        path = os.path.join(CRATES, folder, name)
        with open(path) as file:
            kept = [line for line in file.read().splitlines() if line.partition(" | ")[0] not in rows]
        with open(path, "w") as file:
            file.write("".join(line + "\n" for line in kept + [made[at] for made in rows.values()]))


def main():
    chain_rows(62)
    chain_rows(100)
    nested_rows()
    many_types_rows()
    deep_block_rows()
    cut_set_rows()
    cut_certificate_rows()
    cut_message_rows()
    forged_rows_of_one_pair()
    forged_rows_of_two_pairs()
    closing_rows()
    rewrite("rows_gate", ROWS)
    chain_calls(100)
    forged_calls()
    deep_chain_rows()
    rewrite("rows_answer", ANSWERS)


if __name__ == "__main__":
    main()

#!/usr/bin/env python3
"""Runs the built program with each request for memory refused in turn: the 1st, the 2nd and so on, until a run meets none.

    tools/rows/try_program_memory.py [--jobs N] [PROGRAM]

Each run either prints `refused E001` and ends with 3, or prints its answer and ends with its status. The calls are one of each
subcommand, `gate` in both directions over a number of another sign inside a message, a oneof and a map, `gate-all` over the same, and `verify` of a certificate
that holds and of two that don't. Their answers are here; they follow from the rules of docs/MODEL.md and docs/CERTIFICATES.md.

A line is printed for each call: how many requests were refused, how often the program said so, how often it gave its answer all the
same, and how many runs did neither, which are printed. The last line has the sums, and the processor seconds; the status is 1 where a
run did neither, where no refusal of a call was reported, or where there were too many requests (refused_memory.py). It needs cc, for the library
that refuses (tools/rows/refuse_memory.c).
"""
import collections
import os
import sys
import tempfile
import time

sys.dont_write_bytecode = True
sys.path.append(f"{os.path.dirname(os.path.realpath(__file__))}/../fuzz")
from refused_memory import ask_for_stack, build_library, line_of, options_of, runs_of, sums_of  # noqa: E402
from workers import called  # noqa: E402

# The file `c` is a certificate or a list of files.
Call = collections.namedtuple("Call", "what words old new c status said")


def message(fields):
    return f'syntax = "proto3";\nmessage M {{ {fields} }}\n'


def nested(fields):
    return message(fields) + "message N { N next = 1; M m = 2; }\n"


def certificate(bound, witness):
    return f"protogate-certificate 1\nroot M M\npair M M {bound}\nwitness {witness}\nend\n"


def step(number, field, old, new):
    """Returns the line of a step through the file m.proto of both sides: lines and columns as `LINE:COLUMN`."""
    return f"step {number} {field} m.proto:{old} {field} m.proto:{new}\n"


ONE, MINUS_ONE = message("int32 a = 1;"), "08ffffffffffffffffff01"
SET = "0a240a076d2e70726f746f22110a014d120c0a0161180120012805520161620670726f746f33"
SIDES = "--old-dir old --new-dir new --old m.proto --new m.proto"
BOTH = f"gate {SIDES} --both --type "
SIGNED_INSIDE = (
    "forward\nbreaks N 8\nwitness 1206088080808008\n" + step(2, "N.m", "3:27", "3:27") + step(1, "M.a", "2:20", "2:19")
    + f"backward\nbreaks N 13\nwitness 120b{MINUS_ONE}\n" + step(2, "N.m", "3:27", "3:27") + step(1, "M.a", "2:19", "2:20"))
ONEOF = (
    "forward\nbreaks M 4\nwitness 08011001\n" + step(1, "M.a", "2:19", "2:29") + step(2, "M.b", "2:32", "2:42")
    + "backward\ncompatible M\n")
MAP = (
    "forward\nbreaks M 10\nwitness 0a080880808080081200\n" + step(1, "M.a", "2:33", "2:32")
    + f"backward\nbreaks M 15\nwitness 0a0d{MINUS_ONE}1200\n" + step(1, "M.a", "2:32", "2:33"))

# As `gate-all` names the causes of the same changes, and what only one side has.
ALL = f"gate-all {SIDES}"
ALL_INSIDE = "cause value 6 088080808008 1 M.a m.proto:2:20 M.a m.proto:2:19\nbreaks M 6\nbreaks N 8\n"
ALL_ONEOF = (
    "cause oneof 4 08011001 1 M.a m.proto:2:19 M.a m.proto:2:29 M.b m.proto:2:32 M.b m.proto:2:42\n"
    "old\n1 a int 1\n2 b int 1\nagain 08011001\nnew\n2 b int 1\nagain 1001\nbreaks M 4\nremoved X\nadded Y\n")
ALL_JSON = (
    '{"kind":"cause","why":"oneof","length":4,"message":"08011001","number":1,'
    '"old":{"name":"M.a","file":"m.proto","line":2,"column":19},"new":{"name":"M.a","file":"m.proto","line":2,"column":29},"others":[{"number":2,'
    '"old":{"name":"M.b","file":"m.proto","line":2,"column":32},"new":{"name":"M.b","file":"m.proto","line":2,"column":42}}]}\n'
    '{"kind":"reading","side":"old","text":"1 a int 1\\n2 b int 1\\nagain 08011001\\n"}\n'
    '{"kind":"reading","side":"new","text":"2 b int 1\\nagain 1001\\n"}\n{"kind":"breaks","type":"M","length":4}\n')
# Of each kind of note one, in a nested enum and in a service, too.
NOTED_OLD = message("int32 a = 1; int32 b = 2; optional int32 c = 3; int32 d = 4; enum E { Z = 0; A = 1; B = 2; }") + (
    "service S { rpc Get(M) returns (M); rpc Put(M) returns (M); }\nservice T { rpc Run(M) returns (M); }\n")
NOTED_NEW = message("int32 b = 1; int32 c = 3; repeated int32 d = 4; enum E { Z = 0; C = 1; }") + "service S { rpc Put(stream M) returns (M); }\n"
ALL_NOTED = (
    "compatible M\n"
    "note field-renamed 1 M.a m.proto:2:19 M.b m.proto:2:19 -\n"
    "note field-moved 2 M.b m.proto:2:32 M.b m.proto:2:19 1\n"
    "note number-unreserved 2 M.b m.proto:2:32 - -\n"
    "note presence-dropped 3 M.c m.proto:2:54 M.c m.proto:2:32\n"
    "note number-to-list 4 M.d m.proto:2:67 M.d m.proto:2:54\n"
    "note value-renamed 1 M.E.A m.proto:2:90 M.E.C m.proto:2:77\n"
    "note value-gone 2 M.E.B m.proto:2:97 - -\n"
    "note method-gone - S.Get m.proto:3:17 - -\n"
    "note method-changed - S.Put m.proto:3:41 S.Put m.proto:3:17\n"
    "note service-gone - T.Run m.proto:4:17 - -\n")
ALL_MAP = "cause map-key 10 0a080880808080081200 1 M.a m.proto:2:33 M.a m.proto:2:32\nbreaks M 10\n"

UNSIGNED = message("uint32 a = 1;")
CALLS = [
    Call("compile", "compile --dir old m.proto", ONE, "", "", 0, bytes.fromhex(SET)),
    Call("gate, a sign inside a message", BOTH + "N", nested("uint32 a = 1;"), nested("int32 a = 1;"), "", 1, SIGNED_INSIDE),
    Call("gate, a oneof", BOTH + "M", message("int32 a = 1; int32 b = 2;"), message("oneof k { int32 a = 1; int32 b = 2; }"), "", 1, ONEOF),
    Call("gate, a map", BOTH + "M", message("map<uint32, string> a = 1;"), message("map<int32, string> a = 1;"), "", 1, MAP),
    Call("gate, explained", f"gate {SIDES} --explain --type M", message("bytes a = 1;"), message("string a = 1;"), "", 1,
         "breaks M 3\nwitness 0a0180\n" + step(1, "M.a", "2:19", "2:20") + "old\n1 a bytes 80\nagain 0a0180\nnew\nrefused E604 at 0\n"),
    Call("gate-all, a sign inside a message", ALL, nested("uint32 a = 1;"), nested("int32 a = 1;"), "", 1, ALL_INSIDE),
    Call("gate-all, a oneof, explained", f"{ALL} --explain", message("int32 a = 1; int32 b = 2;") + "message X { }",
         message("oneof k { int32 a = 1; int32 b = 2; }") + "message Y { }", "", 2, ALL_ONEOF),
    Call("gate-all, as JSON", f"{ALL} --json --explain", message("int32 a = 1; int32 b = 2;"), message("oneof k { int32 a = 1; int32 b = 2; }"), "", 1,
         ALL_JSON),
    Call("gate-all, a map", f"{ALL} --view names", message("map<uint32, string> a = 1;"), message("map<int32, string> a = 1;"), "", 1, ALL_MAP),
    Call("gate-all, noted", f"{ALL} --notes", NOTED_OLD, NOTED_NEW, "", 0, ALL_NOTED),
    Call("gate-all, lists", "gate-all --old-dir old --new-dir new --old-files-from c --new m.proto --new-files-from c", ONE, UNSIGNED, "\nm.proto\r\n", 1,
         f"cause value 11 {MINUS_ONE} 1 M.a m.proto:2:19 M.a m.proto:2:20\nbreaks M 11\n"),
    Call("gate-all, a list that names no file", f"{ALL} --new-files-from c", ONE, ONE, "\n", 4, "refused new E907 c\n"),
    Call("gate-all, no file", "gate-all", "", "", "", 4, "refused old E907\n"),
    Call("verify, it holds", f"verify {SIDES} c", ONE, UNSIGNED, certificate(11, MINUS_ONE), 1, "breaks M 11\n"),
    Call("verify, a bound too high", f"verify {SIDES} c", ONE, UNSIGNED, certificate(12, MINUS_ONE), 2, "refused E804 M M 1 2\n"),
    Call("verify, a bound too high, as JSON", f"verify {SIDES} c --json", ONE, UNSIGNED, certificate(12, MINUS_ONE), 2,
         '{"kind":"refused","side":null,"code":"E804","file":null,"line":null,"column":null,"byte":null,"old":"M","new":"M","number":1,"case":2,'
         '"says":"The bound is too high: a shorter message breaks at field NUMBER by case CASE."}\n'),
    Call("verify, a witness not written", f"verify {SIDES} c", ONE, UNSIGNED, certificate(11, "0800" + MINUS_ONE), 2, "refused E805\n"),
    Call("show", "show --dir old --file m.proto --type M 0A0210050A00", message("M m = 1; int32 a = 2;"), "", "", 0,
         "1 m msg\n  2 a int 5\nagain 0a021005\n"),
    Call("types", "types --dir old m.proto", message("message N { }"), "", "", 0, "M\nM.N\n"),
    Call("types, a list", "types --dir old --files-from c", message("message N { }"), "", "m.proto", 0, "M\nM.N\n"),
    Call("types, a list that isn't UTF-8", "types --dir old --files-from c m.proto", ONE, "", "m.proto\n\udcff", 2, "refused E906 c:2:1\n"),
]


def write(path, text):
    os.makedirs(os.path.dirname(path), exist_ok=True)
    with open(path, "w", encoding="utf-8", errors="surrogateescape", newline="") as file:
        file.write(text)


def kind_of(call, status, said, turn):
    """Returns what a run did: it answered, it reported that memory was refused, or it was wrong."""
    answer = call.said if isinstance(call.said, bytes) else call.said.encode()
    if (status, said) == (call.status, answer):
        return "answered"
    return "told" if turn and (status, said) == (3, b"refused E001\n") else "wrong"


def put_files(call, folder):
    for path, text in (("old/m.proto", call.old), ("new/m.proto", call.new), ("./c", call.c)):
        write(os.path.join(folder, path), text)


def try_call(program, library, call):
    """Refuses each request of a call in turn, prints what came of it, and returns the counts of what came of it."""
    counts, lines = collections.Counter(), []
    with tempfile.TemporaryDirectory(prefix="protogate-memory-") as folder:
        put_files(call, folder)
        for turn, status, said, faults in runs_of(library, [program, *call.words.split()], folder):
            kind = kind_of(call, status, said, turn)
            counts["refused"] += turn > 0
            counts[kind] += turn > 0 or kind == "wrong"
            if kind == "wrong":
                lines.append(f"{call.what}, request {turn}: status {status}, {said[:200]!r}, {faults[:200]!r}")
    print("\n".join([*lines, f"{call.what}: " + line_of(counts)]), flush=True)
    return counts


def main():
    options, begun = options_of(__doc__), time.time()
    ask_for_stack()
    with tempfile.TemporaryDirectory(prefix="protogate-memory-") as room:
        library = build_library(room)
        found = called(try_call, [(options.program, library, call) for call in CALLS], options.jobs)
    said, is_well = sums_of(sum(found, collections.Counter()), begun)
    print(f"{len(CALLS)} calls: {said}")
    return 0 if is_well and all(it["told"] for it in found) else 1


if __name__ == "__main__":
    sys.exit(main())

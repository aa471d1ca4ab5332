#!/usr/bin/env python3
"""Runs the libraries' calls with each of their own requests for memory refused in turn: the 1st, the 2nd and so on, until a run meets none.

    tools/rows/try_call_memory.py [--jobs N] [CALL..]

A call is made by a line of a program of rows (crates/rows_*), which `rt ci` built, or by a test (crates/tests_*). It prints `ready` before
the line is answered and `done` after it, and only what is requested between the two is refused: what the call asks for, and the line's own
words and answer. Where the answer is that memory is lacking, `Memory` is printed, and the line is answered again over the same schemas. A
call that gives back what it was given, or changes what it was lent, is made alone between the two, and again with what came back. Then the
answer is printed, which has to be the row's (crates/rows_*/stdout).

So each run either says `Memory`, once and between the two lines, and then gives the answer; or it gives the answer all the same. Of a
call that hands back what it was given, or leaves what it was lent, that line also says what came back, which stands here.

The calls are all those of docs/GUARANTEES.md that may run out of memory: one that is tried by no line fails, but for those of NOT_TRIED.
A line is printed for each call: how many requests were refused, how often that was reported, how often the answer came all the same,
and how many runs did neither, which are printed. The last line has the sums, and the processor seconds that all took. The status is 1
where a run did neither, where no request of a row was reported, where a call is missing, or where there were more requests than five
minutes of a processor allow (refused_memory.py). Wants cc, for the library that refuses (tools/rows/refuse_memory.c).
"""
import argparse
import collections
import os
import re
import subprocess
import sys
import tempfile
import time

sys.dont_write_bytecode = True
sys.path.append(f"{os.path.dirname(os.path.realpath(__file__))}/../fuzz")
from refused_memory import ROOT, ask_for_stack, build_library, line_of, runs_of, sums_of  # noqa: E402
from workers import called  # noqa: E402

CRATES = os.path.join(ROOT, "crates")
# What a test prints last that passes.
PASSED = b"\ntest result: ok\n"
# So many wrong runs of a row or a test are printed.
MOST_PRINTED = 5
# Calls that ask for no memory of their own: the buffers of a sink are those of whoever writes it. What `put` and `of_sound` make is tried
# by the calls that they serve (`carry`; `build`): they ask for a proof of what they are handed, which no row has.
NOT_TRIED = {"read_varint", "Records::next", "Certificate::new", "Sink::write", "write_all", "Message::put", "Schema::of_sound",
             "Sources::read"}

# Calls with blanks between, the crate with rows that make them, the rows' names, and the words before their input. What comes after `Memory`
# of each row is what came back, and what was lent as it is then.
Rows = collections.namedtuple("Rows", "calls crate rows words lent", defaults=["", ()])
# Calls, the crate, the line that makes them, its answer, and what comes after `Memory`.
Line = collections.namedtuple("Line", "calls crate line answer lent", defaults=[()])
# Calls, the crate with their tests, and these tests' names.
Tests = collections.namedtuple("Tests", "calls crate rows")


def record(number, value):
    """A field's record: of a whole number from 0 to 127, or of less than 128 bytes."""
    return bytes([8 * number, value]) if isinstance(value, int) else bytes([8 * number + 2, len(value)]) + value


def back(content, *records):
    """What comes back of `set`, and the message, of these records, as it is then (docs/GUARANTEES.md)."""
    return "%s %s" % (content, b"".join(records).hex() or "-")


# The fields of a message, of which the second is a member of a oneof with the third.
MEMBERS = ((1, 1), (2, 7), (4, 1), (5, 1), (6, 1), (7, 1))
ONEOF = "a oneof among others | type M: int32 a=1, k0 int32 b=2, k0 int32 c=3, int32 d=4, int32 e=5, int32 f=6, int32 g=7"
TWO = "M: uint32 a=1; N: N next=1, M m=2 | M: int32 a=1; N: N next=1, M m=2"
# A field of each kind of change, in a type that another has; a type that is removed, and one that is added.
REPOSITORY = ("T: uint32 a=1, repeated string b=2, int32 c=3, int32 d=4, map<uint32,string> e=5; U: T t=1; V: int32 x=1 |"
              " T: int32 a=1, string b=2, string c=3, bool d=4, map<int32,string> e=5; U: T t=1; W: int32 x=1")
# Ten fields that come into one oneof.
JOINED = " | ".join("M: " + ", ".join(f"{of}int32 f{it}={it}" for it in range(1, 11)) for of in ("", "k0 "))
# A message of texts, lists and a child that no change touches.
KEPT = "M0: repeated string f1=1, string f2=2, M0 f3=3 | M0: repeated bytes f1=1, M0 f3=3 | 0 0 | 0 | 0a01611201621a03120163"
# The message types that are written of descriptor.proto, in its order.
DESCRIPTOR = ("FileDescriptorSet FileDescriptorProto DescriptorProto DescriptorProto.ReservedRange FieldDescriptorProto OneofDescriptorProto"
              " EnumDescriptorProto EnumDescriptorProto.EnumReservedRange EnumValueDescriptorProto ServiceDescriptorProto"
              " MethodDescriptorProto FileOptions MessageOptions FieldOptions EnumOptions EnumValueOptions ServiceOptions"
              " MethodOptions").split()
# Of one field, and of all else that a set may hold, over one file and several.
SETS = ["protoc's set of %s.proto" % name for name in ("m", "maps", "oneofs", "enums", "services", "d")]

CALLS = [
    Rows("lex", "rows_text", ["the escapes of control characters", "a character over two literals", "a float on the second line"]),
    Rows("parse", "rows_text", ["each part of a message, one token a word"]),
    Rows("tree::Text::joined", "rows_text", ["an import's path of three literals"]),
    Rows("link", "rows_text", ["a file that two files import", "a circle of three files", "two messages of one name"]),
    Rows("link", "rows_text", ["an import of an import", "a missing import", "one path twice in a file"]),
    Rows("link", "rows_text", ["a message with the name of a field", "a name that only a field bears", "the full name of a value"]),
    Rows("link", "rows_text", ["uses of types in fields, maps and rpcs", "the first part of a dotted name decides", "a service as a type"]),
    Line("link_below", "rows_text", "links | d/a.proto=~import \"b.proto\"; ; d/b.proto=~ ; a.proto=a | below d | from a.proto",
         "b.proto ; a.proto"),
    Rows("read_file", "rows_text", ["a file read below a folder"]),
    Rows("place_in", "rows_text", ["the place of byte 3 of a file"]),
    Rows("Linked::resolve", "rows_text", ["a name in the scope of its own message"]),
    Rows("build", "rows_text", ["the message types of two files", "the services of two files"]),
    Rows("build", "rows_text", ["a number given twice", "a number in two reserved items"]),
    Rows("admit", "rows_text", ["parts: two fields", "parts: an enum of two values", "parts: a reserved number"]),
    Rows("default_json_name", "rows_text", ["the default JSON name of foo_bar, as protoc makes it"]),
    Line("entry_name", "rows_text", "parts | entry_name | foo_bar", "FooBarEntry"),
    Line("full_name", "rows_text", "parts | full_name | p.M inner", "p.M.inner"),
    # The parts come back, with both types.
    Rows("Schema::from_parts", "rows_text", ["parts: two types"], lent=["2"]),
    # A member of a oneof that would clear another one, and for which there is no room.
    Line("Message::set", "rows_bytes", "set 1 =1 7 =2 1 =4 1 =5 1 =6 1 =7 8 =3", "080118082001280130013801",
         [back("8", *(record(*it) for it in MEMBERS))]),
    Rows("Message::set", "rows_bytes", ["a map's entries are kept by rising key"], lent=[back("{2:1 1:0 -1:1}")]),
    Rows("Message::set", "rows_bytes", ["a key twice"], lent=[back("{1:1 1:0}", record(2, 7))]),
    Rows("Message::set", "rows_bytes", ["equal keys among others come back in their order"], lent=[back("{3:1 1:0 3:0 2:1}")]),
    Rows("Message::set", "rows_bytes", ["a map that is set by falling keys is written by rising ones"],
         lent=[back("{3:1 1:0}", record(2, 7))]),
    Rows("Message::set", "rows_bytes", ["a text and bytes are one key"], lent=[back("{'k:# #6b:#}", record(2, 7))]),
    Rows("Message::set", "rows_bytes", ["bytes are set as a text"], lent=[back("#61")]),
    Rows("Message::whole", "rows_bytes", ["messages in a list, a map and a field, and an explicit zero"]),
    Rows("Message::whole", "rows_bytes", ["a map by falling keys is written by rising ones"]),
    Rows("decode decode_ref encode encode_ref", "rows_bytes", ["a message in two parts, each with contents of all shapes"]),
    Rows("decode_ref_unlimited", "rows_bytes", ["a message of all shapes is read without a limit"]),
    Rows("encode MessageRef::to_message", "rows_bytes", ["a copy of all shapes and of unknown records"]),
    Rows("encode_unshared_ref", "rows_bytes", ["what a type with the fields 4 doesn't have"]),
    Rows("show", "rows_bytes", ["all of these and unknown records are shown"]),
    Line("bytes_of_hex", "rows_bytes", "hex 0805120178", "0805120178"),
    Rows("options", "rows_answer", ["choices of two fields that meet beside a child"]),
    Rows("children", "rows_answer", ["children beside two fields that meet"]),
    Rows("cheapest", "rows_answer", ["the cheapest of two choices", "the cheapest two members of different old oneofs"]),
    Line("reached_pairs", "rows_answer", f"reached_pairs | {TWO} | 1 1", "1 1, 0 0"),
    Line("reached_from", "rows_answer", f"reached_from | {TWO} | 0 0 | 1 1", "0 0, 1 1"),
    Line("Prices::children", "rows_answer", f"Prices::children | {TWO} | 1 1", "1 1, 0 0"),
    Line("Prices::edges", "rows_answer", f"Prices::edges | {TWO} | 1 1", "1 1, 0 0"),
    # The work that it was lent is as it was.
    Line("Prices::base", "rows_answer", f"Prices::base | {TWO} | 0 0", "6 1", ["0"]),
    Rows("carry", "rows_answer", ["message of an entry round a child that breaks"]),
    # A number that a signed reader takes for one below 0: a tag, and the five bytes of 2^31.
    Line("told_causes", "rows_answer", f"causes | {TWO} | 0 0", "1 2 0 6"),
    # The first two of them, a tag and a number each, stand for all ten.
    Line("told_causes", "rows_answer", f"causes | {JOINED} | 0 0", "1 6 2 4 of 1 2 3 4 5 6 7 8 9 10"),
    Line("carry_cause", "rows_answer", f"carry_cause | {TWO} | 0 0", "088080808008"),
    Rows("breaks", "rows_answer", ["lists, texts and a child are kept"]),
    Line("breaks_as_written", "rows_answer", f"breaks_as_written | {KEPT}", "kept"),
    Rows("returns", "rows_answer", ["in a child of a child that leads back"]),
    Rows("search find_with", "rows_answer", ["search of four steps down to no change", "search of a bound that falls"]),
    Rows("search find_with", "rows_answer", ["search of four steps down"]),
    Rows("search_counted", "rows_answer", ["work of a type that holds itself and changes"]),
    Rows("settle", "rows_answer", ["bounds of a graph in which an edge costs three times the bound"]),
    # The child's bound, and a tag and a length more; two numbers, two edges to a number, two pairs.
    Line("settle_from", "rows_answer", f"settle_from | {TWO} | 0 0 | 1 1", "0 0 6, 1 1 8 | 2 2 2"),
    Line("bounds_from", "rows_answer", f"bounds_from | {TWO} | 0 0 | 1 1", "0 0 6, 1 1 8 | 2 2 2"),
    Rows("path", "rows_answer", ["way of four steps down"]),
    Rows("search_with find_with", "rows_answer", ["by names, a renamed number in a child, found"]),
    # The bounds come back as the row spells them.
    Rows("Bounds::new", "rows_answer", ["bounds of two pairs make a table"], lent=["0 0 2147483647, 1 0 none"]),
    Rows("Bounds::new", "rows_answer", ["a pair twice makes no table"], lent=["0 0 none, 0 0 2"]),
    Rows("check", "rows_answer", ["a witness that is longer than the bound", "a child is missing"]),
    Rows("from_text to_text", "rows_answer", ["a text of two pairs without a witness", "a text of a witness of all letters"]),
    Rows("from_text to_text", "rows_answer", ["a renamed number in a text by names"]),
    Line("descriptor_schema", "rows_fds", "descriptor_schema", "".join(f"google.protobuf.{it} " for it in DESCRIPTOR)),
    Rows("read read_parts", "rows_fds", ["changed: no JSON name in oneofs", "refused: an alias"]),
    Rows("read write read_again", "rows_fds", SETS),
    Rows("gate", "rows_view", ["a renamed number in a child"], "gate"),
    Rows("gate_with", "rows_view", ["a renamed number in a child"], "gate_with"),
    Line("gate_all", "rows_view", f"gate_all {REPOSITORY}",
         "Value 088080808008, ListToOne 1200, Unlike 1801, Value 2002, MapKey 2a080880808080081200, breaks T 2, breaks U 4, removed V, added W"),
    Line("gate_all", "rows_view", "gate_all E: A=0, B=1; M: E e=1, map<int32,E> m=2 | E: A=0, C=1; M: E e=1, map<int32,E> m=2",
         "Name 0801, MapValue 120408001001, breaks M 2"),
    Line("gate_all", "rows_view", f"gate_all {JOINED}", "Oneof 08011001, breaks M 4"),
    Rows("relay", "rows_view", ["what the new type lacks is handed on"], "relay"),
    Tests("notes", "tests_notes", ["tells_again"]),
    Tests("gate_files", "tests_gate", ["a_gate_over_files_answers_one_of_two", "a_gate_over_files_tells_the_old_side_first"]),
    # The sink is left alone where `run` lacks memory, also where `matches_of` does, which it calls first, or what prints the lines.
    Tests("run matches_of words_of json_of", "tests_gate",
          ["compiles_again", "shows_again", "verifies_again", "gates_in_both_directions_again", "gates_a_oneof_again",
           "gates_all_types_again", "gates_all_types_as_json_again", "compiles_in_folders_again",
           "names_types_of_a_set_in_folders_again", "names_types_of_a_list_again", "gates_all_types_of_lists_again",
           "refuses_a_list_again", "refuses_a_list_without_files_again", "refuses_a_side_without_files_again"]),
]


def lines_of(crate, name):
    with open(os.path.join(CRATES, crate, name), encoding="utf-8") as file:
        return file.read().splitlines()


def listed_calls():
    """Returns the calls that docs/GUARANTEES.md says may be refused memory: those of its table of what each call refuses."""
    with open(os.path.join(ROOT, "docs/GUARANTEES.md"), encoding="utf-8") as file:
        section = file.read().partition("\n## What each call refuses\n")[2].partition("\n## ")[0]
    rows = re.findall(r"^\| `pg_\w+` \| (`[^|]*) \|", section, re.M)
    return {name for row in rows for name in re.findall(r"`([\w:]+)`", row)}


def row_of(crate, row):
    """Returns the lines before a row that it needs, with what is printed of each, and the row's input and answer: the types that were put
    last before it."""
    given, wanted = lines_of(crate, "stdin"), lines_of(crate, "stdout")
    places = [at for at, line in enumerate(given) if line.partition(" | ")[0] == row]
    if len(places) != 1:
        sys.exit(f"{crate} has {len(places)} rows {row!r}")
    before = {}
    for at in range(places[0]):
        kind = given[at].partition(" | ")[2].partition(" ")[0]
        if crate == "rows_bytes" and kind in ("type", "other"):
            before[kind] = at
    input_, answer = (it[places[0]].partition(" | ")[2] for it in (given, wanted))
    return [given[at] for at in before.values()], [wanted[at] for at in before.values()], input_, answer


def line_of_call(call, row):
    """Returns the lines that make a call, and what is printed of them in front of `ready` and behind `done`."""
    if isinstance(call, Line):
        before, told = ([ONEOF], ["a oneof among others | taken"]) if call.calls == "Message::set" else ([], [])
        return [*before, f"{call.calls} | retry {call.line}"], told, f"{call.calls} | {call.answer}"
    before, told, input_, answer = row_of(call.crate, row)
    if call.words.startswith("gate"):
        # A row shows what the types answer by numbers, and by names.
        answer = answer.split(" | ")[call.words == "gate_with"]
    return [*before, f"{row} | retry {' '.join([call.words, input_]).strip()}"], told, f"{row} | {answer}"


def kind_of(said, told, answer, lent):
    """Returns what a run did that printed these lines: it lacked memory, reported that, and gave the answer; or it gave it all the same."""
    lines = said.decode(errors="replace").splitlines()
    begin, middle, end = lines[:len(told) + 1], lines[len(told) + 1:-2], lines[-2:]
    if begin != [*told, "ready"] or end != ["done", answer]:
        return "wrong"
    lacks = [" ".join(["Memory", it]) for it in lent] or ["Memory"]
    return "answered" if not middle else "told" if middle in [[it] for it in lacks] else "wrong"


def kind_of_test(said):
    """Returns what a test did that passed: it printed the lines of each of its calls."""
    lines = said.removesuffix(PASSED).decode(errors="replace").split()
    calls = " ".join(it for it in lines).replace("ready Memory done", "told").replace("ready done", "answered").split()
    if not said.endswith(PASSED) or set(calls) - {"told", "answered"} or calls.count("told") > 1:
        return "wrong"
    return "told" if "told" in calls else "answered"


def runs_of_row(call, row, library):
    """Gives the turns of a row, with what each run did."""
    program = os.path.join(CRATES, call.crate, "out", call.crate)
    given, told, answer = line_of_call(call, row)
    for turn, status, said, faults in runs_of(library, [program], None, "".join(it + "\n" for it in given).encode(), True):
        kind = "wrong" if status or faults else kind_of(said, told, answer, call.lent)
        yield turn, kind, (status, said[-300:], faults[-200:])


def runs_of_test(call, test, library):
    """Gives the turns of a test, with what each run did."""
    program = os.path.join(CRATES, call.crate, "out", call.crate + "_tests")
    listed = subprocess.run([program, "--list"], capture_output=True, text=True, check=True).stdout.splitlines()
    names = [it.partition(": ")[0] for it in listed]
    for name in [it for it in names if it.rpartition("::")[2] == test] or sys.exit(f"{call.crate} has no test {test}"):
        for turn, status, said, faults in runs_of(library, [program, name], None, b"", True):
            yield turn, "wrong" if status or faults else kind_of_test(said), (status, said[-300:], faults[-200:])


def try_one(call, name, library):
    """Refuses each request of a row or a test in turn, and returns the counts of refused, told, answered and wrong."""
    counts = collections.Counter()
    runs = runs_of_test if isinstance(call, Tests) else runs_of_row
    for turn, kind, seen in runs(call, name, library):
        kind = "wrong" if kind == "told" and not turn else kind
        counts["refused"] += turn > 0
        counts[kind] += turn > 0 or kind == "wrong"
        if kind == "wrong" and counts[kind] <= MOST_PRINTED:
            print(f"{call.calls}, {name!r}, request {turn}: {seen}", flush=True)
        if counts["wrong"] > MOST_PRINTED:
            break
    if not counts["told"]:
        print(f"{call.calls}, {name!r}: none of its requests is reported", flush=True)
        counts["wrong"] += 1
    return counts


def options_of():
    parser = argparse.ArgumentParser(description=__doc__.partition("\n")[0])
    parser.add_argument("--jobs", type=int, default=len(os.sched_getaffinity(0)))
    parser.add_argument("calls", nargs="*", metavar="CALL", help="the calls that are tried; by default all")
    return parser.parse_args()


def missing_calls():
    """Prints which calls of docs/GUARANTEES.md are tried by no line, and which are tried and not there; returns how many."""
    listed, tried = listed_calls(), {name for it in CALLS for name in it.calls.split()} | NOT_TRIED
    for what, calls in (("is tried by no line", listed - tried), ("isn't in docs/GUARANTEES.md", tried - listed)):
        for call in sorted(calls):
            print(f"{call} {what}")
    return len(listed ^ tried)


def print_sums(tries, found, begun):
    """Prints a line for each call and the sums, and returns whether all is well."""
    sums = collections.defaultdict(collections.Counter)
    for (call, _), counts in zip(tries, found):
        sums[call.calls].update(counts)
    for calls, counts in sums.items():
        print(f"{calls}: {line_of(counts)}")
    said, is_well = sums_of(sum(sums.values(), collections.Counter()), begun)
    print(f"{len(set(' '.join(sums).split()))} calls by {len(tries)} rows and tests: {said}")
    return bool(found) and is_well


def main():
    options, begun = options_of(), time.time()
    calls = [it for it in CALLS if not options.calls or set(it.calls.split()) & set(options.calls)]
    tries = [(it, row) for it in calls for row in getattr(it, "rows", [it.calls])]
    missing = 0 if options.calls else missing_calls()
    ask_for_stack()
    with tempfile.TemporaryDirectory(prefix="protogate-memory-") as room:
        library = build_library(room)
        found = called(try_one, [(*it, library) for it in tries], options.jobs)
    return 0 if print_sums(tries, found, begun) and not missing else 1


if __name__ == "__main__":
    sys.exit(main())

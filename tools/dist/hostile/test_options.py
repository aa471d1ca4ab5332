#!/usr/bin/env python3
"""Tests of source files that examples/ci/gate.sh gates as the sets that protoc makes of them: files with options, and what they import.

usage: tools/dist/hostile/test_options.py [PROGRAM]    by default the program that was built; most tests are passed over where there is no protoc

Positions are those of the source file's own words, or of what the program itself says of the file without its option.
"""

import datetime
import os
import shutil
import sys
import time
import unittest

sys.dont_write_bytecode = True
sys.path.insert(0, os.path.dirname(os.path.dirname(os.path.realpath(__file__))))
import test_ci  # noqa: E402
from test_ci import HEAD, NO_PROTOC  # noqa: E402
import located  # noqa: E402

PROTO2 = 'syntax = "proto2";\n'
LANGUAGE = 'import "google/protobuf/descriptor.proto";\n'
# A folder beside the gated one, in the style of googleapis, gogo/protobuf and protoc-gen-validate.
THIRD = {
    "google/api/http.proto": HEAD + "package google.api; message HttpRule { string get = 2; string post = 4; string body = 7; }",
    "google/api/annotations.proto": HEAD + 'package google.api; import "google/api/http.proto";\n' + LANGUAGE
    + "extend google.protobuf.MethodOptions { HttpRule http = 72295728; }",
    "gogoproto/gogo.proto": PROTO2 + "package gogoproto;\n" + LANGUAGE
    + "extend google.protobuf.FileOptions { optional bool marshaler_all = 63017; }\n"
    + "extend google.protobuf.FieldOptions { optional bool nullable = 65001; optional string casttype = 65002; }",
    "validate/validate.proto": PROTO2 + "package validate;\n" + LANGUAGE
    + "extend google.protobuf.FieldOptions { optional FieldRules rules = 1071; }\n"
    + "message FieldRules { optional StringRules string = 14; }\nmessage StringRules { optional uint64 min_len = 2; optional bytes prefix = 7; }",
}
# The gated folder. Tabs and letters of several bytes are before the names whose positions are looked at.
RPC = HEAD + """package etcdserverpb;
import "gogoproto/gogo.proto";
import "google/api/annotations.proto";
import "kv.proto";
import weak "user.proto";
option (gogoproto.marshaler_all) = true;

service KV {
  rpc Range (RangeRequest) returns (RangeResponse) {
    option (google.api.http) = { post: "/v3/kv/range" body: "*" };
  }
}
message RangeRequest {
	bytes key = 1;
	/* \u00fc */	int64 limit = 3;
}
message RangeResponse {
  repeated mvccpb.KeyValue kvs = 2 [(gogoproto.nullable) = false];
}
"""
TEXTS = {
    "rpc.proto": RPC,
    "kv.proto": HEAD + """package mvccpb;
import "gogoproto/gogo.proto";
message KeyValue {
  bytes key = 1 [(gogoproto.casttype) = "a"];
  int64 version = 4;
}
""",
    "user.proto": HEAD + """package user;
import "validate/validate.proto";
message User { string name = 1 [(validate.rules).string = { min_len: 1 prefix: "\\xff" }]; }
""",
    "plain.proto": HEAD + "message Plain { int64 a = 1; }\n",
    "raft.proto": PROTO2 + "package raftpb; message Entry { optional uint64 Term = 2; }\n",
}
SETTINGS = """[gate]
include = third

[skip raft.proto]
reason = It is proto2, and nobody reads old ones.
until = %s
"""
COUNTS = """#!/bin/sh
echo "$1" >> '%s/calls'
exec '%s' "$@"
"""


def lines_before(text, words):
    return text[: text.index(words)].split("\n")


def place_of(text, words, name):
    """Returns the line, and the column in bytes, of a name within some words of a source file."""
    before = lines_before(text, words)
    return len(before), len((before[-1] + words[: words.index(name)]).encode()) + 1


class Options(test_ci.Repository):
    def set_up_third(self, texts=None, settings=None):
        until = datetime.date.today() + datetime.timedelta(days=100)
        self.write({f"third/{name}": it for name, it in {**THIRD, **(texts or {})}.items()})
        self.write({"protogate.ini": (settings or SETTINGS) % until})

    def causes(self, said):
        return [it for it in said if it.startswith("cause ")]

    def counted(self):
        """Puts a protoc on the path that notes its calls."""
        self.write({"bin/protoc": COUNTS % (self.room.name, shutil.which("protoc"))}, self.room.name)
        os.chmod(f"{self.room.name}/bin/protoc", 0o755)
        self.env["PATH"] = f"{self.room.name}/bin:{os.environ['PATH']}"

    def calls(self):
        with open(f"{self.room.name}/calls", encoding="ascii") as file:
            count = len(file.readlines())
        os.remove(f"{self.room.name}/calls")
        return count

    def without_protoc(self):
        """Returns a path that has the programs which the script starts, but for protoc."""
        for it in ("git", "python3", "dirname", "sh"):
            os.makedirs(f"{self.room.name}/few", exist_ok=True)
            os.symlink(shutil.which(it), f"{self.room.name}/few/{it}")
        return f"{self.room.name}/few"


@NO_PROTOC
class Repositories(Options):
    """A repository in the style of grpc-gateway and etcd."""

    def setUp(self):
        super().setUp()
        self.set_up_third()
        self.release(TEXTS, TEXTS)

    def test_it_is_gated(self):
        status, said = self.call("v1", "proto", "--types")
        wanted = ["etcdserverpb.RangeRequest", "etcdserverpb.RangeResponse", "mvccpb.KeyValue", "user.User", "Plain"]
        gated = sorted(it for it in said if it.startswith("compatible "))
        self.assertEqual((status, gated), (0, sorted(f"compatible {it}" for it in wanted)), said)
        self.assertEqual([it for it in said if not it.startswith(("compatible ", "skipped "))], [])
        self.assertIn("gate: 3 source files are gated by the set that protoc makes of them\n", self.advice)
        self.assertEqual(self.record("v1", "proto")["by_protoc"], dict.fromkeys(("old", "new"), ["kv.proto", "rpc.proto", "user.proto"]))

    def test_a_narrowed_field_has_its_line(self):
        narrowed = RPC.replace("int64 limit", "int32 limit")
        self.write({"proto/rpc.proto": narrowed})
        line, column = place_of(RPC, "int64 limit", "limit")
        self.assertEqual((line, column), (16, 17))
        status, said = self.call("v1", "proto", "--github")
        named = f"etcdserverpb.RangeRequest.limit rpc.proto:{line}:{column}"
        self.assertEqual((status, self.causes(said)), (1, [f"cause value 6 188080808008 3 {named} {named}"]))
        title = "protogate%3A value etcdserverpb.RangeRequest.limit"
        self.assertIn(f"::error file=proto/rpc.proto,title={title},line={line},col={column}::", "\n".join(said))
        (cause,) = self.record("v1", "proto")["causes"]
        (field,) = cause["fields"]
        self.assertEqual((field["old_text"], field["new_text"]), tuple(it.split("\n")[line - 1] for it in (RPC, narrowed)))

    def test_a_named_type_has_its_line(self):
        """Also where the field is of another file's type, and another type's field leads to it."""
        text = TEXTS["kv.proto"]
        self.write({"proto/kv.proto": text.replace("int64 version", "int32 version")})
        line, column = place_of(text, "int64 version", "version")
        status, said = self.call("v1", "proto", "etcdserverpb.RangeResponse")
        named = f"mvccpb.KeyValue.version kv.proto:{line}:{column}"
        self.assertEqual(status, 1)
        self.assertTrue(said[-1].startswith("breaks etcdserverpb.RangeResponse ") and said[-1].endswith(f" at {named} {named}"), said)
        line, column = place_of(RPC, "mvccpb.KeyValue kvs", "kvs")
        (answer,) = self.record("v1", "proto", "etcdserverpb.RangeResponse")["answers"]
        self.assertEqual(answer["steps"][0]["new_place"], f"rpc.proto:{line}:{column}")

    def test_backward(self):
        """The new side writes: each field has its own side's position."""
        text = TEXTS["kv.proto"]
        self.write({"proto/kv.proto": text.replace("message KeyValue", "\nmessage KeyValue").replace("int64 version", "sint64  version")})
        status, said = self.call("v1", "proto", "--both")
        named = "mvccpb.KeyValue.version"
        places = {it.partition(" ")[0]: it.split()[7:] for it in said if " cause " in it}
        self.assertEqual((status, places), (1, dict.fromkeys(("forward", "backward"), ["kv.proto:6:9", named, "kv.proto:7:11"])))

    def test_a_warning_has_its_line(self):
        text = TEXTS["user.proto"]
        self.write({"proto/user.proto": text.replace("string name", "reserved 9; string name").replace("message User {", "message User {\n")})
        self.write({"proto/rpc.proto": RPC.replace("	bytes key = 1;\n", "")})
        self.call("v1", "proto")
        line, column = place_of(RPC, "bytes key", "key")
        self.assertIn(f"warning: etcdserverpb.RangeRequest.key, old rpc.proto:{line}:{column}: number 1 was removed", self.advice)

    def test_one_side_alone(self):
        """Source files are gated against a set."""
        self.write({"proto/plain.proto": HEAD + 'option go_package = "x";\nimport "gogoproto/gogo.proto";\n'
                    "message Plain {\n  int32 a = 1 [(gogoproto.nullable) = false]; }\n"})
        status, said = self.call("v1", "proto")
        self.assertEqual((status, self.causes(said)), (1, ["cause value 6 088080808008 1 Plain.a plain.proto:2:23 Plain.a plain.proto:5:9"]))
        self.write({"proto/plain.proto": HEAD + "message Plain { int64 a = 1; }"})
        self.assertEqual(self.call("v1", "proto")[0], 0)

    def test_protoc_is_turned_off(self):
        status, said = self.call("v1", "proto", "--no-with-protoc")
        self.assertEqual(status, 2)
        self.assertIn("refused new E102 rpc.proto:{}:{}".format(*place_of(RPC, 'post: "', ":")), said)
        self.assertNotIn("gated by the set", self.advice)
        self.assertIn("without --no-with-protoc", self.advice)
        self.set_up_third(settings=SETTINGS.replace("third", "third\nwith-protoc = no"))
        self.git("add", "protogate.ini")
        self.git("commit", "-q", "-m", "v2")
        self.git("tag", "-f", "v1")
        self.assertEqual(self.call("v1", "proto")[0], 2)
        self.assertEqual(self.call("v1", "proto", "--with-protoc")[0], 0)

    def test_there_is_no_protoc(self):
        path = self.without_protoc()
        self.assertEqual(self.call("v1", "proto", PATH=path)[0], 2)
        self.assertIn("gate with protoc on the path", self.advice)
        self.assertEqual(self.call("v1", "proto", "--with-protoc", PATH=path), (3, []))
        self.assertIn("there is no protoc on the path", self.advice)


@NO_PROTOC
class Processes(Options):
    """How many processes of protoc there are."""

    OPTION = (HEAD + "package p%s; " + LANGUAGE
              + "extend google.protobuf.FieldOptions { string unit = %s; }\nmessage M { int64 a = 1 [(unit) = 'x']; }")

    def texts(self, count):
        return {f"{at}.proto": self.OPTION % (at, 50000 + at) for at in range(count)}

    def test_one_for_each_side(self):
        self.counted()
        texts = self.texts(61)
        self.release(texts, texts)
        self.assertEqual(self.call("v1", "proto"), (0, ["compatible 61 types"]))
        self.assertEqual(self.calls(), 2)

    def test_one_run(self):
        """What the set of each side has is gated in one run."""
        texts = self.texts(61)
        self.release(texts, {**texts, "7.proto": texts["7.proto"].replace("int64", "int32")})
        self.write({"program": COUNTS % (self.room.name, test_ci.PROGRAM)}, self.room.name)
        os.chmod(f"{self.room.name}/program", 0o755)
        status, said = self.call("v1", "proto", PROTOGATE=f"{self.room.name}/program")
        self.assertEqual((status, said[-2:]), (1, ["breaks p7.M 6", "compatible 60 types"]))
        with open(f"{self.room.name}/calls", encoding="ascii") as file:
            self.assertEqual(file.read().splitlines().count("gate-all"), 1)

    def test_some_that_fail(self):
        """Three of 61 fail: at most a call for each, and for each half of the rest, on either side."""
        self.counted()
        texts = self.texts(61)
        texts.update({f"{at}.proto": HEAD + 'import "gone.proto"; message N { }' for at in (5, 30, 60)})
        self.release(texts, texts)
        status, said = self.call("v1", "proto")
        refused = [f"refused {side} E301 {at}.proto:2:8" for side in ("old", "new") for at in (30, 5, 60)]
        self.assertEqual((status, sorted(said)), (2, sorted(refused + ["compatible 58 types"])))
        self.assertLessEqual(self.calls(), 2 * (1 + 3 * (3 + 3)))

    def test_all_that_fail(self):
        """There is a bound where each fails."""
        self.counted()
        texts = {f"{at}.proto": HEAD + "message M { int32 a = 1; int32 a = 2; } option (x) = 1;" for at in range(61)}
        self.release({}, texts)
        self.write({"old/a.proto": HEAD})
        self.git("add", "old")
        self.git("commit", "-q", "-m", "v2")
        self.git("mv", "old", "other")
        self.git("commit", "-q", "-m", "v3")
        self.assertEqual(self.call("HEAD", "other")[0], 0)
        os.rename(f"{self.top}/proto", f"{self.top}/other/proto")
        status, said = self.call("HEAD", "other")
        self.assertEqual((status, len(said), {it[:16] for it in said}), (2, 61, {"refused new E205"}))
        self.assertLessEqual(self.calls(), 61 + 64)

    def test_types_of_one_name(self):
        """Files that don't go together are gated all the same."""
        text = HEAD + LANGUAGE + "extend google.protobuf.FieldOptions { string unit_%s = %s; }\nmessage M { int64 a = 1 [(unit_%s) = 'x']; }"
        texts = {f"{it}.proto": text % (it, 50000 + at, it) for at, it in enumerate("abc")}
        self.release(texts, {**texts, "b.proto": texts["b.proto"].replace("int64", "int32")})
        status, said = self.call("v1", "proto")
        self.assertEqual((status, [it.split()[-1] for it in self.causes(said)]), (1, ["b.proto:4:19"]))


@NO_PROTOC
class Names(Options):
    def test_names_that_are_no_options(self):
        """A file's name is no option of protoc, and no file of arguments."""
        text = HEAD + LANGUAGE + "extend google.protobuf.FieldOptions { string u%s = 5000%s; } message M%s { int64 a = 1 [(u%s) = 'x']; }"
        names = ["--descriptor_set_out=x.proto", "@args.proto", "-.proto", "a b.proto", "$(id);'\".proto", "\u00fc.proto", " .proto",
                 "a:1:2: b.proto"]
        texts = {name: text % (at, at, at, at) for at, name in enumerate(names)}
        self.release(texts, {name: it.replace("int64", "int32") for name, it in texts.items()})
        self.write({"proto/args.proto": HEAD})
        status, said = self.call("v1", "proto")
        self.assertEqual((status, sorted(it for it in said if it.startswith("breaks"))), (1, [f"breaks M{at} 6" for at in range(len(names))]))
        self.assertEqual(sorted(os.listdir(f"{self.top}/proto")), sorted([*names, "args.proto"]))

    def test_a_protoc_of_the_change(self):
        """A folder of the path that isn't named in full is one of the change's: nothing in it runs."""
        texts = {"a.proto": HEAD + "message A { bytes a = 1 [ctype = CORD]; }"}
        self.release(texts, texts)
        for path in ("proto/protoc", "protoc"):
            self.write({path: f"#!/bin/sh\ntouch '{self.room.name}/ran'\nexit 1\n"})
            os.chmod(f"{self.top}/{path}", 0o755)
        for path in (".", "proto", ""):
            self.assertEqual(self.call("v1", "proto", PATH=f"{path}:{os.environ['PATH']}")[0], 0)
        self.assertFalse(os.path.exists(f"{self.room.name}/ran"))


@NO_PROTOC
class Places(Options):
    """Where names are, by the program of a file without its option, which is at the end."""

    BODY = ("package p;\n\tmessage A {\n\t  /* \u00fc */\tint64 a = 1;  \t\tint64\tb = 2; repeated int64 c\n\t\t= 3;\r\n"
            "enum E { Z = 0; }\tmessage B { int64 d = 1; map<string, C> m = 2;\n\toneof o {\tint64 e = 3;\n int64 f = 4; } }\n"
            "  optional int64 g = 9; }\nmessage C { int64\n h\n =\n 1; }\n\t \tmessage\tD\t{\tint64\t i\t=\t1;\t}\n")

    def test_they_are_those_of_the_program(self):
        for start in (HEAD, "\ufeff" + HEAD, "\t" + HEAD, "/*\n\t*/\t" + HEAD):
            plain, option = ({"a.proto": start + self.BODY + it} for it in ("", "option optimize_for = LITE_RUNTIME; option (x) = { y: 1 };"))
            option["x.proto"] = (HEAD + LANGUAGE + "message X { int32 y = 1; } extend google.protobuf.FileOptions { X x = 50001; }")
            option["a.proto"] = option["a.proto"].replace("package p;", 'import "x.proto"; package p;') if start else ""
            plain["a.proto"] = plain["a.proto"].replace("package p;", 'import "x.proto"; package p;')
            plain["x.proto"] = HEAD + "message X { }"
            told = []
            for texts in (plain, option):
                shutil.rmtree(f"{self.top}/.git", ignore_errors=True)
                self.release(texts, {name: it.replace("int64", "int32") for name, it in texts.items()})
                told.append(sorted(self.causes(self.call("v1", "proto")[1])))
            self.assertEqual(len(told[0]), 9)
            self.assertEqual(*told)
            self.assertEqual(self.record("v1", "proto")["by_protoc"]["new"], ["a.proto", "x.proto"])


class Lines(unittest.TestCase):
    """Columns of protoc, which goes on to the next multiple of 8 at a tab, by lines whose columns were counted by hand."""

    def test_columns(self):
        for line, name, column, wanted in ((b"a", "a", 0, 1), (b"\ta", "a", 8, 2), (b" \ta", "a", 8, 3), (b"1234567\ta", "a", 8, 9),
                                           (b"12345678\ta", "a", 16, 10), (b"\t\t.\ta b", "b", 26, 7), (b"ab", "a", 0, None),
                                           (b"xa", "a", 1, None), (b"\ta", "a", 3, None), (b"a", "a", 99, None), (b"", "a", 0, None)):
            self.assertEqual(located.Line(line).column_of(name, column), wanted, (line, column))

    def test_a_line_of_many_names(self):
        """It is looked at once."""
        line = located.Line(b"\ta" * 1000000)
        began = time.process_time()
        self.assertEqual([line.column_of("a", 8 * at + 8) for at in range(500000)][-1], 1000000)
        self.assertLess(time.process_time() - began, 60)


if __name__ == "__main__":
    if len(sys.argv) > 1 and not sys.argv[1].startswith("-"):
        test_ci.PROGRAM = os.path.realpath(sys.argv.pop(1))
    test_ci.run_tests.main()

#!/usr/bin/env python3
"""Tests of what examples/ci/gate.sh says of causes: which types they are of, what is said of them, and where.

usage: tools/dist/test_ci_causes.py [PROGRAM]    by default the program that was built; some tests are passed over where there is no protoc

What is wanted of a change follows from the rules of the language.
"""

import io
import os
import re
import subprocess
import sys
import tempfile
import unittest
from unittest import mock

sys.dont_write_bytecode = True
sys.path += [f"{os.path.dirname(os.path.realpath(__file__))}/{it}" for it in ("../fuzz", "../gate")]
import run_tests  # noqa: E402
import test_ci  # noqa: E402
from test_ci import HEAD, NO_PROTOC, read  # noqa: E402
import answers  # noqa: E402
import causes  # noqa: E402
import cuts  # noqa: E402
import fuzz_grammar  # noqa: E402
import gate  # noqa: E402
import runs  # noqa: E402
import sets  # noqa: E402
import sides  # noqa: E402
import ways  # noqa: E402
import witnesses  # noqa: E402


class Causes(unittest.TestCase):
    def test_each_case_of_the_page(self):
        """Each word of the page has its sentences in both directions, and no other has."""
        rows = read("docs/COMPATIBILITY.md").partition("`CASE` is one of these words:")[2].partition("\n```")[0]
        listed = re.findall(r"^\| `([a-z-]+)` \|", rows, re.M)
        self.assertEqual(listed, ["unlike", "value", "name", "list-to-one", "map", "map-key", "map-value", "oneof"])
        self.assertEqual([listed, listed], [list(causes.WHY), list(causes.MEND)])
        for case in listed:
            self.assertRegex(case.encode(), rb"\A(?:%s|oneof)\Z" % fuzz_grammar.CASE)
            for direction in ("forward", "backward"):
                cause = {"case": case, "direction": direction, "is_by_names": False}
                for words in (causes.why(cause), causes.mend(cause)):
                    self.assertRegex(words, r"\A[A-Z][^{}]*\.\Z")

    def test_who_misreads(self):
        for case in ("unlike", "value", "list-to-one", "map", "map-key", "map-value", "oneof"):
            for direction, reader in (("forward", "new"), ("backward", "old")):
                said = causes.why({"case": case, "direction": direction, "is_by_names": False})
                self.assertIn(f"he {reader} program", said)
                self.assertNotIn(f"he {dict(new='old', old='new')[reader]} ", said)
        self.assertEqual(causes.why({"case": "map-value", "direction": "forward", "is_by_names": True}), causes.NAMED)

    def test_what_the_reader_makes_of_it(self):
        """What a sentence says of the reader is what the reader may do: read nothing, another value, or refuse the message."""
        said = {it: causes.why({"case": it, "direction": "forward", "is_by_names": False}) for it in causes.WHY}
        self.assertRegex(said["unlike"], "another kind of value .*, or writes it in another way: .* loses it, misreads it or refuses the message")
        self.assertRegex(said["value"], r"as another one, or refuses it\.\Z")
        self.assertRegex(said["list-to-one"], "a packed list isn't read at all")
        self.assertRegex(said["map"], "a default key or value, reads a string as a message or a message as a string, or refuses the message")


class Lines(unittest.TestCase):
    """How the lines of a run are cut, and which are no answer."""

    def overview(self, fields, paths, case="value", breaks="breaks M 2"):
        return runs.Overview(f"cause {case} 2 0801 1 {fields}\nold\n1 a int 1\nnew\n1 a int 1\n{breaks}\n", 1, *paths)

    def test_a_place_with_spaces(self):
        """A path may hold what looks like a position, or like other words of the line."""
        paths = ["a b:1:2 c.proto"], ["x.proto"]
        fields = "M.a a b:1:2 c.proto:3:4 M.a x.proto:5:6"
        overview = self.overview(fields, paths)
        self.assertTrue(overview.is_whole())
        self.assertEqual(overview.causes[0]["fields"], [{"old": "M.a", "old_place": "a b:1:2 c.proto:3:4", "new": "M.a", "new_place": "x.proto:5:6"}])
        two = self.overview(f"{fields} {fields.replace('M.a', 'M.b')}", paths, "oneof")
        self.assertEqual([it["old"] for it in two.causes[0]["fields"]], ["M.a", "M.b"])
        many = self.overview(" ".join(fields.replace("M.a", f"M.f{it}") for it in range(40)), paths, "oneof")
        self.assertEqual([it["new"] for it in many.causes[0]["fields"]], [f"M.f{it}" for it in range(40)])
        path = "x:1:2 y 3:4:5 z.proto"
        found = self.overview(f"A.a {path}:2:10 B.a {path}:3:4", [[path], [path]]).causes[0]["fields"]
        self.assertEqual(found, [{"old": "A.a", "old_place": f"{path}:2:10", "new": "B.a", "new_place": f"{path}:3:4"}])
        (answer,) = witnesses.answers_in(f"breaks A 2\nwitness 0801\nstep 1 A.a {path}:2:10 B.a -\nold\nnew\n", 1, [path], [])
        self.assertEqual(answer["steps"], [{"number": "1", "old": "A.a", "old_place": f"{path}:2:10", "new": "B.a", "new_place": "-"}])

    def test_what_cannot_be_cut(self):
        """Words are of known paths, and go in one way alone."""
        for words in ("A.a b.proto:1:2 A.a a.proto:1:2", "A.a a.proto:1:2", "A.a a.proto:1 A.a a.proto:1:2", "A.a a.proto:1:2  A.a a.proto:1:2",
                      "A.a a.proto:1:2 A.a a.proto:1:2 ", "A.a a.proto:1:2 A.a a.proto:1:2 -", " - -", "A.a - A.a -x", ""):
            self.assertIsNone(cuts.fields_in(words, ["a.proto"], ["a.proto"], 1), words)
            self.assertFalse(self.overview(words, [["a.proto"], ["a.proto"]]).is_whole())
        old, new = ["x", "x:1:2 B.b y"], ["y:3:4 B.b z", "z"]
        self.assertIsNone(cuts.fields_in("A.a x:1:2 B.b y:3:4 B.b z:5:6", old, new, 1))
        self.assertIsNotNone(cuts.fields_in("A.a x:1:2 B.b y:3:4 B.b z:5:6", old, new[1:], 1))
        one, two = "A.a x:1:2 A.a y:3:4", "A.a x:1:2 A.a y:3:4 B.b x:5:6 B.b y:7:8"
        self.assertIsNone(cuts.fields_in(one, ["x"], ["y"], 2, True))
        self.assertIsNone(cuts.fields_in(two, ["x"], ["y"], 1))
        self.assertEqual(len(cuts.fields_in(two, ["x"], ["y"], 2, True)), 2)
        # one field on a long path, or two
        self.assertIsNone(cuts.fields_in(two, ["x"], ["y", "y:3:4 B.b x:5:6 B.b y"], 1, True))

    def test_a_cause_of_a_compatible_type(self):
        fields = "A.a - A.a -"
        self.assertTrue(self.overview(fields, [[], []], breaks="breaks A 2\nbreaks B 4").is_whole())
        self.assertFalse(self.overview(fields, [[], []], breaks="compatible A\nbreaks B 4").is_whole())
        self.assertTrue(self.overview("A.a - C.a -", [[], []], breaks="compatible A\nbreaks B 4").is_whole())

    def test_refusals(self):
        for line in ("refused old E401 a b.proto:1:2", "refused new E702 A", "refused E001"):
            self.assertTrue(runs.Overview(f"{line}\n", 2, [], []).is_whole(), line)
            for said in (line, f"{line}\n{line}\n", f"junk\n{line}\n", f"{line}\ncompatible A\n"):
                self.assertFalse(runs.Overview(said, 2, [], []).is_whole(), said)
        for line in ("refused", "refused ", "refused old", "refused old ", "refused E40", "refused E4011", "refused both E401 a", "refused e401", "refused E401 "):
            self.assertFalse(runs.Overview(f"{line}\n", 2, [], []).is_whole(), line)


class Ways(test_ci.Repository):
    """Which types a cause is told of."""

    def told(self, *words, **more):
        """The status, and the old field of each cause that is told."""
        status, said = self.call(*words, **more)
        return status, [it.split()[5] for it in said if it.startswith("cause ")]

    def narrow(self, texts):
        """Releases source files, and then the same ones with an int32 in place of each int64."""
        texts = {name: HEAD + it for name, it in texts.items()}
        self.release(texts, {name: it.replace("int64", "int32") for name, it in texts.items()})

    def named(self, *words):
        """The types that are named of each cause, by its old field."""
        return {it["fields"][0]["old"]: it["types"] for it in self.record(*words)["causes"]}

    def program(self, edit):
        """Calls with a program whose answers of all types a command changes."""
        self.write({"program": f"#!/bin/bash\nset -o pipefail\ncase $1 in gate-all) '{test_ci.PROGRAM}' \"$@\" | {edit} ;;\n"
                               f"*) exec '{test_ci.PROGRAM}' \"$@\" ;; esac\n"})
        os.chmod(f"{self.top}/program", 0o755)
        return {"PROTOGATE": f"{self.top}/program"}

    def test_a_path_that_looks_like_a_place(self):
        self.narrow({"x:1:2 y 3:4:5 z.proto": "message A { int64 a = 1; } message B { A a = 1; int64 b = 2; }"})
        for words in ((), ("B",), ("--skip", "A")):
            self.assertEqual(self.told("v1", "proto", *words), (1, ["A.a", "B.b"]), words)

    def test_a_program_that_contradicts_itself(self):
        """A type breaks just where it leads to a cause, whichever types are gated."""
        self.narrow({"a.proto": "message A { int64 a = 1; } message B { A a = 1; int64 b = 2; } message C { int32 c = 1; } message D { B b = 1; }"})
        for edit, words in (("s/^breaks A .*/compatible A/", ((), ("A",), ("--skip", "B"))), ("s/^breaks D .*/compatible D/", ((), ("D",), ("C",))),
                            ("s/^compatible C/breaks C 2/", ((), ("C",), ("--skip", "C"))), ("s/ B[.]b / Z.b /g", ((), ("D",)))):
            for more in words:
                self.assertEqual(self.call("v1", "proto", *more, **self.program(f"sed '{edit}'")), (3, []), (edit, more))
        self.assertEqual(self.told("v1", "proto", **self.program("cat")), (1, ["A.a", "B.b"]))

    def test_what_is_held_twice(self):
        self.narrow({"a.proto": "message A { B b = 1; B c = 2; } message B { int64 b = 1; }"})
        self.assertEqual(self.named("v1", "proto"), {"B.b": ["B", "A"]})

    def test_maps_with_unlike_keys(self):
        """What such maps hold is compared with nothing. Keys that are read as one another are like."""
        old = "message M { int64 a = 1; } message X { map<int32, M> m = 1; } message Y { map<int32, M> m = 1; } message Z { map<string, M> m = 1; }"
        self.release({"a.proto": HEAD + old},
                     {"a.proto": HEAD + old.replace("int64", "int32").replace("X { map<int32", "X { map<string").replace("Y { map<int32", "Y { map<bool")})
        self.assertEqual(self.told("v1", "proto", "X"), (1, ["X.m"]))
        self.assertEqual(self.told("v1", "proto", "Y"), (1, ["M.a", "Y.m"]))
        self.assertEqual(self.told("v1", "proto", "Z"), (1, ["M.a"]))
        self.assertEqual(self.named("v1", "proto"), {"M.a": ["M", "Y", "Z"], "X.m": ["X"], "Y.m": ["Y"]})

    def test_all_keys(self):
        """Varints are like varints, and 32 bits, 64 bits and strings each like themselves."""
        kinds = ["int32 int64 uint32 uint64 sint32 sint64 bool", "fixed32 sfixed32", "fixed64 sfixed64", "string"]
        keys = [(key, kind) for kind in kinds for key in kind.split()]
        pairs = [(one, other) for one in keys for other in keys]
        sides_of = zip(*[[f"message T{at} {{ map<{key}, M> m = 1; }}" for key, _ in pair] for at, pair in enumerate(pairs)])
        old, new = ["\n".join(it) for it in sides_of]
        made = [sets_of(text) for text in (f"message M {{ int64 a = 1; }}\n{old}", f"message M {{ int32 a = 1; }}\n{new}")]
        names = [f"T{at}" for at in range(len(pairs))]
        found = ways.Ways(*made, names).types_of(names, 1000)
        self.assertEqual(found["M", "M"], [f"T{at}" for at, ((_, one), (_, other)) in enumerate(pairs) if one == other])

    def test_types_of_several_runs(self):
        """Where a side declares a name twice there are several runs, and each may lead to the cause."""
        self.narrow({"c.proto": "message S { int64 a = 1; }", "a.proto": 'import "c.proto"; message D { int32 z = 1; } message X { S s = 1; }',
                     "b.proto": 'import "c.proto"; message D { int32 y = 1; } message Y { S s = 1; }'})
        self.assertEqual({name: set(it) for name, it in self.named("v1", "proto").items()}, {"S.a": {"S", "X", "Y"}})
        self.assertEqual(self.named("v1", "proto", "--skip", "c.proto", "--skip", "D"), {"S.a": ["X", "Y"]})

    def test_most_types_of_several_runs(self):
        both = [" ".join(f"message {it}{at} {{ S s = 1; }}" for at in range(15)) for it in "XY"]
        self.narrow({"c.proto": "message S { int64 a = 1; }", "a.proto": f'import "c.proto"; message D {{ int32 z = 1; }} {both[0]}',
                     "b.proto": f'import "c.proto"; message D {{ int32 y = 1; }} {both[1]}'})
        (found,) = self.named("v1", "proto").values()
        self.assertEqual((len(found), len(set(found))), (20, 20))

    def test_most_types(self):
        """At most 20 are named, the nearest ones first."""
        holders = " ".join(f"message H{at} {{ {f'H{at - 1}' if at else 'S'} s = 1; }}" for at in range(30))
        self.narrow({"a.proto": f"message S {{ int64 a = 1; }} {holders}"})
        self.assertEqual(self.named("v1", "proto"), {"S.a": ["S", *(f"H{at}" for at in range(19))]})


class Told(test_ci.Repository):
    """What is said of a cause, and where."""

    def test_a_type_that_is_called_otherwise(self):
        """A new program writes a message of the new type."""
        self.release({"a.proto": HEAD + "message C { int32 a = 1; } message P { C c = 1; }"},
                     {"a.proto": HEAD + "message C2 { int64 a = 1; } message P { C2 c = 1; }"})
        said = self.call("v1", "proto", "--both", "--github")[1]
        self.assertIn("%0AA message of C2 that a new program writes: 088080808008%0A", "\n".join(said))

    def test_names(self):
        """A case `name` is by names, also where the numbers go otherwise: a packed list isn't read as a single field."""
        text = HEAD + "enum E { A = 0; B = 1; } enum F { C = 0; D = 1; } message T { %s x = 1; }"
        for old, new in (("E", "F"), ("repeated E", "F"), ("E", "repeated F")):
            self.write({"proto/a.proto": text % old})
            if not os.path.isdir(f"{self.top}/.git"):
                self.git("init", "-q")
            self.git("add", ".")
            self.git("commit", "-q", "-m", "next")
            self.write({"proto/a.proto": text % new})
            found = [it for it in self.record("HEAD", "proto", "--view", "names")["causes"] if it["case"] == "name"]
            self.assertEqual([it["is_by_names"] for it in found], [True], old)

    @NO_PROTOC
    def test_a_set_of_an_include(self):
        """Its fields have their positions, and its file is shown where it is."""
        option = HEAD + 'import "google/protobuf/descriptor.proto"; extend google.protobuf.FieldOptions { string unit = 50001; }'
        text = HEAD + 'import "x/o.proto"; message S { int64 a = 1 [(unit) = "kg"]; }'
        self.write({"third/x/o.proto": option, "third/x/s.proto": text, "proto/a.proto": HEAD + 'import "x/s.proto"; message A { S s = 1; }'})
        self.release({}, {"../third/x/s.proto": text.replace("int64", "int32")})
        words = ("v1", "proto", "--include", "third", "--with-protoc")
        self.assertIn(f"::error file=third/x/s.proto,title=protogate%3A value S.a,line=2,col={text.split(chr(10))[1].index('a = 1') + 1}::", "\n".join(self.call(*words, "--github")[1]))
        run = self.record(*words)
        (cause,) = run["causes"]
        self.assertEqual([cause["old_file"], cause["new_file"], run["outside"]], ["third/x/s.proto"] * 2 + [{"third/x/s.proto": "third/x/s.proto"}])

    def test_the_page_on_causes(self):
        """The message is of the type that has the field, which may hold another one."""
        page = read("docs/RECORD.md").partition("## A cause")[2].partition("## ")[0]
        self.assertEqual(page.count("the type that has the field"), 2)


class Steps(unittest.TestCase):
    """What is done once, and not for each cause or type."""

    def test_a_file_is_read_once(self):
        side = sides.Side.__new__(sides.Side)
        side.folder = os.path.dirname(os.path.realpath(__file__))
        sides.lines_of.cache_clear()
        name = os.path.basename(__file__)
        with mock.patch("builtins.open", wraps=open) as opened:
            self.assertEqual([side.line_at(f"{name}:{line}:1") for line in (1, 2, 3)][0], "#!/usr/bin/env python3")
            self.assertEqual(opened.call_count, 1)
        self.assertEqual([side.line_at(it) for it in ("-", "none.proto:1:1", f"{name}:100000:1")], [None] * 3)

    def test_how_a_removed_type_is_called_now(self):
        """It is compared with a few of the names, those with the same last part first."""
        def added(old, new):
            made = [mock.Mock(declared=dict.fromkeys(it)) for it in (old, new)]
            return answers.Added(*made)
        self.assertEqual(added(["Draft"], ["Drafts", "Other"]).nearest("Draft"), "Drafts")
        self.assertEqual(added(["p.v1.Tag"], ["p.v2.Tag", "p.v1.Tags"]).nearest("p.v1.Tag"), "p.v2.Tag")
        self.assertIsNone(added(["Draft"], ["Something"]).nearest("Draft"))
        many = added([], [f"new.v2.Type{it}Name" for it in range(5000)])
        with mock.patch.object(answers, "nearest", wraps=answers.nearest) as compared:
            for at in (0, 77, 4999):
                self.assertEqual(many.nearest(f"new.v1.Type{at}Name"), f"new.v2.Type{at}Name")
            many.nearest("Zed")
            self.assertLessEqual(max(len(it.args[1]) for it in compared.call_args_list), answers.MOST_NEAR)

    def test_types_are_sought_for_a_record_alone(self):
        """Else it is enough that one leads to a cause."""
        text = "message S { int64 a = 1; } message A { S s = 1; }"
        made = sets_of(text)
        run = mock.Mock()
        for is_recorded in (False, True):
            findings = answers.Findings(None, None, [], is_recorded)
            findings.note = mock.Mock()
            cause = {"fields": [{"old": "S.a", "new": "S.a"}]}
            overview = mock.Mock(causes=[cause], types={"S": 6, "A": 8}, ways=ways.Ways([made[0]], [made[0]], ["S", "A"]))
            with mock.patch.object(ways.Ways, "types_of", autospec=True, side_effect=ways.Ways.types_of) as sought:
                findings.take_causes(run, overview, "forward", ["A"])
            self.assertEqual(sought.call_args.args[2], ways.MOST_TYPES if is_recorded else 1)
            self.assertEqual((cause["types"], findings.note.call_count), (["A"] * is_recorded, 1))

    def test_files_that_clash_are_not_walked(self):
        """What a file imports isn't looked at where its own types are there already, or a run is full."""
        known = {f"{at}.proto": mock.Mock(imports=[], types=["M"]) for at in range(3)}
        half = runs.Half(mock.Mock(known=known, sets={}))
        half.add("0.proto", half.more_for("0.proto"))
        known["1.proto"].imports = None
        self.assertIsNone(half.more_for("1.proto"))
        known["1.proto"].types = ["N"]
        with mock.patch.object(runs, "MOST_FILES", 1):
            self.assertIsNone(half.more_for("1.proto"))
        known["1.proto"].imports = ["0.proto"]
        self.assertEqual(list(half.more_for("1.proto")), ["1.proto"])

    def test_a_fault_of_the_script(self):
        """What the script didn't foresee ends with 3, not with Python's own 1, which says that a type breaks."""
        with mock.patch.object(gate, "parsed", side_effect=KeyError("x")), mock.patch("sys.stderr", io.TextIOWrapper(io.BytesIO())) as said:
            self.assertEqual(gate.main([]), 3)
            said.flush()
            self.assertIn(b"KeyError: 'x'\ngate: a fault of this script", said.buffer.getvalue())


def sets_of(text):
    """The files of the set that the program makes of a source file."""
    with tempfile.TemporaryDirectory() as room:
        with open(f"{room}/a.proto", "w", encoding="utf-8") as file:
            file.write(HEAD + text)
        made = subprocess.run([test_ci.PROGRAM, "compile", f"--dir={room}", "a.proto"], check=True, stdout=subprocess.PIPE).stdout
    return list(sets.files_in(made).values())


if __name__ == "__main__":
    if len(sys.argv) > 1 and not sys.argv[1].startswith("-"):
        test_ci.PROGRAM = os.path.realpath(sys.argv.pop(1))
    run_tests.main()

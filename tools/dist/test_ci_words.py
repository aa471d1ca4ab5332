#!/usr/bin/env python3
"""Tests of what examples/ci/gate.sh says beside its answers: what to do, warnings, settings, and the record.

usage: tools/dist/test_ci_words.py [PROGRAM]    by default the program that was built

What is wanted of a source file follows from the rules of the language and from docs/ERRORS.md.
"""

import datetime
import json
import os
import re
import subprocess
import sys
import unittest

sys.dont_write_bytecode = True
sys.path.append(f"{os.path.dirname(os.path.realpath(__file__))}/..")
import report  # noqa: E402
import test_ci  # noqa: E402
from test_ci import GATE, HEAD, TOP, read  # noqa: E402
import declarations  # noqa: E402
import places  # noqa: E402
import settings  # noqa: E402
import wording  # noqa: E402

FAR = (datetime.date.today() + datetime.timedelta(days=366)).isoformat()


class Repository(test_ci.Repository):
    def compatible(self, old, new, *words):
        """Gates two source files of compatible types, and returns the warnings, without what begins their lines."""
        self.release({"a.proto": HEAD + old}, {"a.proto": HEAD + new})
        status, said = self.call("v1", "proto", *words)
        self.assertEqual((status, {it.split()[0] for it in said if not it.startswith("::")}), (0, {"compatible"}), said)
        self.said = said
        return [it.partition("gate: warning: ")[2] for it in self.advice.splitlines() if it.startswith("gate: warning: ")]

    # Where the settings are from, once they are settled.
    base = ()

    def settle(self, text):
        """Has the work tree these settings, and so a commit, which is the base of calls."""
        self.write({"protogate.ini": text})
        blob = self.git("hash-object", "-w", "--no-filters", "protogate.ini")
        listed = f"100644 blob {blob}\tprotogate.ini\n".encode()
        made = subprocess.run(["git", "mktree"], cwd=self.top, env=self.env, input=listed, check=True, stdout=subprocess.PIPE)
        self.git("update-ref", "refs/heads/settled", self.git("commit-tree", made.stdout.decode().strip(), "-m", "settled"))
        self.base = ("--base", "settled")

    def call(self, *words, **more):
        return super().call(*self.base, *words, **more)

    def page(self, *words, **more):
        self.record(*words, **more)
        done = subprocess.run([f"{TOP}/tools/report.py", "run.json"], cwd=self.top, env=self.env, check=True, stdout=subprocess.PIPE)
        return re.sub(r"<style>.*</style>|<[^>]*>", "", done.stdout.decode(), flags=re.S).replace("&#x27;", "'")


class Words(Repository):
    fault = "E401: The number of the field, value or reserved item is out of range."

    def release_a_fault(self):
        self.release({"a.proto": HEAD + "message A { }"}, {"a.proto": HEAD + "message A { int32 a = 0; }"})

    def test_on_standard_error(self):
        self.release_a_fault()
        self.assertEqual(self.call("v1", "proto"), (2, ["refused new E401 a.proto:2:19"]))
        self.assertRegex(self.advice, rf"\Agate: {self.fault} What to do: Take another number\. .*\.\n\Z")

    def test_in_an_annotation(self):
        self.release_a_fault()
        line = self.call("v1", "proto", "--github")[1][-1]
        self.assertRegex(line, rf"^::error file=proto/a\.proto,.*,line=2,col=19::{self.fault} What to do: Take another number\.")

    def test_on_the_page(self):
        self.release_a_fault()
        self.assertRegex(self.page("v1", "proto"), "The number of the field, value or reserved item is out of range\\. What to do: Take another number\\.")

    def test_a_name_that_neither_side_has(self):
        self.release({"a.proto": HEAD + "package p; message A { }"}, {"a.proto": HEAD + "package p; message A { }"})
        self.call("v1", "proto", "A")
        self.assertIn("gate: E901: Neither side has a message type A. What to do: Write its full name, with its package", self.advice)

    def test_a_copy_without_documents(self):
        """Who copies the scripts alone has the words too."""
        self.release_a_fault()
        copy = f"{self.room.name}/copy"
        self.write({name: read(f"examples/ci/{name}") for name in os.listdir(f"{TOP}/examples/ci") if name.endswith((".py", ".sh"))}, copy)
        done = subprocess.run(["sh", f"{copy}/gate.sh", "v1", "proto"], cwd=self.top, env=self.env, stdout=subprocess.PIPE, stderr=subprocess.PIPE)
        self.assertIn(self.fault, done.stderr.decode())


class Oneofs(Repository):
    def release_prices(self):
        sides = [{"a.proto": read(f"examples/changes/numbers_into_a_oneof/{side}.proto")} for side in ("old", "new")]
        self.release(*sides)
        wanted = read("examples/changes/numbers_into_a_oneof/says").splitlines()[2:]
        self.fields = [re.sub(r"^step \d+ ", "", it).replace("old.proto", "a.proto").replace("new.proto", "a.proto") for it in wanted]
        self.names = [it.split()[2] for it in self.fields]
        self.places = [it.split()[3] for it in self.fields]

    def test_a_line(self):
        self.release_prices()
        said = [f"cause oneof 4 08011001 1 {' '.join(self.fields)}",
                "  The new side has these fields in one oneof: of those that are set, the new program keeps the last one that it can read.", "breaks Price 4"]
        self.assertEqual(self.call("v1", "proto"), (1, said))
        said[2] = f"breaks Price 4 witness 08011001 at {' and '.join(self.fields)}"
        self.assertEqual(self.call("v1", "proto", "Price"), (1, said))

    def test_an_annotation(self):
        self.release_prices()
        found = [it for it in self.call("v1", "proto", "--github")[1] if it.startswith("::error ")]
        self.assertEqual(len(found), 1)
        named = " and ".join(f"{name} ({place})" for name, place in zip(self.names, self.places))
        self.assertIn("::The new side has these fields in one oneof: of those that are set, the new program keeps the last one that it can read.%0A", found[0])
        self.assertIn(f"%0AThe fields are {named}.%0A", found[0])

    def test_the_page(self):
        self.release_prices()
        page = self.page("v1", "proto")
        self.assertIn(f"{' and '.join(self.names)}", page)
        self.assertIn("The new side has these fields in one oneof", page)

    def test_a_way_through_messages(self):
        """Two steps of which the second is inside the first are no oneof, also where both types have one name but for their scope."""
        def steps(*names):
            return {"steps": [dict(old=old, new=new) for old, new in names]}
        inner = steps(("p.A.b", "p.A.b"), ("p.B.c", "p.B.c"))
        self.assertEqual(wording.last_fields(inner), inner["steps"][1:])
        self.assertEqual(len(wording.last_fields(steps(("p.A.b", "p.A.b"), ("p.A.c", "q.A.c")))), 1)
        self.assertEqual(len(wording.last_fields(steps(("p.A.b", "p.A.b")))), 1)
        self.assertEqual(len(wording.last_fields(steps(("p.A.x", "p.A.x"), ("p.B.a", "p.B.a"), ("p.B.b", "p.B.b")))), 2)


class Cautions(Repository):
    def test_a_number_that_is_not_reserved(self):
        old, new = "message A { int32 a = 1;\n  int32 b = 2; int32 c = 3; int32 d = 4; }", "message A { int32 a = 1; reserved 3 to 4; }"
        found = self.compatible(old, new)
        self.assertEqual(len(found), 1, found)
        self.assertIn("A.b, old a.proto:3:9: number 2 was removed and isn't reserved", found[0])

    def test_a_number_that_is_not_reserved_in_an_enum(self):
        found = self.compatible("enum E { Z = 0; B = -2; C = 5; } message A { E e = 1; }",
                                "enum E { Z = 0; reserved 5; } message A { E e = 1; }")
        self.assertEqual([it.partition(" was")[0] for it in found], ["E.B, old a.proto:2:17: number -2"])

    def test_a_value_that_is_called_otherwise(self):
        old = "enum E { option allow_alias = true; Z = 0; B = 1; B2 = 1; C = 2; } message A { E e = 1; }"
        new = "enum E { option allow_alias = true; Z = 0; B = 1; B2 = 1; B3 = 1; D = 2; } message A { E e = 1; }"
        found = self.compatible(old, new)
        self.assertEqual([it.partition(" now")[0] for it in found], ["E.D, new a.proto:2:67: number 2 was C and is D"])

    def test_optional_that_is_dropped(self):
        old = "message A { optional string a = 1; optional A b = 2; optional int32 c = 3; oneof o { int32 d = 4; } optional int32 e = 5; }"
        new = "message A { string a = 1; A b = 2; oneof o { int32 c = 3; } int32 d = 4; optional int32 e = 5; }"
        found = self.compatible(old, new)
        self.assertEqual([it.partition(":")[0] + it.partition("the field was")[2].partition(":")[0] for it in found],
                         ["A.a, new a.proto optional", "A.d, new a.proto in a oneof"])

    def test_methods(self):
        old = ("message A { } message B { }\nservice S { rpc Keep (A) returns (A); rpc Go (A) returns (A); rpc In (A) returns (A);\n"
               "rpc Out (A) returns (A); rpc Up (A) returns (stream A); }\nservice T { }")
        new = ("message A { } message B { }\nservice S { rpc Keep (A) returns (A); rpc In (B) returns (A);\n"
               "rpc Out (A) returns (B); rpc Up (stream A) returns (A); }")
        found = self.compatible(old, new)
        self.assertEqual([it.partition(": ")[0] for it in found], [
            "S.Go, old a.proto:3:43", "S.In, new a.proto:3:43", "S.Out, new a.proto:4:5", "S.Up, new a.proto:4:30", "T, old a.proto:5:9"])
        for words, line in zip(("removed", "request was A and is B", "response was A and is B",
                                "a stream of responses and is a stream of requests", "the service was removed"), found):
            self.assertIn(words, line)

    def test_what_is_no_change(self):
        text = ("package p.q; message A { optional int32 a = 1; oneof o { E e = 2; A b = 3; } map<string, A> m = 4; reserved 9; }\n"
                "enum E { Z = 0; N = -1; } service S { rpc Go (stream A) returns (stream .p.q.A) { option deprecated = true; } }")
        self.assertEqual(self.compatible(text, f"// More.\n{text}"), [])

    def test_an_annotation(self):
        """What only the old side has is shown where its type is declared now."""
        self.compatible("message A { int32 a = 1; }", "\n\nmessage A { }", "--github")
        self.assertRegex(self.said[-1], r"^::warning file=proto/a\.proto,title=protogate%3A A\.a,line=4,col=9::number 1 was removed")

    def test_the_page(self):
        self.release({"a.proto": HEAD + "message A { int32 a = 1; }"}, {"a.proto": HEAD + "message A { }"})
        page = self.page("v1", "proto")
        for words in ("proto may be released", "1 warning", "A.a, old proto/a.proto:2:19: number 1 was removed"):
            self.assertIn(words, page)

    def test_named_types(self):
        """With names of types there are warnings of these, and of the enums that they hold."""
        enums, types = "enum E { Z = 0; B = 1; } enum F { Y = 0; C = 1; }", "message A { E e = 1; } message M {"
        self.release({"a.proto": f"{HEAD}{enums} {types} F f = 1; }} service S {{ }}"},
                     {"a.proto": f"{HEAD}enum E {{ Z = 0; }} enum F {{ Y = 0; }} {types} }}"})
        self.call("v1", "proto", "A")
        self.assertEqual(re.findall(r"warning: (\S+),", self.advice), ["E.B"])

    def test_a_service_in_a_text_that_is_refused(self):
        """A service isn't removed that may be in a source file which wasn't read."""
        self.release({"a.proto": HEAD + "message A { } service S { }"},
                     {"a.proto": HEAD + "message A { }", "b.proto": HEAD + "option (x) = 1; service S { }"})
        self.call("v1", "proto")
        self.assertNotIn("warning", self.advice)
        self.call("v1", "proto", "--skip", "b.proto")
        self.assertNotIn("warning", self.advice)


class Places(unittest.TestCase):
    """The reader of source files is right, or finds nothing: it is compared with what a descriptor declares."""

    def declared(self, *fields):
        made = declarations.Declared("message", "A")
        for number, name in fields:
            made.parts[number] = type("Field", (), {"name": name})
        return {"A": made}

    def test_words_that_begin_statements(self):
        text = (b'syntax = "proto3"; // message B { }\n/* int32 no = 9; */ message A {\n'
                b"\toptional message message = 0x1; map<string, int32> map = 010;\n"
                b"  oneof oneof { enum.X reserved = 3; } string caf = 4 [json_name = \"\xc3\xa9;=\"]; int32 a = 5; }")
        fields = ((1, "message"), (8, "map"), (3, "reserved"), (4, "caf"), (5, "a"))
        found = places.places_of(text, self.declared(*fields))
        for number, name in fields:
            line, column = found["field", f"A.{name}", number]
            self.assertTrue(text.split(b"\n")[line - 1][column - 1 :].startswith(name.encode()), name)
        self.assertEqual(found["field", "A.a", 5], (4, text.split(b"\n")[3].index(b" a =") + 2))
        self.assertEqual(places.places_of(b"\xef\xbb\xbfmessage A { }", self.declared()), {("message", "A", None): (1, 12)})

    def test_what_is_read_otherwise(self):
        text = b'syntax = "proto3"; message A { int32 a = 1; }'
        self.assertEqual(len(places.places_of(text, self.declared((1, "a")))), 2)
        for other in (self.declared((2, "a")), self.declared((1, "b")), self.declared(), {}):
            self.assertEqual(places.places_of(text, other), {})
        for cut in range(len(text)):
            self.assertEqual(places.places_of(text[:cut], self.declared((1, "a"))), {})


class Settings(Repository):
    """What protogate.ini says of a call."""

    def release_two(self):
        """v1 has A and Draft, v2 lacks Draft, and the work tree A's number 1."""
        self.release({"a.proto": HEAD + "message A { int32 a = 1; } message Draft { }"}, {"a.proto": HEAD + "message A { int32 a = 1; }"})
        self.git("commit", "-q", "-a", "-m", "v2")
        self.git("tag", "v2")

    def test_releases(self):
        self.release_two()
        self.settle("[gate]\nfolder = proto\nreleases = v2\n    v1\n")
        said = ["== v2 ==", "compatible 1 type", "== v1 ==", "removed Draft", "compatible 1 type"]
        self.assertEqual(self.call(), (2, said))
        os.mkdir(f"{self.top}/below")
        self.assertEqual(self.call(at=f"{self.top}/below"), (2, said))

    def test_words_go_first(self):
        self.release_two()
        self.settle("[gate]\nfolder = none\nreleases = v1\nboth = yes\nview = names\n")
        self.assertEqual(self.call("v2", "proto"), (0, ["forward compatible 1 type", "backward compatible 1 type"]))
        self.assertEqual(self.call("v2", "proto", "--no-both"), (0, ["compatible 1 type"]))
        self.assertEqual(self.record("v2", "proto")["view"], "names")
        self.assertEqual(self.record("v2", "proto", "--view", "numbers")["view"], "numbers")
        self.settle("[gate]\nfolder = proto\nreleases = none\n")
        self.assertEqual(self.call("v2"), (0, ["compatible 1 type"]))

    def test_empty_words(self):
        """A word that is there and empty isn't left out: `$(git merge-base main HEAD)` prints nothing where it fails."""
        self.release_two()
        self.settle("[gate]\nfolder = proto\nreleases = v2\n")
        for words in (("", "proto"), ("v2", ""), ("v2", "proto", "--include", "")):
            self.assertEqual(self.call(*words), (4, []), words)
            self.assertRegex(self.advice, r"\Agate: .* is empty.*\n\Z")

    def test_what_is_missing(self):
        self.release_two()
        for text, words, lacks in (("", (), "REVISION, FOLDER"), ("[gate]\nfolder = proto\n", (), "REVISION"),
                                   ("[gate]\nreleases = v1\n", (), "FOLDER"), ("", ("v1",), "FOLDER")):
            self.settle(text)
            self.assertEqual(self.call(*words), (4, []))
            self.assertTrue(self.advice.endswith(f"required: {lacks}\n"), self.advice)

    def skip(self, name, until, reason="Nobody stores drafts."):
        return f"[gate]\nfolder = proto\nreleases = v1\n[skip {name}]\nreason = {reason}\nuntil = {until}\n"

    def test_a_skip(self):
        self.release_two()
        self.settle(self.skip("Draft", FAR))
        self.assertEqual(self.call(), (0, [f"skipped Draft until {FAR}", "compatible 1 type"]))
        self.assertEqual(self.advice, "")

    def test_a_skip_that_is_over(self):
        self.release_two()
        self.settle(self.skip("Draft", "2020-02-29"))
        status, said = self.call("--github")
        self.assertEqual((status, said[0]), (2, "refused skip Draft 2020-02-29"))
        self.assertIn("removed Draft", said)
        self.assertIn("gate: protogate.ini:4: the skip of Draft ended on 2020-02-29. Its reason was: Nobody stores drafts.", self.advice)
        self.assertIn("::error file=protogate.ini,title=protogate%3A refused skip Draft,line=4,col=1::", "\n".join(said))
        self.settle(self.skip("A", "2020-02-29"))
        self.assertEqual(self.call("v2"), (2, ["refused skip A 2020-02-29", "compatible 1 type"]))

    def test_names_that_are_not_printable(self):
        """They are printed by numbers, in each line."""
        self.release_two()
        self.settle("[skip A\x1b[2J]\nreason = none\x1b[2J\nuntil = 2020-02-29\n")
        status, said = self.call("v2", "proto", "--github")
        self.assertEqual((status, said[0]), (2, "refused skip A\\x1b[2J 2020-02-29"))
        self.assertNotIn("\x1b", "".join(said) + self.advice)
        self.settle("[gate]\nfolder = proto\nreleases = v2\n v\x1b[2J\n")
        self.assertEqual(self.call(), (4, ["== v2 ==", "compatible 1 type", "== v\\x1b[2J =="]))

    def test_the_last_day(self):
        day = datetime.date(2024, 2, 29)
        self.assertFalse(settings.is_over(day, day))
        self.assertTrue(settings.is_over(day, datetime.date(2024, 3, 1)))

    def test_the_page_of_a_skip(self):
        self.release_two()
        self.settle(self.skip("Draft", FAR, "Nobody stores\n  <drafts>."))
        self.assertIn(f"Draft is skipped until {FAR}: Nobody stores &lt;drafts&gt;.", self.page())
        self.settle(self.skip("Draft", "2020-02-29"))
        self.assertIn("refused skip Draft ended on 2020-02-29: Nobody stores drafts.", self.page())

    def test_a_skip_that_names_nothing(self):
        """With several releases a skip may name what one of them has."""
        self.release_two()
        self.settle(self.skip("Draf", FAR))
        self.assertEqual(self.call()[0], 2)
        self.assertIn("gate: protogate.ini:4: the skip of Draf names nothing; did you mean Draft?", self.advice)
        self.settle(self.skip("Draft", FAR).replace("v1", "v1\n v2"))
        self.assertEqual(self.call()[0], 0)
        self.assertNotIn("names nothing", self.advice)

    def test_faults(self):
        """Each fault is told with its line, and nothing is gated."""
        self.release_two()
        for text, line, words in (
                ("[gate]\nfolder = proto\nfolders = proto\n", 3, "no key folders in [gate]; did you mean folder?"),
                ("# Ours.\n\n[gates]\n", 3, "no section [gates]"), ("[gate]\nboth = perhaps\n", 2, "both is yes or no, not perhaps"),
                ("[gate]\nview = all\n", 2, "view is numbers or names, not all"), ("[gate]\nfolder =\n", 2, "folder says nothing"),
                ("folder = proto\n", 1, "this is no setting"), ("[gate]\nfolder proto\n", 2, "this is no setting"),
                ("[gate]\nfolder = a\nfolder = b\n", 3, "this is no setting"), ("[gate]\n[gate]\n", 2, "this is no setting"),
                (b"[gate]\nfolder = \xff\n", 2, "isn't UTF-8"), ("[skip ]\nreason = a\n", 1, "no section [skip ]"),
                ("[skip A]\nreason = a\n", 1, "the skip of A has no until"), ("[skip A]\nuntil = 2020-01-01\n", 1, "the skip of A has no reason"),
                ("[skip A]\nreason = a\n\nuntil = 31.12.2026\n", 4, "until is a day such as 2026-12-31, not 31.12.2026"),
                ("[skip A]\nreason = a\nuntil = 2023-02-29\n", 3, "not 2023-02-29"), ("[skip A]\nreason = a\nday = 1\n", 3, "no key day in [skip A]")):
            self.settle(text)
            self.assertEqual(self.call("v1", "proto"), (4, []), text)
            self.assertTrue(self.advice.startswith(f"gate: protogate.ini:{line}: "), self.advice)
            self.assertIn(words, self.advice)

    def test_settings_that_are_not_read(self):
        """What the repository has, and the work tree hasn't as a file, isn't passed over: it counts as it was at the base."""
        self.release_two()
        self.write({"protogate.ini": "[gate]\nview = names\n"})
        self.git("add", "-A")
        self.git("commit", "-q", "-m", "v3")
        self.git("sparse-checkout", "set", "--no-cone", "/proto/*")
        self.assertFalse(os.path.lexists(f"{self.top}/protogate.ini"))
        self.assertEqual(self.record("--base", "HEAD", "v2", "proto")["view"], "names")
        self.assertEqual(self.advice, "")
        os.symlink("gone.ini", f"{self.top}/protogate.ini")
        self.assertEqual(self.record("--base", "HEAD", "v2", "proto")["view"], "names")
        self.assertIn("gate: protogate.ini of the work tree isn't read: it differs from that of HEAD", self.advice)
        self.assertEqual(self.call("--settings", "protogate.ini", "v2", "proto"), (4, []))
        self.assertIn("gate: --settings: protogate.ini can't be read", self.advice)
        self.git("add", "--sparse", "-A")
        self.git("commit", "-q", "-m", "v4")
        self.assertEqual(self.call("--base", "HEAD", "v2", "proto"), (4, []))
        self.assertIn("gate: protogate.ini is no file at HEAD", self.advice)

    def test_includes(self):
        """They count from the top of the repository."""
        if b"--include" not in subprocess.run([GATE, "--help"], stdout=subprocess.PIPE, env=self.env).stdout:
            self.skipTest("there is no --include")
        text = HEAD + 'import "b.proto"; message A { B b = 1; }'
        self.write({"third/party/b.proto": HEAD + "message B { }"})
        self.release({"a.proto": text}, {"a.proto": text})
        self.settle("[gate]\nfolder = proto\nreleases = v1\ninclude = third/party\n")
        self.assertEqual(self.call()[0], 0)

    def test_the_settings_of_the_page(self):
        """What docs/CI.md shows is what the script takes."""
        shown = re.search(r"^```ini\n(.*?)^```", read("docs/CI.md"), re.S | re.M)[1]
        taken = settings.Settings(shown.encode(), today=datetime.date(2026, 11, 1))
        self.assertEqual(set(taken.said), set(settings.GATE_KEYS))
        self.assertEqual(len(taken.skips), 1)


class Records(Repository):
    def report(self, text):
        self.write({"run.json": text if isinstance(text, str) else json.dumps(text)})
        done = subprocess.run([f"{TOP}/tools/report.py", "run.json"], cwd=self.top, stdout=subprocess.PIPE, stderr=subprocess.PIPE)
        self.assertEqual((done.returncode, done.stdout), (3, b""), text)
        said = done.stderr.decode()
        self.assertEqual(said.count("\n"), 1, said)
        return said

    def test_what_is_no_record(self):
        for text in ("{}", "[]", "7", "null", '"protogate-ci"', "no JSON", "", '{"runs": []}'):
            self.assertIn("report: run.json is no record of protogate-ci", self.report(text))

    def test_another_version(self):
        self.assertIn("is a record of version 1, and this reads version 2", self.report({"format": "protogate-ci", "version": 1}))

    def test_what_is_not_whole(self):
        self.release({"a.proto": HEAD + "message A { }"}, {"a.proto": HEAD + "message A { }"})
        self.call("v1", "proto", "--record", "run.json")
        with open(f"{self.top}/run.json", encoding="utf-8") as file:
            whole = json.load(file)
        # (two came within version 2)
        for key in set(whole) - {"base", "settings"}:
            self.report({name: it for name, it in whole.items() if name != key})
        for key in ("folder", "causes", "answers", "warnings", "refusals", "view"):
            run = {name: it for name, it in whole["runs"][0].items() if name != key}
            self.assertIn("is no whole record", self.report({**whole, "runs": [run]}))

    def keys_of_page(self):
        """The keys that the page of records has, by heading."""
        found = {}
        for part in re.split(r"^## ", read("docs/RECORD.md"), flags=re.M)[1:]:
            found[part.partition("\n")[0]] = set(re.findall(r"^\| `(\w+)` \|", part, re.M))
        return found

    def test_each_key_is_on_the_page(self):
        old = "message A { int32 a = 1; int32 b = 2; } message Draft { } message Gone { }"
        new = {"a.proto": HEAD + "message A { sint32 a = 1; }", "b.proto": HEAD + "option (x) = 1;"}
        self.release({"a.proto": HEAD + old, "b.proto": HEAD}, new)
        os.symlink("gone.proto", f"{self.top}/proto/c.proto")
        self.settle(f"[skip Draft]\nreason = None is stored.\nuntil = {FAR}\n")
        keys, found = self.keys_of_page(), []
        for names in ((), ("A", "Gone")):
            self.call("v1", "proto", *names, "--record", "run.json")
            with open(f"{self.top}/run.json", encoding="utf-8") as file:
                record = json.load(file)
            run = record["runs"][0]
            found.append(set().union(*run["answers"]))
            self.assertEqual({it["verdict"] for it in run["answers"]}, {"breaks", "removed"})
            for heading, told in (("The record", record), ("A skip", record["skips"][0]), ("A run", run), ("A cause", run["causes"][0]),
                                  ("A skip that took effect", run["skipped"][0]),
                                  ("A field", run["causes"][0]["fields"][0]), ("A refusal", set().union(*run["refusals"])),
                                  ("A warning", run["warnings"][0])):
                self.assertEqual(set(told), keys[heading], heading)
        self.assertEqual(found[0] | {"witness", "readings", "is_by_names"}, keys["An answer"])
        self.assertEqual(found[1], keys["An answer"])
        self.assertEqual(set(run["answers"][0]["steps"][0]), keys["A field"] | {"number"})
        self.assertEqual(record["version"], report.VERSION)

    def test_several_releases(self):
        self.release({"a.proto": HEAD + "message A { }"}, {"a.proto": HEAD + "message A { }"})
        self.git("tag", "v2")
        self.settle("[gate]\nfolder = proto\nreleases = v1\n v2\n")
        page = self.page()
        self.assertEqual(page.count("proto may be released"), 2)
        self.assertIn("protogate: proto against v1, v2", page)

    def test_two_items_against_one(self):
        """A single field keeps the last of two items: the first is lost, and marked."""
        old, new = ["1 a text -", "2 b int 1", "1 a text -", "again 0a000a00"], ["1 a text -", "2 c int 1", "again 0a00"]
        self.assertEqual(report.only_here(old, new), [True, False, False, True])
        self.assertEqual(report.only_here(new, old), [False, False, True])
        shown = re.findall(r'class="(only|same)">([^<]*)<', report.reading(old, new))
        self.assertEqual(shown[0], ("only", "1 a text -"))
        self.assertEqual(shown[2], ("same", "1 a text -"))


if __name__ == "__main__":
    if len(sys.argv) > 1 and not sys.argv[1].startswith("-"):
        test_ci.PROGRAM = os.path.realpath(sys.argv.pop(1))
    test_ci.run_tests.main()

#!/usr/bin/env python3
"""Tests of examples/ci/gate.sh, on repositories of its own.

usage: tools/dist/test_ci.py [PROGRAM]    by default the program that was built; some tests are passed over where there is no protoc

What is wanted of a change is in examples/changes, or follows from the rules of the language.
"""

import json
import os
import resource
import shutil
import subprocess
import sys
import tempfile
import unittest

sys.dont_write_bytecode = True
sys.path.append(f"{os.path.dirname(os.path.realpath(__file__))}/../gate")
TOP = os.path.dirname(os.path.dirname(os.path.dirname(os.path.realpath(__file__))))
GATE = f"{TOP}/examples/ci/gate.sh"
PROGRAM = f"{TOP}/crates/protogate/out/protogate"
import run_tests  # noqa: E402

sys.path.insert(0, f"{TOP}/examples/ci")
import sets  # noqa: E402
import wording  # noqa: E402

HEAD = 'syntax = "proto3";\n'
# What git does by itself after a commit, in the background: it may write into a folder that a test removes.
NO_UPKEEP = ("-c", "gc.auto=0", "-c", "maintenance.auto=false")
NO_PROTOC = unittest.skipUnless(shutil.which("protoc"), "there is no protoc")


def spent():
    """Returns how many seconds of a processor the processes took that have ended, however many others run beside them."""
    used = resource.getrusage(resource.RUSAGE_CHILDREN)
    return used.ru_utime + used.ru_stime


def read(path):
    with open(f"{TOP}/{path}", encoding="utf-8") as file:
        return file.read()


class Repository(unittest.TestCase):
    """A repository with one commit, `v1`, of the old source files, and the new ones in its work tree."""

    def setUp(self):
        self.room = tempfile.TemporaryDirectory()
        self.top = f"{self.room.name}/a repository"
        os.mkdir(self.top)
        self.addCleanup(self.room.cleanup)
        self.env = {**os.environ, "PROTOGATE": PROGRAM}
        self.env = {name: it for name, it in self.env.items() if not name.startswith(("GITHUB_", "CI_"))}

    def write(self, texts, top=None):
        for path, words in texts.items():
            path = f"{top or self.top}/{path}"
            os.makedirs(os.path.dirname(path), exist_ok=True)
            with open(path, "wb") as file:
                file.write(words if isinstance(words, bytes) else words.encode())

    def git(self, *words, at=None):
        who = ["-c", "user.name=nobody", "-c", "user.email=nobody@example.org", "-c", "init.defaultBranch=main", *NO_UPKEEP]
        done = subprocess.run(["git", *who, *words], cwd=at or self.top, env=self.env, check=True, stdout=subprocess.PIPE)
        return done.stdout.decode().strip()

    def release(self, old, new, folder="proto"):
        self.write({f"{folder}/{name}": words for name, words in old.items()})
        self.git("init", "-q")
        self.git("add", ".")
        self.git("commit", "-q", "-m", "v1", "--allow-empty")
        self.git("tag", "v1")
        for name in old:
            os.remove(f"{self.top}/{folder}/{name}")
        self.write({f"{folder}/{name}": words for name, words in new.items()})

    def call(self, *words, at=None, **more):
        done = subprocess.run([GATE, *words], cwd=at or self.top, env={**self.env, **more}, stdin=subprocess.DEVNULL,
                              stdout=subprocess.PIPE, stderr=subprocess.PIPE)
        self.advice = done.stderr.decode("utf-8", "replace")
        return done.returncode, done.stdout.decode("utf-8", "surrogateescape").splitlines()

    def types(self, *words, **more):
        """The status and the lines, but for those of causes: a line for each type."""
        status, said = self.call("--types", *words, **more)
        return status, [it for it in said if not it.startswith(("cause ", "forward cause ", "backward cause ", "  "))]

    def record(self, *words, **more):
        self.call(*words, "--record", "run.json", **more)
        with open(f"{self.top}/run.json", encoding="utf-8") as file:
            return json.load(file)["runs"][0]


class Answers(Repository):
    def release_orders(self, folder="proto"):
        self.release({"order.proto": read("examples/old/order.proto")}, {"order.proto": read("examples/new/order.proto")}, folder)

    # -1 of the quantity is no uint32, and byte 80 of the note no UTF-8.
    causes = ["cause value 11 10ffffffffffffffffff01 2 Order.quantity order.proto:5:9 Order.quantity order.proto:5:10",
              "  The new program reads this value as another one, or refuses it.",
              "cause value 3 220180 4 Order.note order.proto:7:9 Order.note order.proto:7:10",
              "  The new program reads this value as another one, or refuses it."]
    breaks = "breaks Order 3 witness 220180 at Order.note order.proto:7:9 Order.note order.proto:7:10"
    both = ["breaks Order 3", "compatible Customer"]

    def test_all_types(self):
        self.release_orders()
        self.assertEqual(self.call("v1", "proto"), (1, [*self.causes, "breaks Order 3", "compatible 1 type"]))
        self.assertRegex(self.advice, r"\Agate: value: What to do: .*\ngate: warning: Customer\.email, .*\n\Z")
        self.assertEqual(self.call("v1", "proto", "--types"), (1, [*self.causes, *self.both]))

    def test_named_types(self):
        """A type that is named has its own shortest message, and the causes that it leads to."""
        self.release_orders()
        self.assertEqual(self.call("v1", "proto", "Customer"), (0, ["compatible Customer"]))
        self.assertEqual(self.call("v1", "./proto/", "Customer", "Order"), (1, [*self.causes, self.breaks, "compatible Customer"]))

    def test_causes_of_named_types(self):
        """Causes of other types aren't told, also where a type that holds them is compatible, or is skipped."""
        old = "message L { %s a = 1; } message M { map<int32, L> l = 1; } message N { %s b = 1; M m = 2; } message O { %s c = 1; }"
        self.release({"a.proto": HEAD + old % (("int64",) * 3)}, {"a.proto": HEAD + old % (("int32",) * 3)})
        wanted = {"L": "L.a", "M": "L.a", "N": "L.a N.b", "O": "O.c"}
        for name, fields in wanted.items():
            status, said = self.call("v1", "proto", name)
            self.assertEqual((status, [it.split()[5] for it in said if it.startswith("cause ")]), (1, fields.split()), name)
        skipped = [word for it in "LMN" for word in ("--skip", it)]
        self.assertEqual([it.split()[5] for it in self.call("v1", "proto", *skipped)[1] if it.startswith("cause ")], ["O.c"])
        self.assertEqual(self.call("v1", "proto", *skipped, "--skip", "O"), (0, [f"skipped {it}" for it in "LMNO"]))

    def test_named_types_behind_options(self):
        self.release_orders()
        self.assertEqual(self.call("v1", "proto", "--skip", "Draft", "Customer"), (0, ["compatible Customer"]))
        self.assertEqual(self.call("--view", "numbers", "v1", "--both", "proto", "--skip", "Order", "Customer")[1],
                         ["skipped Order", "forward compatible Customer", "backward compatible Customer"])
        self.assertEqual(self.call("--view", "numbers", "v1", "--both", "proto", "--skip", "Order", "Customer", "Order"), (4, []))
        self.assertEqual(self.call("v1", "--both", "proto", "--skip", "Order")[1],
                         ["skipped Order", "forward compatible 1 type", "backward compatible 1 type"])

    def test_the_name_that_was_called(self):
        self.release_orders()
        for more, name in (({}, "gate.sh"), ({"PROTOGATE_CI_NAME": "protogate-ci"}, "protogate-ci")):
            self.call(**more)
            self.assertTrue(self.advice.startswith(f"usage: {name} "), self.advice)
            self.assertRegex(self.advice, r"\ngate: name REVISION and FOLDER, or .*: --base REVISION .* or --settings FILE\n\Z")
        record = self.record("v1", "proto", "Customer", "--skip", "Order", "--view", "names", "--both", "--github", PROTOGATE_CI_NAME="protogate-ci")
        self.assertEqual(record["call"], ["protogate-ci", "--both", "--view", "names", "--skip", "Order", "v1", "proto", "Customer"])

    def test_a_type_that_is_skipped(self):
        self.release_orders()
        self.assertEqual(self.call("v1", "proto", "--skip", "Order"), (0, ["skipped Order", "compatible 1 type"]))
        self.assertEqual(self.call("v1", "proto", "--skip", "order.proto"), (0, ["skipped order.proto"]))
        self.assertEqual(self.advice, "")
        self.assertEqual(self.call("v1", "proto", "--skip", "Custmer")[0], 1)
        self.assertIn("--skip Custmer names nothing; did you mean Customer?", self.advice)

    def test_the_changes_of_the_page(self):
        names = sorted(os.listdir(f"{TOP}/examples/changes"))
        sides = {it: [read(f"examples/changes/{it}/{side}.proto") for side in ("old", "new")] for it in names}
        self.release({f"{it}/a.proto": old for it, (old, _) in sides.items()}, {f"{it}/a.proto": new for it, (_, new) in sides.items()})
        for name in names:
            said = read(f"examples/changes/{name}/says").splitlines()
            answer = self.record("v1", f"proto/{name}", said[0].split()[1])["answers"]
            self.assertEqual([answer[0]["verdict"]], [said[0].split()[0]])
            witness = [it.partition(" ")[2] for it in said if it.startswith("witness ")]
            self.assertEqual([answer[0]["witness"]] if witness else [], witness)
            steps = [it.replace("old.proto", "a.proto").replace("new.proto", "a.proto") for it in said if it.startswith("step ")]
            told = [" ".join(["step", *(it[key] for key in ("number", "old", "old_place", "new", "new_place"))]) for it in answer[0]["steps"]]
            self.assertEqual(told, steps)

    def test_blanks_and_a_shallow_clone(self):
        self.release_orders("my protos/of a shop")
        self.git("commit", "-q", "-a", "-m", "v2")
        clone = f"{self.room.name}/a clone"
        self.git("clone", "-q", "--depth", "1", f"file://{self.top}", clone)
        self.assertEqual(self.call("v1", "my protos/of a shop", at=clone), (4, []))
        self.git("fetch", "-q", "--depth", "1", "origin", "tag", "v1", at=clone)
        self.assertEqual(self.types("v1", "my protos/of a shop", at=clone), (1, self.both))
        self.write({"my protos/of a shop/an order.proto": HEAD + "message A { int32 a = 1; }"})
        self.git("add", ".")
        self.git("commit", "-q", "-m", "v3")
        self.write({"my protos/of a shop/an order.proto": HEAD + "message A { uint32 a = 1; }"})
        status, said = self.call("HEAD", "my protos/of a shop", "A", "--github")
        self.assertEqual(said[0], "cause value 11 08ffffffffffffffffff01 1 A.a an order.proto:2:19 A.a an order.proto:2:20")
        self.assertEqual(said[2], "breaks A 11 witness 08ffffffffffffffffff01 at A.a an order.proto:2:19 A.a an order.proto:2:20")
        self.assertIn("::error file=my protos/of a shop/an order.proto,", said[3])

    def test_from_a_folder_below(self):
        self.release_orders("shop/proto")
        below = f"{self.top}/shop/proto"
        self.assertEqual(self.call("v1", ".", at=below)[0], 1)
        status, said = self.call("v1", "proto", "--github", at=f"{self.top}/shop")
        self.assertIn("::error file=shop/proto/order.proto,", said[6])
        status, said = self.call("v1", ".", "--github", at=self.top)
        self.assertIn("::error file=shop/proto/order.proto,", said[6])

    def test_from_a_hook(self):
        """Git gives its hooks an index of its own."""
        self.release_orders()
        self.git("add", ".")
        index = f"{self.top}/.git/index"
        self.git("update-index", "--refresh")
        before = self.git("ls-files", "--stage")
        self.assertEqual(self.call("v1", "proto", GIT_INDEX_FILE=index, GIT_DIR=".git")[0], 1)
        self.assertEqual(self.git("ls-files", "--stage"), before)

    def test_what_is_hidden_is_left_out(self):
        self.release_orders("proto")
        self.write({"proto/.cache/a.proto": "no text"})
        self.assertEqual(self.types("v1", "proto"), (1, self.both))

    def test_types_that_came_and_went(self):
        old = HEAD + "message A { message B { map<string, B> b = 1; } int32 a = 1; }\nmessage Draft { }"
        new = HEAD + "message A { int32 a = 1; message C { } }\nmessage Drafts { }"
        self.release({"a.proto": old}, {"a.proto": new})
        said = ["removed A.B", "removed Draft", "added A.C", "added Drafts", "compatible 1 type"]
        self.assertEqual(self.call("v1", "proto"), (2, said))
        self.assertIn("Draft was removed; was it renamed to Drafts? If that is meant: --skip Draft\n", self.advice)
        self.assertIn("A.B was removed; was it renamed to A.C? If that is meant: --skip A.B\n", self.advice)
        self.assertEqual(self.call("v1", "proto", "--skip", "Draft", "--skip", "A.B")[0], 0)
        self.assertEqual(self.call("v1", "proto", "Drafts"), (0, ["added Drafts"]))

    def test_a_type_that_moved(self):
        self.release({"a.proto": HEAD + "package p.q; message A { }"},
                     {"a.proto": HEAD + 'import public "b.proto";', "b.proto": HEAD + "package p.q; message A { }"})
        self.assertEqual(self.types("v1", "proto"), (0, ["compatible p.q.A"]))

    def test_one_name_in_two_texts(self):
        """Source files that nothing joins may declare one name."""
        self.release({"a.proto": HEAD + "message A { int32 a = 1; }", "b.proto": HEAD + "message A { bytes a = 1; }"},
                     {"a.proto": HEAD + "message A { int64 a = 1; }", "b.proto": HEAD + "message A { string a = 1; }"})
        self.assertEqual(self.types("v1", "proto"), (1, ["breaks A 3", "compatible A"]))

    def test_both_directions(self):
        self.release({"a.proto": HEAD + "message A { int32 a = 1; }"}, {"a.proto": HEAD + "message A {\n int64 a = 1;\n}"})
        fields = "A.a a.proto:2:19 A.a a.proto:3:8"
        says = [f"backward cause value 6 088080808008 1 {fields}", "  The old program reads this value as another one, or refuses it.",
                "backward breaks A 6", "forward compatible 1 type"]
        status, said = self.call("v1", "proto", "--both", "--github")
        self.assertEqual((status, said[:4]), (1, says))
        self.assertIn("file=proto/a.proto,title=protogate%3A value A.a,line=3,col=8::", said[4])
        self.assertIn("The old side reads:%0A1 a int -2147483648", said[4])
        says[2:] = [f"backward breaks A 6 witness 088080808008 at {fields}", "forward compatible A"]
        self.assertEqual(self.call("v1", "proto", "--both", "A"), (1, says))

    def test_names_of_enums(self):
        if b"--view" not in subprocess.run([PROGRAM, "gate", "--help"], stdout=subprocess.PIPE).stdout:
            self.skipTest("the program compares enums by numbers alone")
        sides = [{"a.proto": read(f"examples/changes/number_reused/{side}.proto")} for side in ("old", "new")]
        self.release(*sides)
        self.assertEqual(self.types("v1", "proto"), (0, ["compatible Invoice"]))
        status, said = self.call("v1", "proto", "--view", "names", "--github")
        self.assertEqual((status, said[:3]), (1, [
            "cause name 2 0801 1 Invoice.state a.proto:9:9 Invoice.state a.proto:9:9",
            "  The number is the same on both sides, and the enums give it other names.", "breaks Invoice 2"]))
        self.assertIn("title=protogate%3A name Invoice.state,line=9,col=9::The number is the same on both sides", said[3])
        self.assertNotIn("as another one", said[3])

    def test_annotations(self):
        self.release_orders()
        status, said = self.call("v1", "proto", "--github")
        self.assertEqual((status, len(said)), (1, 9))
        self.assertTrue(said[8].startswith("::warning file=proto/order.proto,title=protogate%3A Customer.email,"), said[8])
        self.assertIn("::error file=proto/order.proto,title=protogate%3A value Order.quantity,line=5,col=10::", said[6])
        self.assertIn("::error file=proto/order.proto,title=protogate%3A value Order.note,line=7,col=10::", said[7])
        self.assertIn("220180%0AThe old side reads:%0A4 note bytes 80%0A", said[7])
        self.assertIn("%0AThe new side refuses it: E604 at 0. The string is not UTF-8.%0AWhat to do: Give the field its old type back", said[7])
        self.assertEqual(wording.reading("old", "refused E608 at 200\n"), "The old side's reading isn't shown: E608 at 200")
        self.assertEqual(wording.annotation("a, b", "50%\n", "c:d.proto", "c:d.proto:1:2"),
                         "::error file=c%3Ad.proto,title=a%2C b,line=1,col=2::50%25%0A")


class Faults(Repository):
    def test_mistyped_names(self):
        self.release({"a.proto": HEAD + "package shop.v1; message Order { }"}, {"a.proto": HEAD + "package shop.v1; message Order { }"})
        self.assertEqual(self.call("v1", "proto", "Order"), (2, ["refused E901 Order"]))
        self.assertIn("did you mean shop.v1.Order?", self.advice)
        self.call("v1", "proto", "shop.v1.Ordr")
        self.assertIn("did you mean shop.v1.Order?", self.advice)
        self.call("v1", "proto", "Something")
        self.assertNotIn("did you mean", self.advice)
        self.assertEqual(self.call("v11", "proto"), (4, []))
        self.assertIn("git has no revision v11 here; did you mean v1?", self.advice)
        self.assertEqual(self.call("v1", "protos"), (4, []))
        self.assertIn("v1 has no folder protos; did you mean proto?", self.advice)

    def test_a_mistyped_import(self):
        self.release({"money.proto": HEAD}, {"money.proto": HEAD, "a.proto": HEAD + 'import "mony.proto"; message A { }'})
        self.assertEqual(self.call("v1", "proto"), (2, ["refused new E301 a.proto:2:8"]))
        self.assertIn("did you mean money.proto?", self.advice)
        self.assertNotIn("with protoc on the path", self.advice)

    def test_a_fault_is_told_once(self):
        texts = {"a.proto": HEAD + 'import "b.proto"; message A { }', "b.proto": HEAD + "message B { }", "c.proto": HEAD + "message C { }"}
        self.release(texts, {**texts, "b.proto": HEAD + "message B { int32 a = 0; }"})
        self.assertEqual(self.types("v1", "proto"), (2, ["refused new E401 b.proto:2:19", "compatible C"]))
        self.assertEqual(self.call("v1", "proto", "C"), (0, ["compatible C"]))
        self.assertEqual(self.call("v1", "proto", "A"), (2, ["refused new E401 b.proto:2:19"]))
        self.assertEqual(self.call("v1", "proto", "C", "A"), (2, ["refused new E401 b.proto:2:19", "compatible C"]))
        status, said = self.call("v1", "proto", "--github")
        self.assertIn("::error file=proto/b.proto,title=protogate%3A refused new E401 b.proto%3A2%3A19,line=2,col=19::", said[2])

    def release_options(self):
        sides = [{it: read(f"examples/sets/{side}/{it}") for it in ("shop.proto", "units.proto")} for side in ("old", "new")]
        self.release(*sides)

    def test_options_are_refused(self):
        self.release_options()
        said = [f"refused {side} {it}" for side in ("old", "new") for it in ("E205 shop.proto:8:21", "E204 units.proto:7:1")]
        self.assertEqual(self.call("v1", "proto", "--no-with-protoc"), (2, said))
        self.assertIn("shop.proto:8:21 isn't taken as a source file; protoc may make a set of it: gate with protoc on the path, and without "
                      "--no-with-protoc\n", self.advice)
        # What is refused of the old side isn't in the work tree.
        told = self.call("v1", "proto", "--no-with-protoc", "--github")[1][len(said):]
        self.assertEqual([" file=proto/" in it or ",line=" in it for it in told], [False, False, True, True])

    def test_a_text_that_was_refused_before(self):
        """A type isn't new that the old side has in a source file that is refused."""
        self.release({"a.proto": HEAD + "option (x) = 1; message A { }"}, {"a.proto": HEAD + "message A { }"})
        self.assertEqual(self.call("v1", "proto"), (2, ["refused old E205 a.proto:2:8"]))
        self.assertEqual(self.call("v1", "proto", "A"), (2, ["refused old E205 a.proto:2:8"]))

    @NO_PROTOC
    def test_an_import_of_the_library(self):
        """Its file that is proto2 isn't taken as a source file."""
        text = HEAD + 'import "google/protobuf/descriptor.proto"; message A { }'
        self.release({"a.proto": text}, {"a.proto": text})
        said = ["refused old E301 a.proto:2:8", "refused new E301 a.proto:2:8"]
        self.assertEqual(self.call("v1", "proto", "--no-with-protoc"), (2, said))
        self.assertIn("a.proto:2:8 imports a file of the library that isn't below the folder, ", self.advice)
        self.assertIn(" protoc may bring it: gate with protoc on the path, and without --no-with-protoc\n", self.advice)
        self.assertEqual(self.types("v1", "proto"), (0, ["compatible A"]))
        self.assertEqual(self.types("v1", "proto", "--with-protoc"), (0, ["compatible A"]))

    def test_a_protoc_without_the_library(self):
        """Debian has the library's files in another package than protoc."""
        text = HEAD + 'import "google/protobuf/descriptor.proto"; message A { }'
        self.release({"a.proto": text}, {"a.proto": text})
        says = "google/protobuf/descriptor.proto: File not found."
        self.write({"tools/protoc": f"#!/bin/sh\necho '{says}' >&2\nexit 1\n"}, self.room.name)
        os.chmod(f"{self.room.name}/tools/protoc", 0o755)
        self.assertEqual(self.call("v1", "proto", "--with-protoc", PATH=f"{self.room.name}/tools:{os.environ['PATH']}")[0], 2)
        self.assertIn(f"too: {says} (Debian has the library's files in libprotobuf-dev)\n", self.advice)

    @NO_PROTOC
    def test_one_side_by_protoc(self):
        self.release({"a.proto": HEAD + "message A { bytes a = 1 [ctype = CORD]; }"}, {"a.proto": HEAD + "message A { string a = 1; }"})
        status, said = self.call("v1", "proto", "--with-protoc")
        self.assertEqual((status, said[0], said[2:]), (1, "cause value 3 0a0180 1 A.a a.proto:2:19 A.a a.proto:2:20", ["breaks A 3"]))

    @NO_PROTOC
    def test_a_set_that_is_refused(self):
        proto2 = 'syntax = "proto2"; message B { }'
        text = HEAD + ('import "google/protobuf/descriptor.proto"; import "b.proto"; extend google.protobuf.MessageOptions { bool x = 50000; } '
                       "message A { B b = 1; }")
        self.release({"a.proto": text, "b.proto": proto2}, {"a.proto": text, "b.proto": proto2})
        status, said = self.call("v1", "proto", "--with-protoc", "--skip", "b.proto")
        self.assertEqual((status, said), (2, ["refused new import a.proto", "skipped b.proto"]))

    @NO_PROTOC
    def test_options_by_protoc(self):
        self.release_options()
        status, said = self.call("v1", "proto", "--with-protoc", "--github")
        named = "shop.Order.weight shop.proto:8:9 shop.Order.weight shop.proto:8:9"
        cause = f"cause value 6 088080808008 1 {named}"
        self.assertEqual((status, said[0], said[2]), (1, cause, "breaks shop.Order 6"))
        self.assertIn("::error file=proto/shop.proto,title=protogate%3A value shop.Order.weight,line=8,col=9::", said[3])
        named = f"breaks shop.Order 6 witness 088080808008 at {named}"
        self.assertEqual(self.call("v1", "proto", "--with-protoc", "shop.Order")[1][2:], [named])

    @NO_PROTOC
    def test_what_protoc_refuses_too(self):
        self.release({}, {"a.proto": HEAD + "option (x) = 1;", "b.proto": HEAD + 'import "b2.proto";'})
        self.assertEqual(self.call("v1", "proto", "--with-protoc"), (4, []))
        self.write({"proto/keep.proto": HEAD})
        self.git("add", ".")
        self.git("commit", "-q", "-m", "v2")
        said = ["refused old E205 a.proto:2:8", "refused old E301 b.proto:2:8"]
        self.assertEqual(self.call("HEAD", "proto", "--with-protoc"), (2, said + [it.replace("old", "new") for it in said]))
        self.assertIn("protoc refuses it on the old side, too: a.proto:2:", self.advice)
        self.assertNotIn("with protoc on the path", self.advice)

    def test_statuses(self):
        text = {"a.proto": HEAD + "message A { }"}
        self.release(text, text)
        self.assertEqual(self.call("v1", "proto", PROTOGATE="/no/such/program")[0], 127)
        self.assertIn("PROTOGATE", self.advice)
        self.assertEqual(self.call("v1", "proto", "--record", "none/run.json")[0], 3)
        self.write({"texts/README": "no text"})
        self.assertEqual(self.call("v1")[0], 4)
        self.git("add", ".")
        self.git("commit", "-q", "-m", "v2")
        self.assertEqual(self.call("HEAD", "texts")[0], 4)
        self.assertEqual(self.call("v1", "proto", "--no-such-option")[0], 4)
        self.assertEqual(self.call("--help")[0], 0)
        self.assertEqual(self.call("v1", "proto", at=self.room.name)[0], 4)
        self.assertEqual(self.call("v1", "proto", PATH=self.room.name)[0], 127)

    def answering(self, command, says, status):
        """Calls with a program that answers a command so."""
        self.write({"program": f"#!/bin/sh\ncase $1 in {command}) printf '{says}'; exit {status} ;; esac\nexec '{PROGRAM}' \"$@\"\n"})
        os.chmod(f"{self.top}/program", 0o755)
        return {"PROTOGATE": f"{self.top}/program"}

    def release_one(self):
        text = {"a.proto": HEAD + "message A { int32 a = 1; }"}
        self.release(text, text)

    cause = "cause value 2 0801 1 A.a a.proto:2:19 A.a a.proto:2:19\\nold\\n1 a int 1\\nnew\\n1 a int 1\\n"

    def test_a_program_that_says_something_else(self):
        """A status and lines that don't agree are no answer, nor are lines that aren't whole."""
        self.release_one()
        self.assertEqual(self.call("v1", "proto", **self.answering("gate-all", self.cause + "breaks A 2\\n", 1))[0], 1)
        for says, status in (
                ("compatible A\\n", 1), ("breaks A 2\\n", 1), ("breaks A 2\\n", 0), ("", 0), ("compatible A\\n", 2), ("compatible A", 0),
                (self.cause + "breaks A 2\\n", 0), (self.cause + "breaks A 2\\n", 2), (self.cause + "compatible A\\n", 1), (self.cause, 1),
                (self.cause.partition("new")[0] + "breaks A 2\\n", 1), ("breaks A 2\\n" + self.cause, 1), ("nothing\\ncompatible A\\n", 0),
                (self.cause.replace("0801", "080100") + "breaks A 2\\n", 1), (self.cause.replace(" A.a a", " A.a") + "breaks A 2\\n", 1),
                (self.cause.replace(" 1 A.a", " A.a") + "breaks A 2\\n", 1), (self.cause + "breaks A\\n", 1), ("compatible A 2\\n", 0),
                ("refused old E205 a.proto:1:1\\n", 0), ("refused old E205 a.proto:1:1\\ncompatible A\\n", 2)):
            self.assertEqual(self.call("v1", "proto", **self.answering("gate-all", says, status)), (3, []), says)

    def test_a_program_that_answers_something_else(self):
        """An answer is of all types of both sides, and of these alone."""
        self.release_one()
        for says, status in (("compatible B", 0), ("compatible A\\ncompatible A", 0), ("compatible A\\ncompatible B", 0), ("removed A", 2),
                             ("added A", 0), ("compatible A\\nadded B", 0), ("compatible A\\nremoved B", 2)):
            for words in ((), ("--both",), ("A",)):
                self.assertEqual(self.call("v1", "proto", *words, **self.answering("gate-all", f"{says}\\n", status)), (3, []), says)

    def test_a_program_that_answers_something_else_of_a_named_type(self):
        """What is said of a type alone is what was said of it among all."""
        self.release({"a.proto": HEAD + "message A { int64 a = 1; }"}, {"a.proto": HEAD + "message A { int32 a = 1; }"})
        self.assertEqual(self.call("v1", "proto", "A")[0], 1)
        own = "witness 088080808008\\nstep 1 A.a - A.a -\\nold\\nnew\\n"
        self.assertEqual(self.call("v1", "proto", "A", **self.answering("gate", f"breaks A 6\\n{own}", 1))[0], 1)
        for says, status in (("compatible A\\n", 0), (f"breaks A 5\\n{own}", 1), (f"breaks B 6\\n{own}", 1), ("breaks A 6\\n", 1),
                             (f"breaks A 6\\n{own}", 0), ("", 0), ("refused E901\\n", 2)):
            self.assertEqual(self.call("v1", "proto", "A", **self.answering("gate", says, status)), (3, []), says)

    def test_a_program_that_says_nothing(self):
        """A source file of which the program says nothing isn't one without types."""
        self.release({"a.proto": HEAD + "message A { int64 a = 1; }"}, {"a.proto": HEAD + "message A { int32 a = 1; }"})
        for does in ("exit 0", "exit 1", "exit 2", "exit 3", "echo refused; exit 2", f"'{PROGRAM}' \"$@\" | head -c 12; exit 0"):
            self.write({"program": f"#!/bin/sh\ncase $1 in compile) {does} ;; esac\nexec '{PROGRAM}' \"$@\"\n"})
            os.chmod(f"{self.top}/program", 0o755)
            self.assertEqual(self.call("v1", "proto", PROTOGATE=f"{self.top}/program"), (3, []), does)
            self.assertNotIn("Traceback", self.advice)

    @NO_PROTOC
    def test_a_type_that_says_it_is_an_entry(self):
        text = HEAD + "message T { option map_entry = true; int32 key = 1; %s value = 2; }"
        self.release({"a.proto": text % "int64"}, {"a.proto": text % "int32"})
        self.assertEqual(self.call("v1", "proto", "--with-protoc")[0], 2)

    def test_a_program_that_fails(self):
        text = {"a.proto": HEAD + "message A { }"}
        self.release(text, text)
        for does, status in (("kill -SEGV $$", 3), ("exit 4", 3), ("echo refused E001; exit 3", 3), ("echo refused E309 a.proto; exit 3", 3)):
            self.write({"program": f"#!/bin/sh\n{does}\n"})
            os.chmod(f"{self.top}/program", 0o755)
            self.assertEqual(self.call("v1", "proto", PROTOGATE=f"{self.top}/program")[0], status)


class Sets(unittest.TestCase):
    """The reader of descriptor sets, on bytes by descriptor.proto."""

    @staticmethod
    def record(number, data):
        return bytes([number << 3 | 2, len(data)]) + data

    def test_names(self):
        record = self.record
        entry = record(1, b"FooEntry") + record(7, bytes([7 << 3, 1]))
        inner = record(1, b"Inner") + record(7, bytes([3 << 3, 1]))
        outer = record(1, b"Outer") + record(3, entry) + record(3, inner)
        file = record(1, b"a.proto") + record(2, b"p.q") + record(4, outer) + record(4, record(1, b"Next")) + record(12, b"proto3")
        other = record(1, b"b.proto") + record(4, record(1, b"Bare"))
        made = record(1, other) + record(1, file)
        self.assertEqual(sets.types_in(made, "a.proto"), ["p.q.Outer", "p.q.Outer.Inner", "p.q.Next"])
        self.assertEqual(sets.types_in(made, "b.proto"), ["Bare"])
        with self.assertRaises(LookupError):
            sets.types_in(made, "c.proto")
        for cut in range(1, len(made) - len(record(1, other))):
            with self.assertRaises((LookupError, ValueError)):
                sets.types_in(made[:-cut], "a.proto")

    def test_a_type_that_says_it_is_an_entry(self):
        """The entry types of maps are nested. One that isn't is gated, and refused there."""
        record = self.record
        entry = record(1, b"T") + record(7, bytes([7 << 3, 1]))
        self.assertEqual(sets.types_in(record(1, record(1, b"a.proto") + record(4, entry)), "a.proto"), ["T"])

    def test_records(self):
        data = bytes([0x08, 0x96, 0x01, 0x11]) + bytes(8) + bytes([0x1D]) + b"abcd" + bytes([0x22, 0])
        self.assertEqual(list(sets.records(data)), [(1, 150), (2, bytes(8)), (3, b"abcd"), (4, b"")])


if __name__ == "__main__":
    if len(sys.argv) > 1 and not sys.argv[1].startswith("-"):
        PROGRAM = os.path.realpath(sys.argv.pop(1))
    run_tests.main()

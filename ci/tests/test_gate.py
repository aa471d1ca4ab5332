#!/usr/bin/env python3
"""Tests of the gate as a whole, on repositories of git: the sides, the folders, what is left out, and the statuses. The program has a stand-in."""

import contextlib
import io
import os
import shutil
import subprocess
import sys
import unittest
import zipapp
from unittest import mock

from answers import BREAKS, cause, lines, refused
from common import CI, Repository
from protogate_ci import gate

PROTO = 'syntax = "proto3";\n'
ORDER = PROTO + "message Order {\n  int32 id = 1;\n  %s quantity = 2;\n}\n"
STAND_IN = os.path.join(os.path.dirname(os.path.realpath(__file__)), "stand_in.py")


class Gate(Repository):
    def setUp(self):
        super().setUp()
        os.environ["PROTOGATE"] = STAND_IN
        os.environ["PYTHONDONTWRITEBYTECODE"] = "1"

    def gate(self, *words):
        """Gates, and returns the status. What is printed and advised is kept."""
        said, advice = io.StringIO(), io.StringIO()
        with contextlib.redirect_stdout(said), contextlib.redirect_stderr(advice), mock.patch.object(gate, "on_signals"):
            status = gate.main(list(words))
        self.said, self.advice = said.getvalue(), advice.getvalue()
        return status

    def heads(self):
        """The lines that begin a finding."""
        return [it for it in self.said.split("\n") if it and not it.startswith("  ")]

    def says(self, status, words, *heads):
        self.assertEqual((self.gate(*words), self.heads()), (status, list(heads)), self.said + self.advice)

    def versions(self, *texts, path="proto/order.proto"):
        """Commits each text as v1, v2 .., but the last one, which is in the work tree."""
        for number, text in enumerate(texts, 1):
            self.write({path: text})
            if number < len(texts):
                self.commit(f"v{number}")


class Answers(Gate):
    def test_compatible(self):
        self.versions(ORDER % "int32", ORDER % "int64")
        self.says(0, ["v1", "proto"], "compatible 1 type")
        self.says(0, ["v1", "proto", "--types"], "compatible Order")

    def test_breaks(self):
        self.versions(ORDER % "int32", ORDER % "uint32")
        self.says(1, ["v1", "proto"], "cause value Order.quantity proto/order.proto:4:10", "breaks Order")
        self.assertIn("  `int32` to `uint32`: -1 is read as 4294967295 by a new program.\n", self.said)
        self.assertIn("  What to do: Give it its type `int32` back, or keep it, add `optional uint32 quantity_new = N;` with a number N", self.said)

    def test_removed_and_added(self):
        self.versions(ORDER % "int32", PROTO + "message Ordered { int32 id = 1; }")
        self.says(2, ["v1", "proto"], "removed Order", "added Ordered")
        self.assertIn("did you mean Ordered?", self.said)
        self.says(0, ["v1", "proto", "--skip", "type:Order"], "added Ordered", "skipped type:Order")

    def test_sides_without_files(self):
        self.write({"proto/README": "none"})
        self.commit()
        self.assertEqual((self.gate("v1", "proto"), self.said), (4, ""))
        self.write({"proto/order.proto": ORDER % "int32"})
        self.says(0, ["v1", "proto"], "added Order")
        self.commit("v2")
        os.unlink("proto/order.proto")
        self.write({"proto/README": "none"})
        self.says(2, ["v2", "proto"], "removed Order")

    def test_no_message_types(self):
        self.versions(PROTO, PROTO)
        self.says(0, ["v1", "proto"], "told empty no message types")


class Sides(Gate):
    def test_each_side(self):
        self.versions(ORDER % "int32", ORDER % "uint32")
        self.git("add", "-A")
        breaks = ("cause value Order.quantity proto/order.proto:4:10", "breaks Order")
        self.says(1, ["v1", "proto", "--staged"], *breaks)
        self.commit("v2")
        self.write({"proto/order.proto": ORDER % "int32"})
        self.says(1, ["v1", "proto", "--new", "v2"], *breaks)
        self.says(0, ["v1", "proto"], "compatible 1 type")
        for tag in ("v1", "v2"):
            self.git("worktree", "add", "-q", f"{self.room}/{tag}", tag)
        self.says(1, ["--old-folder", f"{self.room}/v1", "--new-folder", f"{self.room}/v2", "proto"], *breaks)
        self.says(1, ["--old-folder", f"{self.room}/v1", "--new", "v2", "proto"], *breaks)
        self.git("checkout", "-q", "-f", "-b", "feature", "v2")
        self.says(1, ["--merge-base", "v1", "proto"], *breaks)

    def test_current_folder(self):
        """Paths are from the top wherever the call is made."""
        self.versions(ORDER % "int32", ORDER % "uint32", path="a/proto/order.proto")
        os.chdir("a")
        self.says(1, ["v1", "proto"], "cause value Order.quantity a/proto/order.proto:4:10", "breaks Order")
        os.chdir("proto")
        self.says(1, ["v1", "."], "cause value Order.quantity a/proto/order.proto:4:10", "breaks Order")

    def test_several_folders(self):
        """A type that moves from one folder to another is gated."""
        self.write({"a/order.proto": ORDER % "int32", "b/cart.proto": PROTO + 'import "order.proto";\nmessage Cart { Order order = 1; }\n'})
        self.commit()
        os.unlink("a/order.proto")
        self.write({"b/order.proto": ORDER % "uint32", "a/README": ""})
        self.says(1, ["v1", "a", "b"], "cause value Order.quantity b/order.proto:4:10", "breaks Order", "breaks Cart")

    def test_one_name_in_two_folders(self):
        self.write({"a/x.proto": ORDER % "int32", "b/x.proto": ORDER % "int32"})
        self.commit()
        self.says(0, ["v1", "a", "b"], "compatible 1 type")
        self.write({"b/x.proto": ORDER % "uint32"})
        self.says(2, ["v1", "a", "b"], "refused twice new b/x.proto", "compatible 1 type")
        self.says(2, ["v1", "a", "b", "--skip", "path:a/x.proto"], "refused twice new b/x.proto", "skipped path:a/x.proto")

    def test_includes(self):
        self.write({"a/cart.proto": PROTO + 'import "order.proto";\nmessage Cart { Order order = 1; }\n', "third/order.proto": ORDER % "int32"})
        self.commit()
        self.write({"third/order.proto": ORDER % "uint32"})
        self.says(1, ["v1", "a", "--include", "third"], "cause value Order.quantity third/order.proto:4:10", "breaks Order", "breaks Cart")
        self.says(2, ["v1", "a"], "refused E301 new order.proto")


class LeftOut(Gate):
    def test_roots(self):
        """One that can't be compiled is left out on both sides, and the others are gated."""
        self.write({"proto/a.proto": ORDER % "int32", "proto/b.proto": PROTO + "message B { int32 b = 1; }\n"})
        self.commit()
        self.write({"proto/b.proto": PROTO + "option x = 1;\nmessage B { int32 b = 1; }\n"})
        self.says(2, ["v1", "proto"], "refused E205 new proto/b.proto:2:1", "compatible 1 type")
        self.commit("v2")
        self.says(2, ["v2", "proto"], "refused E205 new proto/b.proto:2:1", "compatible 1 type")
        self.says(0, ["v2", "proto", "--skip", "path:proto/b.proto"], "skipped path:proto/b.proto", "compatible 1 type")
        self.write({"proto/b.proto": PROTO + "message B { int32 b = 1; }\n"})
        self.says(2, ["v2", "proto"], "refused E205 old proto/b.proto:2:1", "compatible 1 type")

    def test_importers(self):
        self.write({"proto/a.proto": PROTO + 'import "b.proto";\nmessage A { int32 a = 1; }\n', "proto/b.proto": "message B {}", "proto/c.proto": ORDER % "bool"})
        self.commit()
        self.says(2, ["v1", "proto", "--skip", "path:proto/b.proto"], "refused E201 new proto/b.proto:1:1", "skipped path:proto/b.proto", "compatible 1 type")
        self.assertIn("Not gated for it: proto/a.proto.", self.said)

    def test_paths(self):
        self.write({"proto/a.proto": ORDER % "int32", "proto/.b/b.proto": "x", "proto/c.PROTO": "x"})
        self.link("/nowhere.proto", "proto/l.proto")
        self.commit()
        self.assertEqual(self.gate("v1", "proto"), 2)
        self.assertEqual(self.heads(), ["refused link new proto/l.proto", "told hidden 1 files proto/.b/b.proto", "told other 1 files proto/c.PROTO",
                                        "compatible 1 type"])
        self.says(0, ["v1", "proto", "--skip", "path:proto/l.proto"], "skipped path:proto/l.proto", *self.heads()[1:])

    def test_what_the_index_has_alone(self):
        self.versions(ORDER % "int32", ORDER % "int32")
        self.write({"proto/b.proto": PROTO})
        self.git("add", "-A")
        os.unlink("proto/b.proto")
        self.says(2, ["v1", "proto"], "refused unseen new proto/b.proto", "compatible 1 type")

    def test_library(self):
        """What a folder can't show isn't taken from the library."""
        self.write({"proto/a.proto": ORDER % "int32"})
        self.link("/etc", "proto/google")
        self.commit()
        self.says(2, ["v1", "proto"], "refused link new proto/google", "compatible 1 type")
        self.says(2, ["v1", "proto", "--skip", "path:proto/google"], "refused link new proto/google", "skipped path:proto/google", "compatible 1 type")


class Failures(Gate):
    """Whatever goes wrong with the program is a 3, or a 127 where there is none."""

    def setUp(self):
        super().setUp()
        self.versions(ORDER % "int32", ORDER % "int32")

    def answers(self, data, status):
        self.write({"said": str(status).encode() + b"\n" + data}, self.room)
        os.environ["PROTOGATE_STAND_IN"] = f"{self.room}/said"
        return self.gate("v1", "proto")

    def test_what_is_printed(self):
        whole = lines(BREAKS)
        self.assertEqual(self.answers(whole, 1), 1)
        for data, status in ((whole, 0), (whole, 2), (whole, 101), (whole[:-1], 1), (whole[:40], 1), (b"", 1), (b"compatible Order\n", 0),
                             (b"\0" * 100, 0), (whole * 2, 1)):
            self.assertEqual((self.answers(data, status), self.said), (3, ""), (data[:50], status))
            self.assertIn("protogate-ci: ", self.advice)
            self.assertNotIn("Traceback", self.advice)

    def test_an_older_program(self):
        """One line says that it lacks what it is asked for, whatever it prints, and the status is one of its own."""
        self.assertEqual((self.answers(b"error: unexpected argument '--keep-going' found\n", 4), self.said), (5, ""))
        self.assertEqual(self.advice, f"protogate-ci: {STAND_IN} is too old to be asked for gate-all --keep-going: install a later protogate\n")
        bare = {key: it for key, it in cause()["old"].items() if key != "element"}
        self.assertEqual((self.answers(lines([{**cause(), "old": bare, "new": bare}, *BREAKS[1:]]), 1), self.said), (5, ""))
        self.commit("v2")
        self.write({"protogate.ini": "[gate]\nfolder = proto\nreleases = v1\n v2\n"})
        self.commit("main")
        self.assertEqual((self.gate("--base", "main"), self.said, self.advice.count("\n")), (5, "", 1))

    def test_refused(self):
        self.assertEqual(self.answers(lines([refused(side=None, code="E001", file=None, line=None, column=None, says="Out of memory.")]), 3), 3)
        self.assertEqual(self.heads(), ["refused E001 new"])

    def test_no_program(self):
        for program in (f"{self.room}/none", "/bin/true", "/bin/echo", "/"):
            os.environ["PROTOGATE"] = program
            self.assertEqual((self.gate("v1", "proto"), self.said), (127, ""), program)

    def test_wrong_calls(self):
        for words in ((), ("v1",), ("v9", "proto"), ("v1", "gone"), ("v1", "proto", "--view", "all"), ("v1", "proto", "--staged", "--new", "v1"),
                      ("v1", "proto", "--time-limit", "0"), ("v1", "proto", "--sk", "a"), ("v1", "proto", "--skip", ""), ("", "proto"), ("v1", ""),
                      ("v1", "../.."), ("--old-folder", "", "proto"), ("--merge-base", "", "proto"), ("v1", "proto", "--new", ""), ("v1", "proto", "--base", ""),
                      ("v1", "proto", "--settings", "none"), ("v1", "proto", "--base", "v9"), ("v1", "proto", "--old-set", "x")):
            self.assertEqual((self.gate(*words), self.said), (4, ""), words)
            self.assertEqual(self.advice.count("\n"), 1, self.advice)

    def test_version(self):
        self.assertEqual((self.gate("--version"), self.said), (0, "protogate 0.0.0\n"))


class Packed(Gate):
    def test_one_file(self):
        """As teams run it: one file, by `python3 -I`."""
        self.versions(ORDER % "int32", ORDER % "uint32")
        shutil.copytree(f"{CI}/protogate_ci", f"{self.room}/packed/protogate_ci", ignore=shutil.ignore_patterns("__pycache__"))
        zipapp.create_archive(f"{self.room}/packed", f"{self.room}/gate.pyz", main="protogate_ci.__main__:start")
        for words, status in ((["v1", "proto"], 1), (["v2", "proto"], 4), (["--help"], 0), (["v1", "proto", "--skip", "type:Order"], 0)):
            done = subprocess.run([sys.executable, "-I", "-B", f"{self.room}/gate.pyz", *words], stdout=subprocess.PIPE, stderr=subprocess.PIPE,
                                  env={**os.environ, "LC_ALL": "C"}, stdin=subprocess.DEVNULL)
            self.assertEqual((done.returncode, b"Traceback" in done.stderr), (status, False), done.stderr)


class Long(Gate):
    def test_many_files(self):
        """More files than a command line holds are gated together, so that nothing that moves between them is missed."""
        folder = "/".join("x" * 200 for _ in range(10))
        files = {f"proto/{folder}/{it:04}.proto": PROTO + f"message M{it} {{ int32 a = 1; }}\n" for it in range(1100)}
        self.write(files)
        self.commit()
        first, last = sorted(files)[0], sorted(files)[-1]
        self.write({last: files[last] + "message M0 { bool a = 1; }\n", first: PROTO})
        self.says(1, ["v1", "proto"], f"cause value M0.a {last}:3:19", "breaks M0", "compatible 1099 types")


if __name__ == "__main__":
    unittest.main()

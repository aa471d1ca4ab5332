#!/usr/bin/env python3
"""Tests of methods whose request or reply has another type now: the old type and the new one are gated as a pair. They need protoc."""

import shutil
import subprocess
import unittest
from unittest import mock

from test_gate import PROTO, Gate
from protogate_ci import methods, sets

OLD = PROTO + "package shop;\nmessage A {\n  int32 x = 1;\n}\n%sservice S {\n  rpc Get(A) returns (A);\n}\n"
NEW = PROTO + "package shop;\nmessage A {\n  int32 x = 1;\n}\nmessage B {\n  %s y = 1;\n}\nservice S {\n  rpc Get(%s) returns (%s);\n}\n"
WARNING = "warning method-changed shop.S.Get proto/a.proto:10:7"


@unittest.skipUnless(shutil.which("protoc"), "this needs protoc")
class Pairs(Gate):
    def two(self, element, request="B", reply="A"):
        self.write({"proto/a.proto": OLD % ""})
        self.commit()
        self.write({"proto/a.proto": NEW % (element, request, reply)})

    def breaks(self, *words):
        self.gate("v1", "proto", *words)
        return [it for it in self.heads() if it.startswith("breaks")]

    def test_a_request(self):
        """The type that the method takes now reads what it took."""
        self.two("uint32")
        self.says(1, ["v1", "proto"], "cause value shop.A.x proto/a.proto:7:10", "breaks shop.S.Get request", "added shop.B", WARNING,
                  "compatible 1 type")
        self.assertIn("  It was `shop.A` and is `shop.B` now. The shortest message that breaks has 11 bytes.\n", self.said)
        self.assertIn("Number 1 was `x` and is `y` now, `int32` to `uint32`: -1 is read as 4294967295 by a new program.", self.said)
        self.two("int64")
        self.says(0, ["v1", "proto"], "added shop.B", WARNING, "compatible 1 type")
        self.says(0, ["v1", "proto", "--types"], "added shop.B", WARNING, "compatible shop.A", "compatible shop.S.Get request")

    def test_directions(self):
        """As of any type: those that are said for the old one or the new one."""
        self.two("int64", "A", "B")
        self.assertEqual(self.breaks(), [])
        self.assertEqual(self.breaks("--compatibility", "forward"), ["breaks shop.S.Get reply (forward)"])
        self.assertIn(WARNING, self.heads())
        for pattern, breaks in (("*.B", ["breaks shop.S.Get reply (forward)"]), ("*.A", ["breaks shop.S.Get reply (forward)"]), ("*.C", [])):
            self.write({"protogate.ini": f"[for type:{pattern}]\ncompatibility = forward\n"})
            self.commit("main")
            self.assertEqual(self.breaks("--base", "main"), breaks)

    def test_what_is_skipped(self):
        """A pair is left out by its name, and by that of the new type: that the old one is removed is no reason."""
        self.two("uint32")
        for name, status in (("shop.A", 1), ("shop.B", 0), ("shop.S.Get request", 0), ("shop.S.Get reply", 1)):
            self.assertEqual(self.gate("v1", "proto", "--skip", f"type:{name}"), status, name)

    def test_named_types(self):
        self.two("uint32")
        self.assertEqual(self.gate("v1", "proto", "--type", "shop.B"), 1)
        self.assertEqual(self.gate("v1", "proto", "--type", "shop.A"), 0)
        self.says(4, ["v1", "proto", "--type", "shop.a"], "refused type shop.a", WARNING)
        self.assertIn("Neither side has such a type; did you mean shop.", self.said)
        for words in (("--skip", "shop.A"), ("--skip", "type:shop.A")):
            self.assertEqual((self.gate("v1", "proto", "--type", "shop.A", *words), self.said), (4, ""))
        self.assertEqual(self.gate("v1", "proto", "--type", "shop.A", "--skip", "path:shop.A"), 0)

    def test_files_and_folders(self):
        """The types are in other files, whose names need marks, and one root is refused."""
        self.write({"a/it's.proto": PROTO + "message A {\n  int32 x = 1;\n}\n", "b/refused.proto": PROTO + "option x = 1;\n"})
        self.write({"b/s.proto": PROTO + 'import "it\'s.proto";\nservice S {\n  rpc Get(A) returns (A);\n}\n'})
        self.commit()
        self.write({"b/b.proto": PROTO + "message B {\n  bool x = 1;\n}\n",
                    "b/s.proto": PROTO + 'import "b.proto";\nservice S {\n  rpc Get(B) returns (B);\n}\n'})
        self.assertEqual(self.gate("v1", "a", "b"), 2)
        self.assertEqual([it for it in self.heads() if it.startswith("breaks")], ["breaks S.Get request", "breaks S.Get reply"], self.said)

    def test_sets(self):
        for name, text in (("old", OLD % ""), ("new", NEW % ("uint32", "B", "B"))):
            self.write({f"{name}/a.proto": text})
            subprocess.run(["protoc", f"-I{name}", f"--descriptor_set_out={name}.pb", "a.proto"], check=True)
        self.assertEqual(self.gate("--old-set", "old.pb", "--new-set", "new.pb"), 1)
        self.assertEqual(self.heads()[:3], ["cause value shop.A.x", "breaks shop.S.Get request", "breaks shop.S.Get reply"])
        self.assertEqual(self.gate("--old-set", "old.pb", "--new-folder", "new", "."), 1)
        self.assertEqual(self.heads()[0], "cause value shop.A.x a.proto:7:10")

    def test_what_is_not_known(self):
        """A pair that can't be gated is refused."""
        self.two("uint32")
        with mock.patch.object(methods, "called", return_value=(2, b"")):
            self.says(2, ["v1", "proto"], "refused method new proto/a.proto:10:7", "added shop.B", WARNING, "compatible 1 type")
        with mock.patch.object(methods, "called", return_value=(0, b"\x0a\x05x")):
            self.assertEqual(self.gate("v1", "proto"), 2)


class Lengths(unittest.TestCase):
    def test_lengths(self):
        for length in (0, 1, 127, 128, 16383, 16384, 2_097_151, 2_097_152):
            self.assertEqual(methods.inner(len(sets.encoded(1, bytes(length)))), length)


if __name__ == "__main__":
    unittest.main()

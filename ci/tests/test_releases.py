#!/usr/bin/env python3
"""Tests of directions and releases: who reads whose messages, by type and folder, and what is told once of several releases; and of warnings."""

import json
import unittest

from test_gate import ORDER, PROTO, Gate

ONE = PROTO + "message A {\n  %s a = 1;\n}\n"
CAUSE = "cause value A.a proto/a.proto:3:%d"


class Directions(Gate):
    def two(self, old, new):
        self.versions(ONE % old, ONE % new, path="proto/a.proto")

    def test_words(self):
        """backward: new programs read old messages. forward: old programs read new ones."""
        self.two("int32", "int64")
        for word in ("backward", "backward-transitive"):
            self.says(0, ["v1", "proto", "--compatibility", word], "compatible 1 type")
        for word in ("forward", "forward-transitive", "full", "full-transitive"):
            self.says(1, ["v1", "proto", "--compatibility", word], CAUSE % 9 + " (forward)", "breaks A (forward)")
        self.assertIn("`int32` to `int64`", self.said)
        self.two("int64", "int32")
        self.says(1, ["v1", "proto", "--compatibility", "backward"], CAUSE % 9, "breaks A")
        self.says(0, ["v1", "proto", "--compatibility", "forward"], "compatible 1 type")
        self.two("int32", "uint32")
        self.says(1, ["v1", "proto", "--compatibility", "full"], CAUSE % 10 + " (backward)", CAUSE % 10 + " (forward)", "breaks A (backward)",
                  "breaks A (forward)")

    def test_removed_and_added(self):
        """They are those of the sides, whoever writes."""
        self.versions(PROTO + "message A { int32 a = 1; }\nmessage Gone { int32 a = 1; }\n", PROTO + "message A { int32 a = 1; }\nmessage Come { int32 a = 1; }\n")
        for word in ("backward", "forward", "full"):
            self.assertEqual(self.gate("v1", "proto", "--compatibility", word), 2)
            self.assertEqual(self.heads()[:2], ["removed Gone", "added Come"])

    def test_sides_of_faults(self):
        """A fault is of the side that has it, whoever writes."""
        self.versions(ONE % "int32", PROTO + "option x = 1;\n", path="proto/a.proto")
        for word in ("backward", "forward", "full"):
            self.says(2, ["v1", "proto", "--compatibility", word], "refused E205 new proto/a.proto:2:1")

    def test_types(self):
        """Requests are read by new programs, and replies by old ones."""
        both = PROTO + "message GetRequest {\n  %s a = 1;\n}\nmessage GetReply {\n  %s a = 1;\n}\n"
        self.versions(both % ("int32", "int64"), both % ("int64", "int32"), path="proto/a.proto")
        self.write({"protogate.ini": "[for type:*Reply]\ncompatibility = forward\n"})
        self.commit("main")
        self.says(0, ["v1", "proto", "--base", "main"], "compatible 2 types")
        self.says(1, ["v1", "proto", "--no-settings"], "cause value GetReply.a proto/a.proto:6:9", "breaks GetReply",
                  "told settings protogate.ini protogate.ini", "compatible 1 type")
        self.write({"protogate.ini": "[for type:*Request]\ncompatibility = forward\n[for type:*Get*]\ncompatibility = full\n"})
        self.commit("main")
        self.assertEqual(self.gate("v1", "proto", "--base", "main"), 1)
        self.assertEqual([it for it in self.heads() if it.startswith("breaks")], ["breaks GetReply (backward)", "breaks GetRequest (forward)"])

    def test_folders(self):
        """Those of a folder are the types that its files declare or import."""
        self.write({"proto/in/a.proto": ONE % "int32", "proto/out/b.proto": (ONE % "int32").replace("A", "B")})
        self.commit()
        self.write({"proto/in/a.proto": ONE % "int64", "proto/out/b.proto": (ONE % "int64").replace("A", "B"),
                    "protogate.ini": "[for path:proto/out]\ncompatibility = full\n"})
        self.commit("main")
        self.says(1, ["v1", "proto", "--base", "main"], "cause value A.a proto/in/a.proto:3:9 (forward)", "cause value B.a proto/out/b.proto:3:9 (forward)",
                  "breaks B (forward)", "compatible 1 type")
        self.write({"proto/out/b.proto": "option"})
        self.assertEqual(self.gate("v1", "proto", "--base", "main"), 2)
        self.assertIn("refused E201 new proto/out/b.proto:1:1", self.heads())


class Releases(Gate):
    def releases(self, *texts, said="v1\n v2\n v3", more=""):
        self.versions(*texts, path="proto/a.proto")
        self.write({"protogate.ini": f"[gate]\nfolder = proto\nreleases = {said}\n{more}"})
        self.commit("main")

    def test_once(self):
        """A cause that several releases have is told once, and since when."""
        self.releases(ONE % "int64", ONE % "int32", ONE % "int32", ONE % "uint32")
        self.says(1, ["--base", "main"], CAUSE % 10 + " (in v1)", CAUSE % 10 + " (since v2)", "breaks A (since v1)")
        self.releases(ONE % "int32", ONE % "uint32", ONE % "int32", ONE % "uint32", said="v*")
        self.says(1, ["--base", "main"], CAUSE % 10 + " (in v1 and v3)", "breaks A (in v1 and v3)")
        self.releases(ONE % "int32", ONE % "uint32", ONE % "int32", ONE % "uint32", said="v*\n last 1")
        self.says(1, ["--base", "main"], CAUSE % 10, "breaks A")

    def test_from_release_to_release(self):
        """Each step is compatible, and the first to the last breaks."""
        two = PROTO + "message A {\n  int32 b = 2;\n%s}\n"
        texts = (two % "  int32 a = 1;\n", two % "", two % "  string a = 1;\n")
        self.releases(*texts, said="v1\n v2")
        self.assertEqual(self.gate("--base", "main"), 1)
        self.assertEqual(self.heads()[:2], ["cause unlike A.a proto/a.proto:4:10 (in v1)", "breaks A (in v1)"])
        self.assertEqual(self.gate("--base", "main", "--compatibility", "backward-transitive"), 1)
        self.says(0, ["--base", "main", "--compatibility", "backward"], "told releases v1", "compatible 1 type")
        self.assertIn("Not gated: backward is about the last release alone.", self.said)

    def test_transitive_by_type(self):
        two = PROTO + "message A {\n  %s a = 1;\n}\nmessage B {\n  %s a = 1;\n}\n"
        more = "compatibility = backward\n[for type:B]\ncompatibility = backward-transitive\n"
        self.releases(two % ("int32", "int32"), two % ("uint32", "uint32"), two % ("uint32", "uint32"), said="v1\n v2", more=more)
        self.assertEqual(self.gate("--base", "main"), 1)
        self.assertEqual([it for it in self.heads() if it.startswith("breaks")], ["breaks B (in v1)"])

    def test_what_one_release_lacks(self):
        """One that can't be gated stops no other, and what was found is written."""
        self.releases(ONE % "int32", ONE % "int32", ONE % "uint32", said="v1\n v2")
        self.git("rm", "-rq", "proto")
        self.write({"other": ""})
        self.commit("v2")
        self.git("checkout", "-q", "refs/tags/main", "--", "proto")
        path = f"{self.room}/run.json"
        self.says(4, ["--base", "main", "--record", path], CAUSE % 10 + " (in v1)", "refused stopped v2", "breaks A (in v1)")
        with open(path, encoding="utf-8") as file:
            self.assertEqual([it["kind"] for it in json.load(file)["findings"]], ["cause", "refused", "breaks"])
        self.assertIn("v2 has no folder proto", self.said)

    def test_removed(self):
        self.releases(ORDER % "int32" + "message Gone { int32 a = 1; }\n", ORDER % "int32", ORDER % "int32", said="v1\n v2")
        self.says(2, ["--base", "main"], "removed Gone (in v1)", "compatible 1 type")


class Warnings(Gate):
    OLD = PROTO + "message A {\n  string first = 1;\n  string last = 2;\n  int32 gone = 3;\n}\n"
    NEW = PROTO + "message A {\n  string last = 1;\n  string first = 2;\n}\n"

    def test_exchanged_numbers(self):
        """They break no message, and are told loudly."""
        self.versions(self.OLD, self.NEW)
        heads = ["warning field-renamed A.first proto/order.proto:3:10", "warning field-renamed A.last proto/order.proto:4:10",
                 "warning number-unreserved A.gone old proto/order.proto:5:9"]
        self.says(0, ["v1", "proto"], *heads, "compatible 1 type")
        self.assertIn("`A.first` and `A.last` exchanged their numbers 1 and 2: each program takes one for the other", self.said)
        self.assertIn("Write `reserved 3;`.", self.said)

    def test_strict(self):
        """A kind that is strict fails, in each direction; `all` is each kind."""
        self.versions(self.OLD, self.NEW)
        for words, status in ((("--strict", "field-renamed"), 2), (("--strict", "all"), 2), (("--strict", "method-gone"), 0),
                              (("--strict", "all", "--compatibility", "forward"), 2), (("--strict", "number-unreserved", "--strict", "method-gone"), 2)):
            self.assertEqual(self.gate("v1", "proto", *words), status, words)
        self.write({"protogate.ini": "[gate]\nstrict = number-unreserved\n"})
        self.commit("main")
        self.assertEqual(self.gate("v1", "proto", "--base", "main"), 2)
        self.assertEqual(self.gate("v1", "proto", "--base", "main", "--skip", "type:A"), 0)

    def test_kinds(self):
        """A kind that there isn't would never fail."""
        self.versions(self.OLD, self.NEW)
        self.assertEqual((self.gate("v1", "proto", "--strict", "renamed"), self.said), (4, ""))
        self.assertIn("did you mean", self.advice)
        self.write({"protogate.ini": "[gate]\nstrict = reserved\n"})
        self.commit("main")
        self.assertEqual(self.gate("v1", "proto", "--base", "main"), 4)

    def test_once(self):
        self.versions(self.OLD, self.OLD, self.NEW)
        self.write({"protogate.ini": "[gate]\nfolder = proto\nreleases = v*\n"})
        self.commit("main")
        self.assertEqual(self.gate("--base", "main"), 0)
        self.assertEqual([it.rpartition(" (")[2] for it in self.heads() if it.startswith("warning")], ["since v1)"] * 3)


if __name__ == "__main__":
    unittest.main()

#!/usr/bin/env python3
"""Tests of what a hostile change or an odd call did once, which isn't in the other tests: a yes where there is none, or what shuts users out."""

import datetime
import json
import os
import stat
import sys
import unittest
from unittest import mock

sys.path.insert(0, os.path.dirname(os.path.dirname(os.path.realpath(__file__))))
from answers import cause, field, kind, lines, readings  # noqa: E402
from test_gate import ORDER, PROTO, Gate  # noqa: E402
from protogate_ci import snapshot  # noqa: E402

CAUSE = "cause value Order.quantity proto/order.proto:4:10"
FILES = ("record", "sarif", "junit", "code-quality", "page")


class Lengths(Gate):
    def test_a_oneof_of_many_fields(self):
        """It is one cause, and each form has it once: 60 fields have made 32 MB of JSON and 33 MB of a page."""
        self.versions(ORDER % "int32", ORDER % "int32")
        others = [{"number": it, "old": field(f"Order.f{it}"), "new": field(f"Order.f{it}")} for it in range(3, 62)]
        text = "".join(f"{it} f{it} int 1\n" for it in range(2, 62))
        one = cause("Order.f2", "int32", "int32", "oneof", others=others)
        said = lines([one, *readings(text, "61 f61 int 1\n"), kind("breaks", "Order", length=4)])
        self.write({"said": b"1\n" + said}, self.room)
        os.environ["PROTOGATE_STAND_IN"] = f"{self.room}/said"
        paths = {name: f"{self.room}/{name}" for name in FILES}
        self.assertEqual(self.gate("v1", "proto", "--github", *(word for name, path in paths.items() for word in (f"--{name}", path))), 1)
        self.assertLess((len(self.said), self.said.count("\n")), (4000, 10))
        for name, path in paths.items():
            with open(path, encoding="utf-8") as file:
                self.assertLess(len(file.read()), 40_000, name)


class Paths(Gate):
    def test_skips_begin_at_the_top(self):
        """A path counts from the top of the repository, wherever the call is made and whatever it gates."""
        self.write({"a/proto/order.proto": ORDER % "int32", "a/proto/b.proto": PROTO + "message B { int32 b = 1; }\n"})
        self.commit()
        self.write({"a/proto/b.proto": "none"})
        skipped = ("--skip", "path:a/proto/b.proto")
        for folder, words in (("", ["a/proto"]), ("a", ["proto"]), ("a/proto", ["."])):
            os.chdir(f"{self.top}/{folder}")
            self.says(0, ["v1", *words, *skipped], "skipped path:a/proto/b.proto", "compatible 1 type")
        self.says(2, ["v1", ".", "--skip", "path:b.proto"], "refused E201 new a/proto/b.proto:1:1", "told skip path:b.proto", "compatible 1 type")
        self.assertIn("did you mean a/proto/b.proto?", self.said)

    def test_attributes_above_the_folder(self):
        """They count for both sides alike, and no filter runs."""
        self.write({"proto/order.proto": ORDER % "int32", "other/a.proto": ORDER % "int32", ".gitattributes": "*.proto filter=x text eol=crlf\n"})
        self.git("config", "filter.x.smudge", f"touch '{self.room}/ran'; cat")
        self.git("config", "filter.x.clean", f"touch '{self.room}/ran'; cat")
        self.commit()
        os.remove(f"{self.room}/ran")
        for side in ([], ["--staged"], ["--new", "v1"]):
            self.says(0, ["v1", "proto", *side], "compatible 1 type")
        self.write({"proto/order.proto": (ORDER % "uint32").replace("\n", "\r\n")})
        self.assertEqual(self.gate("v1", "proto"), 1)
        self.assertFalse(os.path.exists(f"{self.room}/ran"))
        self.write({".gitattributes": "proto/* working-tree-encoding=UTF-16LE\n", "proto/order.proto": (ORDER % "int32").encode("utf-16-le")})
        self.commit("v2")
        self.assertEqual(self.gate("v2", "proto", "--new", "v2"), 2)
        self.assertIn("has another encoding in a checkout", self.said)

    def test_a_folder_that_is_a_link(self):
        """What it leads to is gated, by its own path."""
        self.write({"api/proto/order.proto": ORDER % "int32"})
        self.link("api/proto", "proto")
        self.commit()
        self.write({"api/proto/order.proto": ORDER % "uint32"})
        self.says(1, ["v1", "proto"], "cause value Order.quantity api/proto/order.proto:4:10", "breaks Order")

    def test_words_that_are_said_twice(self):
        self.versions(ORDER % "int32", ORDER % "uint32")
        self.says(1, ["v1", "proto", "proto", "./proto"], CAUSE, "breaks Order")
        self.says(1, ["v1", "proto", "--type", "Order", "--type", "Order"], CAUSE, "breaks Order")
        self.says(0, ["v1", "proto", "--skip", "Order", "--skip", "type:Order"], "skipped Order", "skipped type:Order")


class Sides(Gate):
    def test_a_hook(self):
        """It sees what is staged, and not what is in the work tree."""
        self.versions(ORDER % "int32", ORDER % "uint32")
        self.says(0, ["v1", "proto", "--staged"], "compatible 1 type")
        self.git("add", "-A")
        self.write({"proto/order.proto": ORDER % "int32"})
        self.says(1, ["v1", "proto", "--staged"], CAUSE, "breaks Order")
        self.says(0, ["v1", "proto"], "compatible 1 type")

    def test_two_revisions(self):
        self.versions(ORDER % "int32", ORDER % "uint32", ORDER % "int32")
        self.says(1, ["v1", "proto", "--new", "v2"], CAUSE, "breaks Order")
        self.says(0, ["v1", "proto"], "compatible 1 type")


class Settings(Gate):
    SKIP = "[skip %s]\nreason = Nobody stores it.\nuntil = 2099-01-01\n"

    def test_a_change_that_brings_settings(self):
        """It leaves out nothing for itself, until the target branch has them; and one without an end is none."""
        self.versions(ORDER % "int32", ORDER % "uint32")
        soon = self.SKIP.replace("2099-01-01", (datetime.date.today() + datetime.timedelta(days=9)).isoformat())
        self.write({"protogate.ini": soon % "Order"})
        self.says(1, ["v1", "proto"], CAUSE, "breaks Order", "told settings protogate.ini protogate.ini")
        self.commit("main")
        self.says(0, ["v1", "proto", "--base", "main"], "skipped Order")
        self.assertIn("Nobody stores it.", self.said)
        self.says(1, ["v1", "proto", "--no-settings"], CAUSE, "breaks Order", "told settings protogate.ini protogate.ini")
        self.assertEqual(self.gate("v1", "proto", "--base", "main", "--type", "Order"), 4)
        self.write({"protogate.ini": self.SKIP % "Order"})
        self.commit("main")
        self.assertEqual(self.gate("v1", "proto", "--base", "main"), 4)
        self.assertIn("until is at most 366 days ahead", self.advice)

    def test_a_folder_that_a_change_brings(self):
        """A skip of a type is none of a folder by its name: what is both says neither."""
        self.write({"proto/order.proto": ORDER % "int32", "a.proto": PROTO + "message draft { int32 a = 1; }\n"})
        self.commit()
        self.write({"draft/order.proto": ORDER % "uint32"})
        os.remove("proto/order.proto")
        self.assertEqual(self.gate("v1", ".", "--skip", "draft"), 4)
        self.assertIn("--skip draft is the name of a type and of a path: write type:draft or path:draft", self.advice)
        self.says(1, ["v1", ".", "--skip", "type:draft"], "cause value Order.quantity draft/order.proto:4:10", "breaks Order", "skipped type:draft")

    def test_one_cause_that_is_accepted(self):
        """A later break of the same type, or of the same field in another way, isn't."""
        two = PROTO + "message Order {\n  %s a = 1;\n  %s b = 2;\n}\n"
        self.versions(two % ("int32", "int32"), two % ("uint32", "int32"))
        self.assertEqual(self.gate("v1", "proto", "--write-baseline", f"{self.room}/base"), 1)
        self.says(0, ["v1", "proto", "--baseline", f"{self.room}/base"], "accepted value Order.a proto/order.proto:3:10")
        for later in (("uint32", "uint32"), ("uint64", "int32"), ("string", "int32")):
            self.write({"proto/order.proto": two % later})
            self.assertEqual(self.gate("v1", "proto", "--baseline", f"{self.room}/base"), 1, later)


class Records(Gate):
    def test_a_run_that_stops(self):
        """It is in each form that is asked for, with its status."""
        self.versions(ORDER % "int32", ORDER % "int32")
        for words, most, status in ((["v1", "gone"], 100, 4), (["v1", "proto"], 2, 3), (["v1", "proto"], 100, 0)):
            path = f"{self.room}/run.json"
            with mock.patch.object(snapshot, "MOST_OF_ALL", most):
                self.assertEqual(self.gate(*words, "--record", path), status)
            with open(path, encoding="utf-8") as file:
                said = json.load(file)
            self.assertEqual((said["status"], [it["rule"] for it in said["findings"]]), (status, ["stopped"] if status else [""]))
            os.remove(path)

    def test_what_a_change_has_in_their_place(self):
        """A link isn't followed, to a tool that runs next or elsewhere, and a file of the change is no page of ours."""
        self.write({"tool": "a tool"}, self.room)
        self.versions(ORDER % "int32", ORDER % "uint32")
        for name in FILES:
            self.link(f"{self.room}/tool", f"{name}.link")
            self.link(self.room, f"{name}.folder")
            self.write({f"{name}.file": "forged"})
            for path in (f"{name}.link", f"{name}.folder/made"):
                self.assertEqual(self.gate("v1", "proto", f"--{name}", path), 4, path)
                self.assertIn("isn't written", self.advice)
            self.assertEqual(self.gate("v1", "proto", f"--{name}", f"{name}.file"), 1)
            with open(f"{name}.file", encoding="utf-8") as file:
                self.assertNotIn("forged", file.read())
        self.assertEqual(sorted(os.listdir(self.room)), ["a repository", "tool"])
        with open(f"{self.room}/tool", encoding="utf-8") as file:
            self.assertEqual((file.read(), stat.S_IMODE(os.lstat(f"{self.room}/tool").st_mode) & 0o111), ("a tool", 0))


if __name__ == "__main__":
    unittest.main()

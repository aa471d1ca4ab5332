#!/usr/bin/env python3
"""Tests of how an answer of the program is read: one that isn't whole, or that contradicts itself, is a failure and never a yes."""

import json
import unittest

from answers import BREAKS, cause, field, kind, left_out, lines, note, readings, refused
import common  # noqa: F401
from protogate_ci import answers
from protogate_ci.running import Stop

ROOTS = {"old": ["a.proto", "order.proto"], "new": ["a.proto", "order.proto"]}


class Answers(unittest.TestCase):
    def read(self, objects, status):
        return answers.read(objects if isinstance(objects, bytes) else lines(objects), status, ROOTS)

    def broken(self, objects, status, words=""):
        with self.assertRaises(Stop) as stopped:
            self.read(objects, status)
        self.assertEqual(stopped.exception.status, 3)
        self.assertIn(words, str(stopped.exception))
        self.assertTrue(str(stopped.exception).isprintable())
        self.assertLess(len(str(stopped.exception)), 700)


class Whole(Answers):
    def test_all_kinds(self):
        said = self.read([*BREAKS, kind("removed", "Gone"), kind("added", "Come"), left_out(), note()], 2)
        self.assertEqual(said.types, {"Order": ("breaks", 11), "Customer": ("compatible", None), "Gone": ("removed", None), "Come": ("added", None)})
        self.assertEqual([list(it["readings"]) for it in said.of("cause")], [["old", "new"]])
        self.assertEqual(([it["root"] for it in said.of("left-out")], [it["what"] for it in said.of("note")]), (["a.proto"], ["number-unreserved"]))

    def test_statuses(self):
        for objects, status in (([], 0), ([kind("compatible", "A")], 0), ([kind("added", "A")], 0), (BREAKS, 1), ([kind("removed", "A")], 2),
                                ([left_out()], 2), ([refused()], 2), ([refused(side=None, code="E001")], 3), ([refused(code="E309")], 3),
                                ([note()], 0)):
            self.read(objects, status)
            for other in {0, 1, 2, 3, 4, 5, 101, 127, -9} - {status}:
                self.broken(objects, other, "the program ended with")

    def test_names(self):
        """Names are as they are, also those that aren't UTF-8 or printed."""
        for name in ("ünïcode", "a\nb", '"\\', "\u202e", "\udcff", "::error::", "</script>", "\0"):
            self.assertEqual(list(self.read([kind("compatible", name)], 0).types), [name])

    def test_more_keys(self):
        """A later program may say more."""
        self.read([{**it, "later": [1]} for it in BREAKS], 1)

    def test_sides_without_positions(self):
        bare = {"name": "Order.quantity", "element": "int32", "file": None, "line": None, "column": None}
        self.read([{**cause(), "old": bare, "new": bare, "others": [{"number": 3, "old": bare, "new": bare}]}, *BREAKS[3:]], 1)

    def test_an_older_program(self):
        """It doesn't say the types of a cause: that is told, with a status of its own."""
        bare = {"name": "Order.quantity", "file": None, "line": None, "column": None}
        with self.assertRaisesRegex(Stop, "the program doesn't say the types of a field that breaks: install a later protogate") as stopped:
            self.read([{**cause(), "old": bare, "new": bare}, *BREAKS[3:]], 1)
        self.assertEqual(stopped.exception.status, answers.TOO_OLD)


class NotWhole(Answers):
    def test_cut(self):
        """An answer that is cut anywhere is none, but at the end of the lines that change no status."""
        whole = lines(BREAKS)
        last = whole[:-1].rindex(b"\n") + 1
        for at in [it for it in range(len(whole)) if it != last]:
            self.broken(whole[:at], 1)

    def test_no_objects(self):
        for line in (b"", b"null", b"[]", b"1", b'"cause"', b"{}", b"{", b'{"kind":"compatible"}', b'{"kind":"compatible","type":null}',
                     b'{"kind":["compatible"],"type":"A"}', b'{"kind":"later","type":"A"}', b'{"kind":"compatible","type":"A"} {}',
                     b"[" * 100_000, b"compatible A", b'\xef\xbb\xbf{"kind":"compatible","type":"A"}', b"\0", b'{"kind":"later"}',
                     b'{"kind":"compatible","type":"\\ud800"}', b'{"kind":"compatible","type":"\\udfff\\udc00"}'):
            self.broken(line + b"\n", 0)

    def test_wrong_values(self):
        for more in ({"why": None}, {"length": True}, {"length": "11"}, {"length": 1 << 64}, {"length": 1.5}, {"message": 1}, {"number": None},
                     {"old": None}, {"new": {"name": 1}}, {"others": None}, {"others": [None]}, {"others": {}}, {"number": []},
                     {"others": [{"old": field("A.a")}]}, {"old": {**field("A.a"), "line": "5"}}, {"old": {**field("A.a"), "file": 1}}):
            self.broken([{**cause(), **more}, *BREAKS[3:]], 1)
        for objects in ([left_out(side="both")], [left_out(root=None)], [left_out(code=None)], [refused(line="1")], [note(what=None)],
                        [note(old="A")], [note(number=1 << 64)], [note(number=True)], [note(now="1")], [kind("breaks", "A", length=None)],
                        [left_out(sentence=None)], [kind("declared", "A"), kind("compatible", "B")]):
            self.broken(objects, 2)

    def test_contradictions(self):
        for objects, status in ((BREAKS[:3], 1), (BREAKS[3:], 1), ([*BREAKS, kind("compatible", "Order")], 1), ([*BREAKS, kind("removed", "Order")], 2),
                                ([*BREAKS, refused()], 2), ([refused(), refused()], 2), ([left_out(), left_out()], 2),
                                ([left_out(root="b.proto")], 2), ([left_out(root="./a.proto")], 2), ([readings()[0], *BREAKS[3:]], 1),
                                ([cause(), readings()[0], *BREAKS[3:]], 1), ([cause(), readings()[1], readings()[0], *BREAKS[3:]], 1),
                                ([cause(), *readings(), *readings(), *BREAKS[3:]], 1), ([cause(), kind("breaks", "Order", length=1), *readings()], 1),
                                ([refused(), left_out()], 2), ([note(), refused()], 2)):
            self.broken(objects, status)

    def test_long(self):
        """A long answer takes a time that grows with its length alone, and a long word isn't printed whole."""
        self.broken(b'{"kind":"' + b"x" * 5_000_000 + b'"}\n', 0)
        many = lines([kind("compatible", f"A{it}") for it in range(50_000)])
        self.assertEqual(len(self.read(many, 0).types), 50_000)
        self.assertEqual(json.loads(many.split(b"\n")[7])["type"], "A7")


if __name__ == "__main__":
    unittest.main()

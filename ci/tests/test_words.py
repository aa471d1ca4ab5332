#!/usr/bin/env python3
"""Tests of the sentences: what changed, which value is misread, and what to do. The readings are those of docs/COMPATIBILITY.md, by the program."""

import unittest

import common  # noqa: F401
from protogate_ci import words
from protogate_ci.asking import BACKWARD, FORWARD, Cause, Field, Place

AT = Place("proto/a.proto", 4, 9)


def cause(why, old, new, was="", now="", direction=BACKWARD, number=1, names=("A.a", "A.a"), more=()):
    fields = ((number, Field(names[0], old, AT), Field(names[1], new, AT)), *more)
    return Cause(direction, why, "08", number, fields, {"old": was, "new": now})


class Sentences(unittest.TestCase):
    def says(self, it, sentence, mend=None, moved=None):
        self.assertEqual(words.why(it), sentence)
        if mend:
            self.assertIn(mend, words.mend(it, moved))
        for said in (words.why(it), words.mend(it)):
            self.assertTrue(said.isprintable() and said[0].upper() == said[0] and said.endswith("."), said)

    def test_values(self):
        for old, new, was, now, sentence in (
                ("int32", "uint32", "1 change int -1", "1 change int 4294967295", "-1 is read as 4294967295 by a new program"),
                ("int64", "int32", "1 a int 2147483648", "1 a int -2147483648", "2147483648 is read as -2147483648 by a new program"),
                ("int32", "bool", "1 a int 2", "1 a int 1", "2 is read as true by a new program"),
                ("bool", "sint32", "1 a int 1", "1 a int -1", "true is read as -1 by a new program"),
                ("bytes", "string", "1 text bytes 80", "refused E604 at 0", "a message with the bytes 80 is refused by a new program (E604)"),
                ("string", "bool", "1 a text 61", "", '"a" is lost to a new program'),
                ("float", "fixed32", "1 a f32 3f800000", "1 a int 1065353216", "1.0 is read as 1065353216 by a new program"),
                ("double", "fixed64", "1 a f64 3ff0000000000000", "1 a int 4607182418800017408", "1.0 is read as 4607182418800017408 by a new program"),
                ("M", "string", "1 a msg\n  2 b int 1", "1 a text 1001", 'a message is read as "\\u0010\\u0001" by a new program')):
            self.says(cause("value", old, new, was + "\nagain 00\n", now + "\nagain 00\n"), f"`{old}` to `{new}`: {sentence}.")

    def test_directions(self):
        it = cause("value", "int32", "int64", "1 a int 0\n", "1 a int 4294967296\n", FORWARD)
        self.says(it, "`int32` to `int64`: 4294967296 is read as 0 by an old program.", "Give it its type `int32` back")

    def test_lists(self):
        was = "1 a int 1\n1 a int 2\nagain 0801\n"
        self.says(cause("list-to-one", "int32", "int32", was, "1 a int 2\n"),
                  "A list became a single field: of 1 and 2 a new program keeps only 2.", "Make `a` a list again")
        self.says(cause("list-to-one", "int32", "int32", was, "unknown 0a020102\n"),
                  "A list became a single field: 1 and 2 are lost to a new program.", "Make `a` a list again")
        self.says(cause("list-to-one", "int32", "int32", "1 a int 2\n", was, FORWARD), "A single field became a list: of 1 and 2 an old program keeps "
                  "only 2.", "Make `a` a single field again")

    def test_numbers_that_went_to_another_field(self):
        it = cause("unlike", "string", "int32", "2 last text 61\n", "unknown 120161\n", number=2, names=("A.last", "A.first"))
        self.says(it, 'Number 2 was `last` and is `first` now, `string` to `int32`: "a" is lost to a new program.',
                  "Give `last`, which is at 1 now, number 2 back, and `first` a number that no field has had.", 1)
        self.says(it, words.why(it), "Give `last` number 2 back, and `first` a number")

    def test_oneofs(self):
        more = ((2, Field("A.gross", "int32", AT), Field("A.gross", "int32", AT)),)
        it = cause("oneof", "int32", "int32", "1 net int 1\n2 gross int 1\n", "2 gross int 1\n", names=("A.net", "A.net"), more=more)
        self.says(it, "`net` and `gross` come into one oneof: of those that a message has, a new program keeps one alone.",
                  "Take `net` and `gross` out of the oneof.")
        self.says(it._replace(direction=FORWARD), "`net` and `gross` leave their oneof: of those that a message has, an old program keeps one alone.",
                  "Leave `net` and `gross` in their oneof.")
        many = it._replace(fields=tuple((at, Field(f"A.f{at}", "int32", AT), Field(f"A.f{at}", "int32", AT)) for at in range(60)))
        self.assertIn("`f7` and 52 more", words.why(many))
        self.assertLess(len(words.mend(many)), 200)

    def test_maps_and_names(self):
        was, now = "1 a key int -1 value int 1\n", "1 a key int 4294967295 value int 1\n"
        self.says(cause("map-key", "map<int32,int32>", "map<uint32,int32>", was, now), "`map<int32,int32>` to `map<uint32,int32>`: the entry key int -1 "
                  "value int 1 is read as the entry key int 4294967295 value int 1 by a new program.", "add `map<uint32,int32> a_new = N;`")
        self.says(cause("name", "State", "State", "1 a int 1\n", "1 a int 1\n"), "The enums give a number other names.", "old name back")

    def test_without_readings(self):
        """Where no value shows it, a general sentence says what goes wrong."""
        self.says(cause("unlike", "int32", "string"), "`int32` to `string`: " + words.WHY["unlike"] + ".", "Give it its type `int32` back, or keep it, add "
                  "`optional string a_new = N;`")
        for why in words.WHY:
            self.says(cause(why, "int32", "string"), words.why(cause(why, "int32", "string")))

    def test_hostile_values(self):
        """A value of a message is shown so that nothing in it is more than letters."""
        for item in ("text " + "\n::error::".encode().hex(), "text " + "a".encode().hex() * 10_000, "text zz", "text ff", "int x", "int " + "9" * 5000,
                     "f32 00", "f64 ", "bytes " + "00" * 10_000, "odd \x1b[0m", "text " + "\u202e##[error]".encode().hex(), "-", "key"):
            shown = words.shown(item, "string")
            self.assertTrue(shown.isprintable() and len(shown) < 200 and "##[" not in shown, shown)


class Notes(unittest.TestCase):
    def note(self, what, number=1, old="A.a", new="A.b", now=None, **more):
        sides = {"old": old and Field(old, None, AT), "new": new and Field(new, None, AT._replace(line=7))}
        return words.note({"what": what, "number": number, "now": now, **sides}, more.get("is_strict", False), more.get("others", {}))

    def test_kinds(self):
        for what in words.NOTES:
            it = self.note(what, now=2)
            self.assertEqual((it.kind, it.rule, it.status, it.level, it.place.line), ("warning", what, 0, "warning", 7))
            self.assertNotIn("{", it.says)
            self.assertEqual((self.note(what, is_strict=True).status, self.note(what, is_strict=True).level), (2, "error"))

    def test_exchanged_numbers(self):
        others = {("A", 1): 2, ("A", 2): 1}
        self.assertIn("`A.first` and `A.last` exchanged their numbers 1 and 2", self.note("field-renamed", 1, "A.first", "A.last", 2, others=others).says)
        self.assertIn("Number 1 was `A.first` and is `A.last` now", self.note("field-renamed", 1, "A.first", "A.last", 2, others={("B", 2): 1}).says)

    def test_one_side_and_later_kinds(self):
        it = self.note("number-unreserved", 3, "A.gone", None)
        self.assertEqual((it.subject, it.place, it.says.endswith("Write `reserved 3;`.")), ("A.gone", AT, True))
        self.assertEqual(self.note("later {old.__class__}").says, "`A.a` changed (later {old.__class__}).")
        self.assertEqual(self.note("odd", None, None, None).subject, "odd")


if __name__ == "__main__":
    unittest.main()

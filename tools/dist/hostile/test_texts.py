#!/usr/bin/env python3
"""Tests of examples/ci/gate.sh on source files of any bytes, however long: what it does with them ends soon, and decides nothing else.

usage: tools/dist/hostile/test_texts.py [PROGRAM]    by default the program that was built

What is wanted follows from the rules of the language. The limits of time are far above what a scan takes that goes once through a file, and far
below what one takes that goes through the rest of it at each step.
"""

import os
import sys
import tempfile
import time
import unittest
from unittest import mock

sys.dont_write_bytecode = True
sys.path.append(f"{os.path.dirname(os.path.realpath(__file__))}/..")
import test_ci  # noqa: E402
from test_ci import HEAD, spent  # noqa: E402
from test_ci_trees import NARROW, WIDE, Trees  # noqa: E402
import calls  # noqa: E402
import cuts  # noqa: E402
import excerpts  # noqa: E402
import places  # noqa: E402
import reading  # noqa: E402
import roots  # noqa: E402
import sides  # noqa: E402
import tokens  # noqa: E402

# As many bytes as a source file may have, and as are tried here.
MOST, LONG = 4194304, 1 << 20
# A pattern that goes through the rest at each step takes many minutes or hours for the same.
SECONDS = 60


def filled(unit, head=b"", tail=b"", size=LONG):
    """So many bytes, of one unit again and again."""
    return (head + unit * (size // len(unit) + 1))[: size - len(tail)] + tail


# Each of these ends in a step, or goes on to the end of the file, in a way that a pattern may try anew at each byte.
TEXTS = {
    "comments after a word": filled(b"/**/", b"message ", b" ;"),
    "words before comments": filled(b"message/**/"),
    "words before line comments": filled(b"message//m\n"),
    "open comments": filled(b"/* "),
    "open comments after words": filled(b"message /* "),
    "escaped quotes in an open string": filled(b'\\"', b'"'),
    "open strings": filled(b"\"\n'\n"),
    "strings": filled(b'"a" '),
    "strings of an import": filled(b'"a" ', b"import "),
    "imports": filled(b"import "),
    "imports with strings": filled(b'import"a";'),
    "line comments": filled(b"//\n"),
    "backslashes": filled(b"\\"),
    "braces": b"{" * (LONG // 2) + b"}" * (LONG // 2),
    "messages in messages": b"message a{" * 100000,
    "digits": filled(b"1"),
    "semicolons": filled(b";"),
    "semicolons and spaces": filled(b" ", b";") + filled(b" ;"),
    "zeros": filled(b"\0"),
    "bytes": bytes(range(256)) * (LONG // 256),
    "one line": filled(b"x"),
    "line feeds": filled(b"\n"),
    "spaces after a word": filled(b" ", b"message"),
    "words": filled(b"ab "),
}


class Scans(unittest.TestCase):
    """Each scan of the script, on each of the source files."""

    def setUp(self):
        room = tempfile.TemporaryDirectory()
        self.addCleanup(room.cleanup)
        self.room, self.path = room.name, f"{room.name}/x.proto"

    def each(self, scan):
        for name, text in TEXTS.items():
            with open(self.path, "wb") as file:
                file.write(text)
            before = time.process_time()
            scan()
            self.assertLess(time.process_time() - before, SECONDS, name)

    def test_what_a_file_may_declare(self):
        def scan():
            side = sides.Side.__new__(sides.Side)
            side.folder, side.refused, side.names = self.room, {"x.proto"}, {}
            self.assertFalse(side.may_declare("p.Order"))
        self.each(scan)

    def test_imports(self):
        self.each(lambda: reading.Reading(self.room).read_imports(["x.proto"]))

    def test_positions(self):
        self.each(lambda: self.assertEqual(places.places_of(tokens.read(self.path), {"A": mock.Mock(kind="enum", parts={})}), {}))

    def test_imports_of_the_library(self):
        root = mock.Mock(folder=self.room, walk=mock.Mock(texts=["x.proto"]))
        self.each(lambda: roots.may_import_library([root]))

    def test_the_first_statement(self):
        self.each(lambda: self.assertFalse(roots.is_proto3(self.path)))

    def test_lines(self):
        def scan():
            excerpts.lines_of.cache_clear()
            excerpts.ENDS.clear()
            lines = excerpts.lines_of(self.path)
            self.assertLessEqual(len(lines[0] or ""), excerpts.MOST_IN_LINE)
        self.each(scan)


class Words(unittest.TestCase):
    """What is said in lines, and names that are compared."""

    def test_a_line_with_many_positions(self):
        """Each path may end where another one goes on."""
        paths = [("a:1:1 n " * count).strip() for count in range(1, 500)]
        before = time.process_time()
        cuts.fields_in(" ".join(f"x {it}:1:1" for it in paths[-4:]), paths, paths, 2)
        self.assertLess(time.process_time() - before, SECONDS)
        self.assertEqual(cuts.fields_in("x a:1:1 b:1:1 y - ", ["a"], ["a"], 1), None)
        fields = cuts.fields_in("x a:1:1 y b c:2:3:4:5", ["a"], ["b c:2:3"], 1)
        self.assertEqual(fields, [{"old": "x", "old_place": "a:1:1", "new": "y", "new_place": "b c:2:3:4:5"}])

    def test_two_ways_to_cut_a_line(self):
        self.assertIsNone(cuts.fields_in("x a:1:1 n b:1:1 n b:1:1", ["a", "a:1:1 n b"], ["b", "b:1:1 n b"], 1))

    def test_names_that_are_alike(self):
        """Of many long names, and of a very long one, none is guessed."""
        names = [format(it * 0x9E3779B97F4A7C15 % (1 << 90), "090b").replace("0", "a").replace("1", "b") for it in range(1, 30000)]
        before = time.process_time()
        with mock.patch.multiple(calls.Guess, words=calls.Guess.words, pairs=calls.Guess.pairs):
            for word in names[:20]:
                calls.nearest(word + "a", names)
            calls.nearest("a" * MOST, ["b" * MOST, "a" * (MOST - 1)])
        self.assertLess(time.process_time() - before, SECONDS)

    def test_a_name_that_is_meant(self):
        self.assertEqual(calls.nearest("Ordr", ["Customer", "Order", "Orders"]), "Order")
        self.assertEqual(calls.nearest("Order", ["Ordr", "shop.v1.Order"]), "shop.v1.Order")
        self.assertIsNone(calls.nearest("Order", ["Customer"]))


class Meaning(unittest.TestCase):
    """What the scans find is what the language says."""

    def test_imports(self):
        text = (b'syntax = "proto3"; // import "no.proto";\n/* import "no.proto" */ import /* a */ public "a." /* b */ \'proto\';\n'
                b'option x = "import \\" import"; option y = "no.proto"; import weak"c\\x2e\\160roto"; my_import "no.proto";')
        self.assertEqual([path for path, _ in tokens.imports_in(text)], [b"a.proto", b"c.proto"])
        self.assertEqual([text[at : at + 4] for _, at in tokens.imports_in(text)], [b'"a."', b'"c\\x'])

    def test_names(self):
        """Where something isn't closed, any word may be a name."""
        text = b'message /* a */ // b\n X { message Y { } } // message Z\n option x = "message \\"W"; enum V { }'
        self.assertEqual(tokens.names_in(text), {b"X", b"Y"})
        for more in (b"/* ", b' "', b" '"):
            self.assertLessEqual({b"X", b"Y", b"Z", b"W", b"V"}, tokens.names_in(more + text) | tokens.names_in(text + more), more)
            self.assertIn(b"Z", tokens.names_in(text + more), more)

    def test_positions_beside_options(self):
        """What only a set may have is passed over: values of options in braces, and extensions."""
        text = (b'syntax = "proto3"; extend google.protobuf.FieldOptions { string x = 50000; }\noption (o) = { a: "}"; b { c: 1; }; };\n'
                b'message A { option (p) = { a: [1, 2]; };; int32 a = 1 [(x) = "=;", (q) = { b: 1; }];\n int32 b = 2; }')
        made = mock.Mock(kind="message", parts={})
        made.name = "A"
        for number, name in ((1, "a"), (2, "b")):
            made.parts[number] = mock.Mock()
            made.parts[number].name = name
        found = places.places_of(text, {"A": made})
        self.assertEqual(found[("field", "A.b", 2)], (4, 8))
        self.assertEqual(found[("field", "A.a", 1)], (3, text.split(b"\n")[2].index(b" a = 1") + 2))


class Whole(Trees):
    """What the script answers."""

    def setUp(self):
        super().setUp()
        self.release({"a.proto": WIDE % "A"}, {"a.proto": WIDE % "A"})

    def test_a_file_that_is_too_long(self):
        """It is refused by its size, with what imports it, and isn't read on either side, wherever it is."""
        text, size = HEAD + 'import "x.proto"; message I { }', 500 * MOST
        self.write({"proto/i.proto": text, "proto/x.proto": b"", "third/x.proto": b""})
        for path in ("proto/x.proto", "third/x.proto"):
            with open(f"{self.top}/{path}", "wb") as file:
                file.truncate(size)
        refused = "refused new E108 x.proto:1:1"
        before = spent()
        self.assertEqual(self.types("v1", "proto"), (2, [refused, "compatible p.A"]))
        self.assertEqual(self.types("v1", "proto", "p.A"), (2, [refused, "compatible p.A"]))
        self.assertEqual(self.types("v1", "proto", "--skip", "x.proto", "--skip", "i.proto"), (0, ["skipped x.proto", "skipped i.proto", "compatible p.A"]))
        os.remove(f"{self.top}/proto/x.proto")
        said = ["refused new E108 third/x.proto:1:1", "compatible p.A"]
        self.assertEqual(self.types("v1", "proto", "--include", "third"), (2, said))
        os.rename(f"{self.top}/third/x.proto", f"{self.top}/proto/data.bin")
        self.write({"proto/i.proto": text.replace("x.proto", "data.bin")})
        self.assertEqual(self.types("v1", "proto"), (2, ["refused new E108 data.bin:1:1", "compatible p.A"]))
        self.assertLess(spent() - before, 2 * SECONDS)

    def test_a_file_that_was_too_long(self):
        self.write({"proto/x.proto": filled(b"\0", size=5 * MOST)})
        self.commit()
        os.remove(f"{self.top}/proto/x.proto")
        self.assertEqual(self.types("v1", "proto"), (2, ["refused old E108 x.proto:1:1", "compatible p.A"]))

    def test_the_longest_file(self):
        """One of just as many bytes as the program takes is read."""
        for more, said in ((0, (1, ["breaks p.A 6"])), (1, (2, ["refused new E108 a.proto:1:1"]))):
            text = (NARROW % "A").encode()
            self.write({"proto/a.proto": text + b" " * (MOST - len(text) + more)})
            self.assertEqual(self.types("v1", "proto"), said)

    def test_imports_that_lead_out(self):
        """They aren't opened: some never end."""
        os.mkfifo(f"{self.top}/proto/pipe")
        self.link("pipe", "proto/link")
        self.write({"out.proto": WIDE % "O"})
        paths = ("/dev/zero", "\\x2fdev\" /* a */ \"/zero", "../out.proto", "b/../../out.proto", "link", "a" * 300000, "a\\0b",
                 f"{self.top}/out.proto")
        for path in paths:
            self.write({"proto/b.proto": f'{HEAD}import "{path}"; message B {{ }}', "proto/c.proto": HEAD + 'import "b.proto"; message C { }'})
            with self.subTest(path[:40]):
                self.assertEqual(self.types("v1", "proto"), (2, ["refused new E301 b.proto:2:8", "compatible p.A"]))
        self.write({"proto/b.proto": HEAD + '// import "/dev/zero";\noption java_package = "import \\"../a.proto";', "proto/c.proto": HEAD})
        self.assertEqual(self.types("v1", "proto"), (0, ["compatible p.A"]))

    def test_a_line_that_is_too_long(self):
        """It isn't in the record, however many causes are in it."""
        fields = " ".join(f"int64 a{it} = {it};" for it in range(1, 201))
        for side in ("int64", "int32"):
            self.write({"proto/a.proto": f"{HEAD}package p; message A {{ {fields} }}".replace("int64", side)})
            if side == "int64":
                self.commit()
        record = self.record("v1", "proto")
        self.assertEqual(len(record["causes"]), 200)
        self.assertEqual({it["fields"][0]["old_text"] for it in record["causes"]}, {None})

    def test_many_long_paths(self):
        """The names of all files are too long for one call."""
        folder = "/".join(letter * 250 for letter in "abcdefghijklm")
        self.write({f"proto/{folder}/{it}.proto": WIDE % f"T{it}" for it in range(700)})
        status, said = self.call("v1", "proto")
        self.assertEqual((status, said[-1]), (0, "compatible 1 type"))

    def test_hostile_files(self):
        """A type that is named isn't hidden by a file of any bytes, and none takes long."""
        for name in ("comments after a word", "open comments", "escaped quotes in an open string", "strings of an import"):
            self.write({"proto/b.proto": HEAD.encode() + TEXTS[name][: LONG // 4]})
            before = spent()
            status, said = self.types("v1", "proto", "p.A")
            self.assertLess(spent() - before, 2 * SECONDS, name)
            self.assertEqual((status, said[-1]), (0, "compatible p.A"), name)


if __name__ == "__main__":
    if len(sys.argv) > 1 and not sys.argv[1].startswith("-"):
        test_ci.PROGRAM = os.path.realpath(sys.argv.pop(1))
    test_ci.run_tests.main()

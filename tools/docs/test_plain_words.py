#!/usr/bin/env python3
"""Tests of tools/docs/plain_words.py, on small folders of their own.

usage: tools/docs/test_plain_words.py    less than a second
"""

import contextlib
import io
import os
import sys
import tempfile
import unittest
from unittest import mock

sys.dont_write_bytecode = True
sys.path.append(f"{os.path.dirname(os.path.realpath(__file__))}/../gate")
import plain_words  # noqa: E402
import run_tests  # noqa: E402
from test_gate import text_of, write  # noqa: E402

GOOD = "# A page\n\nEach field has a number, and the reader takes it from the tag. The number comes first.\n"
BAD = GOOD + "\nThe number stands in the tag.\n"


class Folder(unittest.TestCase):
    def setUp(self):
        room = tempfile.TemporaryDirectory()
        self.addCleanup(room.cleanup)
        self.top = room.name
        patched = mock.patch.object(plain_words, "TOP", self.top)
        patched.start()
        self.addCleanup(patched.stop)
        self.write("tools/docs/plain_words.txt", "# None.\n")

    def write(self, path, text):
        write(f"{self.top}/{path}", text)

    def run_on(self, *words):
        said = io.StringIO()
        with contextlib.redirect_stdout(said):
            status = plain_words.main(words)
        return status, said.getvalue().splitlines()

    def lines_of(self, path, text):
        """The words that are ruled out in a file of this content, each with its line."""
        self.write(path, text)
        return [tuple(it.split(":")[1:3]) for it in self.run_on(f"{self.top}/{path}")[1][:-1]]


class Limits(Folder):
    def test_a_good_folder(self):
        self.write("docs/A.md", GOOD)
        self.assertEqual(self.run_on("--compare")[0], 0)
        self.assertEqual(self.run_on(f"{self.top}/docs")[0], 0)

    def test_a_bad_folder(self):
        self.write("docs/A.md", BAD)
        for words in (("--compare",), (f"{self.top}/docs",)):
            status, said = self.run_on(*words)
            self.assertEqual((status, said[0]), (1, "docs/A.md:5: stands: The number stands in the tag."), words)

    def test_another_limit(self):
        self.write("docs/A.md", BAD)
        self.assertEqual(self.run_on("--limit", "100", "--compare")[0], 0)
        self.assertEqual(self.run_on("--limit", "10", f"{self.top}/docs")[0], 1)

    def test_pages_and_comments_are_apart(self):
        self.write("docs/A.md", GOOD * 100)
        self.write("tools/a.py", "# What stands here.\n")
        status, said = self.run_on("--compare")
        self.assertEqual((status, said[0]), (1, "tools/a.py:1: stands: What stands here."))
        self.assertRegex(said[1], r"^comments: 'stands' 333\.33 times")


class Listed(Folder):
    def test_what_is_listed_is_not_held(self):
        self.write("docs/A.md", BAD)
        self.write("docs/B.md", GOOD)
        self.write("tools/docs/plain_words.txt", "docs/A.md\n")
        self.assertEqual(self.run_on("--compare")[0], 0)

    def test_what_need_not_be_listed(self):
        self.write("docs/A.md", GOOD)
        self.write("docs/B.md", BAD)
        self.write("tools/docs/plain_words.txt", "# Those.\ndocs/A.md\ndocs/B.md\ndocs/C.md\n")
        status, said = self.run_on("--compare")
        self.assertEqual((status, [it.split()[1] for it in said]), (1, ["docs/A.md", "docs/C.md"]))
        self.run_on("--write")
        self.assertEqual(text_of(f"{self.top}/tools/docs/plain_words.txt"), "# Those.\ndocs/B.md\n")
        self.assertEqual(self.run_on("--compare")[0], 0)


class Prose(Folder):
    def test_a_page(self):
        text = "A text.\n\n```\na text\n```\n\nThe `text` of [a text](text.md), behind\nit.\n"
        self.assertEqual(self.lines_of("a.md", text), [("1", " text"), ("7", " behind"), ("7", " text")])

    def test_a_man_page(self):
        text = '.\\" A text.\n.TP\n.B text\nA text of \\fItext\\fR.\n.nf\na text\n.fi\n.SH TEXT\n'
        self.assertEqual(self.lines_of("a.1", text), [("1", " text"), ("4", " text"), ("4", " text"), ("8", " text")])

    def test_scripts(self):
        text = '"""A text.\n\nA text."""\nx = "a text"  # A text.\nf(help="a text")\n\ndef text():\n    """A text."""\n'
        self.assertEqual([it for it, _ in self.lines_of("a.py", text)], ["1", "3", "4", "5", "8"])
        text = '#!/bin/text text\n# A text.\necho "# text" text ${#text}  # a text\n'
        self.assertEqual([it for it, _ in self.lines_of("a.sh", text)], ["2", "3"])

    def test_sources(self):
        text = "//! A text.\nlet text = \"// text\";  // a text\n/* A\n * text. */\nlet c = '\"'; // text\n"
        self.assertEqual([it for it, _ in self.lines_of("a.rt", text)], ["1", "2", "4", "5"])
        self.assertEqual([it for it, _ in self.lines_of("a.antt", "-- a text\ntext --text\nx = text -- a text\n")], ["1", "2", "3"])

    def test_help(self):
        self.assertEqual([it for it, _ in self.lines_of(plain_words.HELP, "/// A text.\nconst TEXT: &str = \"A text,\na text\";\n")], ["1", "2", "3"])

    def test_rightful_words(self):
        for words in ("It stands for\nnothing.", "plain text", "a text file", "in place of it", "It takes place.", "a blank line", "the home folder",
                      "understands", "text-like", "See text.md.", "Of `a\ntext` it says so.", "the same of each"):
            self.assertEqual(self.lines_of("a.md", f"{words}\n"), [], words)

    def test_words_over_two_lines(self):
        self.assertEqual(self.lines_of("a.md", "messages in one\nanother\n"), [("1", " in one another")])

    def test_comments_without_a_subject(self):
        self.assertEqual([it for it, _ in self.lines_of("a.rt", "// Those of b.\nf();\n// It has\n// Those of c.\nf();\n/// The same of d.\n")], ["1", "6"])


if __name__ == "__main__":
    run_tests.main()

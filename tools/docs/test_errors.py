#!/usr/bin/env python3
"""Tests of tools/docs/errors.py, on a small repository of its own, and of the sentences of this one.

usage: tools/docs/test_errors.py    less than a second
"""

import contextlib
import io
import os
import sys
import tempfile
import unittest
from unittest import mock

sys.dont_write_bytecode = True
sys.path.append(f"{os.path.dirname(os.path.realpath(__file__))}/../gate")
import errors  # noqa: E402
import run_tests  # noqa: E402
from test_gate import TOP, text_of, write  # noqa: E402

sys.path.insert(0, f"{TOP}/examples/ci")
import codes  # noqa: E402
import refusals  # noqa: E402

SOURCE = """//! Why.
/// Why it isn't read.
pub enum LexError {
    /// E001: memory was refused.
    #[error("Out of memory.")]
    Memory,
    /// E101: one.
    #[error("The first `\\"x\\"`, at byte {at}, is bad.")]
    First { at: usize },
    /// E104: four.
    #[error("A bound is bad at field {number}.")]
    Bound { number: u32 },
    /// E150: another error's.
    #[error(transparent)]
    Other(Other),
}

impl LexError {
    pub fn code(self) -> u16
        ensures { result ≡ code_of self }
    {
        match self {
            LexError::Memory => 1,
            LexError::First { .. } => 101,
            LexError::Bound { .. } => 104,
            LexError::Other(it) => it.code(),
        }
    }

    fn rank(self) -> u16 {
        match self {
            LexError::Memory => 9,
        }
    }
}
"""
ROW = "| {} | old | {} | {} |\n"
PAGE = "# Errors\n\n## Files\n\n" + ROW.format("E101", "Its first byte", "Read the [page](a.md) (see below).") + "\n## Others\n\n" + ROW.format(
    "E001", "none", "Have more.") + ROW.format("E104 NUMBER", "none", "The same.")
MANUAL = f".SH ERRORS\n{errors.BEGIN}.B E999\n{errors.END}.SH NEXT\n"


class Room(unittest.TestCase):
    def setUp(self):
        room = tempfile.TemporaryDirectory()
        self.addCleanup(room.cleanup)
        self.top = room.name
        patched = mock.patch.object(errors, "TOP", self.top)
        patched.start()
        self.addCleanup(patched.stop)
        for path, text in (("crates/pg_lex/src/error.rt", SOURCE), (errors.PAGE, PAGE), (errors.MANUAL, MANUAL), (errors.TABLE, ""), (errors.SPEC, ""), (errors.CODE, "")):
            write(f"{self.top}/{path}", text)

    def run_with(self, word):
        said = io.StringIO()
        with contextlib.redirect_stdout(said), contextlib.redirect_stderr(said):
            status = errors.main([word])
        return status, said.getvalue().splitlines()

    def changed(self, path, old, new):
        text = text_of(f"{self.top}/{path}")
        self.assertIn(old, text)
        write(f"{self.top}/{path}", text.replace(old, new))


class Sources(Room):
    def test_sentences_codes_and_positions(self):
        found, faults = errors.errors()
        self.assertEqual(faults, [])
        self.assertEqual({code: (it.sentence, it.position) for code, it in found.items()}, {
            1: ("Out of memory.", "none"), 101: ('The first `"x"` is bad.', "line"), 104: ("A bound is bad at field NUMBER.", "none")})

    def test_positions_in_bytes(self):
        self.assertEqual([it.position for it in errors.errors_of("pg_wire", SOURCE)], ["none", "byte", "none"])

    def test_two_wordings(self):
        write(f"{self.top}/crates/pg_x/src/a/error.rt", SOURCE.replace("Out of memory.", "No memory."))
        self.assertIn("crates/pg_x/src/a/error.rt: E001 says 'No memory.', and elsewhere 'Out of memory.'", self.run_with("--compare")[1])


class Files(Room):
    def test_what_is_written_is_the_same(self):
        self.assertEqual(self.run_with("--compare")[0], 1)
        self.assertEqual(self.run_with("--write")[0], 0)
        self.assertEqual(self.run_with("--compare")[0], 0)
        self.assertEqual(text_of(f"{self.top}/{errors.MANUAL}"), (
            f'.SH ERRORS\n{errors.BEGIN}.SS Files\n.TP\n.B E101\nThe first \\fB"x"\\fR is bad.\n.SS Others\n.TP\n.B E001\nOut of memory.\n'
            f'.TP\n.BI E104 " NUMBER"\nA bound is bad at field NUMBER.\n{errors.END}.SH NEXT\n'))
        made = {}
        exec(text_of(f"{self.top}/{errors.TABLE}"), made)
        self.assertIn('if code == 101 then codes "The first `\\"x\\"` is bad."\n', text_of(f"{self.top}/{errors.SPEC}"))
        self.assertIn('        104 => "A bound is bad at field NUMBER.",\n', text_of(f"{self.top}/{errors.CODE}"))
        self.assertNotIn("memory", text_of(f"{self.top}/{errors.SPEC}") + text_of(f"{self.top}/{errors.CODE}"))
        self.assertEqual(made["ERRORS"], {"E001": ("Out of memory.", "Have more."), "E101": ('The first `"x"` is bad.', "Read the page."),
                                          "E104": ("A bound is bad at field NUMBER.", "Have more.")})

    def test_each_file_is_compared(self):
        self.run_with("--write")
        for path, old in ((errors.PAGE, "Out of memory."), (errors.MANUAL, "Out of memory."), (errors.TABLE, "Read the page."),
                          (errors.SPEC, "A bound"), (errors.CODE, "A bound"),
                          ("crates/pg_lex/src/error.rt", "Out of memory.")):
            before = text_of(f"{self.top}/{path}")
            self.changed(path, old, "Something else.")
            self.assertEqual(self.run_with("--compare")[0], 1, path)
            write(f"{self.top}/{path}", before)
        self.assertEqual(self.run_with("--compare")[0], 0)

    def test_rows(self):
        """A code has one row, and a row has a code and its position."""
        self.run_with("--write")
        for old, new, fault in (("| E001 |", "| E002 |", "docs/ERRORS.md lacks E001"), ("| E001 |", "| E002 |", "docs/ERRORS.md has E002, which no crate has"),
                                ("| E001 |", "| E101 |", "docs/ERRORS.md has E101 twice"),
                                ("| Its first byte |", "| none |", "docs/ERRORS.md says another position of E101 than its variant: line")):
            self.changed(errors.PAGE, old, new)
            status, said = self.run_with("--compare")
            self.assertEqual(status, 1)
            self.assertIn(fault, said)
            self.changed(errors.PAGE, new, old) if "E101" not in new else write(f"{self.top}/{errors.PAGE}", PAGE)
            self.run_with("--write")

    def test_lines_of_a_man_page(self):
        self.assertEqual(errors.roff(r".a-b `c\d`"), r"\&.a\-b \fBc\ed\fR")
        self.changed(errors.MANUAL, errors.END, "")
        with self.assertRaises(SystemExit):
            self.run_with("--compare")

    def test_what_the_program_never_prints(self):
        self.changed(errors.PAGE, "## Others", f"## {errors.UNPRINTED}")
        self.run_with("--write")
        self.assertNotIn("E001", text_of(f"{self.top}/{errors.MANUAL}"))
        self.assertNotIn("E001", text_of(f"{self.top}/{errors.TABLE}"))
        self.assertIn("Out of memory.", text_of(f"{self.top}/{errors.PAGE}"))


class Sentences(unittest.TestCase):
    """What users read of each error."""

    def test_each_is_one_sentence_and_says_what_to_do(self):
        self.assertGreater(len(codes.ERRORS), 60)
        for code in codes.ERRORS:
            self.assertRegex(refusals.sentences_on(code), r"^[A-Z\[][^{}]*\. What to do: [A-Z`].*\.$", code)
            self.assertNotRegex(refusals.sentences_on(code), r"\(see|see below|\]\(|at byte", code)

    def test_the_name_that_was_called(self):
        self.assertIn("protogate-ci --include", refusals.mend_of("E301", "protogate-ci"))
        self.assertEqual((refusals.sentences_on("E999"), refusals.sentence_of(None), refusals.mend_of("submodule")), ("", "", ""))


if __name__ == "__main__":
    run_tests.main()

#!/usr/bin/env python3
"""Tests of tools/docs/costs_table.py, on a small repository of its own.

usage: tools/docs/test_costs_table.py    less than a second
"""

import contextlib
import io
import os
import sys
import tempfile
import unittest
from unittest import mock

sys.dont_write_bytecode = True
sys.path.append(f"{os.path.dirname(os.path.realpath(__file__))}/../gate")
import costs_table  # noqa: E402
import pictures  # noqa: E402
import run_tests  # noqa: E402
import times  # noqa: E402
from parts import Part  # noqa: E402
from test_gate import text_of, write  # noqa: E402

CRATES = "pg_low:\npg_other: # of the kit alone\npg_high: pg_low pg_other\nprotogate: pg_high\nrows_low: pg_low kit_rows\nkit_rows:\npromises_low: pg_low\n"
COSTS = {
    "pg_low": (900, 300, 0, 0),
    "pg_other": (200, 4, 0, 0),
    "pg_high": (70, 0, 0, 0),
    "protogate": (6, 0, 0, 8),
    "rows_low": (5, 0, 0, 9),
    "kit_rows": (1, 0, 0, 0),
    "promises_low": (2, 3, 0, 0),
    "testers": (0, 0, 0, 1000),
    "others": (0, 0, 0, 50),
}
SAID = f"It {costs_table.SENTENCE.format(3, 1580)}."
BEFORE, AFTER = f"# Limits\n\n{SAID}\n\n{costs_table.HEAD}\n", "\nAnd more.\n\n| another | table |\n"
WANTED = """|---|---|---|---|---|---|
| `pg_low`, `pg_other` | 1,100 | 304 | 0 | 0 | 1,404 |
| `pg_high` | 70 | 0 | 0 | 0 | 70 |
| `protogate` | 6 | 0 | 0 | 8 | 14 |
| `promises_*` | 2 | 3 | 0 | 0 | 5 |
| `rows_*` | 5 | 0 | 0 | 9 | 14 |
| `tests_*`, `kit_*`, `examples_*` | 1 | 0 | 0 | 0 | 1 |
| what tries the built program | 0 | 0 | 0 | 1,000 | 1,000 |
| `rt` itself, linking, runs of programs | 0 | 0 | 0 | 50 | 50 |
| **all** | 1,184 | 307 | 0 | 1,067 | 2,558 |
"""


class Table(unittest.TestCase):
    def setUp(self):
        room = tempfile.TemporaryDirectory()
        self.addCleanup(room.cleanup)
        self.top = room.name
        self.parts = [costs_table.Build(it, "") for it in ("program", "rows_low", "tests_low")] + [Part("one", 1500)]
        for it, seconds in zip(self.parts, (50, 20, 13)):
            it.seconds = seconds
        costs = {name: dict(zip(times.KINDS, seconds)) for name, seconds in COSTS.items()}
        for patched in (
            mock.patch.object(costs_table, "TOP", self.top),
            mock.patch.object(pictures, "TOP", self.top),
            mock.patch.object(times, "read", lambda: costs),
            mock.patch.object(costs_table, "all_parts", lambda _: self.parts),
        ):
            patched.start()
            self.addCleanup(patched.stop)
        write(f"{self.top}/crates.txt", CRATES)
        self.write(BEFORE + WANTED + AFTER)

    def write(self, page):
        write(f"{self.top}/docs/LIMITS.md", page)

    def run_on(self, *words):
        with contextlib.redirect_stdout(io.StringIO()), contextlib.redirect_stderr(io.StringIO()):
            return costs_table.main([*words])

    def test_what_a_gate_and_a_build_take_beside_the_budget(self):
        with mock.patch.object(costs_table, "SLOWER", 2):
            gate, build = costs_table.beside_budget(times.read(), costs_table.groups())
        self.assertIn("takes 2,558 processor seconds, some 1,279 where the budget is 15,000 and the goal 10,000", gate)
        self.assertIn("takes 1,176, some 588 where the goal is 3,300", build)

    def test_a_page_with_the_sums(self):
        self.assertEqual(self.run_on("--compare"), 0)

    def test_a_page_with_other_sums(self):
        self.write(BEFORE + WANTED.replace("307", "306") + AFTER)
        self.assertEqual(self.run_on("--compare"), 1)

    def test_a_page_that_lacks_a_row(self):
        self.write(BEFORE + WANTED.replace("| `pg_high` | 70 | 0 | 0 | 0 | 70 |\n", "") + AFTER)
        self.assertEqual(self.run_on("--compare"), 1)

    def test_what_the_tests_compile_and_take(self):
        for change in (lambda: self.parts.pop(2), lambda: setattr(self.parts[-1], "seconds", 100)):
            change()
            self.assertEqual([self.run_on(it) for it in ("--compare", "--write", "--compare")], [1, 0, 0])
        self.write((BEFORE + WANTED + AFTER).replace(SAID, "It compiles some crates."))
        with self.assertRaises(SystemExit):
            self.run_on("--compare")

    def test_it_is_written(self):
        for rows in ("", "| a row |\n", WANTED.replace("7", "8")):
            self.write(BEFORE + rows + AFTER)
            self.assertEqual(self.run_on("--write"), 0)
            self.assertEqual(text_of(f"{self.top}/docs/LIMITS.md"), BEFORE + WANTED + AFTER)

    def test_a_page_without_a_table(self):
        self.write("# Limits\n")
        with self.assertRaises(SystemExit):
            self.run_on("--write")

    def test_other_words(self):
        self.assertEqual([self.run_on(*words) for words in ((), ("--anew",), ("--write", "--compare"))], [4, 4, 4])


if __name__ == "__main__":
    run_tests.main()

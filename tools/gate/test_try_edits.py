#!/usr/bin/env python3
"""Tests of try_edits.py and read_goals.py: of what edits come to.

usage: tools/gate/test_try_edits.py    takes some checks of a crate of a dozen functions, a minute or two

The crate has edits that must not count as refused: one that changes nothing of what is answered, one that breaks a name, one that can't be
parsed. A tool that took any complaint of the prover for a refusal would pass these. One more crate has a function that isn't proved
without an edit: there no edit counts.
"""

import contextlib
import io
import os
import shutil
import subprocess
import sys
import tempfile
import unittest
from unittest import mock

sys.dont_write_bytecode = True
import child_programs  # noqa: E402
import run_tests  # noqa: E402
from read_goals import faults, verdict, verdicts  # noqa: E402
from edited_crate import ANSWERS, DOUBLED, DOUBLES, EDITS, FALLS, HALVING, MEASURE, SOURCE, write  # noqa: E402
from try_edits import plan, said_before, table_of, try_all, try_one  # noqa: E402
from wrong_copies import Bad, CONTROL, Function, Spot, Turned  # noqa: E402

KEY = "import sys; from try_edits import key_of, plan; print(key_of(plan(sys.argv[1])[0]))"


class Said(unittest.TestCase):
    """What is made of the prover's words."""

    ALL = Function("f", "", 0, 1, 2, 4)
    OF = Turned("edit", "src/a.rt", ALL)
    MADE = {OF: Spot("a/f", range(1, 6), "round", ("a/f", "a/g"))}
    OPEN = "note: src/a.rt:2:1: it is not proved that what the function ensures holds when it returns (`f-returns`)"
    TOLD = f"{OPEN}\nfn x::a::f: not proved\nfn x::a::fn::f::map: not proved\nfn x::a::g: not proved; it calls `x::a::f`, which is not proved\nfn x::b: proved"

    def test_the_last_line_counts_what_is_said(self):
        self.assertEqual(faults("x", 1, f"{self.TOLD}\nonly=3 proved=1", self.MADE), [])
        for status, last in [(0, "only=3 proved=1"), (1, "only=4 proved=1"), (1, "only=3 proved=2"), (1, "logic=not-proved"), (3, "only=3 proved=1")]:
            (found,) = faults("x", status, f"{self.TOLD}\n{last}", self.MADE)
            self.assertIn("the check ended", found)

    def test_what_is_not_turned_has_to_be_proved(self):
        (found,) = faults("x", 1, f"{self.TOLD.replace('b: proved', 'b: not proved')}\nonly=3 proved=0", self.MADE)
        self.assertEqual(found, "x::b is not proved")

    def test_an_error_of_no_place_is_one_of_the_check(self):
        for line in ("error: a library could not be read", "rattle: no verdict, since antt ran out of memory"):
            self.assertEqual(faults("x", 1, f"{line}\n{self.TOLD}\nonly=3 proved=1", self.MADE), [line])

    def test_a_function_that_is_not_there_was_not_tried(self):
        told = self.TOLD.replace("x::a::g", "x::a::h").replace("h: not proved", "h: proved")
        (found,) = faults("x", 1, f"{told}\nonly=3 proved=2", self.MADE)
        self.assertEqual(found, "x::a::g is not there")

    def test_a_function_as_it_stands_has_to_be_proved(self):
        made = {it._replace(edit=CONTROL): spot._replace(lines=range(0)) for it, spot in self.MADE.items()}
        found = faults("x", 1, f"{self.TOLD}\nonly=3 proved=1", made)
        self.assertEqual(found[:3], [f"x::a::{it} is not proved" for it in ("f", "fn::f::map", "g")])
        self.assertIn("it is not proved that", found[3])

    STUBS = {"x::b": "Rattle.x.proofs.b.Proof.left_open"}
    OVER = TOLD.replace("b: proved", "b: depends on a hole in `Rattle.x.proofs.b.Proof.left_open`") + "\nfn x::c: no holes"

    def test_what_rests_on_stubs_alone_is_proved(self):
        told = f"{self.OVER}\nfn x::d: depends on a hole in `Rattle.x.proofs.b.Proof.left_open`\nonly=5 holes=1"
        self.assertEqual(faults("x", 1, told, self.MADE, self.STUBS), [])
        self.assertEqual(verdicts("x", 1, told, self.MADE, self.STUBS)[0][self.OF][0], "refused")
        proved = told.replace("a::f: not proved", "a::f: depends on a hole in `Rattle.x.proofs.b.Proof.left_open`")
        self.assertEqual(verdicts("x", 1, proved, self.MADE, self.STUBS)[0][self.OF][0], "proved")

    def test_what_rests_on_the_same_as_another_rests_on_that(self):
        told = f"{self.OVER}\nfn x::d: depends on a hole in the same 1 declarations as `x::{{}}`\nonly=5 holes=1"
        self.assertEqual(faults("x", 1, told.format("b"), self.MADE, self.STUBS), [])
        for other in ("c", "d", "e"):
            self.assertEqual(faults("x", 1, told.format(other), self.MADE, self.STUBS), ["x::d rests on a hole of which nothing is said"])

    def test_another_hole_than_those_of_stubs_is_a_fault(self):
        for said, last in [
            ("depends on a hole in `Rattle.x.proofs.d.Answers.returns`", "only=5 holes=1"),
            ("depends on a hole in `Rattle.x.proofs.b.Proof.left_open` and `Rattle.x.proofs.d.Answers.returns`", "only=5 holes=1"),
            ("depends on a hole", "only=5 holes=1"),
            ("no holes", "only=5 holes=2"),
            ("no holes", "only=5 proved=4"),
            ("not proved; it calls `x::b`, which is not proved", "only=5 holes=1"),
        ]:
            self.assertEqual(len(faults("x", 1, f"{self.OVER}\nfn x::d: {said}\n{last}", self.MADE, self.STUBS)), 1)

    def test_a_goal_of_another_of_the_cycle_is_no_refusal(self):
        for goal, wanted in [("f-returns", "refused"), ("g-returns", "other")]:
            line = f"./proofs/a/+round/Answers.antt:1:1: error: `{goal}`: no proof of `x`"
            told = f"{self.TOLD.replace(self.OPEN, line)}\nonly=3 proved=1"
            self.assertEqual(verdicts("x", 1, told, self.MADE)[0][self.OF][0], wanted)

    def test_a_goal_that_wants_its_answer_refuses_nothing(self):
        opened = "src/a.rt:2:1: it is not proved that what the function ensures holds when it returns (`returns-in-0`)"
        false = f"{opened}; the facts known there allow values at which this goal is false"
        lost = "proofs/a/f/Answers.antt:4:2: error: `returns`: `goal.returns`: module `Rattle.x.proofs.a.f.Goals`"
        for lines, searched, wanted in [([opened, lost], [], "other"), ([opened, lost], ["returns"], "refused"), ([false, lost], [], "refused")]:
            self.assertEqual(verdict(self.OF, "not proved", lines, frozenset(searched))[0], wanted)

    def test_a_goal_whose_like_is_proved_by_hand_is_told_so(self):
        opened = "src/a.rt:2:1: it is not proved that what the function ensures holds when it returns (`returns-then-x-clause-some`)"
        for by_hand, wanted in [(["returns-clause-some"], True), (["returns-clause-value", "loop-x-preserved"], False)]:
            told = verdict(self.OF, "not proved", [opened], frozenset(), frozenset(by_hand))[1]
            self.assertEqual(told.endswith(" (its like is proved by hand)"), wanted)

    def test_what_refuses(self):
        answer, unfit = "proofs/a/f/Answers.antt:4:2: error: `returns`: ", "expected type `1 ≡ 2`, but this has type `2 ≡ 2`"
        lost = f"{answer}`c.in-Some`: the record has no field `in-Some`"
        gone = f"{answer}record `Rattle.x.proofs.a.f.Lts.After-drop3` (nearest: .in-Ok)"
        opened = "src/a.rt:2:1: it is not proved that what the function ensures holds when it returns (`returns-clause-some`)"
        for lines, wanted in [
            ([opened], "src/a.rt f: some (returns-clause-some)"),
            ([f"{opened}; the facts known there allow values at which this goal is false"], "src/a.rt f: some (returns-clause-some) shown false"),
            ([f"{opened}; `search` gave up at one of its limits"], "src/a.rt f: some (returns-clause-some) at a limit"),
            ([opened, f"{answer}{unfit}"], "src/a.rt f: some (returns-clause-some), returns by hand"),
            ([f"{answer}{unfit}"], "REFUSED BY HAND ALONE"),
            ([f"{answer}as printed, the two types differ only where one has `1` and the other `2`"], "REFUSED BY HAND ALONE"),
            ([f"{answer}computed as far as they go, the two types first differ where one has `1`"], "REFUSED BY HAND ALONE"),
            ([f"{answer}`omega`: the goal does not follow from what it read"], "REFUSED BY HAND ALONE"),
            ([opened, gone], "src/a.rt f: some (returns-clause-some)"),
            ([lost], "REFUSED FOR NO GOAL"),
            ([opened, "src/a.rt:2:1: error: `x` is not in scope"], "REFUSED FOR NO GOAL"),
            ([f"proofs/a/f/Invariants.antt:4:2: error: `invariant-loop-x`: {unfit}"], "REFUSED FOR NO GOAL"),
            ([], "REFUSED FOR NO GOAL"),
        ]:
            kind, said = verdict(self.OF, "not proved", lines)
            self.assertEqual((kind, said[: len(wanted)]), ("other" if wanted.isupper() else "refused", wanted))
            self.assertEqual(said.endswith(" shown false"), wanted.endswith(" shown false"))
        self.assertEqual(verdict(self.OF, "proved", [opened])[0], "proved")
        self.assertEqual(verdict(self.OF, None, [opened])[0], "other")


class Kept(unittest.TestCase):
    """What a run takes from earlier ones."""

    def setUp(self):
        self.room = tempfile.TemporaryDirectory()
        self.addCleanup(self.room.cleanup)
        write(f"{self.room.name}/crates.txt", "promises_number:\n")
        self.crate = f"{self.room.name}/crates/promises_number"
        write(f"{self.crate}/src/lib.rt", SOURCE)
        self.edit("one_more", "* 2", "* 2 + 1")
        subprocess.run(["git", "init", "-q", self.room.name], check=True)

    def edit(self, name, old, new):
        write(f"{self.crate}/must-fail/{name}.edit", f"file: src/lib.rt\nold: {old}\nnew: {new}\n")

    def run_with(self, said):
        """Returns the tries of a run over what was kept, which finds this of each edit that it tries itself."""

        def try_each(tries, _):
            tries.said.update({it.edit: said for it in tries.copies})

        (tries,) = plan(self.room.name)
        with mock.patch("try_edits.try_each", try_each), mock.patch("kit.store", lambda: self.room.name):
            return try_one(tries, False)

    def test_what_passed_is_kept_and_nothing_else(self):
        self.assertFalse(self.run_with((False, "NOT REFUSED")).is_kept)
        self.assertFalse(self.run_with((True, "src/lib.rt twice: returns")).is_kept)
        kept = self.run_with((False, "NOT REFUSED"))
        self.assertEqual((kept.is_kept, kept.said), (True, {"one_more": (True, "src/lib.rt twice: returns")}))
        self.assertIn("| promises_number/one_more | src/lib.rt twice | returns |", table_of([kept]))

    def test_an_edit_that_cannot_be_tried_fails_beside_what_is_kept(self):
        self.run_with((True, "src/lib.rt twice: returns"))
        self.edit("not_there", "nowhere", "here")
        kept = self.run_with((True, "src/lib.rt twice: returns"))
        self.assertEqual((kept.is_kept, kept.passed(), kept.failed()), (True, 1, 1))

    def test_an_edit_that_says_what_another_says_fails(self):
        self.edit("one_more_again", "number) * 2", "number) * 2 + 1")
        (tries,) = plan(self.room.name)
        self.assertEqual(tries.said, {"one_more_again": (False, "BAD EDIT: it says what one_more says")})

    def test_a_fault_of_one_crate_is_told_and_the_others_are_tried(self):
        write(f"{self.room.name}/crates.txt", "promises_number:\npromises_other:\n")
        shutil.copytree(self.crate, f"{self.room.name}/crates/promises_other")

        def try_each(tries, _):
            if tries.crate.name == "promises_number":
                raise Bad("a copy is not found")
            tries.said.update({it.edit: (True, "src/lib.rt twice: returns") for it in tries.copies})

        printed = io.StringIO()
        with mock.patch("try_edits.try_each", try_each), mock.patch("kit.store", lambda: None), contextlib.redirect_stdout(printed):
            self.assertEqual(try_all(plan(self.room.name), 1, True), (1, 1))
        self.assertIn("promises_number: Bad: a copy is not found", printed.getvalue())
        self.assertIn("promises_other/one_more: src/lib.rt twice: returns", printed.getvalue())

    def tried(self, is_refused):
        """Returns the tries of the crate where a check of these edits comes to this with stubs and without them, and which edits each check had, as copies
        and in place."""
        checks = []

        def try_copies(tries, copies, standing, _):
            checks.append(([it.edit for it in copies], [it.function.name for it in standing]))
            found = is_refused(tries.stubs)
            tries.said.update({it.edit: (found is True, "src/lib.rt twice: returns" if found else "NOT REFUSED") for it in copies})
            tries.faults += ["a function is not proved"] * (found is None)

        def try_in_place(tries, edit, _):
            checks.append(edit)
            tries.said[edit] = (True, "src/lib.rt down: returns")

        (tries,) = plan(self.room.name)
        mocks = {"try_copies": try_copies, "try_in_place": try_in_place}
        with mock.patch.multiple("try_edits", **mocks), mock.patch("kit.store", lambda: None):
            return try_one(tries, True), checks

    def test_what_isn_t_refused_over_stubs_is_tried_over_the_bodies(self):
        self.edit("the_end_is_one", "        return 0; // at the end", "        return 1;")
        edits = ["one_more", "the_end_is_one"]
        tries, checks = self.tried(lambda stubs: True)
        self.assertEqual((tries.passed(), tries.failed(), tries.over_stubs, checks), (2, 0, [], [(edits, [])]))
        for over_stubs in (False, None):
            tries, checks = self.tried(lambda stubs: over_stubs if stubs else True)
            self.assertEqual((tries.passed(), tries.failed(), checks), (2, 0, [(edits, []), (["one_more"], ["down"]), "the_end_is_one"]))
            self.assertIn("promises_number: over stubs: one_more: NOT REFUSED", tries.lines())

    def test_what_is_refused_over_stubs_is_not_tried_again(self):
        self.edit("another_end", "        return 0; // at the end", "        return 2;")
        (tries,) = plan(self.room.name)
        tries.said.update({"one_more": (True, "src/lib.rt twice: returns"), "another_end": (False, "NOT REFUSED")})
        tries.begin_again({"not_there": (False, "BAD EDIT")})
        self.assertEqual((tries.stubs, sorted(tries.said), tries.over_stubs), ([], ["not_there", "one_more"], ["another_end: NOT REFUSED"]))

    def test_an_edit_that_nothing_refuses_fails(self):
        def try_each(tries, _):
            tries.said.update({it.edit: (False, "NOT REFUSED") for it in tries.copies})
            tries.faults.append("a function is not proved")

        (tries,) = plan(self.room.name)
        with mock.patch("try_edits.try_each", try_each), mock.patch("kit.store", lambda: None):
            self.assertEqual((try_one(tries, True).passed(), tries.failed()), (0, 2))

    def key(self, folder, seed):
        """Returns what a run of its own, with this seed for the order of sets, says that the tries rest on."""
        how = {"cwd": os.path.dirname(os.path.abspath(__file__)), "env": {**os.environ, "PYTHONHASHSEED": str(seed)}}
        return subprocess.run([sys.executable, "-Bc", KEY, folder], check=True, capture_output=True, text=True, **how).stdout

    def test_what_is_kept_is_of_just_these_texts_and_no_folder_or_run(self):
        self.edit("the_end_is_one", "        return 0; // at the end", "        return 1;")
        write(f"{self.crate}/proofs/down/Answers.antt", "".join(f"pub g{it} : goal.g{it}\ng{it} = one\n" for it in range(8)))
        first = self.key(self.room.name, 1)
        with tempfile.TemporaryDirectory() as other:
            shutil.copytree(self.room.name, f"{other}/copy")
            self.assertEqual({self.key(f"{other}/copy", it) for it in (2, 3)}, {first})
        self.edit("the_end_is_one", "        return 0; // at the end", "        return 2;")
        another_edit = self.key(self.room.name, 1)
        write(f"{self.crate}/src/halving.rt", HALVING)
        self.assertEqual(len({first, another_edit, self.key(self.room.name, 1)}), 3)

    def test_what_is_kept_is_of_all_edits(self):
        path = f"{self.room.name}/kept"
        for text, wanted in [('{"a": [true, "x"]}', True), ('{"a": [false, "x"]}', False), ('{"b": [true, "x"]}', False), ("{", False)]:
            write(path, text)
            self.assertEqual(bool(said_before(path, {"a"})), wanted)


class Tries(unittest.TestCase):
    """What the prover says of edits."""

    def make(self, source, edits):
        """Returns what these edits of the crate with this root come to."""
        room = tempfile.TemporaryDirectory()
        self.addCleanup(room.cleanup)
        crate = f"{room.name}/crates/promises_number"
        write(f"{room.name}/crates.txt", "promises_number:\n")
        write(f"{crate}/src/lib.rt", source)
        write(f"{crate}/src/halving.rt", HALVING)
        write(f"{crate}/specs/Lib.antt", "pub mod Doubles\n")
        write(f"{crate}/specs/Doubles.antt", DOUBLES)
        write(f"{crate}/proofs/next/Answers.antt", ANSWERS)
        write(f"{crate}/proofs/doubled/Answers.antt", DOUBLED)
        for cycle, names in [("down", ["down"]), ("both", ["one", "other"])]:
            text = MEASURE.format(cycle=cycle) + "".join(FALLS.format(name=it) for it in names)
            write(f"{crate}/proofs/+{cycle}/Invariants.antt", text)
        for edit, (old, new, _) in edits.items():
            path = "src/halving.rt" if edit == "a_third" else "src/lib.rt"
            more = "old:     number.checked_add(1)\nnew:     None\n" if edit == "both" else ""
            write(f"{crate}/must-fail/{edit}.edit", f"file: {path}\nold: {old}\nnew: {new}\n{more}")
        subprocess.run(["git", "init", "-q", room.name], check=True)
        (tries,) = plan(room.name)
        with contextlib.redirect_stdout(io.StringIO()):
            try_all([tries], 2, True)
        return tries

    def test_each_edit_comes_to_what_it_is(self):
        tries = self.make(SOURCE, EDITS)
        self.assertEqual(tries.faults, [])
        again = {edit for edit, (_, _, wanted) in EDITS.items() if wanted and ": " not in wanted} - {"not_there"} | {"it_never_ends"}
        self.assertEqual({it.partition(":")[0] for it in tries.over_stubs}, again)
        for edit, (_, _, wanted) in EDITS.items():
            is_refused, said = tries.said.get(edit, (False, ""))
            with self.subTest(edit=edit, said=said):
                self.assertEqual(edit in tries.left, wanted is None)
                self.assertIn(wanted or "", said)
                self.assertEqual(is_refused, ": " in (wanted or ""))

    def test_where_a_function_as_it_stands_is_not_proved_no_edit_counts(self):
        of_a_cycle = SOURCE.replace("other(number: u8) -> u8\n    ensures { result ≡ 0 }", "other(number: u8) -> u8"), ("one_more", "one_is_one")
        copied = SOURCE.replace("-> u8 {", "-> u8\n    ensures { result ≡ 0 }\n{"), ("one_more", "nothing_is_asked", "the_other_is_one")
        by_a_body = SOURCE.replace("    ensures { result ≤ 100 }\n{\n    little", "    ensures { result ≤ 9 }\n{\n    little"), ("one_more", "by_a_body_alone")
        for source, edits in (of_a_cycle, copied, by_a_body):
            tries = self.make(source, {it: EDITS[it] for it in edits})
            self.assertNotEqual(tries.faults, [])
            self.assertEqual((tries.passed(), len(tries.said)), (0, len(edits)))


if __name__ == "__main__":
    child_programs.on_signals()
    run_tests.main()

#!/usr/bin/env python3
"""Tests of wrong_copies.py and stubs.py: of copies of functions, and of what they are tried over.

usage: tools/gate/test_wrong_copies.py    takes a second
"""

import os
import sys
import tempfile
import unittest

sys.dont_write_bytecode = True
import run_tests  # noqa: E402
from read_goals import faults, of_edits  # noqa: E402
from stubs import holes, make_stubs, stubs_of  # noqa: E402
from edited_crate import ANOTHER, HALVING, SOURCE, write  # noqa: E402
from wrong_copies import CONTROL, Bad, Left, alone, answers_in, controls, copies_for, cycle_folders  # noqa: E402
from wrong_copies import file_of_type, functions_in, make_room, spots_of  # noqa: E402


class Copies(unittest.TestCase):
    """What functions a file has, and which of them an edit turns."""

    def setUp(self):
        self.room = tempfile.TemporaryDirectory()
        self.addCleanup(self.room.cleanup)
        write(f"{self.room.name}/src/lib.rt", SOURCE)

    def copy(self, old, new):
        (found,), _ = copies_for({"src/lib.rt": SOURCE.replace(old, new)}, self.room.name, "turned")
        return found

    def test_functions_have_their_comments_and_bodies(self):
        lines = SOURCE.split("\n")
        found = {it.name: (lines[it.first], lines[it.opens], lines[it.last]) for it in functions_in(SOURCE)}
        self.assertEqual(found["get"], ("    /// The number as it is.", "    {", "    }"))
        self.assertEqual(found["twice"], ("/// Twice the number.", "{", "}"))
        self.assertEqual(found["next"], ("/// The number that follows, where there is one.", "{", "}"))
        self.assertEqual(found["some"], ("/// Less than it could say.", "pub fn some(number: u8) -> u8 {", "}"))

    def test_functions_without_a_body_of_lines_are_none(self):
        text = "trait Read {\n    fn read(&self) -> u8;\n}\n\nfn none() {}\n\nfn one() -> u8 {\n    1\n}\n"
        self.assertEqual([it.name for it in functions_in(text)], ["one"])

    def test_a_copy_has_a_name_of_its_own(self):
        found = self.copy("    u16::from(number) * 2", "    0")
        self.assertEqual(found.lines[1], "pub fn twice_as_turned(number: u8) -> u16")
        self.assertEqual(found.lines[2:], ("    ensures { result ≡ number + number }", "{", "    0", "}"))

    def test_what_is_no_body_is_left(self):
        for old, new in [("number + number }", "number }"), ("Number(pub u8)", "Number(u8)"), ("pub fn twice", "fn twice")]:
            self.assertRaises(Left, self.copy, old, new)

    def test_two_functions_have_two_copies(self):
        text = SOURCE.replace("* 2", "* 3").replace("checked_add(1)", "checked_add(2)")
        found, calls_itself = copies_for({"src/lib.rt": text}, self.room.name, "turned")
        self.assertEqual(([it.name for it in found], calls_itself), (["twice_as_turned", "next_as_turned"], False))

    def test_methods_of_one_name_have_copies_of_their_own(self):
        text = SOURCE + ANOTHER
        write(f"{self.room.name}/src/lib.rt", text)
        both = text.replace("        self.0\n", "        1\n").replace("        self.0 // of the other", "        1")
        copies, _ = copies_for({"src/lib.rt": both}, self.room.name, "turned")
        copies += controls(self.room.name, copies)
        names = [f"get_of_{owner}_as_{edit}" for edit in ("turned", CONTROL) for owner in ("number", "other_number")]
        self.assertEqual([it.name for it in copies], names)
        with tempfile.TemporaryDirectory() as room:
            found = make_room(room, "promises_number", self.room.name, copies)
        owners = ["Number", "OtherNumber"] * 2
        self.assertEqual([found[it].place for it in copies], [f"{owner}/{name}" for owner, name in zip(owners, names)])

    def test_an_edit_is_refused_where_one_of_its_copies_is(self):
        text = SOURCE.replace("* 2", "* 3").replace("add(1)", "add(2)")
        both, _ = copies_for({"src/lib.rt": text}, self.room.name, "turned")
        for kinds, wanted in [(("refused", "proved"), True), (("proved", "proved"), False), (("refused", "other"), False)]:
            found = of_edits(dict(zip(both, zip(kinds, ("said of one", "said of the other")))))
            self.assertEqual(found["turned"][0], wanted)

    def place_of_turned(self, *pairs):
        """Returns the names of the copies of the function that is turned so, and where it is tried in place."""
        text = SOURCE
        for old, new in pairs:
            text = text.replace(old, new)
        copies, calls_itself = copies_for({"src/lib.rt": text}, self.room.name, "turned")
        self.assertTrue(calls_itself)
        spots = spots_of({"src/lib.rt": text}, self.room.name, "turned")
        return [it.name for it in copies], [(it.function.name, at.place, at.cycle, at.members) for it, at in spots.items()], [*spots.values()]

    def test_a_function_that_calls_itself_may_be_tried_in_place(self):
        found = self.place_of_turned(("    u16::from(number) * 2", "    twice(number)"))
        self.assertEqual(found[:2], (["twice_as_turned"], [("twice", "twice", "twice", ("twice",))]))
        self.assertEqual(self.copy("    u16::from(number) * 2", "    other::twice(number)").name, "twice_as_turned")

    def test_a_function_of_a_cycle_may_be_tried_in_place(self):
        found = self.place_of_turned(("return 0; // of one", "return 1;"))
        self.assertEqual(found[:2], (["one_as_turned"], [("one", "one", "both", ("one", "other"))]))
        self.assertEqual(SOURCE.split("\n")[found[2][0].lines[0] - 1], "/// Zero, by way of the other.")
        found = self.place_of_turned(("return 0; // of one", "return 1;"), ("* 2", "* 3"))
        self.assertEqual((found[0], [it[0] for it in found[1]]), (["twice_as_turned", "one_as_turned"], ["twice", "one"]))

    def test_a_copy_is_in_no_cycle(self):
        found = self.copy("return 0; // of one", "return 1;")
        self.assertEqual(found.lines[:2], ("/// Zero, by way of the other.", "pub fn one_as_turned(number: u8) -> u8"))
        self.assertIn("    other(number - 1)", found.lines)

    def test_a_copy_has_its_own_answers_of_a_cycle(self):
        self.assertEqual(cycle_folders("halving/Number/one", "both"), ["halving/Number/+both", "halving/+both", "+both"])
        answers = "use M.+both.Goals as goal\n\n-- why\npub {0} : goal.{0}\n{0} t c = f t c.{0} ({0} t c)\n\npub {1} : goal.{1}\n{1} g t c = t c\n"
        other, kept = "use M.+both.Goals as goal\n\n", "pub loop-x-init : goal.loop-x-init\nloop-x-init g c = t c\n"
        for names, is_only in [(("A::g-loop-x-init", "A::f-loop-x-init"), False), (("decreases-A::f", "loop-x-init"), True)]:
            self.assertEqual(alone(answers.format(*names), "A::f", is_only), other + kept)
        own = "-- why\npub returns : goal.returns\nreturns c = f t c.f-returns (f-returns t c)\n\n"
        self.assertEqual(alone(answers.format("f-returns", "f-loop-x-init"), "f", False), other + own + kept)
        falls = "abbrev pub {0} : goal.{0}\n{0} l = l.x\n"
        for goal, is_only, wanted in [
            ("decreases-f", True, ""),
            ("decreases-f", False, ""),
            ("decreases-x", True, falls.format("decreases-x")),
            ("decreases-f-loop-x", False, falls.format("decreases-loop-x")),
            ("invariant-f-loop-x", False, falls.format("invariant-loop-x")),
            ("invariant-fs-loop-x", False, ""),
        ]:
            self.assertEqual(alone(falls.format(goal), "f", is_only), wanted)
        self.assertEqual(alone("pub f : goal.f\nf t c = omega (arith, c.decreases)", "f", True), "")
        places = "use M.+both.Goals.{f-in-None, fs-x, g-in-Some}\nuse M.+both.Goals.{g-x}\nuse M.+both.Goals as goal\n"
        self.assertEqual(alone(places, "f", False), "use M.+both.Goals.{in-None}\nuse M.+both.Goals as goal\n")
        required = "pub returns : goal.returns\nreturns g t c = f (x c.requires.1.1.1 none) c.requires.here.y c.in_err-bytes.requires.1"
        alike = "pub returns : goal.returns\nreturns g c = f (x c.requires none) c.requires.here.y c.in_err-bytes.requires.1"
        self.assertEqual(alone(required, "f", True), alike)
        falls = "pub f-{0}-requires : goal.f-{0}-requires\nf-{0}-requires t c = (omega (arith, c.x), (c.y, z))"
        left = "pub h-requires : goal.h-requires\nh-requires c = (omega (arith, c.x), (c.y, z))"
        for called, wanted in [("g", ""), ("h", left)]:
            self.assertEqual(alone(falls.format(called), "f", False, {"f", "g"}), wanted)

    def test_an_answer_by_a_plain_search_is_told_from_others(self):
        answers = "use a as goal\n\n{0}{1}pub third : goal.third\nunfolding f\nthird c = search rules\n".format(
            "pub first : goal.first\nfirst g c = search rules\n\n", "pub second : goal.second\nsecond c =\n    search rules\n\n"
        )
        write(f"{self.room.name}/proofs/f/Answers.antt", answers)
        self.assertEqual(answers_in(self.room.name, "f", "+f"), ({"first"}, {"second", "third"}))

    def test_a_method_stands_with_its_type(self):
        write(f"{self.room.name}/src/halving.rt", HALVING)
        self.assertEqual(file_of_type(self.room.name, "src/halving.rt", "Number"), "src/lib.rt")
        self.assertRaises(Left, file_of_type, self.room.name, "src/halving.rt", "Numbers")
        write(f"{self.room.name}/src/other.rt", "struct Number;\n")
        self.assertRaises(Left, file_of_type, self.room.name, "src/halving.rt", "Number")
        self.assertEqual(file_of_type(self.room.name, "src/other.rt", "Number"), "src/other.rt")

    def test_a_method_of_a_trait_is_left(self):
        text = SOURCE.replace("impl Number {", "impl Read for Number {")
        write(f"{self.room.name}/src/lib.rt", text)
        self.assertRaises(Left, copies_for, {"src/lib.rt": text.replace("self.0\n", "1\n")}, self.room.name, "turned")

    def test_specs_are_left_and_no_change_is_bad(self):
        self.assertRaises(Left, copies_for, {"specs/Lib.antt": ""}, self.room.name, "turned")
        self.assertRaises(Bad, self.copy, "", "")
        self.assertRaises(Bad, copies_for, {"src/lib.rt": SOURCE}, self.room.name, "it_stands")


# Functions that have no stub, but for the last one.
NO_STUBS = """impl From<u8> for Number {
    fn from(number: u8) -> Self {
        Number(number)
    }
}

/// A size.
const fn size() -> usize {
    4
}

/// One of two, of which the other is of a trait.
#[cycle(two)]
fn first(number: u8) -> u8 {
    second(number)
}

/// The other.
#[cycle(two)]
const fn second(number: u8) -> u8 {
    first(number)
}

/// None.
fn none() {}

/// A stub.
#[inline]
#[tactic(auto, using(crate::proofs::lemmas::falls))]
fn last(number: u8) -> u8
    ensures { result ≡ 0 }
{
    if number == 0 {
        return 0;
    }
    last(number - 1)
}
"""


class Stubs(unittest.TestCase):
    """Which functions get a stub, and what is left of them."""

    def setUp(self):
        self.room = tempfile.TemporaryDirectory()
        self.addCleanup(self.room.cleanup)
        write(f"{self.room.name}/src/lib.rt", NO_STUBS)
        write(f"{self.room.name}/src/cycles.rt", SOURCE)
        for name in ("last", "+last", "first", "cycles/+both", "cycles/one"):
            write(f"{self.room.name}/proofs/{name}/Answers.antt", "")

    def test_what_may_be_needed_as_it_is_has_none(self):
        names = ["Number/get", "twice", "next", "some", "half", "doubled", "down", "one", "other", "little", "no_more"]
        self.assertEqual(sorted(it.place for it in stubs_of(self.room.name)), sorted(["last", *(f"cycles/{it}" for it in names)]))

    def test_a_stub_has_its_lines_and_an_open_theorem(self):
        stubs = stubs_of(self.room.name)
        make_stubs(self.room.name, "number", stubs)
        with open(f"{self.room.name}/src/lib.rt", encoding="utf-8") as file:
            lines = file.read().split("\n")
        self.assertEqual(lines[: NO_STUBS.split("\n").index("/// A stub.")], NO_STUBS.split("\n")[: NO_STUBS.split("\n").index("/// A stub.")])
        wanted = ["/// A stub.", "#[inline]", "//", "fn last(number: u8) -> u8", "    ensures { result ≡ 0 }", "{", "    unreachable!()", *[""] * 3, "}", ""]
        self.assertEqual(lines[-len(wanted) :], wanted)
        self.assertEqual(len(lines), len(NO_STUBS.split("\n")))
        found = {os.path.relpath(at, f"{self.room.name}/proofs"): names for at, _, names in os.walk(f"{self.room.name}/proofs") if names}
        self.assertEqual({at for at, names in found.items() if names == ["Answers.antt"]}, {"first"})
        self.assertEqual({at for at, names in found.items() if names == ["Proof.antt"]}, {it.place for it in stubs})
        self.assertIn(("number::last", "Rattle.number.proofs.last.Proof.left_open"), holes("number", stubs).items())

    def test_a_word_of_the_prover_is_quoted_where_it_is_a_module(self):
        write(f"{self.room.name}/src/lib.rt", "pub fn open() -> u8 {\n    1\n}\n")
        (stub,) = (it for it in stubs_of(self.room.name) if it.place == "open")
        make_stubs(self.room.name, "number", [stub])
        with open(f"{self.room.name}/proofs/open/Proof.antt", encoding="utf-8") as file:
            self.assertIn("use Rattle.number.proofs.«open».Statement.{statement}", file.read())
        self.assertEqual(holes("number", [stub]), {"number::open": "Rattle.number.proofs.open.Proof.left_open"})
        said = "fn number::open: depends on a hole in `Rattle.number.proofs.«open».Proof.left_open`\nonly=1 holes=1"
        self.assertEqual(faults("number", 1, said, {}, holes("number", [stub])), [])


if __name__ == "__main__":
    run_tests.main()

"""A small crate of functions, and edits of it with what each comes to: for the tests of edits."""

import os

SOURCE = """//! Numbers.
#![tactic(auto)]

ghost use Rattle.std.specs.Prelude.{◌≡◌, ◌+◌, ◌/◌, ◌≤◌, IfSome, IsSome, option_map};
ghost use Rattle.promises_number.specs.Doubles.{double};

mod halving;

/// A number of which little is asked.
pub struct Number(pub u8);

impl Number {
    /// The number as it is.
    #[inline]
    pub fn get(&self) -> u8
        ensures { result ≡ self.now.0 }
    {
        self.0
    }
}

/// Twice the number.
pub fn twice(number: u8) -> u16
    ensures { result ≡ number + number }
{
    u16::from(number) * 2
}

/// The number that follows, where there is one.
pub fn next(
    number: u8,
) -> Option<u8>
    ensures value { IfSome result (λ found. found ≡ number + 1) }
    ensures some { number ≤ 254 → IsSome result }
{
    number.checked_add(1)
}

/// Less than it could say.
pub fn some(number: u8) -> u8 {
    number // all of it
}

/// Half the number, where there is one.
pub fn half(number: Option<u8>) -> Option<u8>
    ensures { result ≡ option_map (λ found. found / 2) number }
{
    number.map(|found| found / 2)
}

/// Twice the number, as the definition has it.
pub fn doubled(number: u8) -> u16
    ensures { result ≡ double number }
{
    u16::from(number) + u16::from(number)
}

/// Zero, one by one.
pub fn down(number: u8) -> u8
    ensures { result ≡ 0 }
{
    if number == 0 {
        return 0; // at the end
    }
    down(number - 1)
}

/// Zero, by way of the other.
#[cycle(both)]
pub fn one(number: u8) -> u8
    ensures { result ≡ 0 }
{
    if number == 0 {
        return 0; // of one
    }
    other(number - 1)
}

/// Zero, by way of the one.
#[cycle(both)]
pub fn other(number: u8) -> u8
    ensures { result ≡ 0 }
{
    if number == 0 {
        return 0; // of the other
    }
    one(number - 1)
}

/// Little, as its body alone says.
fn little(number: u8) -> u8
    ensures { result ≤ 100 }
{
    number % 8
}

/// The same, by that contract.
pub fn no_more(number: u8) -> u8
    ensures { result ≤ 100 }
{
    little(number) // by the contract
}
"""
# A method of a type that the crate's root declares.
HALVING = """//! Halves.

ghost use Rattle.std.specs.Prelude.{◌≡◌, ◌/◌};

use crate::Number;

impl Number {
    /// Half the number.
    pub fn halved(&self) -> u8
        ensures { result ≡ self.now.0 / 2 }
    {
        self.0 / 2
    }
}
"""
ANSWERS = """use Rattle.std.proofs.Common.{rules}
use Rattle.promises_number.proofs.next.Goals as goal

pub returns-clause-value : goal.returns-clause-value
returns-clause-value c = search rules

pub returns-clause-some : goal.returns-clause-some
returns-clause-some c = search rules
"""
# A method of the name of another, of another type of one file.
ANOTHER = """
/// Another number.
pub struct OtherNumber(pub u8);

impl OtherNumber {
    /// The number as it is.
    pub fn get(&self) -> u8 {
        self.0 // of the other
    }
}
"""
# A definition that a search opens only where an answer says so.
DOUBLES = """use Rattle.std.specs.Prelude.{ℕ, ◌+◌}

-- twice a number
unfoldable pub double : ℕ → ℕ
double n = n + n
"""
DOUBLED = """use Rattle.std.proofs.Common.{rules}
use Rattle.promises_number.specs.Doubles.{double}
use Rattle.promises_number.proofs.doubled.Goals as goal

pub returns : goal.returns
unfolding double
returns c = search rules
"""
# What falls with each call.
MEASURE = """use Rattle.promises_number.proofs.+{cycle}.Given as goal
"""
FALLS = """
abbrev pub decreases-{name} : goal.decreases-{name}
decreases-{name} l = l.number
"""
# What another run of the script says of the tries of a repository's first crate with edits.
# By edit: what it turns, and what has to be said of it, or nothing where that is left to rt.
EDITS = {
    "one_more": ("    u16::from(number) * 2", "    u16::from(number) * 2 + 1", "twice: returns"),
    "the_same_otherwise": ("    u16::from(number) * 2", "    u16::from(number) + u16::from(number)", "NOT REFUSED"),
    "a_sum_that_wraps": ("    u16::from(number) * 2", "    u16::from(number + number)", "twice: overflow"),
    "a_name_is_lost": ("    u16::from(number) * 2", "    u16::from(numbers) * 2", "BAD EDIT"),
    "a_type_is_lost": ("    u16::from(number) * 2", "    u32::from(number) * 2", "BAD EDIT"),
    "a_bracket_is_lost": ("    u16::from(number) * 2", "    (u16::from(number) * 2", "BAD EDIT"),
    "there_is_none": ("    number.checked_add(1)", "    None", "next: some"),
    "another_shape": ("    number.checked_add(1)", "    match number { 255 => None, _ => Some(number + 1) }", "REFUSED FOR NO GOAL"),
    "more_than_double": ("    u16::from(number) + u16::from(number)", "    u16::from(number) + u16::from(number) + 1", "doubled: returns"),
    "another_shape_of_double": (
        "    u16::from(number) + u16::from(number)",
        "    match number { 0 => 0, _ => u16::from(number) + u16::from(number) }",
        "REFUSED FOR NO GOAL",
    ),
    "half": ("        self.0", "        self.0 / 2", "get: returns"),
    "nothing_is_asked": ("    number // all of it", "    number / 2", "NOT REFUSED"),
    "another_clause": ("    ensures some { number ≤ 254 → IsSome result }", "    ensures some { number ≤ 255 → IsSome result }", None),
    "another_struct": ("pub struct Number(pub u8);", "pub struct Number(pub u16);", None),
    "both": ("    u16::from(number) * 2", "    u16::from(number) * 3", "next: some"),
    "not_there": ("    number.checked_sub(1)", "    None", "BAD EDIT"),
    "another_closure": ("|found| found / 2", "|found| found / 3", "half: returns"),
    "the_end_is_one": ("        return 0; // at the end", "        return 1;", "down: returns"),
    "the_same_end": ("        return 0; // at the end", "        return number;", "NOT REFUSED"),
    "it_never_ends": ("    down(number - 1)", "    down(number)", "lib.rt down: "),
    "an_end_of_another_type": ("        return 0; // at the end", "        return true;", "BAD EDIT"),
    "one_is_one": ("        return 0; // of one", "        return 1;", "lib.rt one: "),
    "the_same_one": ("        return 0; // of one", "        return number;", "NOT REFUSED"),
    "the_other_is_one": ("        return 0; // of the other", "        return 1;", "lib.rt other: "),
    "by_a_body_alone": ("    little(number) // by the contract", "    little(number) + 90", "lib.rt no_more: returns"),
    "by_the_contract": ("    little(number) // by the contract", "    little(number / 2)", "NOT REFUSED"),
    "a_third": ("        self.0 / 2", "        self.0 / 3", "halving.rt halved: returns"),
}


def write(path, text):
    os.makedirs(os.path.dirname(path), exist_ok=True)
    with open(path, "w", encoding="utf-8") as file:
        file.write(text)

#!/usr/bin/env python3
"""Tries the edits of crates, those of a crate in one check: each wrong body on a copy of its function.

usage: tools/gate/try_edits.py [--anew] [--list] [--by COUNT] [CRATE..]    all crates with edits, where none is named

Each alone, an edit costs a check of its crate, and nearly all of that is reading the libraries anew; and the edits of a crate begin with a
second proof of it. So `rt check` is given a copy of the crate in which each wrong body is beside the original (wrong_copies.py), and what
these call are stubs that keep their contracts (stubs.py): `--only` has it check the copies over these. An edit is refused where the prover
leaves a goal open in just its copy, and says nothing else of it; and where all else is proved over the stubs, among it a copy of each of
these functions without an edit (read_goals.py says what that rests on). That the functions themselves are proved is not shown here, but by
`rt ci` of the same sources. Those that aren't refused so are tried again without stubs, and what comes of that counts. There a function
that calls itself, or others that call it, has no copy, since that need not fall by the measure of these calls: the first check proves it
without an edit, and then its edit is tried alone in its place, over what that check proved.

A line says for each edit in which function it was refused, and for which clause or other goal. One that is proved, that doesn't compile, or
that is refused for a name alone, fails; and so does one that says what another says. So does a crate whose edits can't be tried: a line
says why, and the other crates are tried. One that turns more than bodies of functions is not tried here, but by `rt must-fail` and `rt ci`
alone, which try all others too.

Wants the libraries that `rt lib` builds, and builds those that are not there. What an earlier run on this machine passed is kept, by the
checksum of all that it read: beside what the kit keeps, or in this user's cache (kit.py). With --anew all is tried. With --by a check has the
copies of so many edits at most, and a line says what each check took: so it shows which edits are cheap, and no dear one keeps the others
waiting. With --list a table of all edits comes before the last line. This counts what was refused and what wasn't; the status is 1 where one
wasn't.
"""

import argparse
import hashlib
import json
import os
import shutil
import sys
import tempfile
from concurrent.futures import ThreadPoolExecutor

sys.dont_write_bytecode = True
import child_programs  # noqa: E402
import kit  # noqa: E402
from crates import BadEdit, crates_of, files_of_edits, texts_of_edit  # noqa: E402
from machine import lanes  # noqa: E402
from read_goals import not_compiled, of_edits, verdicts  # noqa: E402
from stubs import holes, make_stubs, stubs_of  # noqa: E402
from wrong_copies import CONTROL, PARTS, Bad, Left, controls, controls_in_place, copies_for, files_below  # noqa: E402
from wrong_copies import make_edited_room, make_room, spots_of  # noqa: E402

TOP = os.path.dirname(os.path.dirname(os.path.dirname(os.path.realpath(__file__))))
# The scripts that a result rests on.
TOOLS = ("try_edits.py", "wrong_copies.py", "read_goals.py", "stubs.py", "why_refused.py", "crates.py", "kit.py")
# So many edits have their copies in one check, where nothing else is asked for: all.
MOST = 1_000_000


class Tries:
    """The edits of a crate: the files' contents with each, the wrong copies to be tried, where the functions are of the edits that are
    tried in place if there are no stubs, the stubs, what is said of each edit once that is known and whether it was refused as it must be,
    those that are left to rt, what is wrong beside, and the processor seconds that it took, of which each check of copies is told with its
    edits."""

    def __init__(self, crate):
        self.crate, self.texts, self.copies, self.in_place, self.paths, self.left = crate, {}, [], {}, [], {}
        self.said, self.faults, self.seconds, self.checks, self.is_kept, self.over_stubs = {}, [], 0.0, [], False, []
        good, bad = files_of_edits(crate.folder)
        for path in bad:
            self.fail(os.path.basename(path), "BAD EDIT: its name is none for an edit")
        for path in good:
            self.add(path)
        self.stubs = stubs_of(crate.folder)

    def add(self, path):
        edit = os.path.basename(path)[: -len(".edit")]
        try:
            texts = texts_of_edit(path, self.crate.folder)
            same = [it for it, others in self.texts.items() if others == texts]
            if same:
                raise Bad(f"it says what {same[0]} says")
            self.texts[edit] = texts
            copies, calls_itself = copies_for(texts, self.crate.folder, edit)
            self.copies += copies
            if calls_itself:
                self.in_place[edit] = spots_of(texts, self.crate.folder, edit)
        except (Bad, BadEdit) as reason:
            self.fail(edit, f"BAD EDIT: {reason}")
        except Left as reason:
            self.left[edit] = str(reason)
            return
        self.paths.append(path)

    def fail(self, edit, text):
        self.said[edit] = (False, text)

    def begin_again(self, told_first):
        """Forgets the stubs, and what was said over them but of edits that were refused: the others are tried again, all where something was wrong beside.
        What was said first, of edits that can't be tried, stays said."""
        not_refused = [f"{edit}: {text}" for edit, (is_refused, text) in self.said.items() if not is_refused and edit not in told_first]
        self.over_stubs, self.stubs, self.faults = [*self.faults, *not_refused], [], []
        self.said = told_first | {edit: found for edit, found in self.said.items() if found[0]}

    def passed(self):
        return sum(is_refused for is_refused, _ in self.said.values())

    def failed(self):
        return len(self.said) - self.passed() + bool(self.faults)

    def lines(self):
        """Returns a line for each edit, and some for what is wrong beside."""
        name = self.crate.name
        found = [f"{name}/{edit}: {text}" for edit, (_, text) in sorted(self.said.items())]
        found += [f"{name}/{edit}: left to rt: {why}" for edit, why in sorted(self.left.items())]
        found += [f"{name}: over stubs: {it[:300]}" for it in self.over_stubs[:10]]
        return found + [f"{name}: {it[:300]}" for it in self.faults[:10]]


def check(folder, spots, stubs):
    """Checks these functions of the crate in this folder, and what they call; where there are stubs, past what these leave open. Returns the
    status, what was said, and the processor seconds."""
    only = [word for it in dict.fromkeys(it.place for it in spots) for word in ("--only", it.replace("/", "::"))]
    return kit.check(folder, ["--allow-holes"] * bool(stubs) + only)


def in_parts(copies, most):
    """Returns the copies in parts of so many edits at most."""
    edits = [*dict.fromkeys(it.edit for it in copies)]
    parts = [edits[at : at + most] for at in range(0, len(edits), most)]
    return [[it for it in copies if it.edit in part] for part in parts]


def try_copies(tries, copies, standing, kept):
    """Tries the copies in one check, which also proves these functions without an edit, which other edits turn in place, and leaves in a folder what it kept.
    Where some copies don't compile, they are told, and the others are tried without them."""
    crate = tries.crate
    while copies or standing:
        with tempfile.TemporaryDirectory(prefix="protogate-edits-") as room:
            folder = kit.make_repository(room, crate)
            made = make_room(folder, crate.name, crate.folder, copies + controls(crate.folder, copies))
            make_stubs(folder, crate.name, tries.stubs)
            made.update(standing)
            status, told, seconds = check(folder, made.values(), tries.stubs)
            if standing:
                shutil.rmtree(kept, ignore_errors=True)
                shutil.move(f"{folder}/out", kept)
        tries.seconds += seconds
        if status == 2 and tries.stubs and "--allow-holes" in told:
            tries.faults.append("this kit knows no --allow-holes")
            return
        tries.checks.append((seconds, [*dict.fromkeys(it.edit for it in copies)]))
        broken = not_compiled(told, made)
        if not broken or any(it is None or it.edit == CONTROL for it in broken):
            found, faults = verdicts(crate.name, status, told, made, holes(crate.name, tries.stubs))
            tries.faults += faults
            tries.said.update(of_edits(found))
            return
        for it, line in broken.items():
            tries.fail(it.edit, f"BAD EDIT: it isn't compiled, so no contract was tried: {line}")
        copies = [it for it in copies if it.edit not in {at.edit for at in broken}]


def try_in_place(tries, edit, kept):
    """Tries an edit alone, in place and without stubs, over a copy of what was kept: so what one edit leaves is of no account to the next."""
    crate, spots = tries.crate, tries.in_place[edit]
    with tempfile.TemporaryDirectory(prefix="protogate-edits-") as room:
        folder = kit.make_repository(room, crate)
        make_edited_room(folder, crate.folder, tries.texts[edit])
        shutil.copytree(kept, f"{folder}/out", symlinks=True, dirs_exist_ok=True)
        status, told, seconds = check(folder, spots.values(), ())
    tries.seconds += seconds
    broken = not_compiled(told, spots)
    if broken:
        tries.fail(edit, f"BAD EDIT: it isn't compiled, so no contract was tried: {next(iter(broken.values()))}")
    else:
        tries.said.update(of_edits(verdicts(crate.name, status, told, spots)[0]))


def try_each(tries, most):
    """Tries the copies of which nothing is said yet, of so many edits in a check; and, where there are no stubs, in the place of some of these each edit
    that is tried in place, over what the first check proved. Where that shows nothing, no edit counts."""
    in_place = {edit: it for edit, it in tries.in_place.items() if not tries.stubs and edit not in tries.said}
    copies = [it for it in tries.copies if it.edit not in {*in_place, *tries.said}]
    standing = controls_in_place({it: spot for spots in in_place.values() for it, spot in spots.items()})
    with tempfile.TemporaryDirectory(prefix="protogate-kept-") as room:
        for part in in_parts(copies, most) or [[]]:
            try_copies(tries, part, standing, f"{room}/kept")
            standing = {}
        for edit in in_place:
            if tries.faults:
                tries.fail(edit, f"NOT TRIED: {tries.faults[0][:300]}")
            else:
                try_in_place(tries, edit, f"{room}/kept")


def key_of(tries):
    """Returns a sum of all that the tries rest on: the kit, these scripts, the crate with its copies, and those below it. Where an edit is
    that is tried in place follows from these; and that has sets, which each run lists in another order."""
    made = hashlib.sha256(repr((kit.identity(), tries.copies, tries.texts)).encode())
    files = {f"tools/gate/{it}": f"{TOP}/tools/gate/{it}" for it in TOOLS}
    for crate in (*tries.crate.below(), tries.crate):
        made.update(repr(crate.line).encode())
        files.update({f"{crate.name}{it[len(crate.folder) :]}": it for it in files_below(crate.folder, *PARTS)})
    for name, path in sorted(files.items()):
        with open(path, "rb") as file:
            made.update(repr((name, file.read())).encode())
    return made.hexdigest()


def said_before(path, edits):
    """Returns what an earlier run said of just these edits, all of which it passed; nothing where there is no such run."""
    try:
        with open(path, encoding="utf-8") as file:
            said = {it: tuple(found) for it, found in json.load(file).items()}
    except (OSError, ValueError):
        return {}
    return said if {*said} == edits and all(is_refused for is_refused, _ in said.values()) else {}


def try_or_tell(tries, most):
    """Tries the edits. What goes wrong with one crate is told as its fault: the others are tried."""
    try:
        try_each(tries, most)
    except child_programs.Ended:
        raise
    except Exception as reason:  # pylint: disable=broad-except
        tries.faults.append(f"{type(reason).__name__}: {reason}")


def try_one(tries, is_anew, most=MOST):
    """Tries the edits of a crate, copies of so many in a check, or takes what an earlier run passed of the same. What is said already, of edits
    that can't be tried, stays said. Those that aren't refused over stubs are tried once more over the bodies, and that counts."""
    at, key = kit.store(), key_of(tries)
    edits = {it.edit for it in tries.copies}
    before = {} if is_anew or not at else said_before(f"{at}/{key}", edits)
    if before:
        tries.said.update(before)
        tries.is_kept = True
        return tries
    told_first = dict(tries.said)
    try_or_tell(tries, most)
    if tries.failed() > len(told_first) and tries.stubs:
        # (a proof may rest on more of what is called than its contract: over the whole bodies an edit is refused or not for certain)
        tries.begin_again(told_first)
        try_or_tell(tries, most)
    if at and not tries.failed() and key_of(tries) == key:
        with tempfile.NamedTemporaryFile("w", dir=at, delete=False, encoding="utf-8") as file:
            json.dump(tries.said, file)
        os.replace(file.name, f"{at}/{key}")
    return tries


def plan(top, names=()):
    """Returns the tries of the crates in this repository that have edits, or of those that are named."""
    crates = [it for it in crates_of(top).values() if it.name in (names or [it.name])]
    return [Tries(it) for it in crates if os.path.isdir(f"{it.folder}/must-fail")]


def try_all(plans, jobs, is_anew, most=MOST, note=lambda tries, is_over: None):
    """Tries the edits of these crates, those with most checks and copies first, and prints what is said of each, and what each check took where a crate
    has several. Returns the counts of refused and of others. `note` is told when the tries of a crate begin, and when they are over."""

    def noted(tries):
        note(tries, False)
        try_one(tries, is_anew, most)
        note(tries, True)
        return tries

    begun = sorted(plans, key=lambda it: (-len(it.in_place), -len(it.copies)))
    with ThreadPoolExecutor(jobs) as pool:
        for done in [pool.submit(noted, it) for it in begun]:
            tries = done.result()
            how = "kept from an earlier run" if tries.is_kept else f"{tries.seconds:.0f} processor seconds"
            checks = [f"{seconds:.0f} processor seconds for {', '.join(edits)}" for seconds, edits in tries.checks if len(tries.checks) > 1]
            print("\n".join([*tries.lines(), *checks, f"{tries.crate.name}: {tries.passed()} edits refused, {how}"]), flush=True)
    return sum(it.passed() for it in plans), sum(it.failed() for it in plans)


def build_below(plans):
    """Builds the libraries that these crates need, where they are not there, and returns whether all are built."""
    return kit.build_libraries({dep.folder: dep for it in plans for dep in it.crate.below()}.values())


def table_of(plans):
    """Returns the lines of a table of the edits: the function that each turns, and the clauses or other goals that refused it."""
    rows = ["| Edit | Function | Refused for |", "|---|---|---|"]
    for it in sorted(plans, key=lambda it: it.crate.name):
        for edit, (is_refused, text) in sorted(it.said.items()):
            refused = [part.partition(": ") for part in text.split("; ")] if is_refused else [("", "", text)]
            rows += [f"| {it.crate.name}/{edit} | {at} | {why} |" for at, _, why in refused]
        rows += [f"| {it.crate.name}/{edit} | | left to rt: {why} |" for edit, why in sorted(it.left.items())]
    return rows


def main(words):
    asked = argparse.ArgumentParser(description=__doc__.partition("\n")[0])
    asked.add_argument("--anew", action="store_true")
    asked.add_argument("--list", action="store_true")
    asked.add_argument("--by", type=int, default=MOST, metavar="COUNT")
    asked.add_argument("names", nargs="*", metavar="CRATE")
    asked = asked.parse_args(words)
    names, plans = asked.names, plan(TOP, asked.names)
    unknown = {*names} - {it.crate.name for it in plans}
    if unknown:
        print(f"no crates with edits: {', '.join(sorted(unknown))}", file=sys.stderr)
        return 2
    if not build_below(plans):
        return 1
    passed, failed = try_all(plans, lanes(), asked.anew, max(1, asked.by))
    if asked.list:
        print("\n".join(table_of(plans)))
    left = sum(len(it.left) for it in plans)
    print(f"{passed} edits refused, {failed} not refused as they must be, {left} left to rt")
    return 1 if failed else 0


if __name__ == "__main__":
    child_programs.on_signals()
    sys.exit(main(sys.argv[1:]))

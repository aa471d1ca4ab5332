#!/usr/bin/env python3
"""Runs all tests by programs that aren't proved: each row and `#[test]`, the pages' examples, random inputs, and the scripts' own tests.

usage: tools/test.py [--list] [--prove] [--no-program] [PART..]    status 1 where one fails, and as its last line 'N passed, M failed', which counts parts

The kit's `rt try` compiles each crate once, with checks and without proof. The program is compiled by the first command of the first page, and
kept for later calls of `./protogate`; where it is kept already, nothing is compiled. Parts run side by side, as many as there are processors,
and as many that compile as memory holds (RT_JOBS sets both): --list names them, with the processor seconds that each is likely to take. Those whose waits
go by the clock come last, each alone. It says at the start, and each minute, how long it is likely to take. A part that fails is printed as soon as it
has ended, with what was wanted and what came.

A program that can't be kept fails, since most parts need one; with --no-program these are passed over. What is passed over, for that or for want of a
tool, is counted and named in the last lines; so is what only the proof adds. With --prove, tools/prove.py follows where nothing failed. It repeats
what was tried on a program that isn't proved, and nothing else, and its last line counts both.
"""

import argparse
import os
import sys
import tempfile
import time

sys.dont_write_bytecode = True
sys.path.append(f"{os.path.dirname(os.path.realpath(__file__))}/gate")
import child_programs  # noqa: E402
import machine  # noqa: E402
import stamp  # noqa: E402
import testers  # noqa: E402
import times  # noqa: E402
from crates import crates_of, files_of_edits  # noqa: E402
from parts import Program, all_parts  # noqa: E402
from side_by_side import SideBySide, below, hints_are_quiet, lanes, memory_of  # noqa: E402

TOP = os.path.dirname(os.path.dirname(os.path.realpath(__file__)))
# What all this needs on the path, and what it takes of the disk, in bytes: that of temporary files, and that on which the program is kept.
PROGRAMS, DISK, DISK_OF_PROGRAM = {"rt": "the kit that compiles the crates"}, 1_000_000_000, 50_000_000


def say(text):
    print(f"protogate: {text}", flush=True)


def named(parts, names):
    """Returns the parts of these names, and those that they wait for; all, where none is named."""
    asked = [it for it in parts if it.name in (names or [it.name])]
    for it in asked:
        it.join({other.name for other in asked})
    needed = {name for it in asked for name in (it.name, *it.after)}
    return [it for it in parts if it.name in needed]


class Told:
    """What is told of a run: a line for each part, and what is passed over, by why."""

    def __init__(self, parts):
        self.begun, self.passed, self.failed, self.over, self.lines = time.monotonic(), [], [], {}, []
        tasks = {it.name: it.by_clock() for it in parts}
        self.progress = times.Progress({"parts": (tasks, below(parts))}, lanes(), say, memory=memory_of(parts))

    def begin(self, part):
        self.progress.begin(part.name)

    def end(self, part, outcome, lacked):
        """Tells what became of a part, or what it lacked. What a script passes over itself is told at the end."""
        self.progress.end(part.name)
        if lacked:
            self.over.setdefault(lacked, []).append(part.name)
            return
        (self.passed if outcome.is_well else self.failed).append(part.name)
        self.lines += [it for it in outcome.said.splitlines() if it.startswith("passed over")]
        counted = f"{outcome.counted}; " * bool(outcome.counted)
        how = "passed" if outcome.is_well else "FAILED"
        if not outcome.is_well:
            print(outcome.said, end="" if outcome.said.endswith("\n") else "\n")
        seconds = time.monotonic() - self.begun
        print(f"{seconds:5.0f} s  {part.name}: {how}; {counted}{outcome.seconds:.0f} processor seconds", flush=True)

    def tell_passed_over(self):
        for line in dict.fromkeys(self.lines):
            print(line)
        for lacked, names in self.over.items():
            print(f"passed over, {lacked}: {in_number(names)}: {' '.join(names)}")


def in_number(names):
    return "1 part" if len(names) == 1 else f"{len(names)} parts"


def tell_what_is_not_proved():
    """Tells what only tools/prove.py shows."""
    crates = crates_of(TOP)
    edits = sum(len(files_of_edits(it.folder)[0]) for it in crates.values())
    more = [testers.name_of(it) for it in testers.TESTERS if it.less or not testers.is_for_less(it)]
    print(f"not proved: only tools/prove.py proves the {len(crates)} crates, and tries {edits} wrong bodies that the prover has to refuse;")
    print("it runs the tests again on the proved program, and also, or with more of them:")
    print(f"{' '.join([testers.LENT, *more])}")


def asked():
    parser = argparse.ArgumentParser(description=__doc__.partition("\n")[0])
    parser.add_argument("--list", action="store_true", help="names the parts, with the processor seconds that each is likely to take")
    parser.add_argument("--prove", action="store_true", help="goes on with tools/prove.py where nothing failed")
    parser.add_argument("--no-program", action="store_true", help="passes over what needs a program that is kept, where none can be")
    parser.add_argument("names", nargs="*", metavar="PART", help="the parts that are run; by default all")
    return parser.parse_args()


def run(parts):
    """Runs these parts. Returns what is told of them."""
    told, before = Told(parts), stamp.sum_of(TOP)
    say(f"{times.in_words(told.progress.left())} on {machine.processors()} processors")
    with tempfile.TemporaryDirectory(prefix="protogate-tests-") as room, child_programs.all_ended(), told.progress, hints_are_quiet():
        for it in parts:
            it.room = room
        SideBySide(parts, told.begin, told.end).run()
    if stamp.sum_of(TOP) != before:
        print("a source of the program was changed while the tests ran: run them again")
        told.failed.append("sources")
    return told


def prove(passed, of):
    """Goes on with the gate, in the place of this process, which is told what passed, and of which files."""
    sys.stdout.flush()
    os.execv(sys.executable, [sys.executable, f"{TOP}/tools/prove.py", f"--tested={','.join([of, *passed])}"])


def lacking(options, parts):
    """Returns a line for each thing that is missing for what has to be compiled, and for the rest, with what the gate needs after it."""
    made = [it for it in parts if not it.is_made()]
    keeps = not options.no_program and any(isinstance(it, Program) for it in made)
    programs, disk = (machine.PROGRAMS_OF_GATE, machine.DISK_OF_GATE) if options.prove else (PROGRAMS, DISK)
    places = {tempfile.gettempdir(): disk, **({stamp.out_of(TOP): DISK_OF_PROGRAM} if keeps else {})}
    return machine.missing(programs, places, max((it.memory for it in made), default=0))


def main():
    options = asked()
    parts = all_parts(TOP, must_keep=not options.no_program)
    unknown = {*options.names} - {it.name for it in parts}
    if unknown:
        print(f"no part is called {', '.join(sorted(unknown))}: --list names them", file=sys.stderr)
        return 2
    parts = named(parts, options.names)
    if options.list:
        for it in parts:
            print(f"{it.seconds:5}  {it.name}")
        return 0
    missing = lacking(options, parts)
    if missing:
        print("\n".join([*missing, "0 passed, 1 failed"]), flush=True)
        return 2
    child_programs.on_signals()
    of = stamp.sum_of_files(TOP) if options.prove else ""
    told = run(parts)
    told.tell_passed_over()
    if not options.names:
        tell_what_is_not_proved()
    print(f"{len(told.passed)} passed, {len(told.failed)} failed", flush=True)
    if options.prove and not told.failed:
        prove(told.passed, of)
    return int(bool(told.failed))


if __name__ == "__main__":
    os.chdir(TOP)
    sys.exit(main())

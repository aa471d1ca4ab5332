"""What tools/test.py runs, in parts that can run side by side: the program, compiled by `rt try` without proof, and kept; the rows and the
`#[test]` functions of other crates, compiled likewise; and what tries the scripts, the pages and the program (testers.py).
"""

import collections
import os
import re
import shutil
import subprocess
import sys
import tempfile
import time

import child_programs
import machine
import stamp
import testers
import unproved
from crates import crates_of

# What a build by `rt try` was measured to take of a processor, in seconds, where it is of a crate with rows, of tests, or of the program.
SECONDS = {
    "program": 112, "rows_text": 93, "rows_bytes": 34, "rows_answer": 82, "rows_fds": 50, "rows_view": 54, "rows_gate": 168, "examples_library": 51,
    "tests_gate": 176, "tests_bytes": 18, "tests_notes": 55,
}
SECONDS_OF_OTHERS = 72
# What it is likely to take of memory at most, in bytes.
MEMORY = {"tests_gate": 5_000_000_000}
MEMORY_OF_OTHERS = 3_500_000_000
# How long a program of rows may run, or a crate's tests, in seconds. An answer of `rt try` comes when all is over.
MOST_SECONDS = 900
# `rt try` runs a program twice: so many steps has its interpreter, which is too slow for some thousand rows.
STEPS = 1
# So many rows that differ are printed, and so many letters of each answer.
MOST_ROWS, MOST_LETTERS = 10, 400
# The crate whose rows the whole program answers (rows/try_rows.py), and what does that.
ROWS_OF_PROGRAM, TRY_ROWS = "rows_gate", "try_rows"
# What a program with checks is told where testers run it: to end by a signal where a check fails, and to leave out those checks that take a quarter
# of its time and find what safe code can't do.
ENVIRONMENT = {"ASAN_OPTIONS": ":".join([unproved.ENVIRONMENT["ASAN_OPTIONS"], "detect_leaks=0", "detect_stack_use_after_return=0"])}
# How the first command of the first page begins; and what stands around the reason where it keeps nothing (dist/first_answer.py).
FIRST_COMMAND, NOT_KEPT = "$ ./protogate gate ", re.compile(r"nothing is kept here, (since .*?); so the next call")

# What became of a part: whether it passed, what is to be printed of it, what it counted, and the processor seconds.
Outcome = collections.namedtuple("Outcome", "is_well said counted seconds", defaults=("", "", 0.0))


def run(words, folder, stdin=None, env=None):
    """Runs a program in a folder. Returns its status, what it printed, what it said on standard error, and its processor seconds."""
    with tempfile.TemporaryFile() as printed, tempfile.TemporaryFile() as said:
        with open(stdin or os.devnull, "rb") as given:
            started = child_programs.start(words, cwd=folder, stdin=given, stdout=printed, stderr=said, env=env)
        status, seconds = child_programs.wait(started)
        return status, unproved.contents(printed), unproved.contents(said), seconds


def text_of(data):
    return data.decode("utf-8", "replace")


def tail_of(*texts):
    """Returns the last lines of these texts, which tell why something failed."""
    return "".join(f"  {line}\n" for it in texts for line in it.splitlines()[-40:])


class Part:
    """Something to run: its name, the processor seconds and the memory that it is likely to take, the parts that it needs, whether it runs alone, and
    the folder of its run."""

    memory, after, is_alone, room = 0, (), False, None

    def __init__(self, name, seconds):
        self.name, self.seconds = name, seconds

    def join(self, names):
        """Tells a part which others are asked for beside it."""

    def is_made(self):
        """Returns whether what it compiles is there already."""
        return False

    def by_clock(self):
        """Returns the seconds that it is likely to take by the clock."""
        return self.seconds

    def lacks(self):
        """Returns what is missing for this part, once those that it waits for have ended, or nothing."""
        return ""


class Build(Part):
    """A part that compiles by `rt try`, in the folder of a crate."""

    def __init__(self, name, folder):
        super().__init__(name, SECONDS.get(name, SECONDS_OF_OTHERS))
        self.folder, self.memory = folder, MEMORY.get(name, MEMORY_OF_OTHERS)


class Program(Build):
    """The program, compiled by the first command of the first page, which has to answer what that page says; and where it is kept: for this run by a
    name of its own, since later calls may keep another."""

    def __init__(self, top, must_keep=True):
        super().__init__("program", f"{top}/crates/{stamp.PROGRAM}")
        self.top, self.kept, self.lasting, self.must_keep = top, None, None, must_keep

    def first_command(self):
        """Returns the words of the first page's first command, and what comes of it."""
        with open(f"{self.top}/README.md", encoding="utf-8") as file:
            command, _, rest = file.read().partition(FIRST_COMMAND)[2].partition("\n")
        return ["gate", *command.split()], rest.partition("\n```")[0].partition("\n$ ")[0] + "\n"

    def is_made(self):
        return unproved.kept_program(self.top) is not None

    def hold(self):
        """Has the program that is kept in the folder of this run, too."""
        self.lasting = unproved.kept_program(self.top)
        if self.lasting:
            self.kept = f"{self.room}/{stamp.PROGRAM}"
            try:
                os.link(self.lasting, self.kept)
            except OSError:
                shutil.copy2(self.lasting, self.kept)

    def run(self):
        """Compiles the program and keeps it, where it isn't kept yet. A proved one that is there has no checks, and is no matter here."""
        words, wanted = self.first_command()
        self.hold()
        if self.kept:
            call, counted = [*unproved.UNLIMITED, self.kept, *words], "kept from an earlier call"
        else:
            call, counted = [sys.executable, "-B", f"{self.top}/tools/dist/first_answer.py", *words], "compiled"
        status, printed, said, seconds = run(call, self.top)
        if not self.kept:
            self.hold()
        if not self.kept and unproved.OTHER_KEEPS in text_of(said):
            unproved.wait_for_others(self.top)
            self.hold()
        if text_of(printed) == wanted and status in (0, 1):
            return self.told(f"{counted}; it answers as the first page says", text_of(said), seconds)
        wrong = f"  said, with status {status}:\n{tail_of(text_of(printed), text_of(said))}"
        return Outcome(False, f"the first page's first command\n  wanted:\n{tail_of(wanted)}{wrong}", "", seconds)

    def told(self, counted, said, seconds):
        """Returns what became of a program that answers. Where none is kept, nearly nothing would be tried: the user has to want that."""
        if self.kept:
            return Outcome(True, "", counted, seconds)
        found = NOT_KEPT.search(said)
        why = found[1] if found else f"since {unproved.OTHER_KEEPS if unproved.OTHER_KEEPS in said else 'none is there'}"
        if self.must_keep:
            return Outcome(False, f"program: it was compiled, but not kept, {why}; --no-program passes over what needs it\n", "", seconds)
        return Outcome(True, f"passed over, {why}: all of the program but the first page's first command\n", counted, seconds)


def differing(crate, wanted, printed):
    """Returns what is to be printed of rows that differ, and their count. The first words of a line are the row's name."""
    wanted, printed = ([*it.split("\n")] for it in (wanted, printed))
    most = max(len(wanted), len(printed))
    wanted, printed = (it + ["(nothing)"] * (most - len(it)) for it in (wanted, printed))
    wrong = [at for at in range(most) if wanted[at] != printed[at]]
    told = [f"crates/{crate}/stdout:{at + 1}\n  wanted: {wanted[at][:MOST_LETTERS]}\n  said:   {printed[at][:MOST_LETTERS]}\n" for at in wrong[:MOST_ROWS]]
    return "".join(told), len(wrong)


class Rows(Build):
    """The rows of a crate: its program has to print what the file `stdout` has of each line of `stdin`."""

    def run(self):
        words = [*unproved.UNLIMITED, "rt", "try", "--steps", str(STEPS), "--seconds", str(MOST_SECONDS)]
        status, printed, said, seconds = run(words, self.folder, f"{self.folder}/stdin")
        with open(f"{self.folder}/stdout", encoding="utf-8") as file:
            wanted = file.read()
        answer = unproved.Answer(status, printed, said, False)
        told, wrong = differing(self.name, wanted, text_of(printed))
        if not answer.has_ended() or status:
            return Outcome(False, f"{tail_of(text_of(said))}{self.name}: `rt try` ended with {status}", "", seconds)
        rows = len(wanted.splitlines())
        return Outcome(not wrong, told, f"{rows} rows" + f", {wrong} of them wrong" * bool(wrong), seconds)


class RowsOfProgram(Rows):
    """The rows of the whole program, by its crate: where no program is kept that answers them from outside, or where that isn't asked for. The first is
    seldom, so it counts as no time."""

    def __init__(self, name, folder, program):
        super().__init__(name, folder)
        self.program = program

    def join(self, names):
        if TRY_ROWS in names:
            self.after, self.seconds = (self.program.name,), 0

    def lacks(self):
        return f"since {TRY_ROWS} tries its rows on the program" if self.after and self.program.kept else ""


class Tests(Build):
    """The `#[test]` functions of a crate."""

    def run(self):
        status, printed, said, seconds = run([*unproved.UNLIMITED, "rt", "try", "--test", "--seconds", str(MOST_SECONDS)], self.folder)
        passed = len(re.findall(r"^test .* \.\.\. ok$", text_of(printed), re.M))
        is_well = status == 0 and passed == self.count()
        told = "" if is_well else f"{tail_of(text_of(printed), text_of(said))}{self.name}: {passed} of {self.count()} tests passed; status {status}\n"
        return Outcome(is_well, told, f"{passed} tests", seconds)

    def count(self):
        return count_of_tests(self.folder)


def count_of_tests(folder):
    """Returns how many `#[test]` functions a crate has."""
    found = 0
    for at, _, names in os.walk(f"{folder}/src"):
        for name in names:
            with open(f"{at}/{name}", encoding="utf-8", errors="replace") as file:
                found += len(re.findall(r"^\s*#\[test\]", file.read(), re.M))
    return found


def tried(name, words, folder, env=None):
    """Runs a tester by these words. Returns what became of it, with how many rows it says to have tried."""
    how = {"stdin": subprocess.DEVNULL, "stdout": subprocess.PIPE, "stderr": subprocess.STDOUT, "text": True, "errors": "replace"}
    begun, started = time.monotonic(), child_programs.start(words, cwd=folder, env=env, **how)
    with started.stdout, child_programs.limited(started, testers.MOST_SECONDS):
        said = started.stdout.read()
        status, seconds = child_programs.wait(started)
    rows = re.search(r"^\d+ rows\b", said, re.M)
    said += child_programs.end_in_words(name, status, time.monotonic() - begun)
    return Outcome(status == 0, said, rows[0] if rows else "", seconds)


class Script(Part):
    """One of the testers."""

    def __init__(self, tester, top, program):
        super().__init__(testers.name_of(tester), tester.seconds)
        self.tester, self.top, self.program = tester, top, program
        self.after, self.is_alone = (program.name,) if testers.PROGRAM in tester.needs else (), tester.how != testers.BESIDE

    def by_clock(self):
        return self.seconds / machine.processors() if self.tester.how == testers.ALL else self.seconds

    def lacks(self):
        missing = [it for it in self.tester.tools if not shutil.which(it)]
        if missing:
            return f"without {missing[0]}"
        return "for want of a program that is kept" if self.after and not self.program.kept else ""

    def run(self):
        words, env = testers.words_of(self.tester, self.program.kept, takes_less=True), {**os.environ, **ENVIRONMENT}
        outcome = tried(self.name, words, self.top, env)
        # (so that what it says can be done again once this run is over)
        return outcome._replace(said=outcome.said.replace(self.program.kept, self.program.lasting)) if self.after else outcome


def all_parts(top, must_keep=True):
    """Returns all parts: the program, rows and tests in the order of crates.txt, and the testers. The program has to be kept, where that is said."""
    crates, program = crates_of(top).values(), Program(top, must_keep)
    rows = [it for it in crates if os.path.isfile(f"{it.folder}/stdin") and os.path.isfile(f"{it.folder}/src/main.rt")]
    found = [program, *(Rows(it.name, it.folder) for it in rows if it.name != ROWS_OF_PROGRAM)]
    found += [RowsOfProgram(it.name, it.folder, program) for it in rows if it.name == ROWS_OF_PROGRAM]
    found += [Tests(it.name, it.folder) for it in crates if count_of_tests(it.folder)]
    return found + [Script(it, top, program) for it in (*testers.TESTERS, *testers.COMPARED) if testers.is_for_less(it)]

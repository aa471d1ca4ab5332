"""What tries the scripts, the pages and the program, each named once: for tools/test.py, which has a program that isn't proved, and for
tools/prove.py, which has the proved one.
"""

import collections
import glob
import os

TOOLS = os.path.dirname(os.path.dirname(os.path.realpath(__file__)))
# What a tester needs beside the scripts: a program as its last word; that this one asks the C library for memory, as one that is compiled with
# checks does not; what the gate built of other crates; and the time and memory of checks or builds of its own.
PROGRAM, UNCHECKED, BUILT, CHECKS = "a program", "a program without checks", "what the gate built", "builds of its own"
# How it runs beside others: so, or alone, since some of its waits go by the clock, or since it tells how long something takes; and alone by as many
# processes as there are processors.
BESIDE, ALONE, ALL = "beside others", "alone", "on all processors"
# So long a tester may run, in seconds: then it is killed, and has failed. It is far more than any takes.
MOST_SECONDS = 1800
# What the gate tries over the libraries that it built, before all these.
LENT = "try_lent"

# A script below `tools`, the processor seconds that it was measured to take of a program with checks, with the words of tools/test.py, what it needs,
# the programs that have to be on the path, how it runs, and the words by which it does so much less that it takes no minutes.
Tester = collections.namedtuple("Tester", "path seconds needs tools how less", defaults=((), (), BESIDE, ()))

# What compares pages, pictures and edits with what they are of.
COMPARED = (
    Tester("docs/model_files.py", 2),
    Tester("docs/links.py", 1),
    Tester("docs/pictures.py", 2),
    Tester("docs/errors.py", 1),
    Tester("docs/plain_words.py", 5),
    Tester("docs/costs_table.py", 1),
    Tester("gate/held_edits.py", 1),
)
# Words for the script of continuous integration that a hostile change is made of: each file of this folder is a tester. A new one is likely to take
# as long as these do.
SECONDS = {"ends": 19, "git": 15, "options": 25, "output": 23, "protoc_sets": 15, "settings": 27, "start": 53, "templates": 9, "texts": 21}
HOSTILE = tuple(
    Tester(os.path.relpath(it, TOOLS), SECONDS.get(os.path.basename(it)[len("test_") : -len(".py")], 30), (PROGRAM,), ("git",))
    for it in sorted(glob.glob(f"{glob.escape(TOOLS)}/dist/hostile/test_*.py"))
)
# What tries the program, the scripts that call it, and the scripts of this repository.
TESTERS = (
    Tester("rows/try_program_memory.py", 32, (PROGRAM, UNCHECKED), ("cc",)),
    Tester("rows/try_call_memory.py", 120, (UNCHECKED, BUILT), ("cc",)),
    Tester("rows/try_rows.py", 30, (PROGRAM,)),
    Tester("dist/test_packages.py", 83, (PROGRAM,), ("git",)),
    Tester("dist/test_ci.py", 46, (PROGRAM,), ("git",)),
    Tester("dist/test_ci_trees.py", 33, (PROGRAM,), ("git",)),
    Tester("dist/test_ci_words.py", 26, (PROGRAM,), ("git",)),
    Tester("dist/test_ci_causes.py", 10, (PROGRAM,), ("git",)),
    Tester("dist/test_ci_roots.py", 8, (PROGRAM,), ("git",)),
    Tester("dist/test_ci_terminal.py", 4, (PROGRAM,), ("git",)),
    *HOSTILE,
    Tester("../ci/tests/try_package.py", 104, tools=("git",)),
    Tester("dist/test_first_answer.py", 35, (PROGRAM, CHECKS), less=("--without-kit",)),
    Tester("dist/test_first_page.py", 180, (PROGRAM, CHECKS), how=ALONE),
    Tester("dist/test_kept_program.py", 14, (PROGRAM,)),
    Tester("dist/test_launcher.py", 7),
    Tester("docs/test_errors.py", 1),
    Tester("docs/test_plain_words.py", 1),
    Tester("docs/test_costs_table.py", 1),
    Tester("gate/test_wrong_copies.py", 1),
    Tester("gate/test_gate.py", 10, tools=("git", "cc")),
    Tester("gate/test_gate_parts.py", 1),
    Tester("gate/test_tests.py", 8),
    Tester("gate/test_try_edits.py", 96, (CHECKS,)),
    Tester("gate/try_other_kit.py", 96, (CHECKS,)),
    Tester("fuzz/fuzz.py", 192, (PROGRAM,), ("cc",), ALL, ("--count", "1000", "--seconds", "1500")),
    Tester("docs/try_examples.sh", 8, (PROGRAM,), ("git",), ALONE, ("--without-memory",)),
)


def name_of(tester):
    """Returns the name of a tester, which is that of its file."""
    return os.path.basename(tester.path).partition(".")[0]


def words_of(tester, program, takes_less=False):
    """Returns the words that run a tester: of pages and edits it compares, and else it tries the program, or less of it."""
    more = ["--compare"] if tester in COMPARED else [*tester.less] * takes_less
    return [f"tools/{tester.path}", *more, *([program] if PROGRAM in tester.needs else [])]


def is_for_less(tester):
    """Returns whether a program with checks, and some minutes, are enough for a tester."""
    return not {UNCHECKED, BUILT} & {*tester.needs} and (CHECKS not in tester.needs or bool(tester.less))


def without(some, tested):
    """Returns these testers without those that need no program, and are among the ones that passed."""
    return [it for it in some if PROGRAM in it.needs or name_of(it) not in tested]

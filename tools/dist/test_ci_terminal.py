#!/usr/bin/env python3
"""Tests of what examples/ci/gate.sh, and the script that starts the program, show where standard error is a terminal: the sentence of an
error, and the line with a caret.

usage: tools/dist/test_ci_terminal.py [PROGRAM]    by default the program that was built
"""

import contextlib
import os
import pty
import signal
import subprocess
import sys
import tempfile
import unittest

sys.dont_write_bytecode = True
import test_ci  # noqa: E402
from test_ci import GATE, HEAD, TOP, Repository  # noqa: E402
import excerpts  # noqa: E402

SAID = f"{TOP}/examples/ci/said.py"
# The same, with minutes instead of seconds until a run is said to be at work, or is no longer waited for: on a busy machine each may take those.
PATIENT = f"import sys; sys.path.insert(0, {os.path.dirname(SAID)!r}); import said, shown; said.AT_WORK = shown.PATIENCE = 600; "
PATIENT += "sys.exit(said.main(sys.argv[1:]))"


def on_terminal(words, seen=None, **how):
    """Runs a program. Returns its status, what it printed, and what the terminal shows that is its standard error. A file is made as soon as that is
    a line."""
    ours, theirs = pty.openpty()
    run = subprocess.Popen(words, stdin=subprocess.DEVNULL, stdout=subprocess.PIPE, stderr=theirs, **how)
    os.close(theirs)
    said = b""
    with contextlib.suppress(OSError), open(ours, "rb", buffering=0) as terminal:
        while piece := terminal.read(4096):
            said += piece
            if seen and b"\n" in said:
                with open(seen, "w", encoding="utf-8"):
                    pass
    printed = run.communicate()[0].decode()
    return run.returncode, printed, said.decode().replace("\r\n", "\n")


class Terminal(Repository):
    """What the script for pull requests shows beside its lines."""

    def shown(self, *words):
        status, printed, said = on_terminal([GATE, *words], cwd=self.top, env=self.env)
        return status, printed.splitlines(), said

    def test_a_line_with_a_caret(self):
        line = "\t/* \u00e9\u6f22 */ message A { int32 a = 1; int32 b = 1; }"
        self.release({"a.proto": HEAD + line.replace("b = 1", "b = 2")}, {"a.proto": HEAD + line})
        column = len(line.partition("b = 1")[0].encode()) + 1
        wanted = [f"refused new E402 a.proto:2:{column}"]
        self.assertEqual(self.call("v1", "proto"), (2, wanted))
        self.assertRegex(self.advice, r"\Agate: E402: The field number .*\n\Z")
        self.assertEqual(self.shown("v1", "proto"), (2, wanted, f"""error[E402]: The field number has already been used in this message.
 --> proto/a.proto:2:{column}
  |
2 |     {line[1:]}
  |     {' ' * (line.index('b = 1'))}^
  = help: Take a number that was never used.
"""))

    def test_the_old_side(self):
        """Its file is named as git names it."""
        text = "\n" * 9 + "message A { } message A { }"
        self.release({"a.proto": HEAD + text}, {})
        self.assertEqual(self.shown("v1", "proto")[1:], (["refused old E304 a.proto:11:23"], f"""error[E304]: The name is already defined.
  --> v1:proto/a.proto:11:23
   |
11 | message A {{ }} message A {{ }}
   | {' ' * 22}^
  = help: Rename one. An enum's values are in the scope around it; a map field `foo_bar` declares `FooBarEntry`.
"""))

    def test_a_name_that_neither_side_has(self):
        text = {"a.proto": HEAD + "package shop; message Account { }"}
        self.release(text, text)
        status, said, words = self.shown("v1", "proto", "Acount")
        self.assertEqual((status, said), (2, ["refused E901 Acount"]))
        self.assertTrue(words.startswith("error[E901]: Neither side has a message type Acount.\n  = help: did you mean shop.Account?\n"), words)

    def test_what_is_printed_is_the_same(self):
        """Other advice is said as elsewhere, and standard output has not one byte more."""
        self.release({"a.proto": HEAD + "message A { } message B { }"}, {"a.proto": HEAD + "message B { }", "b.proto": HEAD + "message C {"})
        status, said, words = self.shown("v1", "proto", "--github")
        self.assertEqual((status, said), self.call("v1", "proto", "--github"))
        self.assertIn("\ngate: A was removed", words)
        self.assertNotIn("gate: E202", words)

    def test_long_lines_and_what_is_not_printed(self):
        self.assertEqual(excerpts.marked("a" * 100 + "b" * 100, 101), (".." + "a" * 70 + "b" * 40 + "..", " " * 72 + "^"))
        self.assertEqual(excerpts.marked("\udcff\x1b[m a", 6), ("\\xff\\x1b[m a", " " * 11 + "^"))
        self.assertEqual(excerpts.marked("", 1), ("", "^"))
        self.assertEqual(excerpts.excerpt("a.proto", "line"), [" --> a.proto"])


class Program(Repository):
    """What the script that starts the program shows, by said.py."""

    def shown(self, *words):
        """The status, what is printed, and what the terminal shows. The program by itself prints the same."""
        status, printed, said = on_terminal([sys.executable, "-SB", "-c", PATIENT, test_ci.PROGRAM, *words], cwd=self.top)
        done = subprocess.run([test_ci.PROGRAM, *words], cwd=self.top, stdin=subprocess.DEVNULL, stdout=subprocess.PIPE, check=False)
        self.assertEqual((status, printed), (done.returncode, done.stdout.decode()))
        # (a loaded machine may take over a second)
        return status, printed, said.removeprefix(f"protogate: still at work: {words[0]}\n")

    def setUp(self):
        super().setUp()
        self.write({"o/m.proto": HEAD + "package shop;\nmessage Account { int32 a = 1; }\n", "n/m.proto": HEAD + "\nmessage A { int32 a = 0; }\n"})

    def test_a_position(self):
        wanted = """error[E401]: The number of the field, value or reserved item is out of range.
 --> n/m.proto:3:19
  |
3 | message A { int32 a = 0; }
  |                   ^
  = help: Take another number. """
        for words in (("gate", "--old-dir=o", "--new-dir", "n", "--old", "m.proto", "--new=m.proto", "--type", "shop.Account"), ("types", "n/m.proto"),
                      ("compile", "--dir=n/.", "m.proto")):
            status, printed, said = self.shown(*words)
            self.assertEqual((status, printed.split()[-1]), (2, "n/m.proto:3:19" if words[0] == "types" else "m.proto:3:19"))
            self.assertTrue(said.startswith(wanted), said)

    def test_a_position_in_an_included_folder(self):
        """It is that of the file which the program read."""
        os.makedirs(f"{self.top}/dangling")
        os.symlink("nowhere", f"{self.top}/dangling/m.proto")
        for words in (("--dir=dangling", "--include=n"), ("--dir=nowhere/../o", "--include", "n/."), ("--dir=none", "--include=dangling", "--include=n")):
            status, printed, said = self.shown("types", *words, "m.proto")
            self.assertEqual((status, printed), (2, "refused E401 m.proto:3:19\n"))
            self.assertIn(" --> n/m.proto:3:19\n  |\n3 | message A { int32 a = 0; }\n", said)

    def test_other_errors(self):
        show = ("show", "--dir=o", "--file=m.proto", "--type=shop.Account")
        for words, sentence, place in (((*show, "08"), "E502]: The input ends inside the record or varint.", " --> byte 0"),
                                       ((*show, "0"), "E905]: The argument is not pairs of hexadecimal digits.", "  = help: Write two digits a byte"),
                                       (("compile", "gone.proto"), "E301]: The file was not found.", " --> gone.proto"),
                                       (("verify", "--old=o/m.proto", "--new=o/m.proto", "none"), "E301]: The file was not found.", " --> none")):
            lines = self.shown(*words)[2].splitlines()
            self.assertEqual(lines[0], f"error[{sentence}")
            self.assertTrue(lines[1].startswith(place), lines)

    def test_lists_of_files(self):
        """They are found from the current folder, wherever their side is."""
        self.write({"none": "\n\r\n", "bad": b"m.proto\n\xc3\xa9 \xff\n"})
        self.assertEqual(self.shown("types", "--dir=o", "--files-from", "bad", "m.proto"), (2, "refused E906 bad:2:4\n", """\
error[E906]: The list of files isn't UTF-8.
 --> bad:2:4
  |
2 | \u00e9 \\xff
  |   ^
  = help: Save the list as UTF-8.
"""))
        help_ = "  = help: Name a file of the side, or write one into each line of its list.\n"
        for words, rest, place in ((("gate-all", "--old-dir=o", "--old-files-from=none", "--new=n"), " none", " --> none\n"), (("gate-all",), "", "")):
            self.assertEqual(self.shown(*words), (4, f"refused old E907{rest}\n", f"error[E907]: No file is named.\n{place}{help_}"))
        self.assertEqual(self.shown("types", "--help")[::2], (4, ""))

    def test_a_name_that_is_not_there(self):
        sides = ("--old-dir=o", "--new-dir=o", "--old=m.proto", "--new=m.proto")
        for words in (("gate", *sides, "--type", "Account"), ("gate", *sides, "--type=shop.Acount"), ("show", "--file=o/m.proto", "--type=Account", "-")):
            status, printed, said = self.shown(*words)
            self.assertEqual((status, printed), (2, "refused E901\n"))
            self.assertRegex(said, r"\n  = help: there is no [\w.]+; did you mean shop\.Account\?\n")

    def test_a_first_answer(self):
        """So are answers shown where no program is built."""
        call = "import first_answer; first_answer.show_refusals(b'refused new E401 m.proto:3:19\\n', ['gate', '--new-dir', 'n'])"
        status, printed, said = on_terminal([sys.executable, "-B", "-c", call], cwd=self.top, env={**self.env, "PYTHONPATH": f"{TOP}/tools/dist"})
        self.assertEqual((status, printed), (0, ""))
        self.assertRegex(said, r"\Aerror\[E401\]: The number .*\n --> n/m\.proto:3:19\n  \|\n3 \| message A \{ int32 a = 0; \}\n")

    def test_what_is_not_refused(self):
        sides = ("--old-dir=o", "--new-dir=o", "--old=m.proto", "--new=m.proto")
        self.assertEqual(self.shown("gate", *sides, "--type=shop.Account"), (0, "compatible shop.Account\n", ""))
        self.write({"a/m.proto": HEAD + "message A { bytes a = 1; } message B { }\n", "b/m.proto": HEAD + "message A { string a = 1; }\n"})
        explained = ("gate-all", "--explain", "--old-dir=a", "--new-dir=b", *sides[2:])
        status, printed, said = self.shown(*explained)
        self.assertEqual((status, "refused E604 at 0" in printed, said), (2, True, ""))
        self.write({"e/m.proto": HEAD})
        self.assertEqual(self.shown("gate-all", "--old-dir=o", "--new-dir=e", *sides[2:]), (2, "removed shop.Account\n", ""))


class Started(unittest.TestCase):
    """How said.py starts a program, and ends with it."""

    # Waits until what a shell has started is stopped, and until a file is there.
    STOPS = "for turn in $(seq 600); do case $(ps -o stat= -p $!) in T*) break ;; esac; sleep 0.2; done"
    IS_THERE = "for turn in $(seq 600); do [ ! -e %s ] || break; sleep 0.2; done"

    def started(self, does, calls="", said=f'-c "{PATIENT}"'):
        """What a shell prints, and what its terminal shows, that starts a program which does this, and then calls. There ROOM is a folder."""
        with tempfile.TemporaryDirectory() as room:
            with open(f"{room}/program", "w", encoding="utf-8") as file:
                file.write(f"#!/bin/sh\n{does}\n".replace("ROOM", room))
            os.chmod(f"{room}/program", 0o755)
            start = f"'{sys.executable}' -SB {said} '{room}/program' gate 'a b'"
            return on_terminal(["sh", "-c", calls.replace("START", start).replace("ROOM", room) or f"exec {start}"], seen=f"{room}/seen")

    def test_status_and_words(self):
        self.assertEqual(self.started('printf "%s|" "$@"; exit 7'), (7, "gate|a b|", ""))

    def test_at_work(self):
        self.assertEqual(self.started(self.IS_THERE % "ROOM/seen", said=f"'{SAID}'"), (0, "", "protogate: still at work: gate\n"))

    def test_a_signal_that_ends_it(self):
        self.assertEqual(self.started("kill -KILL $$"), (-signal.SIGKILL, "", ""))

    def test_signals_that_are_passed_on(self):
        if signal.getsignal(signal.SIGHUP) is signal.SIG_IGN:
            # (what this process ignores, as below nohup, is ignored by all that it starts)
            signal.signal(signal.SIGHUP, signal.SIG_DFL)
            self.addCleanup(signal.signal, signal.SIGHUP, signal.SIG_IGN)
        for name in ("TERM", "HUP"):
            calls = f"START & {self.IS_THERE % 'ROOM/begun'}; kill -{name} $!; wait $!; echo $?"
            self.assertEqual(self.started(": >ROOM/begun; exec sleep 300", calls)[1], f"{128 + getattr(signal, 'SIG' + name)}\n", name)

    def test_a_program_that_stops(self):
        """It is stopped with what started it, isn't said to be at work, and goes on with it."""
        calls = f"START & {self.STOPS}; kill -ALRM $!; kill -CONT $!; wait $!; echo $?"
        self.assertEqual(self.started("kill -STOP $$; exit 5", calls), (0, "5\n", ""))

    def test_a_second_run_that_says_something_else(self):
        """Only a run that ends with the same status is believed."""
        again = '[ -e "$0.was" ] && echo refused E402 && exit 1; : >"$0.was"; echo refused E401; exit 2'
        self.assertEqual(self.started(again), (2, "refused E401\n", ""))


if __name__ == "__main__":
    if len(sys.argv) > 1 and not sys.argv[1].startswith("-"):
        test_ci.PROGRAM = os.path.realpath(sys.argv.pop(1))
    test_ci.run_tests.main()

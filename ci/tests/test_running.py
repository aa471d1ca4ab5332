#!/usr/bin/env python3
"""Tests of how programs are run and ended: each has an end, a signal ends all that was started, and no process and no folder is left."""

import contextlib
import os
import signal
import subprocess
import sys
import tempfile
import time
import unittest
from unittest import mock

from common import CI
from protogate_ci import running
from protogate_ci.running import Stop, plain, room, run

# What none of these calls takes, in seconds.
LONG = 900
HEAD = (f"import os, sys, time\nsys.path.insert(0, {CI!r})\nfrom protogate_ci import running\nfrom protogate_ci.running import *\n"
        "try:\n    on_signals()\n    with room() as folder:\n        ")
TAIL = "\nexcept Ended:\n    end_by_signal()\n"


def is_running(pid):
    try:
        with open(f"/proc/{pid}/stat", encoding="utf-8", errors="replace") as file:
            return " Z " not in file.read()
    except OSError:
        return False


def heed_signals():
    for number in running.SIGNALS:
        signal.signal(number, signal.SIG_DFL)


class Room(unittest.TestCase):
    def setUp(self):
        folder = tempfile.TemporaryDirectory()
        self.addCleanup(folder.cleanup)
        self.temporary, self.pids = f"{folder.name}/temporary", f"{folder.name}/pids"
        os.mkdir(self.temporary)

    def hanging(self, ignores=""):
        """The words of a program that hangs, with one that it started."""
        return ["sh", "-c", f"{ignores} sleep 1000 & echo $! $$ >'{self.pids}.new'; mv '{self.pids}.new' '{self.pids}'; wait; sleep 1000"]

    def started(self):
        until = time.monotonic() + LONG
        while not os.path.exists(self.pids) and time.monotonic() < until:
            time.sleep(0.02)
        with open(self.pids, encoding="utf-8") as file:
            return [int(it) for it in file.read().split()]

    def marked(self):
        """Returns the processes that have this test's folder in their environment."""
        found = []
        for pid in filter(str.isdigit, os.listdir("/proc")):
            with contextlib.suppress(OSError), open(f"/proc/{pid}/environ", "rb") as file:
                found += [int(pid)] * (f"MARK={self.pids}\0".encode() in file.read())
        return found

    def nothing_is_left(self, started=None):
        # (what was killed ends a moment later where the machine is busy)
        started, until = started or self.started, time.monotonic() + LONG
        while (left := [it for it in started() if is_running(it)]) and time.monotonic() < until:
            time.sleep(0.02)
        self.assertEqual(left, [])
        self.assertEqual(os.listdir(self.temporary), [])
        with contextlib.suppress(FileNotFoundError):
            os.remove(self.pids)


class Programs(Room):
    def test_what_a_program_says(self):
        self.assertEqual(run(["sh", "-c", "cat; echo why >&2; exit 5"], b"given"), (5, b"given", "why\n"))
        self.assertEqual(run(["cat"]), (0, b"", ""))
        self.assertEqual(run(["sh", "-c", "printf 12345; echo why >&2; exit 5"], most=5), (5, b"12345", "why\n"))
        with self.assertRaises(OSError):
            run(["/none"])

    def test_one_that_prints_too_much(self):
        self.assertEqual(run(["sh", "-c", "printf 12345"], most=4), (None, b"", ""))
        self.assertEqual(run(["sh", "-c", f"echo $$ >'{self.pids}'; exec yes"], most=1_000_000), (None, b"", ""))
        self.nothing_is_left()

    def test_one_that_does_not_end(self):
        self.assertEqual(running.STATE.limit, 600)
        for ignores in ("", "trap '' TERM;", "exec >&-;"):
            with mock.patch.object(running.STATE, "limit", 1), mock.patch.object(running, "PATIENCE", 1), self.assertRaises(Stop) as stopped:
                run(self.hanging(ignores), env={**os.environ, "MARK": self.pids})
            self.assertEqual(stopped.exception.status, 3)
            self.assertEqual(str(stopped.exception), "sh took more than 1 seconds, and was ended: nothing is said of what wasn't printed")
            # (what hangs may have been ended before it could note what it started)
            self.nothing_is_left(self.marked)

    def test_rooms(self):
        with mock.patch.object(tempfile, "tempdir", self.temporary):
            with room() as folder:
                self.assertEqual(os.listdir(self.temporary), [os.path.basename(folder)])
            with self.assertRaises(ZeroDivisionError), room():
                print(1 // 0)
        self.assertEqual(os.listdir(self.temporary), [])

    def test_what_a_line_holds(self):
        for words, wanted in (("a b", "a b"), ("a\n::error::b", r"a\x0a::error::b"), ("\udcff", r"\xff"), ("\u202e\U000e0001", r"\u202e\U000e0001"),
                              ("##[error]", r"#\x23[error]"), ("##vso[x]", r"#\x23vso[x]"), ("## a", "## a"), ("\u00fc", "\u00fc")):
            self.assertEqual(plain(words), wanted)
            self.assertTrue(plain(words).isprintable())


class Signals(Room):
    def start(self, body):
        environment = {**os.environ, "TMPDIR": self.temporary}
        return subprocess.Popen([sys.executable, "-B", "-c", HEAD + body + TAIL], env=environment, stdout=subprocess.PIPE, start_new_session=True,
                                preexec_fn=heed_signals)

    def ends(self, body, number=signal.SIGTERM):
        """A call that starts a program that hangs ends by a signal, and so does all that it started."""
        called = self.start(body)
        self.started()
        called.send_signal(number)
        said, _ = called.communicate(timeout=LONG)
        self.assertEqual((called.returncode, said), (-number, b""))
        self.nothing_is_left()

    def test_signals(self):
        """What was started ends with the gate, which ends as the signal has it."""
        for number in running.SIGNALS:
            self.ends(f"run({self.hanging()!r})", number)

    def test_one_that_closed_its_output(self):
        self.ends(f"run({self.hanging('exec >&-;')!r})")

    def test_while_nothing_is_run(self):
        """It doesn't wait for what the gate does itself."""
        self.ends(f"open({self.pids!r}, 'w').close()\n        while True:\n            pass")

    def test_one_that_is_ignored(self):
        """As below nohup."""
        body = f"run({self.hanging()!r})"
        words = ["sh", "-c", 'trap "" HUP; exec "$0" -B -c "$1"', sys.executable, HEAD + body + TAIL]
        called = subprocess.Popen(words, env={**os.environ, "TMPDIR": self.temporary}, stdout=subprocess.PIPE, preexec_fn=heed_signals)
        self.started()
        called.send_signal(signal.SIGHUP)
        with self.assertRaises(subprocess.TimeoutExpired):
            called.communicate(timeout=1)
        called.send_signal(signal.SIGTERM)
        called.communicate(timeout=LONG)
        self.assertEqual(called.returncode, -signal.SIGTERM)
        self.nothing_is_left()


if __name__ == "__main__":
    unittest.main()

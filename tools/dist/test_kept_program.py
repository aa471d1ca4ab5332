#!/usr/bin/env python3
"""Tests of what `protogate` at the top keeps of a first call, where no program is proved, and starts at later ones: tools/gate/unproved.py.

usage: tools/dist/test_kept_program.py [PROGRAM]    by default the program that was built

A stand-in for `rt` compiles PROGRAM where `rt try` does, and removes it.
"""

import contextlib
import fcntl
import os
import shutil
import signal
import subprocess
import sys
import time
import unittest
import unittest.mock

sys.dont_write_bytecode = True
sys.path.append(f"{os.path.dirname(os.path.realpath(__file__))}/../gate")
from trial_checkout import TOP, Checkout, files_below, is_alive, read, run_tests, stand_in, told, write  # noqa: E402
from unproved import compiled  # noqa: E402

HEAD = 'syntax = "proto3";\n'
OLD, NEW = HEAD + "message M { bytes a = 1; }\n", HEAD + "message M { string a = 1; }\n"

# Has a file system be full where a program is kept, and another one start nothing from there.
FULL = """import errno, os, shutil
copy = shutil.copyfileobj
def full(one, other, *more):
    if "/unproved-" in str(other.name):
        raise OSError(errno.ENOSPC, os.strerror(errno.ENOSPC))
    copy(one, other, *more)
shutil.copyfileobj = full
"""
STARTS_NOTHING = """import os
access = os.access
os.access = lambda path, *how, **more: "/unproved-" not in str(path) and access(path, *how, **more)
"""


class Kept(Checkout):
    """What `rt try` compiled is kept, and later calls start it."""

    def setUp(self):
        super().setUp()
        self.out = f"{self.top}/crates/protogate/out"
        self.says("compiles")
        self.write({"old/m.proto": OLD, "new/m.proto": NEW})
        self.words = ["gate", "--old-dir", "old", "--new-dir", "new", "--old", "m.proto", "--new", "m.proto", "--type", "M"]
        self.wanted = self.program_says(*self.words)
        self.assertEqual(self.wanted[0], 1)

    def program_says(self, *words):
        how = {"cwd": self.folder, "stdin": subprocess.DEVNULL, "stdout": subprocess.PIPE}
        done = subprocess.run([self.program, *words], check=False, **how)
        return done.returncode, done.stdout

    def compiles(self, **more):
        """A call compiles a program, keeps it alone, and says so in a line."""
        self.assertEqual(self.call(*self.words, **more), self.wanted, self.lines)
        self.assertEqual(len(self.lines), 1, self.lines)
        self.assertIn("keeps it", self.lines[0])
        self.is_clean()

    def starts(self, **more):
        """A call starts what is kept, without `rt`, and says in a line that it isn't proved."""
        before = files_below(self.top)
        with contextlib.suppress(FileNotFoundError):
            os.remove(f"{self.kit}/handed")
        self.assertEqual(self.call(*self.words, **more), self.wanted, self.lines)
        self.assertFalse(os.path.exists(f"{self.kit}/handed"))
        self.assertEqual(len(self.lines), 1, self.lines)
        self.assertIn("this build isn't proved", self.lines[0])
        self.assertEqual(files_below(self.top), before)

    def is_clean(self, is_kept=True):
        """Nothing is left but what is kept."""
        self.assertEqual(len(os.listdir(self.out)), 2 * is_kept, os.listdir(self.out))
        self.assertEqual(os.listdir(f"{self.room}/temporary"), [])
        if is_kept:
            beside = [f"protogate{it}" for it in ("", ".begun", ".sum")]
            self.assertEqual(sorted(os.listdir(os.path.dirname(self.kept()))), beside)
        # The kit's own gate refuses a link below crates/.
        crates = f"{self.top}/crates"
        self.assertEqual([it for at, below, names in os.walk(crates) for it in (*below, *names) if os.path.islink(f"{at}/{it}")], [])

    def kept(self):
        """Returns the program that is kept."""
        return f"{self.out}/{read(f'{self.out}/unproved.name').decode().strip()}/protogate"

    def keeps_nothing(self, lines=2, **more):
        self.assertEqual(self.call(*self.words, **more), self.wanted, self.lines)
        self.assertEqual(len(self.lines), lines, self.lines)
        self.assertIn("nothing is kept", self.lines[-1])
        self.is_clean(is_kept=False)

    def test_a_second_call(self):
        self.compiles()
        self.starts()
        self.starts(PATH="/usr/bin:/bin")
        self.assertEqual(read(self.kept()), read(self.program))

    def test_each_status(self):
        """Later calls end as the program does, also with a status that `rt try` has for itself, and with words that it doesn't take."""
        self.compiles()
        self.write({"f.proto/x": "", "a=b/m.proto": OLD})
        for words in (["compile", "none.proto"], ["compile", "f.proto"], ["--version"], [], ["types", "--dir=a=b", "m.proto"], [b"\xff"]):
            self.assertEqual(self.call(*words), self.program_says(*words))
            self.assertEqual(len(self.lines), 1, self.lines)

    def test_a_changed_source(self):
        self.compiles()
        for path in ("crates/pg_low/src/lib.rt", "crates/protogate/src/main.rt", "crates/pg_low/specs/Lib.antt"):
            kept = self.kept()
            write(f"{self.top}/{path}", "other\n")
            self.compiles()
            self.assertNotEqual(self.kept(), kept)
            self.starts()

    def test_another_kit(self):
        self.compiles()
        shutil.copytree(self.kit, f"{self.room}/other")
        path = f"{self.room}/other:{os.environ['PATH']}"
        self.compiles(PATH=path)
        self.starts(PATH=path)
        self.compiles()

    def test_only_the_proved_program(self):
        self.compiles()
        self.assertEqual(self.call(*self.words, PROTOGATE_PROVED_ONLY="1"), (127, b""))

    def test_first_calls_at_once(self):
        how = {"cwd": self.folder, "env": self.env, "stdout": subprocess.PIPE, "stderr": subprocess.DEVNULL}
        calls = []
        for _ in range(6):
            calls.append(subprocess.Popen([f"{self.top}/protogate", *self.words], **how))
            time.sleep(0.1)
        self.assertEqual([(it.communicate()[0], it.returncode) for it in calls], [self.wanted[::-1]] * 6)
        self.is_clean()
        self.starts()

    def test_a_call_beside_one_that_keeps(self):
        """One that waited for another would take longer than today."""
        self.call("--help")
        self.write_source()
        handle = os.open(self.out, os.O_RDONLY)
        fcntl.flock(handle, fcntl.LOCK_EX)
        self.assertEqual(self.call(*self.words), self.wanted)
        self.assertIn("another call keeps one just now, and later calls start it", self.lines[-1])
        os.close(handle)
        self.compiles()

    def write_source(self, words="changed\n"):
        write(f"{self.top}/crates/pg_low/src/lib.rt", words)

    def test_what_a_killed_call_left(self):
        write(f"{self.out}/unproved-killed/protogate", read(self.program), 0o755)
        os.symlink("unproved-gone", f"{self.out}/unproved")
        write(f"{self.out}/unproved.name", "unproved-gone\n")
        self.compiles()
        self.starts()

    def test_a_program_that_answers_otherwise(self):
        """Something else that was found last isn't kept, and where nothing else was found nothing is."""
        self.says("compiles a liar")
        self.keeps_nothing()
        self.says("compiles, and a liar")
        self.compiles()
        self.starts()

    def test_a_source_that_changes_meanwhile(self):
        """What is put back in time may have been compiled."""
        for how in ("compiles and edits", "compiles and edits for a while"):
            self.says(how)
            self.keeps_nothing()
            self.assertIn("since a source was changed meanwhile", self.lines[-1])

    def test_a_crate_that_comes_and_goes_meanwhile(self):
        """Then there is no checksum, by which it could be started later."""
        self.says("compiles beside a crate")
        self.keeps_nothing()

    def is_kept(self):
        """Returns whether the tests find the program that is kept."""
        words = f"import kit, unproved; print(bool(unproved.kept_program({self.top!r})))"
        run = subprocess.run([sys.executable, "-Bc", words], cwd=f"{TOP}/tools/gate", env=self.env, stdout=subprocess.PIPE, check=True)
        return run.stdout == b"True\n"

    def test_that_the_tests_take_what_a_call_would_start(self):
        """A source that was touched may have had other contents, so a call compiles anew."""
        self.compiles()
        self.assertTrue(self.is_kept())
        os.utime(f"{self.top}/crates/pg_low/src/lib.rt", (time.time() + 9,) * 2)
        self.assertFalse(self.is_kept())
        os.utime(f"{self.top}/crates/pg_low/src/lib.rt", (1, 1))
        self.assertTrue(self.is_kept())
        os.utime(f"{self.kit}/rt", (time.time() + 9,) * 2)
        self.assertFalse(self.is_kept())

    @unittest.skipUnless(shutil.which("git"), "without git")
    def test_that_only_the_proved_program_is_installed_or_gates(self):
        self.compiles()
        for it in ("tools/install.sh", *(f"examples/ci/{it}" for it in os.listdir(f"{TOP}/examples/ci") if it.endswith((".sh", ".py")))):
            write(f"{self.top}/{it}", read(f"{TOP}/{it}"), 0o755)
        self.write({"proto/m.proto": OLD})
        git = ["git", "-c", "user.name=a", "-c", "user.email=a@b", "-C", self.folder]
        for words in (["init", "-q"], ["add", "proto"], ["commit", "-qm", "one"], ["tag", "v1"]):
            subprocess.run([*git, *words], check=True)
        install, gate = [f"{self.top}/tools/install.sh", f"{self.room}/installed"], [f"{self.top}/examples/ci/gate.sh", "v1", "proto"]
        how = {"env": {**self.env, "PROTOGATE": f"{self.top}/protogate"}, "stdin": subprocess.DEVNULL, "capture_output": True, "text": True}
        for words, status in ((install, 1), (gate, 127)):
            done = subprocess.run(words, cwd=self.folder, check=False, **how)
            self.assertEqual((done.returncode, done.stdout), (status, ""), done.stderr)
            self.assertIn("no proved program is built here", done.stderr)
        self.assertFalse(os.path.exists(f"{self.room}/installed"))

    def test_a_source_of_tomorrow(self):
        """It would be newer than each program."""
        self.write_source()
        os.utime(f"{self.top}/crates/pg_low/src/lib.rt", (time.time() + 86400,) * 2)
        for status in ("", "6"):
            self.says("compiles", status, status and "run=no-answer proved=no")
            self.assertEqual(self.call(*self.words), (3, b"") if status else self.wanted)
            self.is_clean()

    def test_where_a_program_cannot_be_kept(self):
        """What the system says of that is the reason."""
        for words, wanted in ((FULL, "No space left on device"), (STARTS_NOTHING, "no program can be started there")):
            write(f"{self.room}/custom/sitecustomize.py", words)
            self.keeps_nothing(PYTHONPATH=f"{self.room}/custom")
            self.assertIn(wanted, self.lines[-1])

    def test_where_nothing_can_be_written(self):
        write(self.out, "a file\n")
        self.assertEqual(self.call(*self.words), self.wanted)
        self.assertEqual(len(self.lines), 2, self.lines)
        self.assertEqual(read(self.out), b"a file\n")

    @unittest.skipIf(os.geteuid() == 0, "root can write all")
    def test_a_checkout_that_cannot_be_written(self):
        subprocess.run(["chmod", "-R", "a-w", self.top], check=True)
        self.addCleanup(subprocess.run, ["chmod", "-R", "u+w", self.top], check=True)
        self.assertEqual(self.call(*self.words), self.wanted)
        self.assertEqual(len(self.lines), 2, self.lines)
        self.assertFalse(os.path.exists(self.out))

    def test_no_home(self):
        self.env = {it: self.env[it] for it in ("PATH", "TMPDIR")}
        self.compiles()
        self.starts()

    def test_what_rt_try_does_not_answer(self):
        """The program that is kept has no limits of its own, and reads the user's files. Its check of a name is enough where it was run."""
        for status, last in (("6", "run=no-answer proved=no"), ("4", "run=fault proved=no")):
            self.write_source(last)
            self.says("compiles", status, last)
            self.assertEqual(self.call(*self.words), self.wanted, self.lines)
            self.assertEqual(len(self.lines), 2, self.lines)
            self.is_clean()
            self.starts()
        self.write_source("new")
        self.says("compiles", "2", "run=none proved=no")
        before = files_below(self.out)
        self.assertEqual(self.call(*self.words), (3, b""))
        self.assertEqual(files_below(self.out), before)

    def test_words_that_cannot_be_handed_over(self):
        self.write({"a=b/m.proto": OLD})
        for words in (["types", "a=b/m.proto"], [b"\xff"]):
            self.write_source(repr(words))
            self.assertEqual(self.call(*words), self.program_says(*words), self.lines)
            self.assertEqual(len(self.lines), 2, self.lines)
            self.starts()

    def test_signals(self):
        for number in (signal.SIGINT, signal.SIGTERM):
            pids, status = told(self, "compiles and then wait", number)
            self.assertEqual((status, [it for it in pids if is_alive(it)]), (-number, []))
            self.is_clean(is_kept=False)

    def test_any_crate(self):
        """Programs of other crates can be kept anywhere, by an answer of theirs."""
        write(f"{self.room}/tool", "#!/bin/sh\ncat - deep/a; echo \"$@\"; exit 9\n" + "#" * 200_000, 0o755)
        write(f"{self.kit}/rt", stand_in(f"{self.room}/tool"), 0o755)
        write(f"{self.room}/file", "file\n")
        given = {"words": ["a b", "c"], "data": [("deep/a", f"{self.room}/file")], "stdin": b"given\n"}
        with unittest.mock.patch.dict(os.environ, self.env):
            answer = compiled(f"{self.top}/crates/protogate", f"{self.room}/kept/tool", **given)
        self.assertEqual(answer[:2] + answer[3:], (9, b"given\nfile\na b c\n", True))
        self.assertEqual(read(f"{self.room}/kept/tool"), read(f"{self.room}/tool"))
        self.assertEqual(os.listdir(f"{self.room}/kept"), ["tool"])


if __name__ == "__main__":
    sys.exit(run_tests("kept program"))

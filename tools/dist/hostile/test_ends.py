#!/usr/bin/env python3
"""Tests of examples/ci/gate.sh: a call ends, whatever the tree is and whatever hangs, and leaves no process and no folder.

usage: tools/dist/hostile/test_ends.py [PROGRAM]    by default the program that was built
"""

import os
import shutil
import signal
import subprocess
import sys
import time
import unittest

sys.dont_write_bytecode = True
sys.path.append(os.path.dirname(os.path.dirname(os.path.realpath(__file__))))
import test_ci  # noqa: E402
from test_ci import GATE, HEAD, TOP  # noqa: E402
from test_ci_trees import NARROW, WIDE, Trees  # noqa: E402
from trial_checkout import heed_signals, is_alive  # noqa: E402

import processors  # noqa: E402

# What none of these calls takes, in seconds.
LONG = 900
LEVELS = 30
# Has a limit of time count from when a program hangs, which it notes in a file: on a busy machine others may take longer than that.
FROM_WHEN = """
import os, subprocess
communicate = subprocess.Popen.communicate
def wait(run, given=None, timeout=None):
    while not os.path.exists(%r):
        try:
            return communicate(run, given, 0.1)
        except subprocess.TimeoutExpired:
            given = None
    return communicate(run, given, timeout)
subprocess.Popen.communicate = wait
"""


class Ending(Trees):
    def setUp(self):
        super().setUp()
        self.temporary = f"{self.room.name}/temporary"
        os.mkdir(self.temporary)
        self.env["TMPDIR"] = self.temporary

    def call(self, *words, at=None, **more):
        done = subprocess.run([GATE, *words], cwd=at or self.top, env={**self.env, **more}, stdin=subprocess.DEVNULL,
                              stdout=subprocess.PIPE, stderr=subprocess.PIPE, timeout=LONG)
        self.advice = done.stderr.decode("utf-8", "replace")
        return done.returncode, done.stdout.decode("utf-8", "surrogateescape").splitlines()

    def words(self, patch, *words):
        """The words of a call of the script with other numbers."""
        code = f"import sys; sys.path.insert(0, '{TOP}/examples/ci'); import calls, gate\n{patch}\nsys.exit(gate.main({list(words)}))"
        return [sys.executable, "-B", "-c", code]

    def patched(self, patch, *words, **more):
        done = subprocess.run(self.words(patch, *words), cwd=self.top, env={**self.env, **more}, stdout=subprocess.PIPE, stderr=subprocess.PIPE,
                              timeout=LONG)
        self.advice = done.stderr.decode()
        return done.returncode, [it for it in done.stdout.decode().splitlines() if not it.startswith(("cause ", "  "))]

    def nothing_is_left(self):
        self.assertEqual(os.listdir(self.temporary), [])


class Doubling(Ending):
    """Folders each with two links to the next one, so that the last has a thousand million paths."""

    def double(self, top="proto", last=None):
        for level in range(LEVELS):
            os.makedirs(f"{self.top}/{top}/d{level}")
            for name in "ab":
                self.link(f"../d{level + 1}", f"{top}/d{level}/{name}")
        self.write({f"{top}/d{LEVELS}/{name}": text for name, text in (last or {"t.proto": WIDE % "A"}).items()})

    def test_links_that_double(self):
        self.double()
        self.commit()
        self.write({f"proto/d{LEVELS}/t.proto": NARROW % "A"})
        self.assertEqual(self.broken("v1", "proto"), [f"d{LEVELS}/t.proto"])
        self.nothing_is_left()

    def test_an_import_through_links(self):
        """One file has as many paths as one likes."""
        self.double()
        path = "d0/" + "a/" * 5 + "t.proto"
        self.write({"proto/d5/t.proto": WIDE % "T", "proto/i.proto": HEAD + f'import "{path}"; message I {{ p.T t = 1; }}'})
        self.commit()
        self.assertEqual(self.types("v1", "proto"), (0, ["compatible p.A", "compatible p.T", "compatible I"]))
        self.write({"proto/d5/t.proto": NARROW % "T"})
        self.assertEqual(self.types("v1", "proto"), (1, ["breaks p.T 6", "breaks I 8", "compatible p.A"]))
        self.nothing_is_left()

    def test_with_what_is_closed(self):
        """What hangs a program that opens it is closed by each of its paths."""
        self.double()
        self.write({"proto/keep.proto": WIDE % "Keep"})
        self.commit()
        os.mkfifo(f"{self.top}/proto/d5/pipe.proto")
        for path in ("d5/pipe.proto", "d0/a/b/a/b/a/pipe.proto"):
            self.write({"proto/i.proto": HEAD + f'import "{path}";'})
            said = ["refused new E301 i.proto:2:8", "refused new file d5/pipe.proto", "compatible p.A", "compatible p.Keep"]
            self.assertEqual(self.types("v1", "proto"), (2, said))
        self.write({"proto/i.proto": HEAD + f'import "d0/{"a/" * LEVELS}t.proto"; message I {{ p.A a = 1; }}'})
        self.assertEqual(self.types("v1", "proto")[1][1:], ["added I", "compatible p.A", "compatible p.Keep"])
        self.nothing_is_left()

    def test_in_two_roots(self):
        """Two folders for imports have the same names."""
        for it in ("proto", "other"):
            self.double(it)
        self.commit()
        self.write({f"{it}/d{LEVELS}/t.proto": NARROW % "A" for it in ("proto", "other")})
        status, said = self.types("v1", "proto", "--include", "other")
        self.assertEqual((status, said), (1, ["breaks p.A 6"]))
        self.write({f"other/d{LEVELS}/t.proto": WIDE % "A"})
        self.assertEqual(self.types("v1", "proto", "--include", "other")[1], [f"refused new twice d{LEVELS}/t.proto", "breaks p.A 6"])
        self.nothing_is_left()

    def test_links_that_double_elsewhere(self):
        """All links lead elsewhere than they did."""
        self.double()
        self.commit()
        for level in range(LEVELS):
            for name in "ab":
                os.remove(f"{self.top}/proto/d{level}/{name}")
                self.link(f"../d{min(level + 2, LEVELS)}", f"proto/d{level}/{name}")
        self.write({f"proto/d{LEVELS}/t.proto": NARROW % "A"})
        self.assertEqual(self.broken("v1", "proto"), [f"d{LEVELS}/t.proto"])

    def test_below_what_is_left_out(self):
        """A hidden folder and a skipped one may be led to by what is neither."""
        self.double("proto/.hidden")
        self.double("proto/skipped", {"s.proto": WIDE % "S"})
        self.link(".hidden/d0", "proto/one")
        self.link("skipped/d0", "proto/two")
        self.commit()
        self.write({f"proto/.hidden/d{LEVELS}/t.proto": NARROW % "A", f"proto/skipped/d{LEVELS}/s.proto": NARROW % "S"})
        status, said = self.types("v1", "proto", "--skip", "skipped")
        self.assertEqual((status, sorted(said)), (1, ["breaks p.A 6", "breaks p.S 6", "skipped skipped"]))

    def test_links_that_lead_to_each_other(self):
        self.write({f"proto/{it}/{it}.proto": WIDE % it for it in ("one", "two")})
        self.link("../two", "proto/one/in")
        self.link("../one", "proto/two/in")
        self.commit()
        os.mkfifo(f"{self.top}/proto/one/pipe")
        self.write({"proto/two/two.proto": NARROW % "two", "proto/i.proto": HEAD + 'import "two/in/in/in/pipe";'})
        self.assertEqual(self.types("v1", "proto"), (2, ["refused new E301 i.proto:2:8", "breaks p.two 6", "compatible p.one"]))


class Paths(Ending):
    def test_many_paths(self):
        """More paths than a folder may have are no answer, though the last one is fine."""
        self.release({"a.proto": WIDE % "A"}, {"a.proto": WIDE % "A"})
        os.mkdir(f"{self.top}/proto/many")
        for number in range(100_000 - 2):
            os.mknod(f"{self.top}/proto/many/{number}")
        self.assertEqual(self.types("v1", "proto"), (0, ["compatible p.A"]))
        os.mknod(f"{self.top}/proto/many/more")
        self.assertEqual(self.types("v1", "proto"), (3, []))
        self.assertEqual(self.advice, "gate: proto has more than 100,000 files and folders: gate a folder below it\n")
        self.nothing_is_left()

    def test_deep_folders(self):
        """What is too deep is refused by the folder, however much is in it."""
        self.write({"proto/a.proto": WIDE % "A"})
        deep = "/".join(["d"] * 100)
        self.write({f"proto/{deep}/b.proto": WIDE % "B"})
        self.commit()
        self.assertEqual(self.types("v1", "proto"), (0, ["compatible p.A", "compatible p.B"]))
        self.write({f"proto/{deep}/{'d/' * 300}c.proto": WIDE % "C"})
        for number in range(1000):
            os.symlink("gone", f"{self.top}/proto/{deep}/{'d/' * 300}{number}.proto")
        self.assertEqual(self.types("v1", "proto"), (2, [f"refused new folder {deep}/d", "compatible p.A", "compatible p.B"]))
        said = [f"skipped {deep}/d", "compatible p.A", "compatible p.B"]
        self.assertEqual(self.types("v1", "proto", "--skip", f"{deep}/d"), (0, said))

    def test_many_pairs_of_folders(self):
        """On each side links lead round a circle, of lengths with no common divisor."""
        for count, top in ((7, "old"), (11, "new")):
            for number in range(count):
                self.link(f"../c{(number + 1) % count}", f"{top}/c{number}/next")
            self.write({f"{top}/a.proto": WIDE % "A"})
        os.rename(f"{self.top}/old", f"{self.top}/proto")
        self.commit()
        shutil.rmtree(f"{self.top}/proto")
        os.rename(f"{self.top}/new", f"{self.top}/proto")
        self.assertEqual(self.types("v1", "proto"), (0, ["compatible p.A"]))
        patch = "import counterparts; counterparts.MOST_PATHS = 76"
        self.assertEqual(self.patched(patch, "v1", "proto"), (3, []))
        self.assertIn("pairs of an old and a new folder", self.advice)


class Hanging(Ending):
    """A program that doesn't end by itself."""

    def setUp(self):
        super().setUp()
        self.release({"a.proto": WIDE % "A"}, {"a.proto": NARROW % "A"})
        self.pids = f"{self.room.name}/pids"
        self.tools = f"{self.room.name}/tools"
        self.path = f"{self.tools}:{os.environ['PATH']}"

    def hang(self, name, case="*", ignores=""):
        """Writes a program that hangs at some words, with one that it started, and else does what the real one does."""
        real = test_ci.PROGRAM if name == "protogate" else shutil.which(name)
        self.write({name: f"#!/bin/sh\ncase \" $* \" in {case}) {ignores}\nsleep 1000 & echo $! $$ >>'{self.pids}'; wait; sleep 1000 ;; esac\n"
                          f"exec '{real}' \"$@\"\n"}, self.tools)
        os.chmod(f"{self.tools}/{name}", 0o755)

    def started(self):
        until = time.monotonic() + LONG
        while time.monotonic() < until:
            if os.path.exists(self.pids):
                with open(self.pids, encoding="utf-8") as file:
                    found = file.read()
                if found.endswith("\n"):
                    return [int(it) for it in found.split()]
            time.sleep(0.02)
        raise AssertionError("nothing hangs")

    def nothing_is_left(self):
        super().nothing_is_left()
        # (what was killed ends a moment later where the machine is busy)
        until = time.monotonic() + LONG
        while (left := [it for it in self.started() if is_alive(it)]) and time.monotonic() < until:
            time.sleep(0.02)
        self.assertEqual(left, [])

    def limited(self, name, case, *words, ignores=""):
        self.hang(name, case, ignores)
        patch = "calls.LIMIT.seconds = 3" + "\nimport endings; endings.PATIENCE = 1" * bool(ignores) + FROM_WHEN % self.pids
        words = ("v1", "proto", "--time-limit", "3", *words)
        self.assertEqual(self.patched(patch, *words, PATH=self.path, PROTOGATE=f"{self.tools}/protogate"), (3, []))
        self.assertRegex(self.advice, rf"gate: (.*/)?{name} took more than 3 seconds, and was ended: ")
        self.nothing_is_left()
        os.remove(f"{self.tools}/{name}")
        os.remove(self.pids)

    def test_each_program(self):
        """The run stops, and says which program took too long."""
        self.assertEqual(__import__("calls").LIMIT.seconds, 600)
        os.mkdir(self.tools)
        os.symlink(test_ci.PROGRAM, f"{self.tools}/protogate")
        for case in ("*--version*", "*checkout-index*", "*ls-files*"):
            self.limited("git", case)
        os.remove(f"{self.tools}/protogate")
        for case in ("*--version*", "*compile*", "*gate-all*"):
            self.limited("protogate", case)

    def test_one_that_does_not_end_when_told(self):
        self.limited("protogate", "*compile*", ignores="trap '' TERM;")

    @test_ci.NO_PROTOC
    def test_protoc(self):
        os.mkdir(self.tools)
        os.symlink(test_ci.PROGRAM, f"{self.tools}/protogate")
        self.write({"proto/a.proto": HEAD + "option (x) = 1;"})
        self.limited("protoc", "*", "--with-protoc")

    def test_signals(self):
        """What was started ends with the script, which ends as the signal has it."""
        for number in (signal.SIGTERM, signal.SIGINT, signal.SIGHUP):
            for name, case in (("git", "*ls-files*"), ("protogate", "*compile*"), ("protogate", "*gate-all*")):
                self.hang(name, case)
                more = {"PROTOGATE": f"{self.tools}/protogate"} if name == "protogate" else {}
                how = {"cwd": self.top, "env": {**self.env, "PATH": self.path, **more}, "preexec_fn": heed_signals}
                run = subprocess.Popen([GATE, "v1", "proto"], stdout=subprocess.PIPE, stderr=subprocess.DEVNULL, start_new_session=True, **how)
                self.started()
                run.send_signal(number)
                said, _ = run.communicate(timeout=LONG)
                self.assertEqual((run.returncode, said), (-number, b""), (number, name))
                self.nothing_is_left()
                os.remove(f"{self.tools}/{name}")
                os.remove(self.pids)

    def test_a_signal_that_is_noted_alone(self):
        """It ends the script, and others that are noted before it don't."""
        script = "import endings, os, signal, time; endings.on_signals(); note = signal.set_wakeup_fd(-1)\ntry:\n"
        script += f"    os.write(note, bytes([signal.SIGALRM, signal.SIGTERM])); time.sleep({LONG})\nexcept endings.Ended:\n    endings.end_by_signal()"
        done = subprocess.run([sys.executable, "-Bc", script], cwd=f"{TOP}/examples/ci", preexec_fn=heed_signals, timeout=LONG, check=False)
        self.assertEqual(done.returncode, -signal.SIGTERM)

    def test_a_signal_while_a_folder_is_walked(self):
        """It doesn't wait for what this script does itself."""
        patch = "import walks\nwalks.Walk.go_through = lambda *_: [open('walking', 'w').close() for _ in iter(int, 1)]"
        how = {"cwd": self.top, "env": self.env, "preexec_fn": heed_signals}
        run = subprocess.Popen(self.words(patch, "v1", "proto"), stdout=subprocess.PIPE, stderr=subprocess.DEVNULL, **how)
        until = time.monotonic() + LONG
        while not os.path.exists(f"{self.top}/walking") and time.monotonic() < until:
            time.sleep(0.02)
        run.send_signal(signal.SIGTERM)
        run.communicate(timeout=LONG)
        self.assertEqual(run.returncode, -signal.SIGTERM)
        self.assertEqual(os.listdir(self.temporary), [])

    def test_a_signal_that_is_ignored(self):
        """As below nohup."""
        self.hang("protogate", "*compile*")
        run = subprocess.Popen(["sh", "-c", f"trap '' HUP; exec '{GATE}' v1 proto"], cwd=self.top, stdout=subprocess.PIPE,
                               env={**self.env, "PROTOGATE": f"{self.tools}/protogate"}, stderr=subprocess.DEVNULL)
        self.started()
        run.send_signal(signal.SIGHUP)
        with self.assertRaises(subprocess.TimeoutExpired):
            run.communicate(timeout=1)
        run.send_signal(signal.SIGTERM)
        run.communicate(timeout=LONG)
        self.assertEqual(run.returncode, -signal.SIGTERM)
        self.nothing_is_left()


class Processors(Ending):
    """How many programs run side by side."""

    def quota(self, files):
        self.write(files, self.top)
        return processors.processors(self.top)

    def test_affinity(self):
        code = f"import sys; sys.path.insert(0, '{TOP}/examples/ci'); import processors; print(processors.processors())"
        one = str(min(os.sched_getaffinity(0)))
        done = subprocess.run(["taskset", "-c", one, sys.executable, "-B", "-c", code], stdout=subprocess.PIPE, check=True)
        self.assertEqual(done.stdout, b"1\n")

    def test_control_groups(self):
        """Of version 2 and of version 1: a group's own limit, or that of one above it; never none."""
        most = len(os.sched_getaffinity(0))
        self.assertEqual(processors.processors(self.top), most)
        two = {"proc/self/cgroup": "0::/a/b\n"}
        for folder, said, wanted in (("a/b", "max 100000", most), ("a/b", "100000 100000", 1), ("a/b", "50000 100000", 1), ("", "100000 100000", 1)):
            self.assertEqual(self.quota({**two, f"sys/fs/cgroup/{folder}/cpu.max": f"{said}\n"}), wanted, said)
            os.remove(f"{self.top}/sys/fs/cgroup/{folder}/cpu.max")
        one = {"proc/self/cgroup": "4:memory:/x\n3:cpu,cpuacct:/docker/c\n"}
        group = "sys/fs/cgroup/cpu,cpuacct/docker/c"
        self.assertEqual(self.quota({**one, f"{group}/cpu.cfs_quota_us": "-1\n", f"{group}/cpu.cfs_period_us": "100000\n"}), most)
        self.assertEqual(self.quota({f"{group}/cpu.cfs_quota_us": "120000\n"}), 1)

    def test_side_by_side(self):
        """As many compile at a time as there are processors, and each answer is there."""
        self.release({f"{it}.proto": WIDE % it for it in "ABCD"}, {f"{it}.proto": NARROW % it for it in "ABCD"})
        said = self.patched("import reading; reading.MOST_FILES = 1; calls.processors = lambda: 1", "v1", "proto")
        self.assertEqual(said, (1, [f"breaks p.{it} 6" for it in "ABCD"]))


if __name__ == "__main__":
    if len(sys.argv) > 1 and not sys.argv[1].startswith("-"):
        test_ci.PROGRAM = os.path.realpath(sys.argv.pop(1))
    test_ci.run_tests.main()

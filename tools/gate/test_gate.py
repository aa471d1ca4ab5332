#!/usr/bin/env python3
"""Tests of the gate and the build themselves: with a kit of the tests' own, which proves nothing, on repositories of their own.

usage: tools/gate/test_gate.py    a few seconds
"""

import contextlib
import fcntl
import hashlib
import io
import os
import resource
import shutil
import signal
import subprocess
import sys
import tempfile
import time
import unittest
from unittest import mock

sys.dont_write_bytecode = True
sys.path.append(f"{os.path.dirname(os.path.realpath(__file__))}/..")
import build  # noqa: E402
import child_programs  # noqa: E402
import kit  # noqa: E402
import prove  # noqa: E402
import run_tests  # noqa: E402
import stamp  # noqa: E402
import testers  # noqa: E402
import times  # noqa: E402

TOP = os.path.dirname(os.path.dirname(os.path.dirname(os.path.realpath(__file__))))
LINE = "a kit of the tests"
# So long something may take that takes a moment, in seconds: the gate keeps all processors busy beside these tests.
PATIENCE = 600
# A kit that says of each crate that it is proved. It locks the crate's folder, and takes as long as it is asked to.
RT = """#!/bin/sh
wait_a_while() {
    flock -w 20 . true || exit 2
    echo "$1" >>"$RT_LOG"
    sleep "${RT_SLEEP:-0}"
    mkdir -p out
}
case ${1-} in
    version) echo 'a kit of the tests' ;;
    ci)
        [ $# -eq 1 ] || { echo 'usage: rt ci' >&2; exit 2; }
        mkdir crates/protogate/out
        echo proved >crates/protogate/out/protogate
        wait_a_while ci
        echo 'rt: low proved'
        echo 'rt: protogate proved'
        echo '2 passed, 0 failed' ;;
    lib) wait_a_while lib && mkdir -p out/rlib out/incremental && echo made >out/rlib/library ;;
    check) RT_SLEEP=300 && wait_a_while check ;;
    run) wait_a_while run && echo built >out/protogate && exit 4 ;;
esac
"""


def write(path, text):
    os.makedirs(os.path.dirname(path), exist_ok=True)
    with open(path, "w", encoding="utf-8") as file:
        file.write(text)


def text_of(path):
    with open(path, encoding="utf-8") as file:
        return file.read()


class Room(unittest.TestCase):
    """A folder of the test's own, which is also that of temporary files, and a kit that is first on the path."""

    def setUp(self):
        room = tempfile.TemporaryDirectory()
        self.addCleanup(room.cleanup)
        self.room = room.name
        self.top, self.log, self.made = f"{self.room}/repository", f"{self.room}/log", f"{self.room}/made"
        os.mkdir(self.made)
        write(f"{self.room}/kit/rt", RT)
        os.chmod(f"{self.room}/kit/rt", 0o755)
        write(f"{self.top}/crates/low/src/lib.rt", "fn low() {}\n")
        write(f"{self.top}/crates/protogate/src/main.rt", "fn main() {}\n")
        write(f"{self.top}/crates.txt", "# Two crates.\nlow:\nprotogate: low\n")
        write(f"{self.top}/HANDLES", "Handles allowed: none.\n")
        shutil.copytree(f"{TOP}/tools", f"{self.top}/tools", symlinks=True)
        self.env = {**os.environ, "PATH": f"{self.room}/kit:{os.environ['PATH']}", "RT_LOG": self.log, "TMPDIR": self.made}
        self.out = f"{self.top}/crates/protogate/out"

    def start(self, script, *words, **env):
        how = {"stdin": subprocess.DEVNULL, "stdout": subprocess.PIPE, "stderr": subprocess.STDOUT, "text": True}
        started = subprocess.Popen([sys.executable, f"{self.top}/tools/{script}", *words], env={**self.env, **env}, **how)
        self.addCleanup(started.stdout.close)
        return started

    def run_to_end(self, script, *words, **env):
        """Returns the status and what was said."""
        started = self.start(script, *words, **env)
        return (said := started.communicate(timeout=PATIENCE)[0]) and started.returncode, said

    def wait_for(self, is_so):
        until = time.monotonic() + PATIENCE
        while not is_so():
            self.assertLess(time.monotonic(), until)
            time.sleep(0.02)

    def stamp(self):
        """Returns what has to stand beside a program of the kit."""
        with open(f"{self.room}/kit/rt", "rb") as file:
            said = f"{os.fstat(file.fileno()).st_ino} {hashlib.sha256(file.read()).hexdigest()}"
        return f"{LINE}\n{said}\n{os.path.realpath(self.room)}/kit/rt\nlow protogate\n"

    def begun(self):
        return text_of(self.log).split() if os.path.exists(self.log) else []

    def own_processes(self):
        """Returns the processes that have this test's folder in their environment."""
        found = []
        for pid in filter(str.isdigit, os.listdir("/proc")):
            with contextlib.suppress(OSError), open(f"/proc/{pid}/environ", "rb") as file:
                found += [pid] * (f"RT_LOG={self.log}\0".encode() in file.read())
        return found


class Signals(Room):
    def setUp(self):
        super().setUp()
        for it in child_programs.SIGNALS:
            # (what this process ignores, as below nohup, would be ignored by all that it starts)
            if signal.getsignal(it) is signal.SIG_IGN:
                signal.signal(it, signal.SIG_DFL)
                self.addCleanup(signal.signal, it, signal.SIG_IGN)

    def is_ended_by(self, number, script, *words, during="", **env):
        started = self.start(script, *words, **(env or {"RT_SLEEP": "300"}))
        self.wait_for(lambda: self.begun()[-1:] == [during] if during else self.begun())
        started.send_signal(number)
        self.assertEqual(started.wait(timeout=PATIENCE), 128 + number)
        self.assertEqual((self.own_processes(), os.listdir(self.made)), ([], []))

    def test_what_ends_the_gate_ends_all_that_it_began(self):
        for number in (signal.SIGINT, signal.SIGTERM, signal.SIGHUP):
            with self.subTest(signal=number):
                self.is_ended_by(number, "prove.py", "protogate")
                os.remove(self.log)

    def test_what_ends_the_gate_ends_the_tries_of_edits(self):
        for name in ("low", "protogate"):
            folder, path = f"{self.top}/crates/{name}", f"src/{'lib' if name == 'low' else 'main'}.rt"
            write(f"{folder}/{path}", "pub fn turned() -> u8\n{\n    1\n}\n")
            write(f"{folder}/must-fail/turned.edit", f"file: {path}\nold:     1\nnew:     2\n")
        self.is_ended_by(signal.SIGTERM, "prove.py", "protogate", during="check", RT_JOBS="1", XDG_CACHE_HOME=f"{self.room}/cache")

    def test_an_error_ends_the_gate_and_all_that_it_began(self):
        """As where nobody reads any longer what it says."""
        # (what was said before that may have fitted into the pipe)
        write(f"{self.room}/kit/rt", RT.replace("wait_a_while ci\n", "while echo one; do sleep 0.1; done\n"))
        started = self.start("prove.py", "protogate")
        started.stdout.readline()
        started.stdout.close()
        self.assertNotEqual(started.wait(timeout=PATIENCE), 0)
        self.assertEqual((self.own_processes(), os.listdir(self.made)), ([], []))

    def test_what_ends_a_build_ends_all_that_it_began(self):
        self.is_ended_by(signal.SIGINT, "build.py")

    def test_a_signal_that_the_caller_ignores_ends_nothing(self):
        before = signal.signal(signal.SIGHUP, signal.SIG_IGN)
        try:
            started = self.start("build.py", RT_SLEEP="1")
        finally:
            signal.signal(signal.SIGHUP, before)
        self.wait_for(self.begun)
        started.send_signal(signal.SIGHUP)
        self.assertEqual((started.wait(timeout=PATIENCE), self.begun()), (0, ["lib", "run"]))

    def test_a_signal_that_is_noted_alone_is_heeded(self):
        """Others that are noted before it end nothing."""
        script = "import child_programs, os, signal, time; child_programs.on_signals(); "
        script += f"os.write(signal.set_wakeup_fd(-1), bytes([signal.SIGALRM, signal.SIGTERM])); time.sleep({PATIENCE})"
        done = subprocess.run([sys.executable, "-Bc", script], cwd=f"{TOP}/tools/gate", env=self.env, timeout=PATIENCE, check=False)
        self.assertEqual(done.returncode, 128 + signal.SIGTERM)

    def test_what_ignores_the_signal_is_killed(self):
        script = "import child_programs; child_programs.PATIENCE = 0.2; child_programs.on_signals(); child_programs.run(['sh', '-c', 'trap \"\" TERM; echo >$RT_LOG; while :; do sleep 1; done'])"
        started = subprocess.Popen([sys.executable, "-Bc", script], cwd=f"{TOP}/tools/gate", env=self.env)
        self.wait_for(lambda: os.path.exists(self.log))
        started.terminate()
        self.assertEqual((started.wait(timeout=PATIENCE), self.own_processes()), (128 + signal.SIGTERM, []))


class Builds(Room):
    def start_held(self):
        """Starts a build whose first check goes on until it is let go."""
        write(f"{self.room}/kit/rt", RT.replace("echo made", f"while [ -e '{self.room}/held' ]; do sleep 0.1; done && echo made"))
        write(f"{self.room}/held", "")
        started = self.start("build.py")
        self.wait_for(self.begun)
        return started

    def let_go(self):
        os.remove(f"{self.room}/held")

    def test_a_build_leaves_the_program_and_its_stamp(self):
        before = time.time_ns()
        status, said = self.run_to_end("build.py")
        self.assertEqual((status, self.begun()), (0, ["lib", "run"]), said)
        self.assertEqual((text_of(f"{self.out}/protogate"), text_of(f"{self.out}/protogate.begun")), ("built\n", self.stamp()))
        read = os.stat(f"{self.out}/protogate.begun").st_mtime_ns
        self.assertTrue(before - 20_000_000 <= read <= os.stat(f"{self.top}/crates/low/out/rlib/library").st_mtime_ns)
        self.assertEqual(os.listdir(f"{self.top}/crates/low/out"), ["rlib"])
        self.assertIn(" minute", said.splitlines()[0])

    def test_a_check_that_runs_alone_has_a_job_for_each_processor(self):
        """Those that run side by side have one less."""
        write(f"{self.room}/kit/rt", RT.replace("wait_a_while lib", 'wait_a_while "$3"'))
        for crates, jobs in (("low:\nprotogate: low\n", ["3"]), ("low:\nhigh:\nprotogate: low high\n", ["2", "2"])):
            write(f"{self.top}/crates.txt", crates)
            write(f"{self.top}/crates/high/src/lib.rt", "fn high() {}\n")
            status, said = self.run_to_end("build.py", RT_JOBS="3")
            self.assertEqual((status, self.begun()), (0, [*jobs, "run"]), said)
            os.remove(self.log)

    def test_no_more_is_left_than_is_allowed(self):
        for name, much in (("low", 30_000), ("high", 90_000), ("protogate", 60_000)):
            write(f"{self.top}/crates/{name}/out/made", "x" * much)
        with mock.patch("build.TOP", self.top):
            self.assertLess(build.shrink(["low", "high", "protogate"], 150_000), 100_000)
            self.assertEqual([os.path.exists(f"{self.top}/crates/{it}/out") for it in ("low", "high", "protogate")], [True, False, True])
            self.assertLess(build.shrink(["low", "protogate"], 0), 70_000)
            self.assertEqual([os.path.exists(f"{self.top}/crates/{it}/out") for it in ("low", "protogate")], [False, True])

    def test_what_a_next_check_needs_is_kept_where_that_is_asked_for(self):
        self.assertEqual(self.run_to_end("build.py", "--keep")[0], 0)
        self.assertEqual(sorted(os.listdir(f"{self.top}/crates/low/out")), ["incremental", "rlib"])

    def test_two_builds_take_turns(self):
        """So they do where the script has been made anew meanwhile, as git makes what it changes."""
        first = self.start_held()
        shutil.copy2(f"{self.top}/tools/build.py", f"{self.top}/tools/new.py")
        os.replace(f"{self.top}/tools/new.py", f"{self.top}/tools/build.py")
        second = self.start("build.py")
        self.assertIn("another build runs here; waiting for it", second.stdout.readline())
        self.assertEqual(self.begun(), ["lib"])
        self.let_go()
        self.assertEqual([it.wait(timeout=PATIENCE) for it in (first, second)], [0, 0])
        self.assertEqual(self.begun(), ["lib", "run"] * 2)

    def test_the_folders_that_a_kit_locks_are_free(self):
        started = self.start_held()
        folder = os.open(f"{self.top}/crates/protogate", os.O_RDONLY)
        fcntl.flock(folder, fcntl.LOCK_EX | fcntl.LOCK_NB)
        os.close(folder)
        self.let_go()
        self.assertEqual(started.wait(timeout=PATIENCE), 0)


class Gates(Room):
    def test_a_kit_without_words_for_its_gate_is_asked_without(self):
        status, said = self.run_to_end("prove.py", "--anew", "protogate")
        self.assertEqual((status, said.splitlines()[-1], self.begun()), (0, "2 passed, 0 failed", ["ci"]), said)
        self.assertIn("takes no --anew", said)

    def test_proofs_and_edits_of_a_crate_are_apart(self):
        write(f"{self.top}/crates/low/must-fail/turned.edit", "file: src/lib.rt\nold: low\nnew: lower\n")
        phases = prove.progress_of(self.top, prove.plan(self.top), (testers.Tester("docs/tester.py", 1),)).phases
        names = [name for seconds, _ in phases.values() for name in seconds]
        self.assertEqual(sorted(names), ["edits of low", "low", "protogate", "tester"])

    def test_each_tester_has_its_share_of_the_costs(self):
        some = testers.Tester("one.py", 30), testers.Tester("two.py", 10)
        with mock.patch("times.read", lambda: {times.TESTERS: {"programs": 80}}):
            self.assertEqual(prove.progress_of(self.top, [], some).phases["testers"][0], {"one": 60, "two": 20})

    def test_it_says_each_minute_how_far_it_is(self):
        said = []
        progress = times.Progress({"crates": ({"low": 60, "protogate": 120}, {"low": [], "protogate": ["low"]})}, 2, said.append, 0.01)
        with progress:
            self.wait_for(lambda: said)
            progress.end("low")
            before = len(said)
            self.wait_for(lambda: len(said) > before + 1)
        self.assertEqual((said[0], said[-1]), ("done: 0 of 2 crates; some 3 minutes left", "done: 1 of 2 crates; some 2 minutes left"))

    def test_what_is_left_goes_by_the_pace_of_the_machine(self):
        """What was kept, and what is too little, tells nothing of it. What takes longer than expected is likely to go on for a while."""
        tasks = {"low": 100, "kept": 900, "little": 1, "rest": 600}
        progress = times.Progress({"crates": (tasks, dict.fromkeys(tasks, ()))}, 1, print)
        now = 10_000
        with mock.patch("time.monotonic", lambda: now):
            self.assertEqual(progress.left(), 1601)
            for name, took in (("little", 5), ("kept", 1), ("low", 50)):
                progress.begun[name] = now - took
                progress.end(name)
                self.assertEqual(progress.pace(), 1)
            progress.phases["others"] = ({"other": 200}, {"other": ()})
            progress.begun["other"] = now - 547
            progress.end("other")
            self.assertEqual((progress.pace(), progress.left()), (2, 1200))
            progress.begun["rest"] = now - 2000
            self.assertEqual(progress.left(), 400)

    def test_a_crate_that_was_kept_keeps_its_costs(self):
        before = {it: dict.fromkeys(times.KINDS, 7) for it in ("low", "protogate", "gone", times.TESTERS, times.OTHERS)}
        took = {it: {"proof": 2.0, "seeds": 1.0, "edits": 4.0, "tests": 0.0, "programs": 0.0} for it in ("low", "protogate", "unknown")}
        kept = {**took, "low": {**took["low"], "proof": 0.0}}
        rest = {it: {**dict.fromkeys(prove.KINDS, 0.0), "programs": 5.0} for it in (times.TESTERS, times.OTHERS)}
        new, old, others = [3, 4, 0, 0], [7, 7, 7, 7], [0, 0, 0, 5]
        with mock.patch("times.read", lambda: before), mock.patch("prove.crates_of", lambda top: {"low": None, "protogate": None}):
            for table, wanted in (({**took, **rest}, [new, new, others, others]), ({**kept, **rest}, [old, new, others, others]), (took, [new, new, old, old])):
                found = prove.measured(table)
                self.assertEqual([*found], ["low", "protogate", times.TESTERS, times.OTHERS])
                self.assertEqual([[row[kind] for kind in times.KINDS] for row in found.values()], wanted)

    def test_costs_are_of_what_is_proved_anew(self):
        status, said = self.run_to_end("prove.py", "--costs", "protogate")
        self.assertEqual((status, self.begun()), (2, []), said)


# Notes its begin and its end, which comes once two have begun, or after so many seconds.
NOTED = """import os, time
log, until = os.environ['RT_LOG'], time.monotonic() + {patience}
open(log, 'a').write('begun\\n')
while open(log).read().count('begun') < 2 and time.monotonic() < until:
    time.sleep(0.02)
open(log, 'a').write('ended\\n')
"""
# Runs the whole gate with these testers alone, and without what it says of messages that borrow.
WHOLE = """import sys, prove, testers
from testers import ALONE, BESIDE, CHECKS, PROGRAM, Tester
testers.COMPARED = (Tester("seven.py", 1),)
testers.TESTERS = (Tester("one.py", 1), Tester("two.py", 1, (PROGRAM,)), Tester("five.py", 1, (CHECKS,)), Tester("six.py", 1, (CHECKS,)),
                   Tester("three.py", 1, how=ALONE), Tester("four.py", 1, (PROGRAM,), how=ALONE))
prove.try_lent = lambda room: True
sys.exit(prove.main())
"""


class WholeGates(Room):
    """The whole gate, over testers of the tests' own."""

    def run_whole(self, *words, tested=(), **made):
        """Runs the gate, after these parts have passed."""
        for name in ("one", "two", "three", "four", "five", "six", "seven"):
            write(f"{self.top}/tools/{name}.py", f"#!/usr/bin/env python3\nimport sys\n{made.get(name, '')}\n")
            os.chmod(f"{self.top}/tools/{name}.py", 0o755)
        env = {**self.env, "PYTHONPATH": f"{self.top}/tools:{self.top}/tools/gate"}
        words = [*words, *([",".join([f"--tested={self.sum_of_files(env)}", *tested])] if tested else [])]
        run = subprocess.run([sys.executable, "-Bc", WHOLE, *words], cwd=self.top, env=env, capture_output=True, text=True, check=False)
        return run.returncode, run.stdout.splitlines()

    def sum_of_files(self, env):
        words = [sys.executable, "-Bc", "import stamp; print(stamp.sum_of_files('.'))"]
        return subprocess.run(words, cwd=self.top, env=env, stdout=subprocess.PIPE, text=True, check=True).stdout.strip()

    def test_what_all_testers_pass(self):
        begun = time.time_ns() - 20_000_000
        status, said = self.run_whole(two="print('passed over, without fish: a test')", four="print(open('crates/protogate/out/protogate').read())")
        self.assertEqual((status, said[-2:]), (0, ["passed over, without fish: a test", "10 passed, 0 failed"]), said)
        self.assertIn("proved", said)
        costs = {it.split()[0]: int(it.split()[-1]) for it in said if it.startswith(("testers ", "others ", "sum "))}
        self.assertEqual(sorted(costs), ["others", "sum", "testers"])
        self.assertLessEqual(abs(costs["testers"] + costs["others"] - costs["sum"]), 1, said)
        self.assertGreaterEqual(costs["others"], 0)
        self.assertTrue(begun < os.stat(f"{self.out}/protogate.begun").st_mtime_ns)
        self.assertEqual(os.listdir(self.made), [])

    def test_what_a_tester_fails(self):
        for name in ("one", "three", "four", "six"):
            status, said = self.run_whole(**{name: "sys.exit(1)"})
            self.assertEqual((status, said[-1]), (1, "9 passed, 1 failed"), said)

    def test_what_the_tests_passed_is_counted_and_tried_again_on_the_program_alone(self):
        self.assertEqual(self.run_whole(tested=("program", "one", "two", "seven"), **dict.fromkeys(("one", "seven"), "sys.exit(1)"))[1][-1],
                         "13 passed, 0 failed")
        self.assertEqual(self.run_whole(tested=("one", "two"), two="sys.exit(1)")[1][-1], "10 passed, 1 failed")
        self.assertEqual(self.run_whole(tested=("one", "two"), seven="sys.exit(1)")[1][-1], "2 passed, 1 failed")

    def test_what_was_changed_since_the_tests(self):
        """Then all is tried again."""
        words = f"--tested={'0' * 64},one,two"
        status, said = self.run_whole(words, one="sys.exit(1)")
        self.assertEqual((status, said[-1]), (1, "9 passed, 1 failed"), said)
        self.assertTrue(any("a file was changed since the tests ran" in it for it in said), said)

    def test_what_the_tests_cannot_have_passed(self):
        """Each part that is handed over is one of the tests, once."""
        for words in (["fish"], ["one", "one"], ["one", "five"], [""], ["one", ""]):
            self.assertEqual(self.run_whole(tested=words), (2, []), words)
        for words in (["--tested="], ["--tested=one"], ["--tested"], ["--tested=0,one", "--tested=0,two"]):
            self.assertEqual(self.run_whole(*words)[0], 2, words)
        self.assertEqual(self.begun(), [])

    def test_the_program_is_handed_over(self):
        self.env["RT_JOBS"] = "1"
        _, said = self.run_whole(**dict.fromkeys(("one", "two", "four", "seven"), "print(sys.argv)"))
        program = f"'{self.out}/protogate']"
        wanted = ["['tools/seven.py', '--compare']", "['tools/one.py']", f"['tools/two.py', {program}", f"['tools/four.py', {program}"]
        self.assertEqual([it for it in said if it.startswith("[")], wanted)

    def test_no_more_check_at_once_than_there_is_room_for(self):
        for jobs, patience, wanted in (("1", 1, ["begun", "ended"] * 2), ("2", PATIENCE, ["begun"] * 2 + ["ended"] * 2)):
            self.env["RT_JOBS"], noted = jobs, NOTED.format(patience=patience)
            status, said = self.run_whole(five=noted, six=noted)
            self.assertEqual((status, [it for it in self.begun() if it != "ci"]), (0, wanted), said)
            os.remove(self.log)

    def test_what_only_tries_the_program_runs_beside_what_checks_crates(self):
        self.env["RT_JOBS"], noted = "2", NOTED.format(patience=PATIENCE)
        status, said = self.run_whole(one=noted, five=noted)
        self.assertEqual((status, [it for it in self.begun() if it != "ci"]), (0, ["begun"] * 2 + ["ended"] * 2), said)

    def test_no_more_run_at_once_than_there_are_processors(self):
        self.env["RT_JOBS"], noted = "1", NOTED.format(patience=1)
        status, said = self.run_whole(one=noted, two=noted)
        self.assertEqual((status, [it for it in self.begun() if it != "ci"]), (0, ["begun", "ended"] * 2), said)

    def test_what_is_changed_meanwhile(self):
        write(f"{self.room}/kit/rt", RT.replace("ci)\n", f"ci)\n        echo >>'{self.top}/crates/low/src/lib.rt'\n", 1))
        status, said = self.run_whole()
        self.assertEqual((status, said[-1], os.listdir(self.out)), (1, "3 passed, 1 failed", []), said)

    def test_what_is_not_proved(self):
        write(f"{self.room}/kit/rt", RT.replace("echo '2 passed, 0 failed'", "echo '1 passed, 1 failed'; exit 1"))
        write(f"{self.out}/protogate", "before\n")
        status, said = self.run_whole()
        self.assertEqual((status, said[-1], text_of(f"{self.out}/protogate")), (1, "1 passed, 1 failed", "before\n"), said)
        self.assertEqual(os.listdir(self.out), ["protogate"])


class PutBack(Room):
    """What a gate puts into the repository."""

    def setUp(self):
        super().setUp()
        before = os.getcwd()
        os.chdir(self.top)
        self.addCleanup(os.chdir, before)
        patched = mock.patch.dict(os.environ, self.env)
        patched.start()
        self.addCleanup(patched.stop)
        self.proved = f"{self.room}/proved"
        shutil.copytree(self.top, self.proved)
        write(f"{self.proved}/crates/protogate/out/protogate", "proved\n")
        kit.version.cache_clear()
        self.addCleanup(kit.version.cache_clear)
        self.copied, self.read = prove.sums(self.proved), stamp.read_now(".")

    def put_back(self):
        with contextlib.redirect_stdout(io.StringIO()) as said:
            return prove.put_back(self.proved, self.copied, self.read), said.getvalue()

    def test_what_was_proved_of_these_sources(self):
        self.assertEqual(self.put_back(), (True, ""))
        self.assertEqual((text_of(f"{self.out}/protogate"), text_of(f"{self.out}/protogate.begun")), ("proved\n", self.stamp()))
        self.assertEqual(os.stat(f"{self.out}/protogate.begun").st_mtime_ns, self.read.at)
        self.assertEqual(sorted(os.listdir(self.out)), ["protogate", "protogate.begun", "protogate.sum"])

    def test_nothing_where_a_source_was_changed_added_or_removed(self):
        path = f"{self.top}/crates/low/src/lib.rt"
        for change in (lambda: write(path, "fn low() {};\n"), lambda: os.remove(path), lambda: write(f"{self.top}/crates/low/specs/Lib.antt", "")):
            change()
            is_put, said = self.put_back()
            self.assertEqual((is_put, os.listdir(self.out)), (False, []))
            self.assertIn("was changed while the gate ran", said)

    def test_two_runs_put_back_at_once(self):
        words = f"import os, prove, stamp; os.chdir({self.top!r}); copied = prove.sums('.'); "
        words += f"[prove.put_back({self.proved!r}, copied, stamp.read_now('.')) or exit(1) for _ in range(20)]"
        runs = [subprocess.Popen([sys.executable, "-Bc", words], cwd=f"{TOP}/tools") for _ in range(2)]
        self.assertEqual([it.wait(timeout=PATIENCE) for it in runs], [0, 0])
        self.assertEqual(sorted(os.listdir(self.out)), ["protogate", "protogate.begun", "protogate.sum"])

    def test_a_kit_that_is_replaced_meanwhile(self):
        """What built the program is the kit that was there before."""
        before = self.stamp()
        write(f"{self.room}/kit/rt", RT.replace(LINE, "another kit"))
        kit.version.cache_clear()
        self.put_back()
        self.assertEqual(text_of(f"{self.out}/protogate.begun"), before)

    def test_no_link_to_the_kit_is_left(self):
        """An earlier gate made one, which the kit's own refuses."""
        os.symlink("/proc/none", f"{self.out}/protogate.kit")
        self.put_back()
        self.assertFalse(os.path.lexists(f"{self.out}/protogate.kit"))


class Missing(Room):
    """What is missing is told before anything begins."""

    def run_without(self, missing, *scripts):
        """Runs these scripts with all tools on the path but one. Each has to say so within some seconds of a processor, with status 2, and begin nothing."""
        os.mkdir(f"{self.room}/bin")
        for it in {"rt", "git", "cc", "sh", "flock", "sleep", "mkdir"} - {missing}:
            os.symlink(shutil.which(it, path=self.env["PATH"]), f"{self.room}/bin/{it}")
        for words in scripts:
            before = resource.getrusage(resource.RUSAGE_CHILDREN)
            status, said = self.run_to_end(*words, PATH=f"{self.room}/bin")
            after = resource.getrusage(resource.RUSAGE_CHILDREN)
            self.assertLess(after.ru_utime + after.ru_stime - before.ru_utime - before.ru_stime, 20)
            self.assertEqual((status, self.begun()), (2, []), said)
            self.assertIn(f"there is no {missing} on the path", said)

    def test_a_kit(self):
        self.run_without("rt", ["prove.py", "protogate"], ["prove.py"], ["build.py"])

    def test_git(self):
        self.run_without("git", ["prove.py", "protogate"], ["prove.py"])

    def test_a_linker(self):
        self.run_without("cc", ["prove.py", "protogate"], ["prove.py"], ["build.py"])


if __name__ == "__main__":
    child_programs.on_signals()
    run_tests.main()

#!/usr/bin/env python3
"""Tests of what the gate and the build are made of: the limits of a machine, the model of time, what is kept, a check of a copy, the set of
edits, and the tables of definitions.

usage: tools/gate/test_gate_parts.py    a few seconds
"""

import glob
import os
import re
import shutil
import subprocess
import sys
import tempfile
import unittest
from unittest import mock

sys.dont_write_bytecode = True
sys.path += [f"{os.path.dirname(os.path.realpath(__file__))}/{it}" for it in ("..", "../docs")]
import costs  # noqa: E402
import held_edits  # noqa: E402
import kit  # noqa: E402
import machine  # noqa: E402
import prove  # noqa: E402
import run_tests  # noqa: E402
import testers  # noqa: E402
import times  # noqa: E402
import word_tables  # noqa: E402
from crates import crates_of  # noqa: E402
from test_gate import PATIENCE, TOP, Room, text_of, write  # noqa: E402


class Containers(unittest.TestCase):
    """The limits of a container, in a folder that has the files of one."""

    def setUp(self):
        room = tempfile.TemporaryDirectory()
        self.addCleanup(room.cleanup)
        self.root = room.name
        write(f"{self.root}/proc/meminfo", "MemTotal: 16000000 kB\nMemAvailable: 8000000 kB\n")
        patched = mock.patch("os.sched_getaffinity", lambda _: {*range(8)})
        patched.start()
        self.addCleanup(patched.stop)

    def group(self, path, **files):
        for name, text in files.items():
            write(f"{self.root}/sys/fs/cgroup/{path}/{name.replace('__', '.')}", text)

    def found(self):
        return machine.processors(self.root), machine.free_memory(self.root)

    def test_there_is_none(self):
        self.assertEqual(self.found(), (8, 8_192_000_000))
        write(f"{self.root}/proc/self/cgroup", "0::/a\n")
        self.group("a", cpu__max="max 100000\n", memory__max="max\n", memory__current="5\n")
        self.assertEqual(self.found(), (8, 8_192_000_000))
        self.assertFalse(machine.is_confined(self.root))

    def test_the_second_version(self):
        write(f"{self.root}/proc/self/cgroup", "0::/a/b\n")
        self.group("a", cpu__max="250000 100000\n")
        self.group("a/b", memory__max="2000000\n", memory__current="1500000\n", memory__stat="anon 5\ninactive_file 400000\n")
        self.assertEqual(self.found(), (2, 900_000))
        self.assertTrue(machine.is_confined(self.root))

    def test_the_first_version(self):
        write(f"{self.root}/proc/self/cgroup", "4:cpu,cpuacct:/box\n3:memory:/box\n0::/\n")
        self.group("cpu,cpuacct/box", cpu__cfs_quota_us="-1\n", cpu__cfs_period_us="100000\n")
        self.group("cpu,cpuacct", cpu__cfs_quota_us="300000\n", cpu__cfs_period_us="100000\n")
        self.group("memory", memory__limit_in_bytes="7000000\n", memory__usage_in_bytes="6500000\n", memory__stat="total_inactive_file 100000\n")
        self.assertEqual(self.found(), (3, 600_000))

    def test_less_than_one_processor_is_one(self):
        write(f"{self.root}/proc/self/cgroup", "0::/\n")
        self.group("", cpu__max="50000 100000\n")
        self.assertEqual(self.found()[0], 1)

    def test_checks_by_memory_and_by_what_is_asked_for(self):
        with mock.patch("machine.free_memory", lambda: 11_000_000_000), mock.patch("machine.processors", lambda: 8):
            for jobs, wanted in (("", 2), ("5", 5), ("none", 2)):
                with mock.patch.dict(os.environ, RT_JOBS=jobs):
                    self.assertEqual(machine.lanes(), wanted)

    def test_jobs_of_a_check(self):
        for processors, free, asked, wanted in ((4, 20, "", [4, 3]), (2, 20, "", [2, 1]), (1, 20, "", [1, 1]), (8, 11, "", [5, 5]), (4, 7, "", [2, 2]),
                                                (4, 3, "", [1, 1]), (4, 3, "3", [3, 2]), (4, 20, "1", [1, 1])):
            there = {"processors": lambda: processors, "free_memory": lambda: free * 1_000_000_000}
            with mock.patch.multiple(machine, **there), mock.patch.dict(os.environ, RT_JOBS=asked):
                self.assertEqual([machine.jobs(is_alone) for is_alone in (True, False)], wanted)


class Jobs(unittest.TestCase):
    """What rt is told of its jobs."""

    def told(self, lanes, is_confined, **asked):
        env = {name: it for name, it in os.environ.items() if name != "RT_JOBS"}
        found = {"lanes": lambda: lanes, "processors": lambda: 4, "is_confined": lambda: is_confined}
        with mock.patch.dict(os.environ, {**env, **asked}, clear=True), mock.patch.multiple(prove, **found):
            return prove.environment().get("RT_JOBS")

    def test_as_many_checks_as_processors_where_memory_suffices(self):
        self.assertEqual([self.told(4, it) for it in (False, True)], ["4", "4"])

    def test_a_system_that_is_short_of_memory_is_left_to_rt(self):
        self.assertIsNone(self.told(2, False))

    def test_a_container_that_is_short_of_memory_is_told(self):
        self.assertEqual(self.told(2, True), "2")

    def test_what_the_user_asks_for(self):
        self.assertEqual([self.told(2, it, RT_JOBS="3") for it in (False, True)], ["3", "3"])


class Times(unittest.TestCase):
    def test_checks_side_by_side(self):
        seconds, below = {"a": 10, "b": 20, "c": 5, "d": 5}, {"a": [], "b": ["a"], "c": [], "d": []}
        self.assertEqual([times.clock(seconds, below, it) for it in (1, 2, 4)], [40, 30, 30])
        self.assertEqual(times.chains(seconds, below), {"a": 30, "b": 20, "c": 5, "d": 5})

    def test_no_more_than_memory_holds(self):
        seconds, memory = {"a": 10, "b": 20, "c": 5}, {"a": 3, "b": 4}
        below = dict.fromkeys(seconds, ())
        self.assertEqual([times.clock(seconds, below, 3, memory, it) for it in (0, 6, 7)], [30, 30, 20])

    def test_what_is_written_is_read_again(self):
        table = {"low": dict(zip(times.KINDS, (5, 6, 7, 8))), times.TESTERS: dict(zip(times.KINDS, (0, 0, 0, 9)))}
        with tempfile.TemporaryDirectory() as room:
            times.write(table, f"{room}/costs.txt")
            self.assertEqual(times.read(f"{room}/costs.txt"), table)
            with open(f"{room}/costs.txt", "a", encoding="utf-8") as file:
                file.write("\nshort 1 2 3\n<<<<<<< one side\nhigh one two three four\n")
            self.assertEqual(times.read(f"{room}/costs.txt"), table)

    def test_each_crate_has_its_costs(self):
        lines = [it.partition(":")[0].split()[0] for it in text_of(f"{TOP}/crates.txt").splitlines() if ":" in it.partition("#")[0]]
        self.assertEqual({*times.read()}, {*lines, times.TESTERS, times.OTHERS})
        with tempfile.TemporaryDirectory() as room:
            times.write(times.read(), f"{room}/costs.txt")
            self.assertEqual(text_of(f"{room}/costs.txt"), text_of(times.COSTS))

    def test_what_belongs_to_no_crate(self):
        table = {"low": {"proof": 3.0, "edits": 2.0}, times.TESTERS: {"programs": 1.0}}
        self.assertEqual([costs.others(table, it) for it in (9, 6, 5)], [3, 0, 0])


class Testers(unittest.TestCase):
    def test_each_test_of_the_tools_is_run_once(self):
        there = [os.path.relpath(it, f"{TOP}/tools") for folder in ("*", "dist/hostile") for it in glob.glob(f"{TOP}/tools/{folder}/test_*.py")]
        self.assertEqual(sorted(it.path for it in testers.TESTERS if "/test_" in it.path), sorted(there))

    def test_each_test_tells_what_it_passes_over(self):
        for it in testers.TESTERS:
            text = text_of(f"{TOP}/tools/{it.path}")
            if it.path.endswith(".py") and re.search(r"\bunittest\b", text):
                end = text.rpartition("__main__")[2]
                self.assertNotRegex(end, r"unittest\.main\((?!.*exit=False)", it.path)
                self.assertRegex(end, r"run_tests|tell_passed_over", it.path)

    def test_each_script_has_a_line_on_the_page(self):
        listed, folder = [], ""
        for line in text_of(f"{TOP}/tools/README.md").splitlines():
            folder = line.split("`")[1] if line.startswith("| In `") else folder
            listed += [folder + line.split("`")[1]] if line.startswith("| `") else []
        ends, folders = ("py", "sh", "c"), ("", "*/", "dist/hostile/")
        found = [os.path.relpath(it, f"{TOP}/tools") for end in ends for at in folders for it in glob.glob(f"{TOP}/tools/{at}*.{end}")]
        self.assertEqual(sorted(it for it in listed if not it.endswith("/")), sorted(found))

    def test_each_has_a_name_of_its_own(self):
        every = (*testers.TESTERS, *testers.COMPARED)
        self.assertEqual(len({testers.name_of(it) for it in every}), len(every))
        for it in every:
            self.assertTrue(os.access(f"{TOP}/tools/{it.path}", os.X_OK), it.path)


class Missing(Room):
    """What a run lacks of the machine."""

    def test_room_on_the_disk(self):
        for folder, wanted in ((self.made, 1 << 60), (f"{self.made}/not/there", 1 << 60)):
            (line,) = machine.missing({}, {folder: wanted})
            self.assertRegex(line, r"has room for .* GB, and this takes some 1152921505 GB")
        self.assertEqual(machine.missing({"sh": ""}, {self.made: 0}), [])

    def test_memory(self):
        for asked, count in (("", 1), ("1", 0)):
            with mock.patch("machine.free_memory", lambda: 3_000_000_000), mock.patch.dict(os.environ, RT_JOBS=asked):
                self.assertEqual(len(machine.missing({}, {}, 5_000_000_000)), count)
                self.assertEqual(machine.missing({}, {}, 3_000_000_000), [])

    def test_a_place_to_write(self):
        (line,) = machine.missing({}, {"/proc/none": 0})
        self.assertEqual(line, "/proc/none can't be written")


class Kept(Room):
    """Where passed tries are kept."""

    def setUp(self):
        super().setUp()
        patched = mock.patch.dict(os.environ, PATH=f"{self.room}/a/kit/bin:{os.environ['PATH']}", XDG_CACHE_HOME=f"{self.room}/cache")
        patched.start()
        self.addCleanup(patched.stop)
        os.makedirs(f"{self.room}/a/kit/bin")
        os.rename(f"{self.room}/kit/rt", f"{self.room}/a/kit/bin/rt")

    def test_beside_what_the_kit_keeps(self):
        os.mkdir(f"{self.room}/a/rattle-kept", 0o700)
        self.assertEqual(kit.store(), f"{os.path.realpath(self.room)}/a/rattle-kept/protogate-edits")

    def test_in_the_users_cache(self):
        self.assertEqual(kit.store(), f"{self.room}/cache/protogate")
        os.mkdir(f"{self.room}/a/rattle-kept")
        os.chmod(f"{self.room}/a/rattle-kept", 0o777)
        self.assertEqual(kit.store(), f"{self.room}/cache/protogate")

    def test_nowhere_where_others_can_write(self):
        os.makedirs(f"{self.room}/cache/protogate")
        os.chmod(f"{self.room}/cache/protogate", 0o777)
        self.assertIsNone(kit.store())
        shutil.rmtree(f"{self.room}/cache")
        write(f"{self.room}/cache", "no folder")
        self.assertIsNone(kit.store())


class Checks(Room):
    """A check of a copy of a crate, in a repository of its own."""

    def setUp(self):
        super().setUp()
        patched = mock.patch.dict(os.environ, self.env)
        patched.start()
        self.addCleanup(patched.stop)
        self.crate = crates_of(self.top)["protogate"]

    def test_its_repository_has_the_built_libraries_and_nothing_that_checks_kept(self):
        for name in ("rlib/library", "incremental/proof"):
            write(f"{self.top}/crates/low/out/{name}", name)
        folder = kit.make_repository(f"{self.room}/checked", self.crate)
        found = sorted(os.path.relpath(f"{at}/{it}", f"{self.room}/checked") for at, _, names in os.walk(f"{self.room}/checked") for it in names)
        self.assertEqual(found, ["crates.txt", "crates/low/out/rlib/library", "crates/low/src/lib.rt"])
        self.assertEqual(text_of(f"{self.room}/checked/crates.txt"), "low:\nprotogate: low\n")
        self.assertEqual((folder, os.listdir(folder)), (f"{self.room}/checked/crates/protogate", ["out"]))

    def said(self, status):
        lines = "so far: 0 of 1\nchecked a, 1 of 1\nrt: a note\nfn a: proved\nonly=1 proved=1\nrt: advice"
        write(f"{self.room}/kit/rt", f"#!/bin/sh\n[ \"$*\" = 'check --jobs 1 --only a' ] && printf '%s\\n' '{lines}'\nexit {status}\n")
        return kit.check(self.top, ["--only", "a"])[:2]

    def test_what_it_says_is_what_the_prover_says(self):
        self.assertEqual([self.said(it) for it in (0, 1)], [(it, "fn a: proved\nonly=1 proved=1\n") for it in (0, 1)])

    def test_what_rt_says_where_it_stops_is_kept(self):
        status, said = self.said(2)
        self.assertEqual((status, said.splitlines()[-1]), (2, "rt: advice"))


class HeldEdits(unittest.TestCase):
    SOURCE = """pub fn low(number: u8) -> u8
    ensures { true }
{
    number / 2
}

pub fn law()
    ensures { true }
{}

pub fn laws()
    ensures { true }
{
    law();
}
"""

    def lacking(self, source, edits):
        """Returns which functions lack an edit in a repository whose library has this source and whose crates have these edits."""
        with tempfile.TemporaryDirectory() as top:
            write(f"{top}/crates.txt", "pg_low:\npg_other:\npromises_low: pg_low\npromises_other: pg_other\n")
            promise = "pub fn promise(number: u8) -> u8\n    ensures { true }\n{\n    pg_low::low(number)\n}\n"
            for name, text in (("pg_low", source), ("pg_other", ""), ("promises_low", promise), ("promises_other", promise)):
                write(f"{top}/crates/{name}/src/lib.rt", text)
            for name, (old, new) in edits.items():
                write(f"{top}/crates/{name}/must-fail/turned.edit", f"file: src/lib.rt\nold: {old}\nnew: {new}\n")
            return held_edits.without_edits(top)

    def test_an_edit_of_the_function_or_of_a_promise_of_its_library(self):
        own, promised = ("number / 2", "number / 3"), ("pg_low::low(number)", "number")
        self.assertEqual(self.lacking(self.SOURCE, {}), ["pg_low/src/lib.rt: low"])
        self.assertEqual(self.lacking(self.SOURCE, {"pg_low": own}), [])
        self.assertEqual(self.lacking(self.SOURCE, {"promises_low": promised}), [])
        self.assertEqual(self.lacking(self.SOURCE, {"promises_other": promised}), ["pg_low/src/lib.rt: low"])
        self.assertEqual(self.lacking(self.SOURCE, {"pg_low": ("number / 4", "number")}), ["pg_low/src/lib.rt: low"])

    def test_what_calls_more_than_laws_is_none(self):
        source = self.SOURCE.replace("    law();", "    low(3);")
        self.assertEqual(self.lacking(source, {"pg_low": ("number / 2", "number")}), ["pg_low/src/lib.rt: laws"])


class WordTables(unittest.TestCase):
    SOURCE = """-- What this file is about.
use Rattle.std.specs.Prelude.{ℕ}

-- a number
-- in two lines
abbrev pub first : ℕ
first = 1

pub record Second : Type 0 where
  pub field : ℕ

mutual
  -- inside a block
  pub data Third : Type 0 where
"""

    def test_each_definition_has_the_comment_above_it(self):
        lines = self.SOURCE.split("\n")
        with mock.patch.object(word_tables, "lines_of", lambda _: lines):
            found = [(it.name, it.said, it.line) for it in word_tables.definitions("")]
            self.assertEqual(word_tables.head_of(""), "What this file is about.")
        self.assertEqual(found, [("first", "a number in two lines", 6), ("Second", "", 9), ("Third", "inside a block", 14)])


class Workers(Room):
    """A function that is called by processes side by side."""

    CALLS = """import os, signal, sys, workers
def one(number, other):
    if number == 3:
        os.kill(os.getpid(), signal.SIGKILL)
    return number + other
print(workers.called(one, [(1, 2), (4, 5)], 2), flush=True)
workers.called(one, [(it, it) for it in range(9)], 2)
"""

    def test_one_that_is_killed_ends_the_script(self):
        run = subprocess.run([sys.executable, "-Bc", self.CALLS], cwd=f"{TOP}/tools/fuzz", capture_output=True, text=True, timeout=PATIENCE, check=False)
        self.assertEqual((run.returncode, run.stdout), (1, "[3, 9]\n"))
        self.assertIn("was killed before it was done", run.stderr)

    def test_no_script_waits_for_one_without_end(self):
        for path in glob.glob(f"{TOP}/tools/*/*.py"):
            self.assertNotRegex(text_of(path), r"multiprocessing\.Pool|\)\.Pool\(", path)


class PassedOver(Room):
    def test_what_is_passed_over_is_told(self):
        tests = "import sys, unittest\nsys.path.insert(0, sys.argv.pop(1))\nimport run_tests\n\n\nclass Some(unittest.TestCase):\n"
        tests += "    @unittest.skip('there is no fish')\n    def test_a_fish(self):\n        pass\n\n\nrun_tests.main()\n"
        write(f"{self.room}/tests.py", tests)
        run = subprocess.run([sys.executable, f"{self.room}/tests.py", f"{TOP}/tools/gate"], capture_output=True, text=True, check=False)
        self.assertEqual((run.returncode, run.stdout), (0, "passed over, there is no fish: 1 of the tests of tests.py\n"))

    def test_what_the_tests_of_the_package_pass_over_is_told(self):
        tests = "import unittest\n\n\n{}\nclass Fish(unittest.TestCase):\n    def test_one(self):\n        self.fail()\n\n    test_two = test_one\n"
        shutil.copy(f"{TOP}/ci/tests/try_package.py", self.room)
        os.mkdir(f"{self.room}/hostile")
        wanted = "passed over, there is no fish: 2 of the tests of try_package.py\n"
        for name, mark, status in (("fish", "@unittest.skip('there is no fish')", 0), ("fowl", "", 1)):
            write(f"{self.room}/test_{name}.py", tests.format(mark))
            words = [sys.executable, "-B", f"{self.room}/try_package.py"]
            run = subprocess.run(words, capture_output=True, text=True, check=False)
            self.assertEqual((run.returncode, run.stdout), (status, wanted), run.stderr)


if __name__ == "__main__":
    run_tests.main()

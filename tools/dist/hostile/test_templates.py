#!/usr/bin/env python3
"""Tests of the files in examples/ci that one copies, on a repository whose change is hostile: what their lines run, with tools in place of those
of a job.

usage: tools/dist/hostile/test_templates.py [PROGRAM]    by default the program that was built
"""

import os
import re
import shutil
import subprocess
import sys
import unittest

sys.dont_write_bytecode = True
sys.path += [f"{os.path.dirname(os.path.realpath(__file__))}/{it}" for it in ("..", "../../gate")]
import run_tests  # noqa: E402
import test_ci  # noqa: E402
from test_ci import GATE, HEAD, TOP, read  # noqa: E402

WIDE, NARROW = HEAD + "message Order { int64 a = 1; }", HEAD + "message Order { int32 a = 1; }"
# What a change commits, to be published in the place of the page, or to have something written.
FAKES = ("run.json", "protogate.html")


def lines_of(path, key):
    """Returns the lines of each block or list of a key, without comments."""
    found = re.findall(rf"^( *)(?:- )?{key}:(?: \|)?\n((?:\1 +.*\n)+)", read(f"examples/ci/{path}"), re.M)
    return [re.sub(r"^\s*(?:- |#.*\n)?", "", block, flags=re.M) for _, block in found]


class Job(test_ci.Repository):
    """A project with the release v1.4 and a target branch, and a clone of a change that narrows a field of Order."""

    def setUp(self):
        super().setUp()
        self.write({"proto/order.proto": WIDE, "ci/protogate.deb": "a package"})
        self.git("init", "-q")
        self.git("add", "-A")
        self.git("commit", "-q", "-m", "v1.4")
        self.git("tag", "v1.4")
        self.git("checkout", "-q", "-b", "change")
        self.tools, self.temp, self.clone = (f"{self.room.name}/{it}" for it in ("tools", "temp", "clone"))
        os.mkdir(self.temp)
        for name, tool in (("protogate-ci", GATE), ("protogate-report", f"{TOP}/tools/report.py")):
            self.tool(name, f'exec "{tool}" "$@"')
        for name in ("sudo", "apt-get", "dpkg"):
            self.tool(name, "exit 0")
        self.env.update(PATH=f"{self.tools}:{os.environ['PATH']}", FOLDER="proto", RELEASE="v1.4", OPTIONS="")

    def tool(self, name, does):
        self.write({name: f"#!/bin/sh\n{does}\n"}, self.tools)
        os.chmod(f"{self.tools}/{name}", 0o755)

    def change(self, texts=None, links=None):
        """Commits the change, and makes the clone of the job."""
        self.write({"proto/order.proto": NARROW, **(texts or {})})
        for path, target in (links or {}).items():
            os.symlink(target, f"{self.top}/{path}")
        self.git("add", "-A")
        self.git("commit", "-q", "-m", "change")
        shutil.rmtree(self.clone, ignore_errors=True)
        self.git("clone", "-q", "--depth", "1", "--branch", "change", f"file://{self.top}", self.clone)

    def shell(self, script, **more):
        done = subprocess.run(["bash", "-e", "-c", script], cwd=self.clone, env={**self.env, **more}, stdout=subprocess.PIPE, stderr=subprocess.PIPE)
        self.said = done.stdout.decode() + done.stderr.decode()
        return done.returncode

    def target(self, texts):
        """Has the target branch these files too."""
        self.git("checkout", "-q", "main")
        self.write(texts)
        self.git("add", "-A")
        self.git("commit", "-q", "-m", "target")
        self.git("checkout", "-q", "change")

    def is_fake(self, path):
        if not os.path.isfile(path):
            return False
        with open(path, encoding="utf-8") as file:
            return "fake" in file.read()

    def fakes(self):
        """Yields each kind of what a change may commit by the names of what a job writes, once it is committed."""
        self.write({"victim": "a tool"}, self.room.name)
        record = '{"format": "protogate-ci", "version": 2, "status": 0, "skips": [], "runs": [], "fake": 1}'
        yield self.change({"run.json": record, "protogate.html": "fake"})
        for it in FAKES:
            os.remove(f"{self.top}/{it}")
        yield self.change(links={it: f"{self.room.name}/victim" for it in FAKES})
        for it in FAKES:
            os.remove(f"{self.top}/{it}")
        yield self.change({f"{it}/fake/a": "fake" for it in FAKES})
        for it in FAKES:
            shutil.rmtree(f"{self.top}/{it}")
        yield self.change(links={it: "proto" for it in FAKES})

    def check_victim(self):
        with open(f"{self.room.name}/victim", encoding="utf-8") as file:
            self.assertEqual(file.read(), "a tool")

    def check_page(self, path):
        self.assertTrue(os.path.isfile(path) and not os.path.islink(path))
        with open(path, encoding="utf-8") as file:
            self.assertIn("proto breaks old messages", file.read())


class GitHub(Job):
    def setUp(self):
        super().setUp()
        self.install, self.gate, self.report = lines_of("github.yml", "run")
        self.env.update(RUNNER_TEMP=self.temp, GITHUB_BASE_REF="main", GITHUB_ACTIONS="true")
        # What the job keeps, as its last step says.
        (kept,) = re.findall(r"^ +path: (.*)", read("examples/ci/github.yml"), re.M)
        self.kept = kept.replace("${{ runner.temp }}", self.temp)

    def test_what_is_kept(self):
        for _ in self.fakes():
            self.assertEqual(self.shell(self.gate), 1, self.said)
            self.assertEqual(self.shell(self.report), 0, self.said)
            self.check_page(self.kept)
            self.check_victim()

    def test_a_run_that_ends_early(self):
        """Nothing is kept, neither of the change nor of another run."""
        for _ in self.fakes():
            self.write({"run.json": '{"fake": 1}', "protogate.html": "fake"}, self.temp)
            self.assertNotIn(self.shell(self.gate, RELEASE="v0"), (0, 1))
            self.assertEqual(self.shell(self.report), 0, self.said)
            self.assertFalse(os.path.lexists(self.kept))

    def test_steps_after_one_that_failed(self):
        """Without a gate there is no report, and nothing is kept: each step after it asks whether it ran."""
        steps = read("examples/ci/github.yml").partition("id: gate\n")[2]
        self.assertEqual(steps.count("if: ${{ !cancelled() && steps.gate.outcome != 'skipped' }}"), 2)
        self.assertNotIn("hashFiles", steps)

    def test_settings(self):
        """Those of the target branch count, where it is now."""
        skip = "[skip Order]\nreason = a\nuntil = 2020-01-01\n"
        self.change({"protogate.ini": "[gate]\nview = names\n"})
        self.assertEqual(self.shell(self.gate), 1)
        self.assertIn("::warning file=protogate.ini,", self.said)
        self.target({"protogate.ini": skip})
        self.assertEqual(self.shell(self.gate), 2)
        self.assertIn("refused skip Order 2020-01-01\n", self.said)

    def test_options(self):
        """Names of the change's files are none of the words."""
        self.change({"--no-such-option": "", "--view": "", "Order": ""})
        self.assertEqual(self.shell(self.gate, OPTIONS="--skip O*"), 1, self.said)
        self.assertIn("--skip O* names nothing", self.said)
        self.assertEqual(self.shell(self.gate, OPTIONS="--skip type:Order --types"), 0, self.said)


class GitLab(Job):
    def setUp(self):
        super().setUp()
        (self.before,), (self.script,), (self.after,) = (lines_of("gitlab.yml", it) for it in ("before_script", "script", "after_script"))
        self.env.update(CI_MERGE_REQUEST_PROJECT_ID="1", CI_PROJECT_ID="1", CI_MERGE_REQUEST_TARGET_BRANCH_NAME="main",
                        CI_JOB_ID=f"{os.getpid()}-{id(self)}", CI_MERGE_REQUEST_PROJECT_URL=f"file://{self.room.name}/none")
        self.addCleanup(shutil.rmtree, f"/tmp/protogate-{self.env['CI_JOB_ID']}", True)
        self.kept = f"{self.clone}/protogate.html"

    def job(self, **more):
        """Runs the job, as GitLab does: what comes before and the script in one shell, and what comes after in another one."""
        before = self.before[: self.before.index("echo ")]
        status = self.shell(before + self.script, **more)
        said = self.said
        self.shell(self.after, **more)
        self.said = said + self.said
        return status

    def test_what_is_kept(self):
        for _ in self.fakes():
            self.assertEqual(self.job(), 1, self.said)
            self.check_page(self.kept)
            self.check_victim()

    def test_a_run_that_ends_early(self):
        for _ in self.fakes():
            self.assertNotIn(self.job(RELEASE="v0"), (0, 1))
            self.assertFalse(os.path.lexists(self.kept))

    def test_a_job_that_fails_before(self):
        """What a change commits by the name of the page goes first of all."""
        self.tool("apt-get", "exit 9")
        for _ in self.fakes():
            self.assertEqual(self.job(), 9)
            self.assertFalse(os.path.lexists(self.kept))

    def test_a_fork(self):
        """The release and the settings are the project's own. Where these can't be read, those of the fork don't count."""
        self.change()
        fork = f"{self.room.name}/fork"
        self.git("clone", "-q", f"file://{self.top}", fork)
        for words in (("tag", "-f", "v1.4", "HEAD"), ("branch", "-f", "main", "HEAD")):
            self.git(*words, at=fork)
        self.git("remote", "set-url", "origin", f"file://{fork}", at=self.clone)
        self.git("fetch", "-q", "--depth", "1", "origin", "tag", "v1.4", at=self.clone)
        self.assertNotIn(self.job(CI_PROJECT_ID="2"), (0, 1))
        self.assertFalse(os.path.lexists(self.kept))
        self.assertEqual(self.job(CI_PROJECT_ID="2", CI_MERGE_REQUEST_PROJECT_URL=f"file://{self.top}"), 1, self.said)
        self.git("tag", "-d", "v1.4")
        self.assertNotIn(self.job(CI_PROJECT_ID="2", CI_MERGE_REQUEST_PROJECT_URL=f"file://{self.top}"), (0, 1))

    def test_settings(self):
        skip = "[skip Order]\nreason = a\nuntil = 2020-01-01\n"
        self.change({"protogate.ini": skip.replace("2020", "2999")})
        self.assertEqual(self.job(), 1)
        self.assertIn("protogate.ini of the work tree isn't read", self.said)
        self.target({"protogate.ini": skip})
        self.assertEqual(self.job(), 2)
        self.assertIn("refused skip Order 2020-01-01\n", self.said)

    def test_options(self):
        self.change({"--no-such-option": "", "--view": "", "Order": ""})
        self.assertEqual(self.job(OPTIONS="--skip O*"), 1, self.said)
        self.assertIn("--skip O* names nothing", self.said)
        self.assertEqual(self.job(OPTIONS="--skip type:Order --types"), 0, self.said)


class Local(Job):
    """What gates before a commit, and what make runs."""

    SKIP = "[gate]\nfolder = proto\nreleases = v1.4\n[skip Order]\nreason = a\nuntil = 2020-01-01\n"

    def test_pre_commit(self):
        """The settings are those that are committed."""
        (entry,) = re.findall(r"^ +entry: (.*)", read("examples/ci/pre-commit.yaml"), re.M)
        self.change()
        self.git("fetch", "-q", "--depth", "1", "origin", "tag", "v1.4", at=self.clone)
        self.write({"protogate.ini": self.SKIP}, self.clone)
        self.git("add", "-A", at=self.clone)
        self.assertEqual(self.shell(entry), 1)
        self.assertIn("protogate.ini of the work tree isn't read: HEAD has none", self.said)
        self.git("commit", "-q", "-m", "settings", at=self.clone)
        self.assertEqual(self.shell(entry), 2)

    @unittest.skipUnless(shutil.which("make"), "there is no make")
    def test_make(self):
        rule = f"make -s -f '{TOP}/examples/ci/protogate.mk' protogate"
        self.change({"protogate.ini": self.SKIP, "Order": "", "--view": ""})
        self.git("fetch", "-q", "--depth", "1", "origin", "tag", "v1.4", at=self.clone)
        self.shell(rule)
        self.assertIn("breaks Order 6\n", self.said)
        self.assertNotIn("refused skip", self.said)
        self.shell(f"{rule} PROTO_RELEASE=")
        self.assertIn("refused skip Order 2020-01-01\n", self.said)
        self.shell(f"{rule} PROTO_OPTIONS='--skip O*'")
        self.assertIn("--skip O* names nothing", self.said)


if __name__ == "__main__":
    if len(sys.argv) > 1 and not sys.argv[1].startswith("-"):
        test_ci.PROGRAM = os.path.realpath(sys.argv.pop(1))
    run_tests.main()

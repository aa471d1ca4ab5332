#!/usr/bin/env python3
"""Tests of the files that one copies, and of the action: what their lines run on a hostile change, with tools in place of those of a job."""

import os
import shutil
import subprocess
import sys
import unittest

sys.path.insert(0, os.path.dirname(os.path.dirname(os.path.realpath(__file__))))
from common import CI  # noqa: E402
from test_gate import ORDER, STAND_IN, Gate  # noqa: E402

try:
    import yaml
except ImportError:
    yaml = None
TOP = os.path.dirname(CI)
SUM = "47be88d0a9d4dbfd0a1a0b0cdd8c9ea3db2c5a8bfe5bd7ca4a3a3ec6e4b7d6f9"
SKIP = "[gate]\nfolder = proto\nreleases = v1.4\n[skip Order]\nreason = a\nuntil = 2020-01-01\n"
BREAKS = "cause value Order.quantity proto/order.proto:4:10"


def read(path):
    with open(path, encoding="utf-8") as file:
        return file.read()


@unittest.skipUnless(yaml, "this needs a reader of YAML (python3-yaml)")
class Job(Gate):
    """A project with the release v1.4 and a target branch, and a clone of a change that narrows a field of Order."""

    def setUp(self):
        super().setUp()
        self.write({"proto/order.proto": ORDER % "int32"})
        self.commit("v1.4")
        self.git("checkout", "-q", "-b", "change")
        self.tools, self.temp, self.clone = (f"{self.room}/{it}" for it in ("tools", "temp", "clone"))
        os.mkdir(self.temp)
        self.tool("protogate-ci", f'exec "{CI}/gate.sh" "$@"')
        self.tool("sudo", '"$@"')
        for name in ("apt-get", "dpkg", "dpkg-deb"):
            self.tool(name, f'echo "{name} $*" >>"{self.room}/ran"')
        # What is fetched is a package of these bytes.
        self.tool("curl", 'while [ "$1" != --output ]; do shift; done; printf package >"$2"')
        self.sum = subprocess.run(["sha256sum"], input=b"package", stdout=subprocess.PIPE, check=True).stdout.decode().split()[0]
        os.environ.update(PATH=f"{self.tools}:{os.environ['PATH']}", PROTOGATE=STAND_IN, RELEASE="", FOLDERS="", OPTIONS="")

    def tool(self, name, does):
        self.write({name: f"#!/bin/sh\n{does}\n"}, self.tools)
        os.chmod(f"{self.tools}/{name}", 0o755)

    def change(self, texts=None, links=None):
        """Commits the change, and makes the clone of the job."""
        self.write({"proto/order.proto": ORDER % "uint32", **(texts or {})})
        for path, target in (links or {}).items():
            os.symlink(target, f"{self.top}/{path}")
        self.git("add", "-A")
        self.git("commit", "-q", "-m", "change")
        shutil.rmtree(self.clone, ignore_errors=True)
        self.git("clone", "-q", "--depth", "1", "--branch", "change", f"file://{self.top}", self.clone)

    def target(self, texts):
        """Has the target branch these files too."""
        self.git("checkout", "-q", "main")
        self.write(texts)
        self.git("add", "-A")
        self.git("commit", "-q", "-m", "target")
        self.git("checkout", "-q", "change")

    def shell(self, script, **more):
        done = subprocess.run(["bash", "--noprofile", "--norc", "-eo", "pipefail", "-c", script], cwd=self.clone, env={**os.environ, **more},
                              stdout=subprocess.PIPE, stderr=subprocess.STDOUT, stdin=subprocess.DEVNULL)
        self.said = done.stdout.decode()
        return done.returncode

    def ran(self):
        return read(f"{self.room}/ran") if os.path.exists(f"{self.room}/ran") else ""


class Action(Job):
    def setUp(self):
        super().setUp()
        self.install, self.step = (it["run"] for it in yaml.safe_load(read(f"{TOP}/action.yml"))["runs"]["steps"])
        os.environ.update(RUNNER_TEMP=self.temp, GITHUB_BASE_REF="main", GITHUB_OUTPUT=f"{self.temp}/output",
                          GITHUB_STEP_SUMMARY=f"{self.temp}/summary")
        self.write({"summary": ""}, self.temp)

    def test_the_package(self):
        """One with another checksum, or with none, isn't installed."""
        self.change()
        for said, status in ((self.sum, 0), (SUM, 1), ("", 1), (f"{SUM}  other\n{SUM}", 1)):
            self.write({"ran": ""}, self.room)
            self.assertEqual(self.shell(self.install, PACKAGE="https://x", SHA256=said), status, said)
            self.assertEqual("dpkg --install" in self.ran(), status == 0, said)

    def test_no_words_of_a_change(self):
        """Inputs and names are in variables alone: what GitHub puts into a script would be read by the shell."""
        for script in (self.install, self.step):
            self.assertNotIn("${{", script)

    def test_what_is_said(self):
        self.change({"protogate.ini": SKIP.replace("2020", "2999"), "run.json": "{}"})
        self.assertEqual(self.shell(self.step, RELEASE="v1.4", FOLDERS="proto"), 1, self.said)
        self.assertIn(f"{BREAKS}\n", self.said)
        self.assertIn("::error file=proto/order.proto,line=4,col=10,", self.said)
        told = dict(it.split("=", 1) for it in read(f"{self.temp}/output").splitlines())
        self.assertEqual(told["status"], "1")
        self.assertIn("<h1>Some messages break</h1>", read(told["page"]))
        self.assertIn('"version": "2.1.0"', read(told["sarif"]))
        self.assertIn("### protogate: some messages break", read(f"{self.temp}/summary"))

    def test_settings(self):
        """Those of the target branch count, where it is now, and name the releases."""
        self.change({"protogate.ini": SKIP.replace("2020", "2999")})
        self.assertEqual(self.shell(self.step), 4)
        self.target({"protogate.ini": SKIP})
        self.assertEqual(self.shell(self.step), 2)
        self.assertIn("refused skip Order 2020-01-01\n", self.said)

    def test_options(self):
        """Names of the change's files are none of the words."""
        self.change({"--no-such-option": "", "--view": "", "Order": ""})
        words = {"RELEASE": "v1.4", "FOLDERS": "proto"}
        self.assertEqual(self.shell(self.step, OPTIONS="--skip O*", **words), 1, self.said)
        self.assertIn("--skip O* names nothing", self.said)
        self.assertEqual(self.shell(self.step, OPTIONS="--skip type:Order --types", **words), 0, self.said)
        self.assertEqual(self.shell(self.step, OPTIONS="$(touch ran)", **words), 4)
        self.assertFalse(os.path.exists(f"{self.clone}/ran"))

    def test_a_release_that_is_not_there(self):
        self.change()
        self.assertNotIn(self.shell(self.step, RELEASE="v9", FOLDERS="proto"), (0, 1))


class GitLab(Job):
    def setUp(self):
        super().setUp()
        job = yaml.safe_load(read(f"{CI}/protogate_ci/templates/gitlab.yml"))["protogate"]
        self.before, self.script, self.after = ("\n".join(job[it]) for it in ("before_script", "script", "after_script"))
        self.number = f"{os.getpid()}-{id(self)}"
        os.environ.update(CI_MERGE_REQUEST_PROJECT_ID="1", CI_PROJECT_ID="1", CI_MERGE_REQUEST_TARGET_BRANCH_NAME="main", CI_JOB_ID=self.number,
                          CI_MERGE_REQUEST_PROJECT_URL=f"file://{self.room}/none", PROTOGATE_PACKAGE="https://x", PROTOGATE_SHA256=self.sum)
        self.addCleanup(shutil.rmtree, f"/tmp/protogate-{self.number}", True)

    def job(self, **more):
        """Runs the job, as GitLab does: what comes before and the script in one shell, and what comes after in another one."""
        status = self.shell(f"{self.before}\n{self.script}", **more)
        said = self.said
        self.shell(self.after, **more)
        self.said = said + self.said
        return status

    def test_what_is_kept(self):
        """It is the run's, whatever the change commits by its name."""
        names = ("protogate.html", "protogate.xml", "protogate.json")
        self.write({"victim": "a tool"}, self.room)
        for texts, links in (({it: "fake" for it in names}, {}), ({}, {it: f"{self.room}/victim" for it in names}),
                             ({f"{it}/fake": "fake" for it in names}, {}), ({}, {it: "proto" for it in names})):
            for it in names:
                subprocess.run(["rm", "-rf", f"{self.top}/{it}"], check=True)
            self.change(texts, links)
            self.assertEqual(self.job(RELEASE="v1.4", FOLDERS="proto"), 1, self.said)
            for it in names:
                self.assertTrue(os.path.isfile(f"{self.clone}/{it}") and not os.path.islink(f"{self.clone}/{it}"), it)
                self.assertIn("Order.quantity", read(f"{self.clone}/{it}"))
            self.assertEqual(read(f"{self.room}/victim"), "a tool")

    def test_the_package(self):
        self.change()
        for said in (SUM, ""):
            self.assertEqual(self.job(PROTOGATE_SHA256=said), 1)
            self.assertNotIn("dpkg --install", self.ran())
            self.assertNotIn("breaks", self.said)

    def test_a_fork(self):
        """The release and the settings are the project's own. Where these can't be read, those of the fork don't count."""
        self.target({"protogate.ini": "[gate]\nfolder = proto\nreleases = v*\n"})
        self.change()
        fork = f"{self.room}/fork"
        self.git("clone", "-q", f"file://{self.top}", fork)
        for words in (("tag", "-f", "v1.4", "HEAD"), ("branch", "-f", "main", "HEAD")):
            self.git(*words, at=fork)
        self.git("remote", "set-url", "origin", f"file://{fork}", at=self.clone)
        self.git("fetch", "-q", "--depth", "1", "origin", "tag", "v1.4", at=self.clone)
        own = {"CI_PROJECT_ID": "2", "CI_MERGE_REQUEST_PROJECT_URL": f"file://{self.top}"}
        for words in ({}, {"RELEASE": "v1.4", "FOLDERS": "proto"}):
            self.assertNotIn(self.job(CI_PROJECT_ID="2", **words), (0, 1))
            self.assertEqual(self.job(**own, **words), 1, self.said)
        self.git("tag", "-d", "v1.4")
        for words in ({}, {"RELEASE": "v1.4", "FOLDERS": "proto"}):
            self.assertNotEqual(self.job(**own, **words), 0)
            self.assertNotIn("Order", self.said)


class Local(Job):
    """What gates before a commit, and what make runs."""

    def test_the_hook(self):
        """It gates what is staged, by the settings that are committed, as pre-commit calls it: in the user's repository, by its whole path."""
        (hook,) = yaml.safe_load(read(f"{TOP}/.pre-commit-hooks.yaml"))
        (used,) = yaml.safe_load(read(f"{CI}/protogate_ci/templates/pre-commit.yaml"))["repos"]
        self.assertEqual((used["hooks"][0]["id"], hook["language"]), (hook["id"], "script"))
        call = f"'{TOP}'/{hook['entry']} {' '.join(used['hooks'][0]['args'])}"
        self.change()
        self.git("fetch", "-q", "--depth", "1", "origin", "tag", "v1.4", at=self.clone)
        self.write({"protogate.ini": SKIP}, self.clone)
        self.git("add", "-A", at=self.clone)
        self.write({"proto/order.proto": ORDER % "int32"}, self.clone)
        self.assertEqual(self.shell(call), 1, self.said)
        self.assertIn("protogate.ini of the work tree isn't read: HEAD has none", self.said)
        self.git("commit", "-q", "-m", "settings", at=self.clone)
        self.assertEqual(self.shell(call), 2)
        self.assertIn("refused skip Order 2020-01-01\n", self.said)

    @unittest.skipUnless(shutil.which("make"), "there is no make")
    def test_make(self):
        words = f"PROTO_RELEASE=v1.4 PROTOGATE_SHA256={self.sum} PROTOGATE_PACKAGE=https://x"
        rule = f"make -s -f '{CI}/protogate_ci/templates/protogate.mk' protogate {words}"
        self.change({"Order": "", "--view": ""})
        self.git("fetch", "-q", "--depth", "1", "origin", "tag", "v1.4", at=self.clone)
        for _ in range(2):
            self.assertNotEqual(self.shell(rule), 0)
            self.assertIn("breaks Order\n", self.said)
        self.assertEqual(self.ran().count("dpkg-deb --extract"), 1)
        self.shell(f"{rule} PROTO_OPTIONS='--skip O*'")
        self.assertIn("--skip O* names nothing", self.said)
        self.assertNotEqual(self.shell(f"{rule} PROTOGATE_SHA256={SUM}"), 0)
        self.assertNotIn("breaks", self.said)


class Script(Job):
    def test_links_and_folders(self):
        """The script finds what is beside it by its real path, and the one file that it is packed into."""
        self.change()
        self.git("fetch", "-q", "--depth", "1", "origin", "tag", "v1.4", at=self.clone)
        os.symlink(f"{CI}/gate.sh", f"{self.room}/a link")
        self.assertEqual(self.shell(f"'{self.room}/a link' v1.4 proto"), 1, self.said)
        self.assertEqual(self.shell(f"'{CI}/pack.sh' '{self.room}/packed' && '{self.room}/packed' v1.4 proto"), 1, self.said)
        self.assertEqual(self.shell(f"'{CI}/pack.sh' '{self.room}/again' && cmp '{self.room}/packed' '{self.room}/again'"), 0)
        os.mkdir(f"{self.room}/other")
        shutil.copy(f"{CI}/gate.sh", f"{self.room}/other")
        self.assertEqual(self.shell(f"'{self.room}/other/gate.sh' v1.4 proto"), 3)
        os.rename(f"{self.room}/packed", f"{self.room}/other/protogate-ci.pyz")
        self.assertEqual(self.shell(f"'{self.room}/other/gate.sh' v1.4 proto"), 1, self.said)

    def test_modules_of_the_change(self):
        """Neither they nor a python3 of the change run."""
        self.change({f"{it}.py": f"open({self.room + '/ran'!r}, 'w')\n" for it in ("json", "os", "argparse", "protogate_ci")})
        self.git("fetch", "-q", "--depth", "1", "origin", "tag", "v1.4", at=self.clone)
        self.tool("protogate", f'exec "{sys.executable}" -I "{STAND_IN}" "$@"')
        os.environ["PROTOGATE"] = f"{self.tools}/protogate"
        for more in ({}, {"PYTHONPATH": ":"}, {"PYTHONPATH": self.clone}, {"PYTHONSAFEPATH": "1"}):
            self.assertEqual(self.shell(f"'{CI}/gate.sh' v1.4 proto", **more), 1, self.said)
        self.write({"python3": f"#!/bin/sh\ntouch '{self.room}/ran'\n"}, self.clone)
        os.chmod(f"{self.clone}/python3", 0o755)
        self.assertEqual(self.shell(f"PATH=.:$PATH '{CI}/gate.sh' v1.4 proto"), 127)
        self.assertFalse(os.path.exists(f"{self.room}/ran"))


if __name__ == "__main__":
    unittest.main()

#!/usr/bin/env python3
"""Tests of tools/report.py, of the files in examples/ci that one copies, of tools/dist/completions, the pages for `man` and tools/release.sh.

usage: tools/dist/test_packages.py [PROGRAM]    by default the program that was built

Some tests are passed over where a tool isn't there that they take: make, fish, pre-commit, or dpkg-deb with root's rights or `unshare`.
"""

import html.parser
import os
import re
import shutil
import subprocess
import sys
import tempfile
import unittest

sys.dont_write_bytecode = True
sys.path += [f"{os.path.dirname(os.path.realpath(__file__))}/{it}" for it in ("..", "../gate")]
import report  # noqa: E402
import run_tests  # noqa: E402
import stamp  # noqa: E402
import test_ci  # noqa: E402
from test_ci import GATE, HEAD, TOP, read  # noqa: E402


class Page(html.parser.HTMLParser):
    """What a page has: its words, where it leads to, and the elements that are open at its end."""

    def __init__(self, page):
        super().__init__()
        self.words, self.targets, self.open, self.names = "", [], [], set()
        self.feed(page)

    def handle_starttag(self, tag, attrs):
        self.names.add(tag)
        self.targets += [value for name, value in attrs if name in ("href", "src")]
        if tag not in ("meta",):
            self.open.append(tag)

    def handle_endtag(self, tag):
        assert self.open.pop() == tag, tag

    def handle_data(self, data):
        self.words += data


class Reports(test_ci.Repository):
    def page(self, *words, **more):
        self.record(*words, **more)
        done = subprocess.run([f"{TOP}/tools/report.py", "run.json"], cwd=self.top, env={**self.env, **more}, check=True, stdout=subprocess.PIPE)
        page = Page(done.stdout.decode())
        self.assertEqual(page.open, [])
        self.assertFalse(page.names & {"script", "img", "link", "iframe"})
        return page

    def release_orders(self):
        self.release({"order.proto": read("examples/old/order.proto")}, {"order.proto": read("examples/new/order.proto")})

    def test_a_change_that_breaks(self):
        self.release_orders()
        page = self.page("v1", "proto")
        for words in ("proto breaks old messages", "The run's status is 1", "220180", "4 note bytes 80", "refused E604 at 0",
                      "The string is not UTF-8.", "What to do: Leave the field's type as it was",
                      "bytes note = 4;", "string note = 4;", "proto/order.proto:7:10", "Customer"):
            self.assertIn(words, page.words)
        self.assertEqual(page.targets, [])

    def test_links(self):
        self.release_orders()
        commit = self.git("rev-parse", "v1")
        there = {"GITHUB_SERVER_URL": "https://github.com", "GITHUB_REPOSITORY": "o/r", "GITHUB_SHA": "abc"}
        old = f"https://github.com/o/r/blob/{commit}/proto/order.proto"
        # The last is that of a warning: line 14 has a field that was removed.
        new = "https://github.com/o/r/blob/abc/proto/order.proto"
        self.assertEqual(self.page("v1", "proto", **there).targets, [f"{old}#L5", f"{new}#L5", f"{old}#L7", f"{new}#L7", f"{old}#L14"])
        there = {"CI_PROJECT_URL": "https://gitlab.com/o/r", "CI_COMMIT_SHA": "abc"}
        self.assertEqual(self.page("v1", "proto", **there).targets[3], "https://gitlab.com/o/r/-/blob/abc/proto/order.proto#L7")

    def test_what_is_released(self):
        self.release_orders()
        self.assertIn("proto may be released", self.page("v1", "proto", "Customer").words)

    def test_what_is_refused(self):
        """The call that gates a set of what is refused is that of the run; no other command knows both sides."""
        self.release({"a.proto": HEAD + "message A { }"}, {"a.proto": HEAD + 'option (x) = "<&>";'})
        page = self.page("v1", "proto", "--no-with-protoc", "--view", "numbers")
        for words in ("new E205", 'option (x) = "<&>";', "The custom option is not supported.", "What to do:",
                      "gate.sh --with-protoc --view numbers v1 proto"):
            self.assertIn(words, page.words)
        self.assertNotIn("--old-dir", page.words)

    def test_what_is_refused_on_both_sides(self):
        self.release({"a b.proto": HEAD + "option (x) = 1;"}, {"a b.proto": HEAD + "option (x) = 1;"}, "a folder")
        page = self.page("v1", "a folder", "--no-with-protoc", PROTOGATE_CI_NAME="protogate-ci")
        self.assertIn("protogate-ci --with-protoc v1 'a folder'", page.words)

    def test_names_of_enums(self):
        sides = [{"a.proto": read(f"examples/changes/number_reused/{side}.proto")} for side in ("old", "new")]
        self.release(*sides)
        page = self.page("v1", "proto", "--view", "names")
        for words in ("The number is the same on both sides", "give what is meant now a number of its own"):
            self.assertIn(words, page.words)
        for words in ("loses a value", "as another one", "Give the field its old type back"):
            self.assertNotIn(words, page.words)
        self.assertIn("Both sides read the same numbers in it", self.page("v1", "proto", "--view", "names", "Invoice").words)

    def test_causes(self):
        """Each cause is told once, with what breaks by it; a type's line has the call that prints its own shortest message."""
        sides = ("message L { %s a = 1; repeated int32 b = 2; } message M { L l = 1; } message N { M m = 1; } message O { }", )
        old, new = sides[0] % "int64", (sides[0] % "int32").replace("repeated ", "")
        self.release({"a.proto": HEAD + old}, {"a.proto": HEAD + new})
        page = self.page("v1", "proto", "--view", "numbers")
        for words in ("2 causes", "3 breaks", "1 compatible", "The new program reads this value as another one", "Of two items the new program",
                      "What to do: Keep the list", "gate.sh --view numbers v1 proto L", "gate.sh --view numbers v1 proto N"):
            self.assertEqual(page.words.count(words), 1, words)
        self.assertEqual(page.words.count("What breaks by it: L, M, N"), 2)
        named = self.page("v1", "proto", "N").words
        for words in ("and the new side misreads it, refuses it, or loses a value.", "The way to what breaks in it:", "field 1, N.m", "field 1, M.l",
                      "What breaks by it: N"):
            self.assertIn(words, named)
        self.assertNotIn("gate.sh v1 proto N", named)

    def test_a_field_that_was_renamed_too(self):
        """A name says nothing on the wire, so it marks no line of a reading."""
        old, new = ["1 a int 1", "2 b int -1", "again 00"], ["1 z int 1", "2 b int 1", "again 01"]
        marked = re.findall(r'class="only">([^<]*)<', report.reading(old, new) + report.reading(new, old))
        self.assertEqual(marked, ["2 b int -1", "again 00", "2 b int 1", "again 01"])

    def test_a_witness_that_is_too_deep_to_show(self):
        """`show` goes down 100 levels: beyond that it refuses what a program reads."""
        answer = {"readings": {"old": "refused E608 at 200\n", "new": "refused E608 at 200\n"}}
        page = report.readings(answer)
        self.assertIn("The old side&#x27;s reading isn&#x27;t shown", page)
        self.assertNotIn("refuses it", page)

    def test_what_is_missing(self):
        self.release({"a.proto": HEAD + "message Draft { }"}, {"a.proto": HEAD + "message Drafts { }"})
        self.assertIn("Was it renamed to Drafts?", self.page("v1", "proto").words)
        self.assertIn("Did you mean Draft?", self.page("v1", "proto", "Drat").words)

    def test_both_directions(self):
        self.release({"a.proto": HEAD + "message A { int32 a = 1; }"}, {"a.proto": HEAD + "message A { int64 a = 1; }"})
        page = self.page("v1", "proto", "--both")
        for words in ("The new side can write this message of A, of 6 bytes", "proto writes messages that old programs misread",
                      "1 breaks backward", "1 compatible forward"):
            self.assertIn(words, page.words)
        self.assertNotIn("breaks old messages", page.words)

    def test_both_directions_that_break(self):
        self.release({"a.proto": HEAD + "message A { int32 a = 1; }"}, {"a.proto": HEAD + "message A { sint32 a = 1; }"})
        page = self.page("v1", "proto", "--both")
        self.assertIn("proto breaks old messages, and writes messages that old programs misread", page.words)

    def test_no_record(self):
        self.write({"run.json": "no record"})
        for name in ("none.json", "run.json"):
            done = subprocess.run([f"{TOP}/tools/report.py", name], cwd=self.top, stderr=subprocess.PIPE, stdout=subprocess.PIPE)
            self.assertEqual((done.returncode, done.stdout), (3, b""))
            self.assertTrue(done.stderr.startswith(b"report: "), done.stderr)

    def test_items(self):
        self.assertIn("&quot;Ann&quot;", report.readable("1 name text 416e6e"))
        self.assertIn("1.0", report.readable("1 a f64 3ff0000000000000"))
        self.assertIn("1.5", report.readable("1 a f32 3fc00000"))
        self.assertEqual(report.readable("1 name text -"), "1 name text -")


class Templates(test_ci.Repository):
    """The files that one copies: what they run ends as it should, with commands of these names on the path."""

    def setUp(self):
        super().setUp()
        self.release({"order.proto": read("examples/old/order.proto")}, {"order.proto": read("examples/new/order.proto")})
        self.git("tag", "v1.4")
        self.git("commit", "-q", "-a", "-m", "v2")
        tools = f"{self.room.name}/tools"
        for name, tool in (("protogate-ci", GATE), ("protogate-report", f"{TOP}/tools/report.py")):
            self.write({name: f'#!/bin/sh\nexec "{tool}" "$@"\n'}, tools)
            os.chmod(f"{tools}/{name}", 0o755)
        self.env["PATH"] = f"{tools}:{os.environ['PATH']}"
        self.clone, self.temp = f"{self.room.name}/clone", f"{self.room.name}/temp"
        os.mkdir(self.temp)
        self.git("clone", "-q", "--depth", "1", f"file://{self.top}", self.clone)
        self.env.update(RUNNER_TEMP=self.temp, GITHUB_BASE_REF="main", CI_MERGE_REQUEST_TARGET_BRANCH_NAME="main", CI_PROJECT_ID="1",
                        CI_MERGE_REQUEST_PROJECT_ID="1", CI_JOB_ID=f"{os.getpid()}-{id(self)}")
        self.addCleanup(shutil.rmtree, f"/tmp/protogate-{self.env['CI_JOB_ID']}", True)

    def shell(self, script, **more):
        done = subprocess.run(["bash", "-e", "-c", script], cwd=self.clone, env={**self.env, **more}, stdout=subprocess.PIPE,
                              stderr=subprocess.DEVNULL)
        return done.returncode, done.stdout.decode()

    def blocks(self, path, key):
        """The lines of each block or list of a key, by their indentation, but for comments."""
        found = re.findall(rf"^( *)(?:- )?{key}:(?: \|)?\n((?:\1 +.*\n)+)", read(path), re.M)
        return [re.sub(r"^\s*(?:- |#.*\n)?", "", block, flags=re.M) for _, block in found]

    def test_github(self):
        _, gates, reports = self.blocks("examples/ci/github.yml", "run")
        status, said = self.shell(gates, RELEASE="v1.4", FOLDER="proto")
        self.assertEqual(status, 1)
        self.assertIn("::error file=proto/order.proto,title=protogate%3A value Order.note,line=7,col=10::", said)
        self.assertEqual(self.shell(reports)[0], 0)
        with open(f"{self.temp}/protogate.html", encoding="utf-8") as page:
            self.assertIn("proto breaks old messages", page.read())

    def gitlab(self, **more):
        (script,), (after,) = (self.blocks("examples/ci/gitlab.yml", it) for it in ("script", "after_script"))
        return self.shell(script, FOLDER="proto", **more)[0], self.shell(after)[0]

    def test_gitlab(self):
        self.assertEqual(self.gitlab(RELEASE="v1.4"), (1, 0))
        self.assertTrue(os.path.isfile(f"{self.clone}/protogate.html"))

    def test_gitlab_without_a_run(self):
        """Where nothing was gated there is no page, not an empty one."""
        self.assertNotEqual(self.gitlab(RELEASE="v0")[0], 0)
        self.assertFalse(os.path.isfile(f"{self.clone}/protogate.html"))

    def test_gitlab_in_a_fork(self):
        """A fork may lack the release that the project has."""
        self.git("remote", "set-url", "origin", f"file://{self.room.name}/none", at=self.clone)
        self.assertEqual(self.gitlab(RELEASE="v1.4", CI_PROJECT_ID="2", CI_MERGE_REQUEST_PROJECT_URL=f"file://{self.top}")[0], 1)

    def test_gitlab_asks_the_project_alone(self):
        """The release of a fork may be another one, which must not be what is gated against, also where the project's can't be read."""
        self.git("fetch", "-q", "--depth", "1", "origin", "tag", "v1.4", at=self.clone)
        fork = f"{self.room.name}/fork"
        self.git("clone", "-q", f"file://{self.top}", fork)
        self.git("tag", "-f", "v1.4", "HEAD", at=fork)
        self.git("remote", "set-url", "origin", f"file://{fork}", at=self.clone)
        self.assertEqual(self.gitlab(RELEASE="v1.4")[0], 0)
        self.assertNotIn(self.gitlab(RELEASE="v1.4", CI_PROJECT_ID="2", CI_MERGE_REQUEST_PROJECT_URL=f"file://{self.room.name}/none")[0], (0, 1))
        self.assertEqual(self.gitlab(RELEASE="v1.4", CI_PROJECT_ID="2", CI_MERGE_REQUEST_PROJECT_URL=f"file://{self.top}")[0], 1)

    def test_gitlab_without_the_release(self):
        """Where neither project has the release, a tag that the clone still has isn't gated against."""
        self.git("fetch", "-q", "--depth", "1", "origin", "tag", "v1.4", at=self.clone)
        self.git("remote", "set-url", "origin", f"file://{self.room.name}/none", at=self.clone)
        for project in ("1", "2"):
            there = {"CI_PROJECT_ID": project, "CI_MERGE_REQUEST_PROJECT_URL": f"file://{self.room.name}/none"}
            self.assertNotIn(self.gitlab(RELEASE="v1.4", **there)[0], (0, 1))
            self.assertFalse(os.path.isfile(f"{self.clone}/protogate.html"))

    def test_the_sum_of_the_package(self):
        """A package is installed only where its sum is the one that is kept outside."""
        tools = f"{self.room.name}/tools"
        self.write({"sudo": '#!/bin/sh\nexec "$@"\n', "apt-get": "#!/bin/sh\n", "dpkg": '#!/bin/sh\necho "$@" >>"$INSTALLED"\n'}, tools)
        for name in ("sudo", "apt-get", "dpkg"):
            os.chmod(f"{tools}/{name}", 0o755)
        self.write({"ci/protogate.deb": "a package"}, self.clone)
        # By coreutils' own words: the sum of these bytes.
        right = subprocess.run(["sha256sum", f"{self.clone}/ci/protogate.deb"], stdout=subprocess.PIPE, check=True).stdout.decode()[:64]
        self.env["INSTALLED"] = f"{self.room.name}/installed"
        (script,) = self.blocks("examples/ci/gitlab.yml", "before_script")
        for script, name in ((self.blocks("examples/ci/github.yml", "run")[0], "SHA256"), (script, "PROTOGATE_SHA256")):
            for value in ("", "0" * 64, right[:-1], right.replace(right[0], "x")):
                self.assertNotEqual(self.shell(script, **{name: value})[0], 0, value)
                self.assertFalse(os.path.exists(self.env["INSTALLED"]))
            self.assertEqual(self.shell(script, **{name: right})[0], 0)
            with open(self.env["INSTALLED"], encoding="utf-8") as file:
                self.assertEqual(file.read(), "-i ci/protogate.deb\n")
            os.remove(self.env["INSTALLED"])

    def test_releases(self):
        """A release is a tag, whatever its name, a branch, or a full commit."""
        commit = self.git("rev-parse", "v1.4")
        self.git("branch", "release/1.4", "v1.4")
        self.git("tag", "proto/v1.4", "v1.4")
        _, gates, _ = self.blocks("examples/ci/github.yml", "run")
        for release in ("proto/v1.4", "release/1.4", commit):
            self.assertEqual(self.shell(gates, RELEASE=release, FOLDER="proto")[0], 1, release)
            self.assertEqual(self.gitlab(RELEASE=release)[0], 1, release)
        # What upload-artifact refuses in a name.
        name = re.search(r"^ +name: (protogate-.*)", read("examples/ci/github.yml"), re.M)[1]
        self.assertNotIn("matrix.release", name)

    def test_options(self):
        """A type that is removed on purpose is left out where each template has room for it."""
        self.git("fetch", "-q", "--depth", "1", "origin", "tag", "v1.4", at=self.clone)
        _, gates, _ = self.blocks("examples/ci/github.yml", "run")
        self.assertEqual(self.shell(gates, RELEASE="v1.4", FOLDER="proto", OPTIONS="--skip Order")[0], 0)
        self.assertEqual(self.gitlab(RELEASE="v1.4", OPTIONS="--skip Order")[0], 0)
        self.assertEqual(self.shell(f"{self.hook()['entry']} --skip Order")[0], 0)
        for name in ("github.yml", "gitlab.yml", "pre-commit.yaml", "protogate.mk"):
            said = read(f"examples/ci/{name}")
            for words in ("--skip TYPE", "--no-with-protoc", "protobuf-compiler", "libprotobuf-dev"):
                self.assertIn(words, said, name)
            # (where protoc is on the path it is used without an option)
            self.assertNotIn("--with-protoc", said, name)

    def hook(self):
        """What the hook says under each of its keys."""
        return dict(re.findall(r"^ +(?:- )?(\w+): (.*)", read("examples/ci/pre-commit.yaml"), re.M))

    def test_pre_commit(self):
        self.git("fetch", "-q", "--depth", "1", "origin", "tag", "v1.4", at=self.clone)
        self.assertEqual(self.shell(self.hook()["entry"])[0], 1)

    def test_pre_commit_on_a_removal(self):
        """pre-commit hands a hook no file that was removed, and skips one that has none, unless it always runs."""
        self.git("fetch", "-q", "--depth", "1", "origin", "tag", "v1.4", at=self.clone)
        self.write({"proto/keep.proto": HEAD + "message Keep { }"}, self.clone)
        self.git("rm", "-q", "proto/order.proto", at=self.clone)
        hook = self.hook()
        staged = self.git("diff", "--staged", "--name-only", "--diff-filter=d", at=self.clone).split("\n")
        handed = [it for it in staged if it and re.search(hook.get("files", ""), it)]
        self.assertTrue(handed or hook.get("always_run") == "true")
        self.assertEqual(self.shell(hook["entry"]), (2, "removed Order\nremoved Customer\nadded Keep\n"))

    @unittest.skipUnless(shutil.which("pre-commit"), "there is no pre-commit")
    def test_pre_commit_itself(self):
        self.git("fetch", "-q", "--depth", "1", "origin", "tag", "v1.4", at=self.clone)
        shutil.copy(f"{TOP}/examples/ci/pre-commit.yaml", f"{self.clone}/.pre-commit-config.yaml")
        self.write({"proto/keep.proto": HEAD + "message Keep { }"}, self.clone)
        self.git("rm", "-q", "proto/order.proto", at=self.clone)
        self.git("add", ".pre-commit-config.yaml", at=self.clone)
        status, said = self.shell("pre-commit run --color never", PRE_COMMIT_HOME=f"{self.room.name}/hooks")
        self.assertEqual((status, "removed Order" in said), (1, True), said)

    @unittest.skipUnless(shutil.which("make"), "there is no make")
    def test_make(self):
        self.git("fetch", "-q", "--depth", "1", "origin", "tag", "v1.4", at=self.clone)
        rule = f"make -s -f '{TOP}/examples/ci/protogate.mk' protogate"
        self.assertEqual(self.shell(rule)[0], 2)
        self.git("checkout", "-q", "v1.4", at=self.clone)
        self.assertEqual(self.shell(rule), (0, "compatible 2 types\n"))


class Completions(unittest.TestCase):
    """Each subcommand's options are those that the page for `man` has."""

    def synopses(self):
        page = read("docs/protogate.1").partition(".SH DESCRIPTION")[0].replace("\\-", "-")
        parts = re.split(r"^\.B protogate ", page, flags=re.M)[1:]
        return {it.split()[0]: {"--help", *re.findall(r"--[a-z-]+", it)} - {"--version"} for it in parts}

    def test_bash(self):
        for command, options in self.synopses().items():
            script = f"source tools/dist/completions/protogate.bash; COMP_WORDS=(protogate {command} --); COMP_CWORD=2; _protogate; echo ${{COMPREPLY[@]}}"
            said = subprocess.run(["bash", "-c", script], cwd=TOP, stdout=subprocess.PIPE, check=True).stdout.decode()
            self.assertEqual(set(said.split()), options, command)

    def test_bash_files(self):
        script = ("source tools/dist/completions/protogate.bash; COMP_WORDS=(protogate gate --old-dir examples/old --old ''); COMP_CWORD=5; "
                  "_protogate; echo ${COMPREPLY[@]}")
        said = subprocess.run(["bash", "-c", script], cwd=TOP, stdout=subprocess.PIPE, stderr=subprocess.DEVNULL).stdout.decode()
        self.assertEqual(said.split(), ["order.proto"])

    def test_bash_lists(self):
        """A list counts from the current folder."""
        script = ("source tools/dist/completions/protogate.bash; COMP_WORDS=(protogate types --dir examples/old --files-from examples/lists/f); "
                  "COMP_CWORD=5; _protogate; echo ${COMPREPLY[@]}")
        said = subprocess.run(["bash", "-c", script], cwd=TOP, stdout=subprocess.PIPE, stderr=subprocess.DEVNULL).stdout.decode()
        self.assertEqual(said.split(), ["examples/lists/files.txt"])

    @unittest.skipUnless(shutil.which("fish"), "there is no fish")
    def test_fish(self):
        for command, options in self.synopses().items():
            script = f"source tools/dist/completions/protogate.fish; complete -C 'protogate {command} --'"
            said = subprocess.run(["fish", "--no-config", "-c", script], cwd=TOP, stdout=subprocess.PIPE, check=True).stdout.decode()
            self.assertEqual({it.split()[0] for it in said.splitlines()}, options, command)

    def test_zsh(self):
        options = set().union(*self.synopses().values())
        self.assertEqual(set(re.findall(r"'\*?(--[a-z-]+)\[", read("tools/dist/completions/protogate.zsh"))) - {"--version"}, options)


class Scripts(unittest.TestCase):
    """protogate-ci and protogate-report: their pages and completions have the options that the scripts take."""

    tools = {"protogate-ci": "examples/ci/gate.sh", "protogate-report": "tools/report.py"}

    def options(self, name):
        said = subprocess.run([f"{TOP}/{self.tools[name]}", "--help"], stdout=subprocess.PIPE, check=True).stdout.decode()
        return set(re.findall(r"--[a-z-]+", said.partition("\noptions:")[2] or said.partition("\noptional arguments:")[2]))

    def test_pages(self):
        for name in self.tools:
            page = read(f"docs/{name}.1").replace("\\-", "-")
            synopsis, options = page.partition(".SH DESCRIPTION")[0], page.partition(".SH OPTIONS")[2].partition(".SH ")[0]
            for part in (synopsis, options):
                self.assertEqual(set(re.findall(r"--[a-z-]+", part)), self.options(name), name)

    @unittest.skipUnless(shutil.which("groff"), "there is no groff")
    def test_pages_are_laid_out(self):
        for name in self.tools:
            words = ["groff", "-man", "-Tutf8", "-ww", f"{TOP}/docs/{name}.1"]
            done = subprocess.run(words, stdout=subprocess.PIPE, stderr=subprocess.PIPE, check=True)
            self.assertEqual(done.stderr, b"")

    def bash(self, *words, at=TOP):
        spelled = " ".join(f"'{it}'" for it in words)
        script = (f"source {TOP}/tools/dist/completions/protogate-ci.bash; COMP_WORDS=({spelled}); COMP_CWORD={len(words) - 1}; "
                  f"{words[0].replace('-', '_').replace('protogate', '_protogate')}; printf '%s\\n' \"${{COMPREPLY[@]}}\"")
        done = subprocess.run(["bash", "-c", script], cwd=at, stdout=subprocess.PIPE, stderr=subprocess.DEVNULL)
        return set(done.stdout.decode().split())

    def test_bash(self):
        for name in self.tools:
            self.assertEqual(self.bash(name, "--"), self.options(name), name)
        self.assertEqual(self.bash("protogate-ci", "--view", ""), {"numbers", "names"})
        self.assertEqual(self.bash("protogate-ci", "--both", "v1", "examples/c"), {"examples/changes", "examples/ci"})
        self.assertEqual(self.bash("protogate-ci", "--skip", "A", "v1", "examples/s"), {"examples/sets"})
        self.assertEqual(self.bash("protogate-report", "docs/RECO"), {"docs/RECORD.md"})

    def test_bash_revisions(self):
        with tempfile.TemporaryDirectory() as room:
            words = ["git", "-c", "user.name=nobody", "-c", "user.email=nobody@localhost"]
            for more in (["init", "-q"], ["commit", "-q", "--allow-empty", "-m", "one"], ["tag", "v1.4"], ["tag", "w2"]):
                subprocess.run([*words, *more], cwd=room, check=True)
            self.assertEqual(self.bash("protogate-ci", "v", at=room), {"v1.4"})

    @unittest.skipUnless(shutil.which("fish"), "there is no fish")
    def test_fish(self):
        for name in self.tools:
            script = f"source tools/dist/completions/protogate-ci.fish; complete -C '{name} --'"
            said = subprocess.run(["fish", "--no-config", "-c", script], cwd=TOP, stdout=subprocess.PIPE, check=True).stdout.decode()
            self.assertEqual({it.split()[0] for it in said.splitlines()}, self.options(name), name)

    def test_files_for_fish_and_zsh(self):
        zsh = read("tools/dist/completions/protogate-ci.zsh")
        for name in self.tools:
            found = re.findall(rf"^complete -c {name} .*-l ([a-z-]+)", read("tools/dist/completions/protogate-ci.fish"), re.M)
            self.assertEqual({f"--{it}" for it in found}, self.options(name), name)
            part = zsh.partition(f"    {name})")[2].partition(";;")[0]
            self.assertEqual(set(re.findall(r"'\*?(--[a-z-]+)\[", part)), self.options(name), name)

    def test_versions(self):
        said = subprocess.run([f"{TOP}/examples/ci/gate.sh", "--version"], env={**os.environ, "PROTOGATE": test_ci.PROGRAM}, stdout=subprocess.PIPE)
        program = subprocess.run([test_ci.PROGRAM, "--version"], stdout=subprocess.PIPE).stdout.decode()
        self.assertEqual((said.returncode, said.stdout.decode()), (0, f"gate.sh, which writes records of version 2\n{program}"))
        self.assertTrue(program.startswith("protogate "))
        said = subprocess.run([f"{TOP}/tools/report.py", "--version"], stdout=subprocess.PIPE)
        self.assertEqual((said.returncode, said.stdout.decode()), (0, "report.py, which reads records of version 2\n"))


class Packages(test_ci.Repository):
    @unittest.skipUnless(shutil.which("dpkg-deb") and (os.getuid() == 0 or shutil.which("unshare")), "no packages can be made here")
    def test_packages(self):
        self.write({name: read(name) for name in ("protogate", "crates.txt")})
        for name in ("tools", "docs", "examples"):
            shutil.copytree(f"{TOP}/{name}", f"{self.top}/{name}")
        self.write({".gitignore": "out/\n__pycache__/\n"})
        for name in ("v1", "proto"):
            self.write({f"{name}/a.proto": HEAD + "message A { }"})
        self.git("init", "-q")
        self.git("add", ".")
        self.git("commit", "-q", "-m", "v1")
        for part in ("src", "specs", "out"):
            os.makedirs(f"{self.top}/crates/protogate/{part}")
        shutil.copy(test_ci.PROGRAM, f"{self.top}/crates/protogate/out/protogate")
        lines = stamp.lines_of_kit() if shutil.which("rt") else ["", "", ""]
        self.write({"crates/protogate/out/protogate.begun": "\n".join([*lines, stamp.PROGRAM, ""])})
        os.chmod(f"{self.top}/protogate", 0o755)
        made = []
        names = ["protogate-1.2.3-linux-x86_64.tar.gz", "protogate_1.2.3_amd64.deb"]
        for folder in ("one", "two"):
            done = self.make(folder, "A. Nother <a.nother@localhost>")
            self.assertEqual(done.stdout.decode(), "".join(f"tried {it}\n" for it in names))
            made.append([open_bytes(f"{self.room.name}/{folder}/{it}") for it in names])
        self.assertEqual(*made)
        control = subprocess.run(["dpkg-deb", "--field", f"{self.room.name}/one/{names[1]}", "Maintainer"], stdout=subprocess.PIPE, check=True)
        self.assertEqual(control.stdout.decode(), "A. Nother <a.nother@localhost>\n")
        self.assertEqual(self.make("three", None).stdout.decode(), f"tried {names[0]}\n")
        self.assertEqual(os.listdir(f"{self.room.name}/three"), names[:1])
        self.gate_by_tarball(f"{self.room.name}/one/{names[0]}")

    def make(self, folder, maintainer):
        """Makes packages into a folder, and asks for the line that says that one is missing just where nobody maintains it."""
        env = {name: it for name, it in self.env.items() if name != "MAINTAINER"}
        env.update({"MAINTAINER": maintainer} if maintainer else {})
        words = [f"{self.top}/tools/release.sh", f"{self.room.name}/{folder}", "1.2.3"]
        done = subprocess.run(words, env=env, stdout=subprocess.PIPE, stderr=subprocess.PIPE, check=True)
        self.assertEqual(b"release: no Debian package is made: say who maintains it in MAINTAINER" in done.stderr, maintainer is None)
        return done

    def test_a_maintainer_without_an_address(self):
        for name in ("Nobody", "nobody@localhost", "<nobody@localhost>", "Nobody <nobody>"):
            words = [f"{TOP}/tools/release.sh", f"{self.room.name}/none"]
            done = subprocess.run(words, env={**self.env, "MAINTAINER": name}, stdout=subprocess.PIPE, stderr=subprocess.PIPE)
            self.assertEqual((done.returncode, os.path.exists(f"{self.room.name}/none")), (4, False), name)
            self.assertTrue(done.stderr.startswith(b"release: MAINTAINER is 'A Name <name@host>', not "), done.stderr)

    def gate_by_tarball(self, tarball):
        """The unpacked folder gates without more, also through a link, and writes a page."""
        subprocess.run(["tar", "-xzf", tarball, "-C", self.room.name], check=True)
        tool = f"{self.room.name}/protogate-1.2.3-linux-x86_64/bin/protogate"
        os.symlink(f"{tool}-ci", f"{self.room.name}/gate-it")
        env = {name: it for name, it in self.env.items() if name != "PROTOGATE"}
        words = [f"{self.room.name}/gate-it", "HEAD", "proto", "--record", "run.json"]
        done = subprocess.run(words, cwd=self.top, env=env, stdout=subprocess.PIPE, check=True)
        self.assertEqual(done.stdout.decode(), "compatible 1 type\n")
        copied = os.listdir(f"{os.path.dirname(os.path.dirname(tool))}/share/doc/protogate/examples")
        self.assertEqual(sorted(copied), ["github.yml", "gitlab.yml", "pre-commit.yaml", "protogate.mk"])
        self.assertIn(b'"call": [\n    "protogate-ci",', open_bytes(f"{self.top}/run.json"))
        self.shares(f"{os.path.dirname(os.path.dirname(tool))}/share")
        for name in ("ci", "report"):
            said = subprocess.run([f"{tool}-{name}", "--version"], env=env, stdout=subprocess.PIPE, check=True).stdout.decode()
            self.assertRegex(said, rf"\Aprotogate-{name}, which (reads|writes) records of version 2\nprotogate .*\n\Z")
        page = subprocess.run([f"{tool}-report", "run.json"], cwd=self.top, env=env, stdout=subprocess.PIPE, check=True)
        self.assertIn("proto may be released", page.stdout.decode())


    def shares(self, share):
        """Each script has its page and completions, by the names where `man` and the shells look."""
        for name in ("protogate", "protogate-ci", "protogate-report"):
            for path in (f"man/man1/{name}.1", f"bash-completion/completions/{name}", f"fish/vendor_completions.d/{name}.fish"):
                self.assertTrue(os.path.isfile(f"{share}/{path}"), path)
        for name in ("protogate", "protogate-ci"):
            self.assertTrue(os.path.isfile(f"{share}/zsh/site-functions/_{name}"))


def open_bytes(path):
    with open(path, "rb") as file:
        return file.read()


if __name__ == "__main__":
    if len(sys.argv) > 1 and not sys.argv[1].startswith("-"):
        test_ci.PROGRAM = os.path.realpath(sys.argv.pop(1))
    run_tests.main()

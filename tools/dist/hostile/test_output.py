#!/usr/bin/env python3
"""Tests of what examples/ci/gate.sh and tools/report.py print and write of a change that is hostile.

usage: tools/dist/hostile/test_output.py [PROGRAM]    by default the program that was built
"""

import contextlib
import copy
import html.parser
import io
import json
import os
import re
import resource
import subprocess
import sys
import unittest
from unittest import mock

sys.dont_write_bytecode = True
sys.path += [f"{os.path.dirname(os.path.realpath(__file__))}/{it}" for it in ("..", "../../gate")]
import run_tests  # noqa: E402
import test_ci  # noqa: E402
from test_ci import GATE, HEAD, TOP  # noqa: E402
from test_ci_terminal import PATIENT, on_terminal  # noqa: E402

sys.path.append(f"{TOP}/tools")
import excerpts  # noqa: E402
import gate  # noqa: E402
import outputs  # noqa: E402
import report  # noqa: E402

REPORT = f"{TOP}/tools/report.py"
# What comes of a line that GitHub takes for a command: the first word of the annotations that gate.py prints itself.
OURS = re.compile(r"::(error|warning) (file=[^,:]*,)?title=protogate%3A ")


def commands_in(lines):
    """Returns the lines that GitHub takes for commands and that aren't annotations of ours: it reads `::` where a line begins, but for
    spaces, and `##[` anywhere."""
    return [it for it in lines if "##[" in it or it.lstrip().startswith("::") and not OURS.match(it)]


class Files(test_ci.Repository):
    """What is written goes to a new file beside, and never through a link."""

    def setUp(self):
        super().setUp()
        text = {"a.proto": HEAD + "message A { }"}
        self.release(text, text)
        self.call("v1", "proto", "--record", "whole.json")
        self.others = os.listdir(self.top)

    def report(self, *words, **more):
        done = subprocess.run([REPORT, *words], cwd=self.top, env=self.env, stdout=subprocess.PIPE, stderr=subprocess.PIPE, **more)
        self.advice = done.stderr.decode()
        return done.returncode

    def both(self, path):
        """The statuses of both scripts that write to a path."""
        found = self.call("v1", "proto", "--record", path)[0], self.report("--output", path, "whole.json")
        self.assertNotIn("Traceback", self.advice)
        return found

    def content(self, path):
        with open(os.path.join(self.top, path), "rb") as file:
            return file.read()

    def test_links(self):
        """Neither the last part of a path nor a folder on the way is a link that a change brings."""
        self.write({"tool": "a tool", "folder/deep/keep": "", "folder/tool": "a tool"})
        os.symlink("tool", f"{self.top}/to-file")
        os.symlink("gone", f"{self.top}/to-nothing")
        os.symlink("folder", f"{self.top}/to-folder")
        os.symlink("../..", f"{self.top}/folder/deep/up")
        os.symlink(self.room.name, f"{self.top}/out")
        os.symlink(self.top, f"{self.room.name}/in")
        os.symlink("tool", f"{self.top}/folder/linked")
        there = f"{self.room.name}/in"
        for path in ("to-file", "./to-file", f"{self.top}/to-file", "to-nothing", "to-folder/run.json", "to-folder/deep/run.json", "out/run.json",
                     "folder/deep/up/run.json", f"{there}/to-folder/run.json", f"{there}/to-file", "folder/../to-folder/run.json", "folder/linked",
                     "to-folder", "to-folder/tool"):
            self.assertEqual(self.both(path), (4, 2), path)
            self.assertRegex(self.advice, r"\Areport: .*isn't written: .* a link.*\n\Z")
        self.assertEqual(self.call("v1", ".", "--record", "../to-folder/run.json", at=f"{self.top}/proto")[0], 4)
        self.assertEqual((self.content("tool"), self.content("folder/tool")), (b"a tool", b"a tool"))
        self.assertFalse({"run.json", "gone"} & {it for _, folders, files in os.walk(self.room.name) for it in (*folders, *files)})

    def test_what_may_be_written(self):
        """What was there is replaced. A link to the work tree that no change has leads to it."""
        os.symlink(self.top, f"{self.room.name}/in")
        self.write({"here/run.json": "a" * 100_000})
        os.link(f"{self.top}/here/run.json", f"{self.top}/kept")
        for path in ("run.json", "here/run.json", f"{self.room.name}/in/run.json", f"{self.room.name}/run.json", "here/../run.json", "../run.json"):
            self.assertEqual(self.call("v1", "proto", "--record", path)[0], 0, path)
            self.assertEqual(json.loads(self.content(path))["format"], "protogate-ci")
            self.assertEqual(self.report("--output", path, "whole.json"), 0, path)
            self.assertTrue(self.content(path).startswith(b"<!doctype html>"))
        self.assertEqual(self.content("kept"), b"a" * 100_000)
        mask = os.umask(0)
        os.umask(mask)
        self.assertEqual(os.stat(f"{self.top}/run.json").st_mode & 0o777, 0o666 & ~mask)

    def test_what_is_no_file(self):
        os.mkfifo(f"{self.top}/fifo")
        os.mkdir(f"{self.top}/folder")
        for path in ("fifo", "folder", "folder/", "", "/dev/null"):
            self.assertEqual(self.both(path), (4, 2), path)
        self.assertTrue(os.path.exists("/dev/null") and not os.path.isfile("/dev/null"))

    def test_a_write_that_fails(self):
        """It leaves what was there, and nothing else."""
        self.assertEqual(self.both("none/run.json"), (3, 3))
        self.write({"page.html": "before"})
        limit = lambda: resource.setrlimit(resource.RLIMIT_FSIZE, (1000, 1000))  # noqa: E731
        self.assertEqual(self.report("--output", "page.html", "whole.json", preexec_fn=limit), 3)
        self.assertEqual(self.content("page.html"), b"before")
        self.assertEqual(self.report("--output", "new.html", "whole.json", preexec_fn=limit), 3)
        self.assertEqual(sorted(os.listdir(self.top)), sorted([*self.others, "page.html"]))
        with mock.patch("os.replace", side_effect=OSError(28, "No space left on device")), self.assertRaises(OSError):
            outputs.write(f"{self.top}/page.html", b"after")
        self.assertEqual(sorted(os.listdir(self.top)), sorted([*self.others, "page.html"]))
        self.assertEqual(self.content("page.html"), b"before")

    def test_standard_output(self):
        """A page that can't be printed is no page."""
        for closes in (">&-", ">/dev/full"):
            done = subprocess.run(["sh", "-c", f'exec "$0" whole.json {closes}', REPORT], cwd=self.top, stderr=subprocess.PIPE, check=False)
            said = done.stderr.decode().splitlines()
            self.assertEqual((done.returncode, {it[:8] for it in said}), (3, {"report: "}), said)


class Lines(test_ci.Repository):
    """No line of a change's making is a command of a CI."""

    EVIL = "::stop-commands::x\n  ::add-mask::a\n\t::set-env name=PATH::/tmp\nx ##[add-path]/tmp\n##[group]\r::debug::x\n##vso[task.complete]x"

    def check(self, *words, **more):
        status, said = self.call(*words, **more)
        self.assertEqual(commands_in(said) + commands_in(self.advice.split("\n")), [], words)
        return status

    def test_what_protoc_says(self):
        """It quotes the source file, and names of files."""
        text = HEAD + "option (x) = 1;"
        self.release({"a.proto": text}, {"a.proto": text})
        self.write({"said": self.EVIL, "protoc": f"#!/bin/sh\ncat '{self.room.name}/tools/said' >&2\nexit 1\n"}, f"{self.room.name}/tools")
        os.chmod(f"{self.room.name}/tools/protoc", 0o755)
        path = f"{self.room.name}/tools:{os.environ['PATH']}"
        for words in ((), ("--github",)):
            self.assertEqual(self.check("v1", "proto", "--with-protoc", *words, PATH=path), 2)
            self.assertIn("::stop-commands::x\n", self.advice)
            self.assertTrue(all(it.startswith("gate: ") for it in self.advice.splitlines()), self.advice)

    def test_names_of_files(self):
        names = ("##[error]a.proto", "::error::b.proto", " ::error::c.proto", "a\n::error::d.proto", "a\r::error::e.proto", "##vso[a].proto",
                 "\u00a0::error::f.proto", "\u2028::error::g.proto", "###[a].proto")
        self.release({"a.proto": HEAD}, {it: HEAD + "message A { int32 a = 0; }" for it in names})
        self.assertEqual(self.check("v1", "proto"), 2)
        self.assertEqual(self.check("v1", "proto", "--github"), 2)
        skipped = self.call("v1", "proto", "--skip", "#\\x23[error]a.proto", "--skip", "##vso[a].proto")[1]
        self.assertFalse([it for it in skipped if it.startswith("refused") and ("[error]a" in it or "vso" in it)], skipped)

    def test_source_lines(self):
        """What a terminal shows of them too."""
        line = "##[error]x ::error::x ##[group]"
        self.release({"a.proto": HEAD}, {"a.proto": HEAD + f"/* */ message B {{ }} /*\n::error::x\n##[*/ message A {{ int32 a = 0; /* {line} */ }}"})
        self.assertEqual(self.check("v1", "proto", "--github"), 2)
        status, printed, said = on_terminal([GATE, "v1", "proto"], cwd=self.top, env={**self.env, "GITHUB_ACTIONS": "true"})
        self.assertEqual((status, commands_in(printed.split("\n") + said.split("\n"))), (2, []))
        self.assertIn("error[E401]", said)
        self.write({"b.proto": HEAD + f"message A {{ int32 a = 0; /* {line} */ }}"})
        words = [sys.executable, "-SB", "-c", PATIENT, test_ci.PROGRAM, "types", "b.proto"]
        said = on_terminal(words, cwd=self.top)[2]
        self.assertIn("error[E401]", said)
        self.assertEqual(commands_in(said.split("\n")), [])
        shown = excerpts.block("E401", "a ##[x]", "##[a]:1:1", "##[error]x", ["::a ##[b]"])
        self.assertEqual(commands_in(shown.split("\n")), [])

    def test_words_of_a_call(self):
        self.release({"a.proto": HEAD}, {"a.proto": HEAD})
        for words in ((self.EVIL, "proto"), ("v1", self.EVIL), ("v1", "proto", self.EVIL), ("v1", "proto", "--skip", self.EVIL),
                      ("v1", "proto", f"--{self.EVIL}"), ("v1", "proto", "--view", self.EVIL), ("v1", "proto", "--include", self.EVIL),
                      ("v1", "proto", "--base", self.EVIL), ("v1", "proto", "--settings", self.EVIL), ("v1", "proto", "--record", f"{self.EVIL}/a")):
            self.check(*words)

    def test_settings(self):
        self.release({"a.proto": HEAD + "message A { }"}, {"a.proto": HEAD + "message A { }"})
        lines = self.EVIL.replace("\r", " ").replace("\n", "\n  ")
        for text in (f"[skip A]\nreason = {lines}\nuntil = 2020-01-01\n", f"[skip ##[a]]\nreason = {lines}\nuntil = 2020-01-01\n",
                     f"[skip A]\nreason = a\nuntil = {lines}\n", f"[gate]\nview = {lines}\n", self.EVIL, f"[{self.EVIL}]", f"[gate]\nfolder = {lines}\n",
                     f"[gate]\nreleases = {lines}\nfolder = proto\n", f"[gate]\ninclude = {lines}\n"):
            self.write({"ours.ini": text})
            for words in (("v1", "proto"), ()):
                self.check(*words, "--settings", "ours.ini", "--github")

    def test_a_fault_of_the_script(self):
        self.release({"a.proto": HEAD}, {"a.proto": HEAD})
        said, advice = io.TextIOWrapper(io.BytesIO()), io.TextIOWrapper(io.BytesIO())
        with mock.patch.object(gate, "parsed", side_effect=LookupError(self.EVIL)), contextlib.redirect_stdout(said), contextlib.redirect_stderr(advice):
            self.assertEqual(gate.main([]), 3)
        told = []
        for it in (said, advice):
            it.seek(0)
            told += it.read().split("\n")
        self.assertIn("LookupError", "".join(told))
        self.assertEqual(commands_in(told), [])


class Page(html.parser.HTMLParser):
    """What a page has: its elements, their attributes, and what a browser takes for a script."""

    def __init__(self, page):
        super().__init__()
        self.tags, self.attributes = set(), []
        self.feed(page)

    def handle_starttag(self, tag, attrs):
        self.tags.add(tag)
        self.attributes += attrs


def places_in(value, at=()):
    """Yields each place of a record: of each object and list in it, and of each value."""
    yield at
    inner = value.items() if isinstance(value, dict) else enumerate(value) if isinstance(value, list) else ()
    for key, it in inner:
        yield from places_in(it, (*at, key))


def some_places_in(record):
    """Returns places of a record, of each kind the first one: those but for the positions in lists."""
    kinds = {}
    for at in places_in(record):
        kinds.setdefault(tuple("*" if isinstance(it, int) else it for it in at), at)
    return [it for it in kinds.values() if it]


def forged(record, at, value):
    """Returns a record that has another value at a place."""
    made = copy.deepcopy(record)
    around = made
    for key in at[:-1]:
        around = around[key]
    around[at[-1]] = value
    return made


class Forged(test_ci.Repository):
    """A record that a change forged is a page without anything of the change that a browser runs, or none."""

    SCRIPT = "<script>alert(1)</script>"
    # Where no value of another kind may be told from the record itself: what may be null, and what a later version of it may say.
    TAGS = {"html", "meta", "title", "style", "h1", "h2", "h3", "h4", "p", "ul", "ol", "li", "div", "span", "code", "pre", "article", "a", "b"}

    def record_of_all(self):
        """A record with each of its keys, of causes, refusals, warnings, skips and types that are named."""
        old = "message A { int32 a = 1; int32 b = 2; oneof o { int32 c = 3; } int32 d = 4; } message Draft { } message Gone { } message M { A a = 1; }"
        new = "message A { sint32 a = 1; oneof o { int32 c = 3; int32 d = 4; } } message M { A a = 1; } message New { }"
        self.release({"a.proto": HEAD + old, "b.proto": HEAD}, {"a.proto": HEAD + new, "b.proto": HEAD + "option (x) = 1; /* <script> */"})
        os.symlink("gone.proto", f"{self.top}/proto/c.proto")
        self.write({"ours.ini": "[gate]\nfolder = proto\nreleases = v1\n[skip Draft]\nreason = None.\nuntil = 2020-01-01\n"}, self.room.name)
        records = []
        for words in ((), ("A", "Gone", "M")):
            self.call("--settings", f"{self.room.name}/ours.ini", "v1", "proto", *words, "--skip", "Draft", "--both", "--record", "run.json")
            with open(f"{self.top}/run.json", encoding="utf-8") as file:
                records.append(json.load(file))
        records[0]["runs"] += records[1]["runs"]
        records[0]["runs"][0]["outside"]["a/b.proto"] = "a/b.proto"
        return records[0]

    def told(self, record, *words):
        """The status of the report, the page, and what it says where there is none."""
        path = f"{self.room.name}/forged.json"
        with open(path, "w", encoding="utf-8") as file:
            json.dump(record, file)
        said, advice = io.TextIOWrapper(io.BytesIO()), io.StringIO()
        with contextlib.redirect_stdout(said), contextlib.redirect_stderr(advice):
            status = report.main([*words, path])
        page = said.buffer.getvalue().decode()
        if status:
            self.assertEqual((status, page, advice.getvalue().count("\n")), (3, "", 1), advice.getvalue())
            self.assertTrue(advice.getvalue().startswith("report: "))
        return status, page

    def check(self, page, at):
        """Nothing in a page is run, and its links lead where the caller says."""
        found = Page(page)
        self.assertLessEqual(found.tags, self.TAGS, at)
        for name, value in found.attributes:
            self.assertIn(name, ("lang", "charset", "name", "content", "class", "href"), at)
            self.assertTrue(name != "href" or value.startswith("https://example.org/r/"), (at, value))
            self.assertTrue(name != "class" or re.fullmatch("[a-z ]+", value), (at, value))
        self.assertNotIn("<script", page)

    def test_each_key(self):
        """Of each place in the record, with values of its kind and of others."""
        record = self.record_of_all()
        links = ("--old-link", "https://example.org/r/{path}#{line}", "--new-link", "https://example.org/r/{path}#{line}")
        status, page = self.told(record, *links)
        self.assertEqual(status, 0)
        self.check(page, "whole")
        self.assertIn('href="https://example.org/r/', page)
        odd = (self.SCRIPT, f'"><img src=x onerror=alert(1)>{self.SCRIPT}:1:1', "' onclick='x", "javascript:alert(1)", None, True, 7, -1, 1.5, [], {},
               [self.SCRIPT], {self.SCRIPT: self.SCRIPT}, [[]], "", "\0", "\ud800", "a" * 5000)
        counts = {0: 0, 3: 0}
        for at in some_places_in(record):
            for value in odd:
                was = record
                for key in at:
                    was = was[key]
                status, page = self.told(forged(record, at, value), *links)
                counts[status] += 1
                if status == 0:
                    self.check(page, (at, value))
                if value is not None and was is not None and type(value) is not type(was):
                    self.assertEqual(status, 3, (at, value))
        self.assertTrue(all(it > 200 for it in counts.values()), counts)

    def test_names_of_keys(self):
        """An object with other keys, and with one more."""
        record = self.record_of_all()
        for at in some_places_in(record):
            was = record
            for key in at:
                was = was[key]
            if isinstance(was, dict):
                status, page = self.told(forged(record, at, {**was, self.SCRIPT: self.SCRIPT}))
                if status == 0:
                    self.check(page, at)

    def test_links(self):
        """A record says neither the scheme nor the host of a link."""
        record = self.record_of_all()
        for path in ("javascript:alert(1)//", "//evil.example.org/a.proto", "/\\evil.example.org/a", "data:text/html,x", "\x01javascript:x", "{line}", "a b"):
            for key in ("prefix", "outside"):
                made = copy.deepcopy(record)
                for run in made["runs"]:
                    run.update({"prefix": path} if key == "prefix" else {"outside": {it: path for it in ("a.proto", "b.proto", "c.proto")}})
                for link in ("{path}", "{path}#L{line}"):
                    status, page = self.told(made, "--old-link", link, "--new-link", link)
                    self.assertEqual(status, 0)
                    targets = [value for name, value in Page(page).attributes if name == "href"]
                    self.assertTrue(targets)
                    for target in targets:
                        self.assertRegex(target, r"\A(?![/\\])[\w./%~-]*(#L\d+)?\Z")

    def test_commits(self):
        """A commit is part of a link, so it is a commit."""
        record = self.record_of_all()
        for commit in ("../../evil", "{path}", "a" * 39, "HEAD", "A" * 40):
            self.assertEqual(self.told(forged(record, ("runs", 0, "commit"), commit))[0], 3, commit)

    def test_what_is_no_record(self):
        for text in ("[" * 200_000, '{"a":' * 200_000, '{"format": "protogate-ci", "version": 2.0}', '{"format": "protogate-ci", "version": true}',
                     '{"format": "protogate-ci", "version": "\\n::error::x"}', '{"format": "protogate-ci", "version": 2, "runs": [], "skips": [], "status": 0}',
                     "9" * 10_000, '{"format": ["protogate-ci"]}'):
            self.write({"run.json": text})
            done = subprocess.run([REPORT, "run.json"], cwd=self.top, stdout=subprocess.PIPE, stderr=subprocess.PIPE)
            self.assertEqual((done.returncode, done.stdout, done.stderr.count(b"\n")), (3, b"", 1), text[:100])


if __name__ == "__main__":
    if len(sys.argv) > 1 and not sys.argv[1].startswith("-"):
        test_ci.PROGRAM = os.path.realpath(sys.argv.pop(1))
    run_tests.main()

#!/usr/bin/env python3
"""Tests of each form: by its schema, or by a reader that isn't ours, and with names that a hostile change may bring."""

import json
import os
import re
import shutil
import subprocess
import tempfile
import unittest
import xml.etree.ElementTree as xml
from html.parser import HTMLParser
from unittest import mock

import common  # noqa: F401
from protogate_ci import forms
from protogate_ci.asking import Place
from protogate_ci.running import Stop
from protogate_ci.words import Finding

try:
    import jsonschema
except ImportError:
    jsonschema = None
HERE = os.path.dirname(os.path.realpath(__file__))
RUN = {"status": 1, "version": "protogate 1.2.3", "base": "main", "settings": "protogate.ini", "releases": ["v1"], "folders": ["proto"],
       "view": "numbers", "compatibility": None}
CAUSE = Finding("cause", "value", "Order.quantity", Place("proto/order.proto", 4, 10), "`int32` to `uint32`: -1 is read as 4294967295.", "Give it back.",
                1, "since v1", "docs/page", {"readings": {"old": "2 a int -1\nagain 10\n", "new": "refused E604 at 0\n"}, "message": "10"})
PLAIN = [CAUSE, Finding("refused", "E205", "new", Place("proto/a.proto", 2), "Unknown option.", status=2),
         Finding("refused", "E309", "old", Place("proto/b.proto"), "It can't be read.", status=3),
         Finding("accepted", "value", "Order.id", Place("proto/order.proto", 3, 9), "Accepted."), Finding("breaks", "", "Order", says="11 bytes.", status=1),
         Finding("removed", "", "Gone", None, "It is gone.", "Skip it.", 2), Finding("skipped", "", "type:Draft", says="It is left out."),
         Finding("warning", "field-renamed", "Order.note", Place("proto/order.proto", 5, 9), "It was renamed."),
         Finding("told", "hidden", "1 files", Place("proto/.x/a.proto"), "Hidden."), Finding("compatible", "", "2 types")]
# What a change may bring as a name of a file or field, or in an import or an option.
HOSTILE = ("a\nb", "a\r\n::error::x", "::stop-commands::x", "##[error]x", "##vso[task.setvariable]x", "%0A::error::x", "a,line=1:b", "</script><script>alert(1)",
           "<img src=x onerror=alert(1)>", "\"'><b>", "a&b &amp; &#60;", "]]>", "\x1b[31m", "\0", "\x07\x08", "\u202e\u2066", "\ufffe\uffff", "\udcff\udc80",
           "[x](http://evil.example)", "![x](y)", "| a | b |", "`code` *b* _i_ ~s~", "# head", "@someone #1 GH-1", "www.evil.example a@evil.example",
           "http://evil.example", "${{ secrets.X }}", "$(id)", "`id`", "a b", "ünï", "\U0001f600", "x" * 3000, "../../etc/passwd", "\\", "\\|", "{0}{a}", "-")


def hostile(name):
    place = Place(f"proto/{name}.proto", 7, 3)
    return [Finding("cause", "value", name, place, f"It is {name}.", f"Give {name} back.", 1, f"since {name}", "docs/page",
                    {"readings": {"old": f"1 a text {name}", "new": name}, "message": name}),
            Finding("refused", name, "new", place, name, name, 2), Finding("warning", name, name, place, name), Finding("accepted", name, name, place, name),
            Finding("skipped", "", name, says=name), Finding("told", name, name, place, name), Finding("removed", "", name, None, name, name, 2)]


def each():
    """Yields each list of findings, and the name in it."""
    yield PLAIN, None
    yield [], None
    for name in HOSTILE:
        yield hostile(name), name


class Lines(unittest.TestCase):
    def test_text(self):
        self.assertEqual(forms.text(PLAIN[:2]), "cause value Order.quantity proto/order.proto:4:10 (since v1)\n  `int32` to `uint32`: -1 is read as 4294967295.\n"
                         "  What to do: Give it back. (docs/page)\nrefused E205 new proto/a.proto:2\n  Unknown option.\n")

    def test_hostile(self):
        """A line begins with a word of ours or with two spaces, and has nothing that a terminal or a CI obeys."""
        for found, name in each():
            for line in forms.text(found).split("\n")[:-1]:
                self.assertTrue(line.isprintable() and re.match("(cause|refused|accepted|skipped|warning|told|removed|breaks|compatible) |  ", line), line)
                self.assertNotRegex(line, r"##\w*\[")


def runner(line):
    """Reads a line as GitHub's runner does (ActionCommand.TryParseV2 of actions/runner): the command, its properties, and its words."""
    line = line.strip()
    if not line.startswith("::") or "::" not in line[2:]:
        return None
    head, _, data = line[2:].partition("::")
    command, _, properties = head.partition(" ")
    pairs = (it.partition("=") for it in properties.strip().split(",") if "=" in it)

    def of(words, more=()):
        for mark, letter in (("%0D", "\r"), ("%0A", "\n"), *more, ("%25", "%")):
            words = words.replace(mark, letter)
        return words
    return command, {name: of(value, (("%3A", ":"), ("%2C", ","))) for name, _, value in pairs}, of(data)


class GitHub(unittest.TestCase):
    def test_annotations(self):
        lines = forms.annotations(PLAIN).split("\n")[:-1]
        self.assertEqual(runner(lines[0]), ("error", {"file": "proto/order.proto", "line": "4", "col": "10", "title": "protogate: cause value Order.quantity"},
                                            "`int32` to `uint32`: -1 is read as 4294967295. What to do: Give it back."))
        self.assertEqual([runner(it)[0] for it in lines], ["error", "error", "error", "error", "warning"])
        self.assertEqual(runner(lines[3])[1], {"title": "protogate: removed Gone"})

    def test_ten_at_most(self):
        """Those that fail come first."""
        warnings = [PLAIN[7]] * 30
        lines = forms.annotations([*warnings, CAUSE]).split("\n")[:-1]
        self.assertEqual((len(lines), runner(lines[0])[0], runner(lines[1])[0]), (10, "error", "warning"))

    def test_hostile(self):
        for found, name in each():
            lines = forms.annotations(found).split("\n")[:-1]
            self.assertEqual(len(lines), min(10, sum(it.level != "note" and it.kind != "breaks" for it in found)))
            for line in lines:
                command, properties, words = runner(line)
                self.assertIn(command, ("error", "warning"))
                self.assertLessEqual(set(properties), {"file", "line", "col", "title"})
                self.assertTrue(line.isprintable() and words)
                self.assertIn(properties.get("line"), (None, "2", "4", "5", "7"))
                if name is not None and "file" in properties:
                    self.assertEqual(properties["file"], f"proto/{forms.plain(name)}.proto")

    def test_summary_file(self):
        """It is added to, up to a limit, and a link isn't followed."""
        with tempfile.TemporaryDirectory() as room, mock.patch.dict(os.environ, {"GITHUB_STEP_SUMMARY": f"{room}/summary"}):
            with open(f"{room}/summary", "w", encoding="utf-8") as file:
                file.write("before\n")
            forms.summarize(RUN, PLAIN)
            forms.summarize(RUN, [CAUSE] * 20_000)
            with open(f"{room}/summary", encoding="utf-8") as file:
                said = file.read()
            self.assertTrue(said.startswith("before\n### protogate: some messages break\n") and said.endswith("|\n\nMore is in the log.\n"))
            self.assertLess(len(said), 1_000_000)
            os.symlink(f"{room}/summary", f"{room}/link")
            with mock.patch.dict(os.environ, {"GITHUB_STEP_SUMMARY": f"{room}/link"}), self.assertRaises(OSError):
                forms.summarize(RUN, PLAIN)


class Texts(HTMLParser):
    """The tags of a page, their attributes, and its words."""

    def __init__(self, page):
        super().__init__()
        self.tags, self.words = [], ""
        self.feed(page)
        self.close()

    def handle_starttag(self, tag, attributes):
        self.tags.append((tag, *(name for name, _ in attributes)))

    def handle_data(self, data):
        self.words += data


class Summary(unittest.TestCase):
    @unittest.skipUnless(shutil.which("cmark-gfm"), "this needs cmark-gfm")
    def test_markdown(self):
        """By the reader of GitHub's Markdown: each name is shown as it is, and makes nothing else."""
        for found, name in each():
            said = forms.markdown(RUN, found)
            page = subprocess.run(["cmark-gfm", "--unsafe", *(word for it in ("table", "autolink", "strikethrough") for word in ("-e", it))],
                                  input=said.encode(), stdout=subprocess.PIPE, check=True).stdout.decode()
            read = Texts(page)
            self.assertLessEqual({it for it, *_ in read.tags}, {"h3", "table", "thead", "tbody", "tr", "th", "td", "ul", "li"}, page)
            self.assertEqual([it for it in read.tags if len(it) > 1], [])
            if name:
                rows = sum(it.level != "note" for it in found)
                self.assertEqual([it for it, *_ in read.tags].count("tr"), rows + 1)
                words = " ".join(read.words.replace("\u2060", "").split())
                self.assertEqual(words.count(" ".join(f"It is {forms.plain(name)}.".split())), 1, page)


class Json(unittest.TestCase):
    """The forms that are JSON, as a reader that takes no lone surrogates and no control letters reads them."""

    def read(self, data):
        self.assertTrue(data.decode("ascii").endswith("\n"))
        return json.loads(data)

    @unittest.skipUnless(jsonschema, "this needs python3-jsonschema")
    def test_sarif(self):
        """The schema of the standard itself isn't kept here: that in sarif.json is the part of it that is used."""
        with open(f"{HERE}/sarif.json", encoding="utf-8") as file:
            schema = json.load(file)
        jsonschema.Draft7Validator.check_schema(schema)
        for found, _ in each():
            made = self.read(forms.sarif(RUN, found))
            jsonschema.validate(made, schema)
            run = made["runs"][0]
            known = [it["id"] for it in run["tool"]["driver"]["rules"]]
            self.assertEqual(len(set(known)), len(known))
            self.assertEqual({it["ruleId"] for it in run["results"]}, set(known))
            self.assertEqual([it["level"] for it in run["results"]], [it.level for it in found])

    def test_sarif_of_a_cause(self):
        made = self.read(forms.sarif(RUN, PLAIN))["runs"][0]
        first = made["results"][0]
        self.assertEqual((first["ruleId"], first["level"]), ("cause/value", "error"))
        self.assertEqual(first["locations"][0]["physicalLocation"], {"artifactLocation": {"uri": "proto/order.proto", "uriBaseId": "%SRCROOT%"},
                                                                     "region": {"startLine": 4, "startColumn": 10}})
        self.assertEqual([bool(it.get("suppressions")) for it in made["results"]], [False] * 3 + [True] + [False] * 2 + [True] + [False] * 3)
        self.assertEqual((made["tool"]["driver"]["version"], made["invocations"]), ("1.2.3", [{"executionSuccessful": True, "exitCode": 1}]))

    def test_old_side(self):
        """A line of the old side isn't marked in the new one's file."""
        it = PLAIN[7]._replace(side="old", status=2)
        self.assertNotIn("line", runner(forms.annotations([it]))[1])
        self.assertNotIn("region", json.dumps(self.read(forms.sarif(RUN, [it]))))
        self.assertEqual(self.read(forms.code_quality(RUN, [it]))[0]["location"], {"path": "proto/order.proto", "lines": {"begin": 1}})
        self.assertIsNone(xml.fromstring(forms.junit(RUN, [it])).find("testsuite/testcase").get("line"))
        self.assertIn("Order.note old proto/order.proto:5:9", forms.text([it]))

    def test_fingerprints(self):
        """They stay where a line moves, and differ between fields."""
        moved = CAUSE._replace(place=CAUSE.place._replace(line=99), says="x", since="")
        self.assertEqual(forms.fingerprint(CAUSE), forms.fingerprint(moved))
        self.assertEqual(len({forms.fingerprint(it) for it in (*PLAIN, CAUSE._replace(subject="Order.i"))}), len(PLAIN) + 1)

    def test_code_quality(self):
        """The keys and words that GitLab's page has: docs.gitlab.com/ci/testing/code_quality/#code-quality-report-format."""
        for found, name in each():
            issues = self.read(forms.code_quality(RUN, found))
            self.assertEqual(len(issues), sum(it.level != "note" and it.kind != "breaks" for it in found))
            for it in issues:
                self.assertEqual(set(it), {"description", "check_name", "fingerprint", "severity", "location"})
                self.assertIn(it["severity"], ("info", "minor", "major", "critical", "blocker"))
                self.assertTrue(it["description"] and it["description"].isprintable() and it["check_name"].isprintable())
                self.assertRegex(it["fingerprint"], "^[0-9a-f]{64}$")
                self.assertEqual((set(it["location"]), set(it["location"]["lines"])), ({"path", "lines"}, {"begin"}))
                self.assertGreaterEqual(it["location"]["lines"]["begin"], 1)
                self.assertTrue(it["location"]["path"] and not it["location"]["path"].startswith("./"))

    def test_record(self):
        for found, name in each():
            made = self.read(forms.record(RUN, found))
            self.assertEqual((made["format"], made["version"], made["status"], made["program"]), ("protogate-ci", 3, 1, "protogate 1.2.3"))
            self.assertEqual([it["subject"] for it in made["findings"]], [it.subject for it in found])
        made = self.read(forms.record(RUN, PLAIN))["findings"][0]
        self.assertEqual((made["place"], made["level"]), ({"path": "proto/order.proto", "line": 4, "column": 10}, "error"))


class Xml(unittest.TestCase):
    @unittest.skipUnless(shutil.which("xmllint"), "this needs xmllint")
    def test_schema(self):
        with tempfile.TemporaryDirectory() as room:
            paths = []
            for number, (found, _) in enumerate(each()):
                paths.append(f"{room}/{number}.xml")
                with open(paths[-1], "wb") as file:
                    file.write(forms.junit(RUN, found))
            done = subprocess.run(["xmllint", "--noout", "--nonet", "--schema", f"{HERE}/junit.xsd", *paths], stdout=subprocess.PIPE, stderr=subprocess.STDOUT)
            self.assertEqual(done.returncode, 0, done.stdout.decode()[:2000])

    def test_names(self):
        for found, name in each():
            root = xml.fromstring(forms.junit(RUN, found))
            cases = root.findall("testsuite/testcase")
            self.assertEqual([it.get("name") for it in cases], [forms.plain(it.subject) for it in found])
            for kind in ("failures", "errors", "skipped"):
                tag = kind.rstrip("s")
                self.assertEqual(int(root.get(kind)), len(root.findall(f"testsuite/testcase/{tag}")))
        root = xml.fromstring(forms.junit(RUN, PLAIN))
        self.assertEqual([root.get(it) for it in ("tests", "failures", "errors", "skipped")], ["10", "4", "1", "2"])
        first = root.find("testsuite/testcase")
        self.assertEqual((first.get("file"), first.get("line"), first.find("failure").get("type")), ("proto/order.proto", "4", "cause/value"))


class Page(unittest.TestCase):
    def test_hostile(self):
        """A page has the tags that it has without any name, and its policy lets nothing load."""
        wanted = Texts(forms.page(RUN, hostile("name")).decode()).tags
        for name in HOSTILE:
            read = Texts(forms.page({**RUN, "releases": [name]}, hostile(name)).decode())
            self.assertEqual(read.tags, wanted)
            self.assertIn(f"It is {forms.plain(name)}.", read.words)
            self.assertTrue(read.words.replace("\n", "").isprintable())
        self.assertNotIn("script", {it for it, *_ in wanted})
        self.assertLessEqual({attribute for _, *all_of in wanted for attribute in all_of}, {"lang", "charset", "http-equiv", "content", "class"})

    def test_readings(self):
        said = Texts(forms.page(RUN, PLAIN).decode()).words
        self.assertIn("The old side reads 10 as:2 a int -1\nagain 10", said)
        self.assertIn("Some messages break", said)


class Files(unittest.TestCase):
    def setUp(self):
        room = tempfile.TemporaryDirectory()
        self.addCleanup(room.cleanup)
        self.room = os.path.realpath(room.name)
        os.makedirs(f"{self.room}/tree/.git")
        os.makedirs(f"{self.room}/tree/out")

    def test_what_is_written(self):
        forms.write(f"{self.room}/tree/out/a", b"one")
        forms.write(f"{self.room}/tree/out/a", b"two")
        with open(f"{self.room}/tree/out/a", "rb") as file:
            self.assertEqual((file.read(), os.listdir(f"{self.room}/tree/out")), (b"two", ["a"]))

    def test_what_isnt(self):
        """A link that a change may have isn't followed, and nothing but a file is replaced."""
        tree = f"{self.room}/tree"
        os.symlink(f"{self.room}/away", f"{tree}/link")
        os.symlink(self.room, f"{tree}/around")
        os.mkfifo(f"{tree}/fifo")
        for path, status in ((f"{tree}/link", 4), (f"{tree}/around/a", 4), (f"{tree}/around/tree/out/a", 4), (f"{tree}/out", 4), (f"{tree}/fifo", 4),
                             (f"{tree}/", 4), ("", 4), (f"{tree}/none/a", 3), (f"{tree}/link/a", 4)):
            with self.assertRaises(Stop) as stopped:
                forms.write(path, b"x")
            self.assertEqual(stopped.exception.status, status, path)
        self.assertEqual(sorted(os.listdir(self.room)), ["tree"])
        self.assertEqual(sorted(os.listdir(tree)), [".git", "around", "fifo", "link", "out"])
        os.symlink(tree, f"{self.room}/mine")
        forms.write(f"{self.room}/mine/out/b", b"x")
        self.assertEqual(os.listdir(f"{tree}/out"), ["b"])


if __name__ == "__main__":
    unittest.main()

#!/usr/bin/env python3
"""Tests of whose settings count for examples/ci/gate.sh: a change must not decide about itself.

usage: tools/dist/hostile/test_settings.py [PROGRAM]    by default the program that was built
"""

import contextlib
import datetime
import io
import json
import os
import subprocess
import sys
import time
import unittest

sys.dont_write_bytecode = True
sys.path += [f"{os.path.dirname(os.path.realpath(__file__))}/{it}" for it in ("..", "../../gate")]
import run_tests  # noqa: E402
import test_ci  # noqa: E402
from test_ci import HEAD, spent  # noqa: E402
import gate  # noqa: E402
import settings  # noqa: E402

WIDE, NARROW = HEAD + "message %s { int64 a = 1; }", HEAD + "message %s { int32 a = 1; }"


# (the same where a test goes on past midnight)
TODAY = datetime.date.today()


def day(ahead):
    return (TODAY + datetime.timedelta(days=ahead)).isoformat()


def skip(name, until=day(30)):
    return f"[skip {name}]\nreason = Nobody stores it.\nuntil = {until}\n"


class Changes(test_ci.Repository):
    """A repository whose work tree has a change."""

    def setUp(self):
        super().setUp()
        self.git("init", "-q")

    def commit(self, texts, tag):
        self.write(texts)
        self.git("add", "-A")
        self.git("commit", "-q", "--allow-empty", "-m", tag)
        self.git("tag", tag)

    def narrow(self, name="Order", more=None):
        """A change that narrows a field of the only type, by `v1`, and does more."""
        self.commit({"proto/a.proto": WIDE % name}, "v1")
        self.write({"proto/a.proto": NARROW % name, **(more or {})})

    def lines(self, *words, **more):
        """The status, and the lines but for causes and annotations."""
        status, said = self.call(*words, **more)
        return status, [it for it in said if not it.startswith(("cause ", "  ", "::"))]


class Base(Changes):
    """The settings are those of the base revision."""

    def test_a_change_that_brings_settings(self):
        self.narrow(more={"protogate.ini": "[gate]\nreleases = v1\nfolder = proto\n" + skip("Order")})
        for words in (("v1", "proto"), ("v1", "proto", "Order"), ("--base", "v1", "v1", "proto")):
            self.assertEqual(self.call(*words)[0], 1, words)
            self.assertEqual(self.advice.count("gate: protogate.ini of the work tree isn't read: v1 has none"), 1, self.advice)
        said = self.call("v1", "proto", "--github")[1]
        found = [it for it in said if it.startswith("::warning file=protogate.ini,")]
        self.assertEqual(len(found), 1, said)
        self.assertIn("::protogate.ini of the work tree isn't read: v1 has none", found[0])

    def test_a_change_that_alters_settings(self):
        """Here two enums give one number two names, which breaks where names are compared."""
        old, new = ("enum E { Z = 0; %s = 1; } message A { E e = 1; }" % it for it in ("B", "C"))
        self.commit({"proto/a.proto": HEAD + old, "protogate.ini": "[gate]\nview = names\n"}, "v1")
        self.write({"proto/a.proto": HEAD + new})
        self.assertEqual(self.call("v1", "proto")[0], 1)
        self.assertNotIn("protogate.ini", self.advice)
        self.write({"protogate.ini": "[gate]\nview = numbers\n"})
        self.assertEqual(self.call("v1", "proto")[0], 1)
        self.assertIn("gate: protogate.ini of the work tree isn't read: it differs from that of v1, which counts", self.advice)
        os.remove(f"{self.top}/protogate.ini")
        self.assertEqual(self.call("v1", "proto")[0], 1)
        self.assertIn("gate: protogate.ini is missing in the work tree, and that of v1 counts", self.advice)
        for kind, words in (("link", None), ("folder", {"protogate.ini/a": "[gate]\n"})):
            os.symlink("/dev/zero", f"{self.top}/protogate.ini") if kind == "link" else self.write(words)
            self.assertEqual(self.call("v1", "proto")[0], 1)
            self.assertIn("gate: protogate.ini of the work tree isn't read: it differs from that of v1", self.advice)
            if kind == "link":
                os.remove(f"{self.top}/protogate.ini")

    def test_a_release_whose_settings_are_no_file(self):
        """What is read instead is enough, and the record calls for that."""
        self.commit({"proto/a.proto": WIDE % "Order"}, "v1")
        os.symlink("gone", f"{self.top}/protogate.ini")
        self.commit({}, "v2")
        self.write({"proto/a.proto": NARROW % "Order", "ours.ini": "[gate]\nview = names\n"})
        self.assertEqual(self.call("v2", "proto"), (4, []))
        for words in (("--no-settings",), ("--settings", "ours.ini"), ("--base", "v1")):
            self.assertEqual(self.call(*words, "v2", "proto")[0], 1, words)
        self.assertIn("--no-settings", self.record("--base", "v1", "v2", "proto")["call"])

    def test_the_target_branch(self):
        """A release's settings are as old as the release; a target branch has later ones."""
        self.commit({"proto/a.proto": WIDE % "Order", "protogate.ini": "[gate]\nboth = no\n"}, "v1")
        self.commit({"protogate.ini": "[gate]\nfolder = proto\nreleases = v1\n" + skip("Order")}, "main.now")
        self.git("checkout", "-q", "-b", "change")
        self.write({"proto/a.proto": NARROW % "Order"})
        self.assertEqual(self.call("v1", "proto")[0], 1)
        wanted = (0, [f"skipped Order until {day(30)}"])
        for words in (("--base", "main"), ("--base=main", "v1", "proto"), ("--base", "refs/heads/main", "v1")):
            self.assertEqual(self.call(*words), wanted)
            self.assertNotIn("protogate.ini", self.advice)
        self.write({"protogate.ini": "[gate]\nfolder = none\n"})
        self.assertEqual(self.call("--base", "main"), wanted)
        self.assertIn("it differs from that of main, which counts", self.advice)

    def test_what_the_caller_vouches_for(self):
        """A file's paths count from the top of the repository, wherever the file is and the call is made."""
        self.narrow(more={"protogate.ini": "[gate]\nfolder = proto\nreleases = v1\n" + skip("Order"), "below/keep": ""})
        wanted = (0, [f"skipped Order until {day(30)}"])
        self.assertEqual(self.call("--settings", "protogate.ini"), wanted)
        self.assertNotIn("protogate.ini", self.advice)
        self.assertEqual(self.call("--settings", "../protogate.ini", at=f"{self.top}/below"), wanted)
        self.write({"ours.ini": "[gate]\nfolder = proto\n"}, self.room.name)
        self.assertEqual(self.call("--settings", f"{self.room.name}/ours.ini", "v1", at=f"{self.top}/below")[0], 1)
        self.assertIn(f"protogate.ini of the work tree isn't read: {self.room.name}/ours.ini counts", self.advice)

    def test_no_settings(self):
        self.commit({"proto/a.proto": WIDE % "Order", "protogate.ini": skip("Order")}, "v1")
        self.write({"proto/a.proto": NARROW % "Order"})
        self.assertEqual(self.call("v1", "proto")[0], 0)
        self.assertEqual(self.lines("v1", "proto", "--no-settings"), (1, ["breaks Order 6"]))
        self.assertIn("gate: protogate.ini of the work tree isn't read: --no-settings counts", self.advice)

    def test_no_line_where_nothing_differs(self):
        """The ends of lines, and a mark of UTF-8, are none of a change."""
        self.commit({"proto/a.proto": WIDE % "Order", "protogate.ini": "[gate]\nview = names\n"}, "v1")
        for text in ("[gate]\nview = names\n", "[gate]\r\nview = names\r\n", "\ufeff[gate]\nview = names\n"):
            self.write({"protogate.ini": text})
            self.assertEqual(self.call("v1", "proto"), (0, ["compatible 1 type"]))
            self.assertEqual(self.advice, "")

    def test_calls_that_are_wrong(self):
        self.narrow(more={"protogate.ini": "[gate]\nfolder = proto\nreleases = v1\n"})
        self.assertEqual(self.call(), (4, []))
        for word in ("REVISION", "--base REVISION", "--settings FILE"):
            self.assertIn(word, self.advice.splitlines()[-1])
        for words in (("--base", "", "v1", "proto"), ("--base", "none", "v1", "proto"), ("--base", "v1", "--no-settings", "v1", "proto"),
                      ("--settings", "none.ini", "v1", "proto"), ("--settings", "", "v1", "proto"), ("--settings", "proto", "v1", "proto"),
                      ("--no-settings",), ("--no-settings", "v1"), ("--base", "v1")):
            self.assertEqual(self.call(*words), (4, []), words)
            self.assertNotIn("Traceback", self.advice)

    def test_a_call_of_the_record(self):
        """It gives the same answers, whatever settings there are."""
        self.commit({"proto/a.proto": WIDE % "Order" + "message Draft { }", "protogate.ini": "[gate]\nboth = yes\n"}, "v1")
        self.commit({"protogate.ini": "[gate]\nfolder = proto\nreleases = v1\ntime-limit = 500\n" + skip("type:Draft")}, "now")
        self.write({"proto/a.proto": NARROW % "Order"})
        status, said = self.call("--base", "main", "--record", "run.json")
        with open(f"{self.top}/run.json", encoding="utf-8") as file:
            record = json.load(file)
        self.assertEqual((record["base"], record["settings"]), ("main", "protogate.ini"))
        again, lines = self.call(*record["runs"][0]["call"][1:])
        self.assertEqual((status, [it.partition(" until ")[0] for it in said]), (again, lines))
        self.assertEqual(record["runs"][0]["call"][1:], ["--time-limit", "500", "--skip", "type:Draft", "--no-settings", "v1", "proto"])


class Files(Changes):
    """A file of settings that is odd is told with its line, and costs no time."""

    def base(self, data, line, words):
        self.write({"protogate.ini": data})
        self.git("add", "-A")
        self.git("commit", "-q", "--amend", "-m", "base")
        for way in (("--base", "HEAD"), ("--settings", "protogate.ini")):
            before = spent()
            self.assertEqual(self.call(*way, "v1", "proto"), (4, []), words)
            self.assertLess(spent() - before, 60)
            self.assertTrue(self.advice.startswith(f"gate: protogate.ini:{line}: "), self.advice)
            self.assertIn(words, self.advice)

    def test_bytes(self):
        self.commit({"proto/a.proto": WIDE % "A"}, "v1")
        self.commit({}, "base")
        for data, line, words in (
                (b"[gate]\n\0", 2, "zero byte"), (b"\0" * 1000, 1, "zero byte"), (b"[gate]\nview = \xff\n", 2, "isn't UTF-8"),
                (b"\xff\xfe[\0g\0", 1, "zero byte"), (b"\xef\xbb\xbf[gate]\nview = all\n", 2, "view is numbers or names"),
                (b"[gate]\r\n\r\nview\r\n", 3, "this is no setting"), (b"[gate]\n" * 500_000, 1, "the file has over"),
                (b"[gate]\nview" + b" " * 900_000 + b"x", 2, "this is no setting"), (b"[" * 900_000, 1, "this is no setting"),
                (b"[gate]\nview = names\n::stop-commands::x\n##[error]x\n", 3, "this is no setting")):
            self.base(data, line, words)

    def test_what_takes_long(self):
        """Each of these is as long as a file may be."""
        for data in (b"a" + b" " * 999_990, b"[a]\n" * 240_000, b"[gate]\n" + b"x\n" * 490_000, b"[gate]\n" + b" x\n" * 330_000, b"=\n" * 490_000,
                     b"[gate]\n" + (b"a" + b" " * 900 + b"b\n") * 1100, b"[" * 999_999, b"[gate]\n" + b"a" * 999_000 + b" = 1",
                     b"[gate]\nfolder = a\n" + b" b\n" * 320_000 + b"both = 2\n", b"".join(b"[skip a%d]\n" % it for it in range(70_000))):
            before = time.process_time()
            with self.assertRaises(settings.Stop):
                settings.Settings(data)
            self.assertLess(time.process_time() - before, 60)

    def test_what_is_read(self):
        """By the rules of the format: comments have their own lines, a value goes on where it is indented deeper than its key."""
        for text, wanted in (("[gate]\nfolder=a = b\n", {"folder": "a = b"}), ("[gate]\n  folder = a # b\n", {"folder": "a # b"}),
                             ("[gate]\nreleases =\n  a\n# c\n\n  ; d\n\t b = c\nfolder = x\n", {"releases": ["a", "b = c"], "folder": "x"}),
                             ("# [gate]\n[gate] # more\nboth = On\nwith-protoc=FALSE", {"both": True, "with-protoc": False}),
                             ("\ufeff[gate]\r\nfolder = a\rview = names", {"folder": "a", "view": "names"})):
            self.assertEqual(settings.Settings(text.encode()).said, wanted)

    def test_a_file_of_300_megabytes(self):
        self.commit({"proto/a.proto": WIDE % "A"}, "v1")
        with open(f"{self.top}/protogate.ini", "wb") as file:
            file.truncate(300_000_000)
        self.assertEqual(self.call("v1", "proto"), (0, ["compatible 1 type"]))
        self.assertEqual(self.call("v1", "proto", "--settings", "protogate.ini"), (4, []))
        self.assertIn("gate: protogate.ini:1: the file has over 1,000,000 bytes", self.advice)

    def test_what_is_no_file_in_the_base_revision(self):
        """A link there isn't followed, wherever it leads."""
        self.commit({"proto/a.proto": WIDE % "A", "ours.ini": "[gate]\nview = names\n"}, "v1")
        inner = f"{self.room.name}/inner"
        self.write({"a": "a"}, inner)
        self.git("init", "-q", at=inner)
        self.git("add", "-A", at=inner)
        self.git("commit", "-q", "-m", "one", at=inner)
        for kind in ("ours.ini", "gone.ini", "/etc/passwd", "folder", "submodule"):
            path = f"{self.top}/protogate.ini"
            if kind == "folder":
                self.write({"protogate.ini/a": "[gate]\n"})
                self.git("add", "-A")
            elif kind == "submodule":
                self.git("rm", "-q", "-r", "--cached", "protogate.ini")
                commit = self.git("rev-parse", "HEAD", at=inner)
                self.git("update-index", "--add", "--cacheinfo", f"160000,{commit},protogate.ini")
            else:
                os.symlink(kind, path)
                self.git("add", "-A")
            self.git("commit", "-q", "-m", kind)
            if kind not in ("folder", "submodule"):
                os.remove(path)
            self.assertEqual(self.call("--base", "HEAD", "v1", "proto"), (4, []), kind)
            self.assertIn("gate: protogate.ini is no file at HEAD", self.advice)

    def test_a_fifo(self):
        self.commit({"proto/a.proto": WIDE % "A"}, "v1")
        os.mkfifo(f"{self.top}/protogate.ini")
        self.assertEqual(self.call("v1", "proto"), (0, ["compatible 1 type"]))
        self.assertIn("protogate.ini of the work tree isn't read: v1 has none", self.advice)
        self.assertEqual(self.call("v1", "proto", "--settings", "protogate.ini"), (4, []))

    def test_seconds(self):
        """How long a program may take is said by the call, or else by the settings."""
        self.commit({"proto/a.proto": WIDE % "A"}, "v1")
        self.commit({}, "base")
        for said in ("0", "-1", "1.5", "86401", "1e3", "9" * 5000, "\u0663", "no"):
            if len(said) < 1000:
                self.base(f"[gate]\n\ntime-limit = {said}\n".encode(), 3, "time-limit is a number of seconds from 1 to 86400")
            self.assertEqual(self.call("v1", "proto", f"--time-limit={said}"), (4, []), said)
        self.write({"ours.ini": "[gate]\ntime-limit = 30\n"}, self.room.name)
        here = os.getcwd()
        os.chdir(self.top)
        self.addCleanup(os.chdir, here)
        ours = ["--settings", f"{self.room.name}/ours.ini"]
        for words, wanted in ((["v1", "proto", *ours], 30), (["v1", "proto", *ours, "--time-limit", "7"], 7), (["v1", "proto", "--no-settings"], 600)):
            with contextlib.redirect_stderr(io.StringIO()):
                self.assertEqual(gate.parsed(words).time_limit, wanted)


class Skips(Changes):
    """What is left out is told."""

    def test_a_file_that_is_not_there(self):
        """Git lists it, and nobody can read it."""
        self.commit({"proto/a.proto": WIDE % "A"}, "v1")
        self.write({"proto/n.proto": WIDE % "N"})
        self.git("add", ".")
        os.remove(f"{self.top}/proto/n.proto")
        self.assertEqual(self.call("v1", "proto")[0], 2)
        self.assertEqual(self.call("v1", "proto", "--skip", "n.proto"), (0, ["skipped n.proto", "compatible 1 type"]))
        self.assertNotIn("names nothing", self.advice)

    def test_each_that_takes_effect(self):
        self.commit({"proto/a.proto": WIDE % "A", "proto/b/b.proto": WIDE % "B", "proto/c.proto": WIDE % "C",
                     "protogate.ini": skip("A") + skip("gone.proto", day(1)) + skip("c.proto", day(366))}, "v1")
        self.write({"proto/a.proto": NARROW % "A", "proto/b/b.proto": NARROW % "B", "proto/c.proto": NARROW % "C"})
        lines = ["skipped b/", f"skipped A until {day(30)}", f"skipped c.proto until {day(366)}"]
        self.assertEqual(self.call("v1", "proto", "--skip", "b/", "--skip", "Gone"), (0, lines))
        self.assertIn("gate: protogate.ini:4: the skip of gone.proto names nothing", self.advice)
        self.assertIn("gate: --skip Gone names nothing", self.advice)
        told = [("b/", "path", None), ("A", "type", day(30)), ("c.proto", "path", day(366))]
        record = self.record("v1", "proto", "--skip", "b/")
        self.assertEqual([(it["name"], it["kind"], it["until"]) for it in record["skipped"]], told)
        page = subprocess.run([f"{test_ci.TOP}/tools/report.py", "run.json"], cwd=self.top, check=True, stdout=subprocess.PIPE).stdout.decode()
        for words in ("<code>b/</code>, a path, by the call", f"<code>A</code>, a type, by the settings until {day(30)}", "3 skipped"):
            self.assertIn(words, page)

    def test_several_releases(self):
        """It takes effect where its name is there."""
        self.commit({"proto/a.proto": WIDE % "A", "proto/b.proto": WIDE % "B"}, "v1")
        os.remove(f"{self.top}/proto/b.proto")
        self.commit({"protogate.ini": "[gate]\nfolder = proto\nreleases = v1\n v2\n" + skip("B")}, "v2")
        self.assertEqual(self.call("--base", "v2"), (
            0, ["== v1 ==", f"skipped B until {day(30)}", "compatible 1 type", "== v2 ==", "compatible 1 type"]))
        self.assertNotIn("names nothing", self.advice)

    def test_a_type_that_is_named_and_skipped(self):
        """There is no answer for it, so the call is wrong: also where only the file that declares it is left out, on either side."""
        self.commit({"proto/a.proto": WIDE % "A", "proto/b/b.proto": WIDE % "B", "protogate.ini": skip("A")}, "v1")
        self.write({"proto/a.proto": NARROW % "A", "proto/b/b.proto": NARROW % "B"})
        self.assertEqual(self.call("v1", "proto", "A"), (4, []))
        self.assertIn("gate: A is named, and left out too: protogate.ini:1: the skip of A", self.advice)
        for name in ("B", "type:B", "b", "path:b", "b/b.proto", "path:b/b.proto"):
            self.assertEqual(self.call("v1", "proto", "B", "--skip", name), (4, []), name)
            self.assertIn("gate: B is named, and ", self.advice)
        for name in ("path:B", "type:b", "A", "a.proto"):
            self.assertEqual(self.lines("v1", "proto", "B", "--skip", name)[0], 1, name)
        os.rename(f"{self.top}/proto/b/b.proto", f"{self.top}/proto/moved.proto")
        self.assertEqual(self.call("v1", "proto", "B", "--skip", "moved.proto"), (4, []))
        self.assertEqual(self.call("v1", "proto", "B", "--skip", "b"), (4, []))

    def test_the_last_day(self):
        self.narrow()
        for ahead, wanted in ((1, 0), (366, 0), (368, 4), (3_000_000 - 740_000, 4)):
            self.write({"ours.ini": "\n" + skip("Order", day(ahead))}, self.room.name)
            self.assertEqual(self.call("v1", "proto", "--settings", f"{self.room.name}/ours.ini")[0], wanted, ahead)
        self.assertIn("ours.ini:4: until is at most 366 days ahead", self.advice)
        settings.Settings(skip("Order", day(366)).encode(), today=TODAY)
        with self.assertRaises(settings.Stop):
            settings.Settings(skip("Order", day(367)).encode(), today=TODAY)


class Names(Changes):
    """A name means one thing."""

    def release_drafts(self, folder="draft", name="draft"):
        """The type `draft` may go, and nothing is said of Order, which breaks in a folder of that name."""
        self.commit({"proto/a.proto": WIDE % name, f"proto/{folder}/b.proto": WIDE % "Order"}, "v1")
        self.write({"proto/a.proto": NARROW % name, f"proto/{folder}/b.proto": NARROW % "Order"})

    def test_a_type_and_a_folder(self):
        self.release_drafts()
        self.assertEqual(self.call("v1", "proto", "--skip", "draft"), (4, []))
        self.assertIn("gate: --skip draft is the name of a type and of a path: write type:draft or path:draft", self.advice)
        self.assertEqual(self.lines("v1", "proto", "--skip", "type:draft"), (1, ["skipped type:draft", "breaks Order 6"]))
        self.assertEqual(self.lines("v1", "proto", "--skip", "path:draft"), (1, ["skipped path:draft", "breaks draft 6"]))
        self.assertEqual(self.call("v1", "proto", "--skip", "path:draft/", "--skip", "type:draft"), (0, ["skipped path:draft/", "skipped type:draft"]))
        self.commit({"protogate.ini": "\n" + skip("draft") + skip("type:draft")}, "base")
        self.assertEqual(self.call("--base", "base", "v1", "proto"), (4, []))
        self.assertIn("gate: protogate.ini:2: the skip of draft is the name of a type and of a path", self.advice)
        self.commit({"protogate.ini": skip("type:draft") + skip("path:draft")}, "base2")
        self.assertEqual(self.call("--base", "base2", "v1", "proto")[0], 0)

    def test_a_folder_that_a_change_brings(self):
        """The type may be on one side, and the folder on the other one."""
        self.commit({"proto/a.proto": WIDE % "draft", "proto/b.proto": WIDE % "Order"}, "v1")
        os.remove(f"{self.top}/proto/a.proto")
        os.remove(f"{self.top}/proto/b.proto")
        self.write({"proto/draft/b.proto": NARROW % "Order"})
        self.assertEqual(self.call("v1", "proto", "--skip", "draft"), (4, []))
        self.assertEqual(self.lines("v1", "proto", "--skip", "type:draft"), (1, ["skipped type:draft", "breaks Order 6"]))

    def test_a_type_in_its_own_folder(self):
        """It isn't left out alone, so the name has to say which is meant."""
        self.commit({"proto/draft/a.proto": WIDE % "draft", "proto/draft/b.proto": WIDE % "Order"}, "v1")
        self.write({"proto/draft/a.proto": NARROW % "draft", "proto/draft/b.proto": NARROW % "Order"})
        self.assertEqual(self.call("v1", "proto", "--skip", "draft"), (4, []))
        self.assertEqual(self.lines("v1", "proto", "--skip", "type:draft"), (1, ["skipped type:draft", "breaks Order 6"]))
        self.assertEqual(self.call("v1", "proto", "--skip", "path:draft"), (0, ["skipped path:draft"]))

    def test_a_type_and_a_file(self):
        """A message `proto` of a package `a` has the name of a file."""
        named = HEAD + "package a; message proto { %s a = 1; }"
        self.commit({"proto/b.proto": named % "int64", "proto/a.proto": WIDE % "Order"}, "v1")
        self.write({"proto/b.proto": named % "int32", "proto/a.proto": NARROW % "Order"})
        self.assertEqual(self.call("v1", "proto", "--skip", "a.proto"), (4, []))
        self.assertEqual(self.lines("v1", "proto", "--skip", "type:a.proto"), (1, ["skipped type:a.proto", "breaks Order 6"]))
        self.assertEqual(self.lines("v1", "proto", "--skip", "path:a.proto"), (1, ["skipped path:a.proto", "breaks a.proto 6"]))

    def test_a_prefix_that_is_in_a_name(self):
        """A file may begin with what looks like one."""
        self.commit({"proto/type:a.proto": WIDE % "A"}, "v1")
        self.write({"proto/type:a.proto": NARROW % "A"})
        self.assertEqual(self.lines("v1", "proto", "--skip", "type:a.proto")[0], 1)
        self.assertEqual(self.call("v1", "proto", "--skip", "path:type:a.proto"), (0, ["skipped path:type:a.proto"]))


if __name__ == "__main__":
    if len(sys.argv) > 1 and not sys.argv[1].startswith("-"):
        test_ci.PROGRAM = os.path.realpath(sys.argv.pop(1))
    run_tests.main()

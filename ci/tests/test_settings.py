#!/usr/bin/env python3
"""Tests of whose settings count, what they may say, and what is left out or accepted by them."""

import datetime
import os
import subprocess
import time
import unittest

from common import Repository
from protogate_ci import settings
from protogate_ci.git import Repository as Git
from protogate_ci.running import Stop
from protogate_ci.settings import Settings, Skip, Skips, releases_of

TODAY = datetime.date(2026, 11, 30)
SKIP = "[skip %s]\nreason = Nobody  stores it.\nuntil = %s\n"
ACCEPT = "[accept Order.quantity]\ncase = value\nold = int32\nnew = uint32\nreason = Never\n negative.\nuntil = 2026-12-31\n"


def read(text):
    return Settings(text if isinstance(text, bytes) else text.encode(), today=TODAY)


class Texts(unittest.TestCase):
    """A file of settings that is odd is told with its line, and costs no time."""

    def faults(self, data, line, words):
        before = time.process_time()
        with self.assertRaises(Stop) as stopped:
            read(data)
        self.assertLess(time.process_time() - before, 60)
        self.assertEqual(stopped.exception.status, 4)
        self.assertTrue(str(stopped.exception).startswith(f"protogate.ini:{line}: "), stopped.exception)
        self.assertIn(words, str(stopped.exception))
        self.assertTrue(str(stopped.exception).isprintable())
        self.assertLess(len(str(stopped.exception)), 2000)

    def test_bytes(self):
        for data, line, words in (
                (b"[gate]\n\0", 2, "zero byte"), (b"\0" * 1000, 1, "zero byte"), (b"[gate]\nview = \xff\n", 2, "isn't UTF-8"),
                (b"\xff\xfe[\0g\0", 1, "zero byte"), (b"\xef\xbb\xbf[gate]\nview = all\n", 2, "view is numbers or names"),
                (b"[gate]\r\n\r\nview\r\n", 3, "this is no setting"), (b"[gate]\n" * 500_000, 1, "the file has over"),
                (b"[gate]\nview" + b" " * 900_000 + b"x", 2, "this is no setting"), (b"[" * 900_000, 1, "this is no setting"),
                (b"[gate]\nview = names\n::stop-commands::x\n##[error]x\n", 3, "this is no setting"),
                ("[gate]\nview = \u202e\x1b##[error]\n".encode(), 2, "view is numbers or names"), (b"x = 1\n", 1, "there is no section yet"),
                (b"[gate]\nview = names\nview = names\n", 3, "it is there already"), (b"[gate]\n[gate]\n", 2, "it is there already")):
            self.faults(data, line, words)

    def test_what_takes_long(self):
        """Each of these is as long as a file may be."""
        for data in (b"a" + b" " * 999_990, b"[a]\n" * 240_000, b"[gate]\n" + b"x\n" * 490_000, b"[gate]\n" + b" x\n" * 330_000, b"=\n" * 490_000,
                     b"[gate]\n" + (b"a" + b" " * 900 + b"b\n") * 1100, b"[" * 999_999, b"[gate]\n" + b"a" * 999_000 + b" = 1",
                     b"[gate]\nview = a\n" + b" b\n" * 320_000, b"".join(b"[skip a%d]\n" % it for it in range(70_000))):
            before = time.process_time()
            with self.assertRaises(Stop):
                read(data)
            self.assertLess(time.process_time() - before, 60)

    def test_what_is_read(self):
        """By the rules of the format: comments have their own lines, a value goes on where it is indented deeper than its key."""
        for text, wanted in (("[gate]\nfolder=a = b\n", {"folder": ["a = b"]}), ("[gate]\n  folder = a # b\n", {"folder": ["a # b"]}),
                             ("[gate]\nreleases =\n  a\n# c\n\n  ; d\n\t b = c\nfolder = x\n", {"releases": ["a", "b = c"], "folder": ["x"]}),
                             ("# [gate]\n[gate] # more\nwith-protoc=no\ntime-limit = 30", {"with-protoc": "no", "time-limit": 30}),
                             ("\ufeff[gate]\r\nfolder = a\n  b\rview = names", {"folder": ["a", "b"], "view": "names"}),
                             ("[gate]\ncompatibility = full-transitive\nstrict = rpc\n", {"compatibility": "full-transitive", "strict": ["rpc"]}),
                             ("", {}), ("[gate]\n", {})):
            self.assertEqual(read(text).said, wanted)

    def test_sections_and_keys(self):
        for text, line, words in (
                ("[other]\n", 1, "there is no section [other]"), ("[skip]\n", 1, "there is no section [skip]"),
                ("[gate x]\n", 1, "there is no section"), ("[gate]\nfoldr = a\n", 2, "there is no key foldr in [gate]; did you mean folder?"),
                ("[gate]\nfolder =\n", 2, "folder says nothing"), ("[gate]\ncompatibility = both\n", 2, "compatibility is backward, backward-"),
                ("[skip A]\nreason = x\n", 1, "has no until"), ("[skip A]\nuntil = 2026-12-01\n", 1, "has no reason"),
                (SKIP % ("A", "tomorrow"), 3, "until is a day such as 2026-12-31, not tomorrow"),
                (SKIP % ("A", "2026-02-30"), 3, "until is "), (SKIP % ("A", "2027-12-02"), 3, "until is at most 366 days ahead"),
                (SKIP % ("A", "9999-12-31"), 3, "until is at most 366 days ahead"), (SKIP % ("A", "20261231"), 3, "until is a day"),
                (ACCEPT.replace("case = value\n", ""), 1, "has no case"), (ACCEPT.replace("value", "harmless"), 2, "case is unlike, value, "),
                (ACCEPT.replace("new = uint32\n", ""), 1, "has no new"), (ACCEPT.replace("2026-12-31", "2028-01-01"), 7, "until is at most 366 days"),
                ("[for *Reply]\ncompatibility = full\n", 1, "[for NAME] is [for type:PATTERN] or "),
                ("[for type:*Reply]\n", 1, "has no compatibility"),
                ("[for type:*Reply]\ncompatibility = up\n", 2, "compatibility is backward")):
            self.faults(text, line, words)

    def test_seconds(self):
        for said in ("0", "-1", "1.5", "86401", "1e3", "9" * 5000, "\u0663", "no"):
            self.faults(f"[gate]\n\ntime-limit = {said}\n", 3, "time-limit is a number of seconds from 1 to 86400")

    def test_the_last_day(self):
        for until, is_over in (("2026-11-30", False), ("2026-11-29", True), ("2027-12-01", False), ("0001-01-01", True)):
            said = read(SKIP % ("A", until))
            self.assertEqual((said.skips[0].until.isoformat(), said.is_over(said.skips[0])), (until, is_over))

    def test_what_is_accepted(self):
        """One cause: the field, the case and the types of both sides."""
        found = read("\n" + ACCEPT).accepted[0]
        self.assertEqual((found.field, found.case, found.old, found.new), ("Order.quantity", "value", "int32", "uint32"))
        said = ("Never negative.", "2026-12-31", "protogate.ini:2: the accept of Order.quantity")
        self.assertEqual((found.reason, found.until.isoformat(), found.shown), said)

    def test_compatibility_by_names(self):
        found = read("[for type:shop.*Request]\ncompatibility = backward\n"
                     "[for path:proto/replies]\ncompatibility = forward-transitive\n").by_name
        self.assertEqual(found, {"type:shop.*Request": "backward", "path:proto/replies": "forward-transitive"})


class Names(unittest.TestCase):
    def skips(self, *said):
        return Skips([Skip(it, f"--skip {it}") for it in said])

    def test_kinds(self):
        for said, kind, name in (("draft", None, "draft"), ("type:draft", "type", "draft"), ("path:a/", "path", "a"), ("other:a", None, "other:a"),
                                 ("path:type:a", "path", "type:a"), ("type:", "type", ""), ("a/b/", None, "a/b")):
            self.assertEqual((Skip(said, "").kind, Skip(said, "").name), (kind, name))

    def test_a_type_and_a_path(self):
        """A name that is both says neither."""
        types, paths = {"draft", "Order"}, {"draft", "a.proto"}
        with self.assertRaisesRegex(Stop, "--skip draft is the name of a type and of a path: write type:draft or path:draft"):
            self.skips("draft").told(types, paths)
        for said in ("type:draft", "path:draft/", "Order", "a.proto"):
            found, idle = self.skips(said).told(types, paths)
            self.assertEqual(([it.said for it in found], idle), ([said], []))
        found, idle = self.skips("gone", "type:a.proto", "path:Order").told(types, paths)
        self.assertEqual((found, [it.said for it in idle]), ([], ["gone", "type:a.proto", "path:Order"]))

    def test_names_that_are_empty(self):
        """As of a variable that has nothing: that leaves out nothing, and not all."""
        for said in ("", "/", "type:", "path:", "path:/"):
            with self.assertRaisesRegex(Stop, "names no type and no path"):
                self.skips("A", said)

    def test_which_names_are_types(self):
        found = self.skips("draft", "type:A", "path:b/")
        self.assertEqual((found.types, found.paths), ({"draft", "A"}, {"draft", "b"}))

    def test_releases(self):
        tags = ["v1", "v1.1", "w2", "v2", "v10"]
        for said, wanted in ((["v1", "main"], ["v1", "main"]), (["v*"], ["v1", "v1.1", "v2", "v10"]), (["v*", "last 2"], ["v2", "v10"]),
                             (["v*", "last 20", "w2"], ["v1", "v1.1", "v2", "v10", "w2"]), (["v?", "v[12]*"], ["v1", "v2", "v1.1", "v10"]),
                             (["v1", "v1"], ["v1"]), ([], [])):
            self.assertEqual(releases_of(said, tags), wanted)
        with self.assertRaisesRegex(Stop, r"no tag is like x\*"):
            releases_of(["x*"], tags)


class Base(Repository):
    """The settings are those of the base revision."""

    def base(self, revision):
        return settings.Base(settings.file_of(Git.here(), revision), settings.FILE, revision)

    def of_file(self, path):
        return settings.Base(settings.read_named("--settings", path), os.path.normpath(path))

    def difference(self, base):
        return settings.difference(base, Git.here())

    def test_a_change_that_brings_settings(self):
        self.commit()
        self.write({"protogate.ini": SKIP % ("Order", "2026-12-01")})
        base = self.base("v1")
        self.assertEqual((base.data, base.settings().skips), (None, []))
        self.assertTrue(self.difference(base).startswith("protogate.ini of the work tree isn't read: v1 has none (--base REVISION, "))

    def test_a_change_that_alters_settings(self):
        self.write({"protogate.ini": "[gate]\nview = names\n"})
        self.commit()
        self.write({"protogate.ini": "[gate]\nview = numbers\n"})
        base = self.base("v1")
        self.assertEqual(base.settings().said, {"view": "names"})
        self.assertIn("it differs from that of v1, which counts", self.difference(base))
        os.remove("protogate.ini")
        self.assertIn("protogate.ini is missing in the work tree, and that of v1 counts", self.difference(base))
        os.symlink("/dev/zero", "protogate.ini")
        self.assertIn("it differs from that of v1", self.difference(base))
        os.remove("protogate.ini")
        os.mkfifo("protogate.ini")
        self.assertIn("it differs from that of v1", self.difference(base))
        os.remove("protogate.ini")
        with open("protogate.ini", "wb") as file:
            file.truncate(300_000_000)
        self.assertIn("it differs from that of v1", self.difference(base))

    def test_no_line_where_nothing_differs(self):
        """The ends of lines, and a mark of UTF-8, are none of a change."""
        self.write({"protogate.ini": "[gate]\nview = names\n"})
        self.commit()
        base = self.base("v1")
        for text in ("[gate]\nview = names\n", "[gate]\r\nview = names\r\n", "\ufeff[gate]\nview = names\n"):
            self.write({"protogate.ini": text})
            self.assertIsNone(self.difference(base))

    def test_a_sparse_checkout(self):
        self.write({"protogate.ini": "[gate]\nview = names\n", "a": "a"})
        self.commit()
        self.git("sparse-checkout", "set", "--no-cone", "/a")
        self.assertFalse(os.path.exists("protogate.ini"))
        self.assertIsNone(self.difference(self.base("v1")))

    def test_what_the_caller_vouches_for(self):
        self.write({"ours.ini": "[gate]\nview = names\n"})
        self.commit()
        os.mkfifo("pipe")
        os.mkdir("folder")
        base = self.of_file("./ours.ini")
        self.assertEqual((base.settings().said, base.name, self.difference(base)), ({"view": "names"}, "ours.ini", None))
        self.write({"protogate.ini": "[gate]\n"})
        self.assertEqual(self.difference(base), "protogate.ini of the work tree isn't read: ours.ini counts")
        for path in ("none.ini", "", "pipe", "folder"):
            self.stops(4, self.of_file, path)
        with open("zeros", "wb") as file:
            file.truncate(300_000_000)
        self.assertIn("zeros:1: the file has over 1,000,000 bytes", self.stops(4, self.of_file("zeros").settings))

    def test_what_is_no_file_in_the_base_revision(self):
        """A link there isn't followed, wherever it leads."""
        blob = self.git("hash-object", "-w", "--stdin", input=b"/etc/passwd")
        inner = self.git("mktree", input=f"100644 blob {blob}\ta\n".encode())
        commit = self.git("commit-tree", "-m", "x", inner)
        for entry in (f"120000 blob {blob}", f"040000 tree {inner}", f"160000 commit {commit}"):
            tree = self.git("mktree", input=f"{entry}\tprotogate.ini\n".encode())
            self.git("tag", "-f", "odd", self.git("commit-tree", "-m", "x", tree), stderr=subprocess.DEVNULL)
            self.assertIn("protogate.ini is no file at odd", self.stops(4, self.base, "odd"))

    def test_a_file_of_300_megabytes(self):
        with open("protogate.ini", "wb") as file:
            file.truncate(300_000_000)
        self.commit()
        self.assertIn("protogate.ini has over 1,000,000 bytes, or isn't here, at v1", self.stops(4, self.base, "v1"))

    def test_faults_say_where_they_are_from(self):
        self.write({"protogate.ini": "[gate]\nview = all\n"})
        self.commit()
        said = self.stops(4, self.base("v1").settings)
        self.assertEqual(said, "protogate.ini:2: view is numbers or names, not all (as it was at v1; --base REVISION, --settings FILE and "
                               "--no-settings name others)")


if __name__ == "__main__":
    unittest.main()

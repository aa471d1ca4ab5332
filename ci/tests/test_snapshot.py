#!/usr/bin/env python3
"""Tests of what a side has: each source of one, links, names, and what isn't gated, with the reason."""

import os
import subprocess
import unittest
from unittest import mock

from common import Git, Repository, Snapshot, Ways
from protogate_ci.snapshot import unseen
from protogate_ci.asking import Side
from protogate_ci import sources
from protogate_ci.running import plain


class Sides(Ways):
    def test_each_side(self):
        """They are read by one piece of code."""
        self.write({"proto/a.proto": "a", "proto/in/b.proto": "b", "proto/README": "mine", "other/c.proto": "c"})
        for side in self.sides():
            self.assertEqual(self.gated(side), {"proto/a.proto": "a", "proto/in/b.proto": "b"}, side)
            self.assertEqual((self.refused(side), self.snapshot(side, ".").closed), ({}, {}), side)
            self.assertEqual(sorted(self.gated(side, ".")), ["other/c.proto", "proto/a.proto", "proto/in/b.proto"], side)
            self.assertEqual(sorted(self.gated(side, "other", "proto/in", "other")), ["other/c.proto", "proto/in/b.proto"], side)

    def test_what_each_side_has(self):
        """One that is staged isn't the work tree, and neither is the revision."""
        self.write({"proto/a.proto": "old"})
        self.commit()
        self.write({"proto/a.proto": "staged"})
        self.git("add", "-A")
        self.write({"proto/a.proto": "now"})
        for side in ("staged", "now"):
            self.assertEqual(self.gated(side), {"proto/a.proto": side})
        self.assertEqual(self.gated("v1"), {"proto/a.proto": "old"})
        self.assertEqual(self.gated("HEAD"), {"proto/a.proto": "old"})

    def test_that_nothing_is_written_to_the_repository(self):
        self.write({"proto/a.proto": "old"})
        self.commit()
        self.write({"proto/a.proto": "staged", "proto/n.proto": "new"})
        self.git("add", "-A")
        self.write({"proto/a.proto": "now"})
        before = self.files_of_git()
        for side in ("v1", "staged", "now"):
            self.gated(side)
        self.assertEqual(self.files_of_git(), before)

    def files_of_git(self):
        found = [os.path.join(path, it) for path, _, names in os.walk(f"{self.top}/.git") for it in names]
        return {it: (os.path.getsize(it), it.endswith("index") and os.stat(it).st_mtime_ns) for it in found}

    def test_that_equal_files_are_one(self):
        """On both sides, so that what didn't change is written once."""
        self.write({"proto/a.proto": "a", "proto/b.proto": "old", "proto/same.proto": "a"})
        self.commit()
        self.write({"proto/b.proto": "new"})
        laid = {}
        for side in ("v1", "now"):
            self.snapshot(side).lay(f"{self.room}/{side}", laid)
        nodes = [[os.stat(f"{self.room}/{side}/proto/{it}.proto").st_ino for it in ("a", "same", "b")] for side in ("v1", "now")]
        self.assertEqual(nodes[0][:2] + nodes[1][:2], [nodes[0][0]] * 4)
        self.assertNotEqual(nodes[0][2], nodes[1][2])
        with open(f"{self.room}/now/proto/b.proto", encoding="utf-8") as file:
            self.assertEqual(file.read(), "new")

    def test_what_is_staged_twice(self):
        """Both trees are there still."""
        repository, trees = Git.here(), []
        for text in ("one", "two"):
            self.write({"proto/a.proto": text})
            self.git("add", "-A")
            trees.append(repository.staged(self.room))
        found = [Snapshot(sources.Tree(repository, it, it, self.room), ["proto"]) for it in trees]
        self.assertEqual([self.laid(it)["proto/a.proto"] for it in found], [b"one", b"two"])

    def test_a_split_index(self):
        self.write({"proto/a.proto": "old"})
        self.commit()
        self.git("update-index", "--split-index")
        self.write({"proto/a.proto": "new"})
        self.git("add", "-A")
        self.assertEqual([self.gated(it)["proto/a.proto"] for it in ("v1", "staged", "now")], ["old", "new", "new"])

    def test_an_index_of_a_hook(self):
        """A commit of some files alone has an index of its own."""
        self.write({"proto/a.proto": "old"})
        self.commit()
        self.write({"proto/a.proto": "new"})
        subprocess.run(["cp", ".git/index", ".git/other"], check=True)
        self.git("update-index", "proto/a.proto", env={**os.environ, "GIT_INDEX_FILE": ".git/other"})
        self.assertEqual(self.gated("staged"), {"proto/a.proto": "old"})
        os.environ["GIT_INDEX_FILE"] = ".git/other"
        self.assertEqual(self.gated("staged"), {"proto/a.proto": "new"})

    def test_what_is_not_merged(self):
        self.write({"proto/a.proto": "1"})
        self.commit()
        self.git("checkout", "-q", "-b", "other")
        self.write({"proto/a.proto": "2"})
        self.git("commit", "-q", "-a", "-m", "2")
        self.git("checkout", "-q", "main")
        self.write({"proto/a.proto": "3"})
        self.git("commit", "-q", "-a", "-m", "3")
        with self.assertRaises(subprocess.CalledProcessError):
            self.git("merge", "-q", "other", stderr=subprocess.DEVNULL)
        self.assertIn("unmerged", self.stops(4, self.source, "staged"))
        self.assertEqual(list(self.gated("now")), ["proto/a.proto"])

    def test_a_repository_without_a_commit(self):
        self.write({"proto/a.proto": "a"})
        self.assertEqual(self.gated("now"), {"proto/a.proto": "a"})
        self.stops(4, self.snapshot, "staged")
        self.git("add", "-A")
        self.assertEqual(self.gated("staged"), {"proto/a.proto": "a"})

    def test_a_descriptor_set(self):
        self.write({"set.pb": b"\0set"})
        for _ in ("old", "new"):
            with open(sources.descriptor_set("set.pb", self.room), "rb") as file:
                self.assertEqual(file.read(), b"\0set")
        os.mkfifo("pipe")
        with open("zeros", "wb") as file:
            file.truncate(sources.MOST_OF_SET + 1)
        for path in ("none", "pipe", ".", "zeros"):
            self.stops(4, sources.descriptor_set, path, self.room)

    def test_folders_that_are_not_there(self):
        self.write({"proto/in/a.proto": "a"})
        for side in self.sides():
            self.assertTrue(self.stops(4, self.snapshot, side, "prto").endswith(" has no folder prto; did you mean proto?"))
            self.assertIn("no folder proto/im; did you mean proto/in?", self.stops(4, self.snapshot, side, "proto/im"))
            self.assertIn(" has no folder proto/in/a.proto", self.stops(4, self.snapshot, side, "proto/in/a.proto"))
            self.assertIn("../elsewhere isn't in ", self.stops(4, self.snapshot, side, "../elsewhere"))
            self.assertEqual(self.snapshot(side, "proto", includes=("none",)).includes, [])


class WorkTrees(Repository):
    """What git doesn't say of a work tree."""

    def test_what_git_does_not_know(self):
        """A file that is ignored, one that is new, and a repository inside are gated like others."""
        self.write({".gitignore": "*.proto\n", "proto/ignored.proto": "i", "proto/inside/n.proto": "n"})
        self.commit()
        self.commit(at=f"{self.top}/proto/inside")
        self.assertEqual(self.gated("now"), {"proto/ignored.proto": "i", "proto/inside/n.proto": "n"})

    def test_flags_of_the_index(self):
        """What the index says of a file that it needn't look at counts for nothing."""
        self.write({"proto/a.proto": "old", "proto/b.proto": "old"})
        self.commit()
        self.git("update-index", "--assume-unchanged", "proto/a.proto")
        self.git("update-index", "--skip-worktree", "proto/b.proto")
        self.write({"proto/a.proto": "new", "proto/b.proto": "new"})
        self.assertEqual(self.gated("now"), {"proto/a.proto": "new", "proto/b.proto": "new"})

    def test_no_regular_files(self):
        """They aren't opened, nor are links to them."""
        self.write({"proto/keep.proto": "k"})
        self.commit()
        for name in ("u.proto", "pipe"):
            os.mkfifo(f"{self.top}/proto/{name}")
        self.link("u.proto", "proto/l.proto")
        for side in ("now", f"folder {self.top}"):
            self.assertEqual(self.refused(side), {"proto/u.proto": "file", "proto/l.proto": "link"})
            self.assertEqual(self.refused(side, skipped=("proto/u.proto", "proto/l.proto")), {})
            self.assertEqual(self.gated(side), {"proto/keep.proto": "k"})

    def test_what_can_not_be_read(self):
        """(This user may read everything, so the system's answers have stand-ins.)"""
        self.write({"proto/a.proto": "a", "proto/in/b.proto": "b", "proto/keep.proto": "k"})
        self.commit()
        access, scandir = os.access, os.scandir

        def closed(path):
            if path == f"{self.top}/proto/in":
                raise PermissionError(13, "Permission denied")
            return scandir(path)

        with mock.patch("os.access", lambda path, mode: not path.endswith("a.proto") and access(path, mode)), mock.patch("os.scandir", closed):
            for side in ("now", f"folder {self.top}"):
                found = self.snapshot(side)
                self.assertEqual(self.laid(found), {"proto/keep.proto": b"k"})
                self.assertEqual({path: kind for path, (kind, _) in found.refused().items()}, {"proto/a.proto": "file", "proto/in": "folder"}, side)
                self.assertIn("proto/in can't be read (Permission denied)", found.closed["proto/in"])
                self.assertEqual(list(found.gated()), ["proto/keep.proto"])

    def test_a_sparse_one(self):
        self.write({"proto/a.proto": "a", "proto/b/b.proto": "b", "proto/README": "mine"})
        self.commit()
        self.git("sparse-checkout", "set", "--no-cone", "/proto/a.proto")
        self.assertFalse(os.path.exists("proto/b"))
        self.assertEqual(self.refused("now"), {"proto/b/b.proto": "unseen"})
        self.assertEqual(self.refused("now", skipped=("proto/b",)), {})
        self.assertEqual(sorted(self.gated("staged")), ["proto/a.proto", "proto/b/b.proto"])

    def test_what_the_work_tree_has_no_longer(self):
        """What is gone is removed, and what was only in the index isn't passed over."""
        self.write({"proto/a.proto": "a", "proto/b/b.proto": "b"})
        self.commit()
        self.write({"proto/b/c.proto": "c"})
        self.git("add", ".")
        for name in ("a.proto", "b/b.proto", "b/c.proto"):
            os.remove(f"{self.top}/proto/{name}")
        self.assertEqual(list(unseen(self.snapshot("v1"), self.snapshot("now"))), ["proto/b/c.proto"])

    def test_a_second_work_tree(self):
        self.write({"proto/a.proto": "a"})
        self.commit()
        self.git("worktree", "add", "-q", f"{self.room}/second", "HEAD")
        os.chdir(f"{self.room}/second")
        self.write({"proto/a.proto": "now"}, f"{self.room}/second")
        self.assertEqual([self.gated(it) for it in ("v1", "staged", "now")], [{"proto/a.proto": it} for it in "a a now".split()])


class Attributes(Repository):
    text = 'syntax = "proto3";\n'

    def test_line_ends(self):
        """They are as compilers read them, or as git has them, and nothing is refused for them."""
        self.write({".gitattributes": "*.proto text eol=crlf\n", "proto/a.proto": self.text.replace("\n", "\r\n")})
        self.commit()
        found = [self.gated(side)["proto/a.proto"] for side in ("v1", "staged", "now")]
        self.assertEqual(found, [self.text, self.text, self.text.replace("\n", "\r\n")])
        self.assertEqual([self.refused(side) for side in ("v1", "staged", "now")], [{}] * 3)

    def test_encodings(self):
        """A file that a checkout gives another encoding has other bytes there than git has: compilers may read another type of them."""
        said = "a.proto working-tree-encoding=UTF-16LE\nb.proto working-tree-encoding=UTF-8\n"
        for place, more in ((".gitattributes", said), ("proto/.gitattributes", said), ("proto/in/.gitattributes", said),
                            (".gitattributes", "[attr]odd working-tree-encoding=UTF-16LE\na.proto odd\n"),
                            (".gitattributes", "a.proto working-tree-encoding=UTF-16LE\n" + "#" * 5_000_000)):
            self.write({place: more, "proto/in/a.proto": self.text.encode("utf-16-le"), "proto/in/b.proto": self.text})
            self.commit()
            for side in ("v1", "staged"):
                self.assertEqual(self.refused(side), {"proto/in/a.proto": "file"}, (place, side))
                self.assertEqual(self.gated(side), {"proto/in/b.proto": self.text}, (place, side))
            self.assertEqual(self.laid(self.snapshot("now"))["proto/in/a.proto"], self.text.encode("utf-16-le"))
            os.remove(place)

    def test_an_encoding_that_hides_a_type(self):
        """By ISO646-FR a c with a cedilla is a backslash in a checkout, so that a string ends elsewhere for compilers than in what git has."""
        text = 'message A { string s = 2 [json_name = "\u00e7"]; int64 a = 1; // "];\n }'
        raw = text.replace("\u00e7", "\\").encode()
        self.write({"proto/.gitattributes": "*.proto working-tree-encoding=ISO646-FR\n", "proto/a.proto": raw})
        self.commit()
        self.assertEqual(self.git("cat-file", "blob", "v1:proto/a.proto"), text.replace("{", "\u00e9").replace("}", "\u00e8")
                         .replace("[", "\u00b0").replace("]", "\u00a7"))
        self.assertEqual(self.refused("v1"), {"proto/a.proto": "file"})
        self.assertEqual(self.laid(self.snapshot("now"))["proto/a.proto"], raw)

    def test_filters(self):
        """None runs, on either side: what it would make of a file isn't gated."""
        self.write({"proto/.gitattributes": "*.proto filter=x\n", "proto/a.proto": "a", "run": f"#!/bin/sh\n: >'{self.room}/ran'\ncat\n"})
        os.chmod("run", 0o755)
        self.commit()
        for settings in (("smudge", "clean"), ("process",), ("required",)):
            for it in settings:
                self.git("config", f"filter.x.{it}", "true" if it == "required" else f"'{self.top}/run'")
            self.assertEqual([self.gated(it) for it in ("v1", "staged", "now")], [{"proto/a.proto": "a"}] * 3)
        self.assertFalse(os.path.exists(f"{self.room}/ran"))


class Links(Ways):
    def test_a_folder(self):
        self.write({"proto/real/a.proto": "a"})
        self.link("../real", "proto/v1/common")
        for side in self.sides():
            self.assertEqual(self.gated(side), {"proto/real/a.proto": "a"}, side)
            self.assertEqual(self.gated(side, skipped=("proto/real",)), {"proto/v1/common/a.proto": "a"}, side)
            self.assertEqual(self.gated(side, skipped=("proto/real/a.proto",)), {"proto/v1/common/a.proto": "a"}, side)

    def test_a_file(self):
        self.write({"proto/.real/a.txt": "a", "proto/z.proto": "z"})
        self.link(".real/a.txt", "proto/a.proto")
        self.link("z.proto", "proto/b.proto")
        for side in self.sides():
            self.assertEqual(self.gated(side), {"proto/a.proto": "a", "proto/z.proto": "z"}, side)
            self.assertEqual(self.laid(self.snapshot(side))["proto/b.proto"], b"z", side)

    def refuse(self, paths):
        self.write({"proto/keep.proto": "k"})
        for side in self.sides():
            self.assertEqual(self.refused(side), dict.fromkeys(paths, "link"), side)
            self.assertEqual(self.refused(side, skipped=paths), {}, side)
            self.assertIn("proto/keep.proto", self.gated(side))

    def test_absolute(self):
        """Such a path is another one for each program, or on each side."""
        self.write({"today/a.proto": "today"}, self.room)
        self.write({"proto/in/b.proto": "b"})
        self.link(f"{self.room}/today", "proto/folder")
        self.link(f"{self.room}/today/a.proto", "proto/file.proto")
        self.link("/proc/self/cwd/proto/in/b.proto", "proto/by_cwd.proto")
        self.link(f"{self.top}/proto/in", "proto/by_top")
        self.link("by_top/b.proto", "proto/by_both.proto")
        self.link("/etc/passwd", "proto/users")
        self.refuse(["proto/by_both.proto", "proto/by_cwd.proto", "proto/by_top", "proto/file.proto", "proto/folder"])

    def test_one_that_leads_out(self):
        """A link to what is no source file does no harm."""
        self.write({"elsewhere/a.proto": "a", "LICENSE": "mine", **{f"licenses/{it}": "mine" for it in range(60)}})
        for number in range(60):
            self.link(f"../licenses/{number}", f"proto/{number}")
        self.link("../elsewhere", "proto/folder")
        self.link("../elsewhere/a.proto", "proto/a.proto")
        self.link("../LICENSE", "proto/LICENSE")
        self.link("../../outside", "proto/far")
        self.link("a.proto", "proto/b.proto")
        self.refuse(["proto/a.proto", "proto/b.proto", "proto/far", "proto/folder"])
        for side in self.sides():
            self.assertEqual(self.refused(side, "proto", "elsewhere"), {"proto/far": "link"})
            self.assertEqual(self.laid(self.snapshot(side, includes=("elsewhere",)))["proto/b.proto"], b"a")

    def test_circles(self):
        self.link(".", "proto/self")
        self.link("../..", "proto/in/up")
        self.link("b", "proto/a")
        self.link("a", "proto/b")
        self.refuse(["proto/a", "proto/b", "proto/in/up", "proto/self"])

    def test_one_that_leads_to_nothing(self):
        self.link("gone", "proto/nothing")
        self.link("gone.proto", "proto/a.proto")
        self.link("keep.proto/a.proto", "proto/b.proto")
        self.refuse(["proto/a.proto", "proto/b.proto"])

    def test_links_that_lead_to_each_other(self):
        self.write({f"proto/{it}/{it}.proto": it for it in ("one", "two")})
        self.link("../two", "proto/one/in")
        self.link("../one", "proto/two/in")
        for side in self.sides():
            self.assertEqual(self.gated(side), {"proto/one/one.proto": "one", "proto/two/two.proto": "two"}, side)
            self.assertEqual(self.refused(side), {}, side)

    def test_a_folder_that_is_a_link(self):
        """It is followed in the table, where it stays there."""
        self.write({"real/deep/a.proto": "a", "real/b.proto": "b"})
        self.link("real/deep", "proto")
        self.link("../real", "link/again")
        for side in self.sides():
            self.assertEqual(self.gated(side, "proto"), {"real/deep/a.proto": "a"}, side)
            self.assertEqual(self.gated(side, "link/again/deep", "link/again"), {"real/deep/a.proto": "a", "real/b.proto": "b"}, side)
            self.assertEqual(self.gated(side, "link/again/../proto"), {"real/deep/a.proto": "a"}, side)

    def test_a_folder_that_leads_out(self):
        self.write({"today/a.proto": "today"}, self.room)
        self.link("../today", "proto")
        self.link(f"{self.room}/today", "absolute")
        self.link("circle", "circle")
        for side in self.sides():
            for folder in ("proto", "absolute", "circle"):
                self.assertIn(f"{folder} isn't in ", self.stops(4, self.snapshot, side, folder))
                self.stops(4, self.snapshot, side, ".", folder)

    def test_that_nothing_takes_the_place_of_what_can_not_be_shown(self):
        self.write({"proto/b.proto": "b", "other/x/a.proto": "other", "third/x/a.proto": "third"})
        self.link("/gone", "proto/x")
        self.link("../../gone", "other/y/a.proto")
        self.write({"third/y/a.proto": "third"})
        for name in self.sides():
            for includes, wanted in ((("other", "third"), {"proto/x": "link", "other/y/a.proto": "link"}), (("other",), {"proto/x": "link"}), ((), {})):
                side = Side("new", self.room, snapshot=self.snapshot(name, includes=includes))
                side.lay({"proto/x", "other"}, None, {})
                self.assertEqual({it.place.path: it.code for it in side.faults}, wanted, name)


class Hidden(Ways):
    def test_hidden_folders(self):
        self.write({"proto/.h/a.proto": "a", "proto/keep.proto": "k", "proto/.dot.proto": "d", ".proto/x/b.proto": "b", "proto/x.PROTO": "x"})
        self.link("gone.proto", "proto/.h/gone.proto")
        for side in self.sides():
            self.assertEqual(sorted(self.gated(side)), ["proto/.dot.proto", "proto/keep.proto"], side)
            self.assertEqual(self.snapshot(side).passed_over(), {"proto/.h/a.proto": "hidden", "proto/x.PROTO": "other"}, side)
            self.assertEqual(self.refused(side), {}, side)
            self.assertEqual(list(self.gated(side, ".proto")), [".proto/x/b.proto"], side)

    def test_what_leads_to_one(self):
        self.write({"proto/.h/in/a.proto": "a"})
        self.link(".h/in", "proto/v1")
        for side in self.sides():
            self.assertEqual(self.gated(side), {"proto/v1/a.proto": "a"}, side)


class Names(Ways):
    def test_strange_names(self):
        strange = ("-x.proto", "--help.proto", "it's a \"text\".proto", "\"quoted\".proto", "a b/ c.proto", ".proto", "\u00fc.proto", "a:1:2.proto",
                   "back\\slash.proto", "*.proto", "cr\r.proto", "\x1b[m.proto")
        self.write({f"proto/{it}": it for it in strange})
        for side in self.sides():
            self.assertEqual(self.gated(side), {f"proto/{it}": it for it in strange}, side)

    def test_strange_folders(self):
        for folder in ("-f", "*", "a b", "\u00fc"):
            self.write({f"{folder}/a.proto": folder})
            for side in self.sides():
                self.assertEqual(self.gated(side, folder), {f"{folder}/a.proto": folder}, side)

    def test_bad_names(self):
        bad = [os.fsdecode(b"proto/" + it) for it in (b"a\n::error::b.proto", b"\xff.proto", b"\xfe/a.proto")]
        self.write({**{it: "bad" for it in bad}, "proto/keep.proto": "k"})
        for side in self.sides():
            self.assertEqual(self.refused(side), dict.fromkeys(bad, "name"), side)
            self.assertTrue(all(why.isprintable() for _, why in self.snapshot(side).refused().values()))
            self.assertEqual(self.refused(side, skipped=bad), {}, side)
            self.assertEqual(self.refused(side, skipped=[plain(it) for it in bad]), {}, side)
            self.assertEqual(self.gated(side), {"proto/keep.proto": "k"}, side)

    def tree(self, *entries):
        """The name of a tree that git itself wouldn't make."""
        data = b"".join(f"{mode} {name}\0".encode() + bytes.fromhex(it) for mode, name, it in entries)
        return self.git("hash-object", "-t", "tree", "-w", "--stdin", "--literally", input=data)

    def test_trees_that_git_would_not_make(self):
        """No path leads out of the room, and none is laid by way of another one."""
        self.write({"a": "a"})
        blob, link = (self.git("hash-object", "-w", "--stdin", input=it) for it in (b"a", b"/tmp"))
        inner = self.tree(("100644", "x.proto", blob))
        for entries in ([("40000", "..", inner)], [("40000", ".", inner)], [("120000", "d", link), ("40000", "d", inner)],
                        [("100644", "d", blob), ("40000", "d", inner)], [("40000", "n" * 300, inner)]):
            proto = self.tree(*entries)
            self.git("tag", "-f", "odd", self.git("commit-tree", "-m", "odd", self.tree(("40000", "proto", proto))), stderr=subprocess.DEVNULL)
            snapshot = self.snapshot("odd")
            self.assertEqual(self.laid(snapshot), {}, entries)
            self.assertEqual([it for it, _ in snapshot.refused().values()], ["name"], entries)


if __name__ == "__main__":
    unittest.main()

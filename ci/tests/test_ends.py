#!/usr/bin/env python3
"""Tests that a side is read in an end of time and memory, whatever the tree is: links that double, many paths, deep folders, long files."""

import os
import resource
import subprocess
import unittest
from unittest import mock

from common import Repository, Ways
from protogate_ci import git, snapshot
from protogate_ci.snapshot import MOST_BYTES, MOST_PATHS, Snapshot

LEVELS = 30


class Doubling(Ways):
    """Folders each with two links to the next one, so that the last has a thousand million paths."""

    def double(self, top="proto"):
        for level in range(LEVELS):
            os.makedirs(f"{self.top}/{top}/d{level}")
            for name in "ab":
                self.link(f"../d{level + 1}", f"{top}/d{level}/{name}")
        self.write({f"{top}/d{LEVELS}/t.proto": "t"})

    def test_links_that_double(self):
        self.double()
        for side in self.sides():
            self.assertEqual(self.gated(side), {f"proto/d{LEVELS}/t.proto": "t"}, side)

    def test_an_import_through_links(self):
        """One file has as many paths as one likes, and each of them is laid out."""
        self.double()
        snapshot_now = Snapshot(self.source("now"), ["proto"])
        snapshot_now.lay(f"{self.room}/laid", {})
        with open(f"{self.room}/laid/proto/d0/{'a/b/' * (LEVELS // 2)}t.proto", encoding="utf-8") as file:
            self.assertEqual(file.read(), "t")

    def test_below_what_is_left_out(self):
        """A hidden folder and a skipped one may be led to by what is neither."""
        self.double("proto/.hidden")
        self.double("proto/skipped")
        self.link(".hidden/d0", "proto/one")
        self.link("skipped/d0", "proto/two")
        skipped = ("proto/skipped", f"proto/two/{'a/' * LEVELS}t.proto")
        for side in self.sides():
            one, two = (f"proto/{it}/{'a/' * LEVELS}t.proto" for it in ("one", "two"))
            self.assertEqual(sorted(self.gated(side, skipped=skipped[:1])), [one, two], side)
            found = sorted(self.gated(side, skipped=skipped))
            self.assertEqual((found[0], len(found), found[1].startswith("proto/two/a/")), (one, 2, True), side)

    def test_links_with_long_ways(self):
        """Parts of a path are gone through once for each link, and not more often than a limit says."""
        self.write({"proto/a.proto": "a"})
        for number in range(100):
            self.link(f"{'./' * 2000}a.proto", f"proto/{number}.proto")
        for side in self.sides():
            self.assertEqual(list(self.gated(side)), ["proto/a.proto"], side)
            with mock.patch.object(snapshot, "MOST_STEPS", 200_000):
                self.assertIn("parts on their ways", self.stops(3, self.snapshot, side))

    def test_many_links_one_after_another(self):
        self.write({"proto/0.proto": "a"})
        for number in range(60):
            self.link(f"{number}.proto", f"proto/{number + 1}.proto")
        for side in self.sides():
            self.assertEqual(sorted(self.refused(side)), sorted(f"proto/{it}.proto" for it in range(41, 61)), side)


class Paths(Repository):
    def tree_of(self, names, entry):
        """The name of a commit in which a folder `proto` has an entry by each of these names."""
        data = "".join(f"{entry}\t{it}\n" for it in names).encode()
        inner = self.git("mktree", input=data)
        return self.git("commit-tree", "-m", "x", self.git("mktree", input=f"040000 tree {inner}\tproto\n".encode()))

    def test_many_paths(self):
        """More paths than a side may have are no answer, though the last one is fine."""
        blob = self.git("hash-object", "-w", "--stdin", input=b"a")
        for count, names in ((MOST_PATHS, "x.proto"), (MOST_PATHS + 1, None)):
            commit = self.tree_of([f"{it:06d}{'.proto' * (it == 0)}" for it in range(count)], f"100644 blob {blob}")
            if names:
                self.assertEqual(list(self.gated(commit)), ["proto/000000.proto"])
            else:
                self.assertIn("has more than 100,000 files", self.stops(3, self.snapshot, commit))

    def test_many_files_of_a_folder(self):
        os.mkdir("proto")
        for number in range(MOST_PATHS):
            os.mknod(f"proto/{number}")
        source = f"folder {self.top}"
        self.assertEqual(self.gated(source), {})
        self.write({"proto/more": ""})
        for side in (source, "now"):
            self.assertIn("has more than 100,000 files and folders", self.stops(3, self.snapshot, side))

    def test_many_files_with_one_content(self):
        """A tree has a long file under as many names as one likes: it isn't laid out where all of them together are too long."""
        blob = self.git("hash-object", "-w", "--stdin", input=b"a" * 100_000)
        commit = self.tree_of([f"{it:06d}.proto" for it in range(MOST_PATHS)], f"100644 blob {blob}")
        found = self.snapshot(commit)
        self.assertIn("has more than 2,000,000,000 bytes of source files", self.stops(3, found.lay, f"{self.room}/laid", {}))
        self.assertEqual(os.listdir(f"{self.room}/laid/proto"), [])

    def test_long_paths(self):
        """They are on no command line."""
        long = "/".join(["l" * 250] * 11)
        blob, link = (self.git("hash-object", "-w", "--stdin", input=it.encode()) for it in ("a", f"{'../' * 11}out/{long}"))
        entries = "".join(f"100644 blob {blob}\t{it}.proto\n120000 blob {link}\t{it}\n" for it in range(700))
        attributes = self.git("hash-object", "-w", "--stdin", input=b"x working-tree-encoding=UTF-16")
        tree = self.git("mktree", input=f"{entries}100644 blob {attributes}\t.gitattributes\n".encode())
        for part in ("l" * 250 for _ in range(10)):
            tree = self.git("mktree", input=f"040000 tree {tree}\t{part}\n".encode())
        commit = self.git("commit-tree", "-m", "x", self.git("mktree", input=f"040000 tree {tree}\tproto\n".encode()))
        self.assertEqual(len(self.gated(commit)), 700)
        self.assertEqual(set(self.refused(commit).values()), {"link"})

    def test_a_tree_that_has_itself_many_times(self):
        """Ten trees in one another, each ten times, are a kilobyte, and name more files than there is memory for."""
        tree = self.git("mktree", input=f"100644 blob {self.git('hash-object', '-w', '--stdin', input=b'a')}\ta.proto\n".encode())
        for _ in range(10):
            tree = self.git("mktree", input="".join(f"040000 tree {tree}\t{it}\n" for it in range(10)).encode())
        commit = self.git("commit-tree", "-m", "x", self.git("mktree", input=f"040000 tree {tree}\tproto\n".encode()))
        with mock.patch.object(git, "MOST_LISTED", 8_000_000):
            self.assertIn("git ls-tree lists more than 8,000,000 bytes", self.stops(3, self.snapshot, commit))

    def test_deep_folders(self):
        """What is too deep is refused by the folder, however much is in it."""
        deep = "/".join(["proto", *["d"] * 99])
        self.write({f"{deep}/b.proto": "b", f"{deep}/{'d/' * 300}c.proto": "c"})
        for number in range(100):
            os.symlink("gone", f"{self.top}/{deep}/{'d/' * 300}{number}.proto")
        self.commit()
        for side in ("v1", "staged", "now", f"folder {self.top}"):
            self.assertEqual(self.refused(side), {f"{deep}/d": "folder"}, side)
            self.assertEqual(self.gated(side, skipped=(f"{deep}/d",)), {f"{deep}/b.proto": "b"}, side)


class Long(Ways):
    def test_long_files(self):
        """Nobody reads them: one that is too long stands in for each, with the size alone."""
        self.write({"proto/a.proto": "a", "proto/most.proto": b"m" * MOST_BYTES, "proto/more.proto": b"m" * (MOST_BYTES + 1)})
        with open("proto/zeros.proto", "wb") as file:
            file.truncate(300_000_000)
        for side in self.sides():
            before = resource.getrusage(resource.RUSAGE_SELF).ru_maxrss
            laid = f"{self.room}/laid {side.replace('/', ' ')}"
            self.snapshot(side).lay(laid, {})
            sizes = {it.name: it.stat().st_size for it in os.scandir(f"{laid}/proto")}
            wanted = {"a.proto": 1, "most.proto": MOST_BYTES, "more.proto": MOST_BYTES + 1, "zeros.proto": MOST_BYTES + 1}
            self.assertEqual(sizes, wanted, side)
            self.assertLess(resource.getrusage(resource.RUSAGE_SELF).ru_maxrss - before, 100_000, side)
            subprocess.run(["rm", "-r", laid], check=True)

    def test_files_that_are_many_bytes_together(self):
        self.write({f"proto/{it}.proto": f"{it}" * 100 for it in "abc"})
        for side in self.sides():
            with mock.patch.object(git, "MOST_AT_ONCE", 150):
                self.assertEqual(self.gated(side), {f"proto/{it}.proto": f"{it}" * 100 for it in "abc"}, side)
            with mock.patch.object(snapshot, "MOST_OF_ALL", 299):
                self.assertIn("299 bytes of source files", self.stops(3, self.gated, side))

    def test_long_links(self):
        """A link that git has may be longer than one that a system has."""
        blob = self.git("hash-object", "-w", "--stdin", input=b"./" * 2500 + b"c.proto")
        zero, file = (self.git("hash-object", "-w", "--stdin", input=it) for it in (b"c.proto\0", b"c"))
        tree = self.git("mktree", input=f"120000 blob {blob}\ta.proto\n120000 blob {zero}\tb.proto\n100644 blob {file}\tc.proto\n".encode())
        commit = self.git("commit-tree", "-m", "x", self.git("mktree", input=f"040000 tree {tree}\tproto\n".encode()))
        self.assertEqual(self.refused(commit), {"proto/a.proto": "link", "proto/b.proto": "link"})

    def test_blobs_that_are_not_here(self):
        """As in a clone without blobs that can't ask for them: what isn't here is told."""
        self.write({"proto/a.proto": "a", "proto/b.proto": "b"})
        self.commit()
        blob = self.git("rev-parse", "HEAD:proto/a.proto")
        os.remove(f".git/objects/{blob[:2]}/{blob[2:]}")
        found = self.snapshot("v1")
        found.lay(f"{self.room}/laid", {})
        self.assertEqual({path: kind for path, (kind, _) in found.refused().items()}, {"proto/a.proto": "file"})


if __name__ == "__main__":
    unittest.main()

#!/usr/bin/env python3
"""Tests of submodules: each has a table of its own, checked out or kept by git, and one that isn't here is told."""

import os
import unittest

from common import Repository


class Submodules(Repository):
    def setUp(self):
        super().setUp()
        self.library = f"{self.room}/library"
        self.write({"l.proto": "old"}, self.library)
        self.commit(at=self.library)
        self.write({"proto/a.proto": "a"})
        self.git("submodule", "--quiet", "add", self.library, "proto/lib")
        self.commit()

    def test_one_that_is_checked_out(self):
        self.write({"proto/lib/l.proto": "new"})
        self.assertEqual(self.gated("v1"), {"proto/a.proto": "a", "proto/lib/l.proto": "old"})
        self.assertEqual(self.gated("staged"), self.gated("v1"))
        self.assertEqual(self.gated("now"), {"proto/a.proto": "a", "proto/lib/l.proto": "new"})
        for folder in ("proto/lib", "proto/lib/."):
            self.assertEqual([self.gated(it, folder) for it in ("v1", "now")], [{"proto/lib/l.proto": it} for it in ("old", "new")])

    def test_a_folder_below_one(self):
        self.write({"in/i.proto": "i"}, f"{self.top}/proto/lib")
        self.git("add", "-A", at=f"{self.top}/proto/lib")
        self.git("commit", "-q", "-m", "in", at=f"{self.top}/proto/lib")
        self.commit()
        for side in ("v1", "staged", "now"):
            self.assertEqual(self.gated(side, "proto/lib/in"), {"proto/lib/in/i.proto": "i"}, side)

    def test_from_a_hook(self):
        self.write({"proto/lib/l.proto": "new"})
        os.environ.update({"GIT_DIR": ".git", "GIT_INDEX_FILE": f"{self.top}/.git/index"})
        self.assertEqual([self.gated(it)["proto/lib/l.proto"] for it in ("v1", "staged", "now")], ["old", "old", "new"])

    def test_one_inside_another(self):
        inner = f"{self.room}/inner"
        self.write({"i.proto": "old"}, inner)
        self.commit(at=inner)
        self.git("submodule", "--quiet", "add", inner, "deep/in", at=f"{self.top}/proto/lib")
        self.git("commit", "-q", "-m", "in", at=f"{self.top}/proto/lib")
        self.commit()
        self.write({"proto/lib/deep/in/i.proto": "new"})
        self.assertEqual([self.gated(it)["proto/lib/deep/in/i.proto"] for it in ("v1", "staged", "now")], ["old", "old", "new"])
        self.git("submodule", "--quiet", "deinit", "--force", "deep/in", at=f"{self.top}/proto/lib")
        self.assertEqual(self.refused("now"), {"proto/lib/deep/in": "submodule"})
        self.assertEqual(self.refused("v1"), {})

    def test_one_that_is_not_checked_out(self):
        """Where git keeps it, the revision has it still."""
        self.git("submodule", "--quiet", "deinit", "--force", "proto/lib")
        self.assertEqual(self.refused("now"), {"proto/lib": "submodule"})
        self.assertEqual(self.refused("now", skipped=("proto/lib",)), {})
        self.assertEqual(self.gated("v1")["proto/lib/l.proto"], "old")
        self.assertIn("git submodule update --init proto/lib", self.stops(4, self.snapshot, "now", "proto/lib"))

    def test_a_link_to_one_that_is_not_checked_out(self):
        """It is told by the link, where the submodule itself is hidden."""
        self.git("submodule", "--quiet", "add", self.library, "proto/.more")
        self.link(".more", "proto/more")
        self.link("more/none", "proto/none")
        self.commit()
        self.assertEqual(list(self.gated("now")), ["proto/a.proto", "proto/lib/l.proto", "proto/more/l.proto"])
        self.git("submodule", "--quiet", "deinit", "--force", "proto/.more")
        self.assertEqual(self.refused("now"), {"proto/more": "link", "proto/none": "link"})

    def test_a_clone_without_submodules(self):
        self.git("clone", "-q", self.top, f"{self.room}/clone")
        os.chdir(f"{self.room}/clone")
        for side in ("v1", "staged", "now"):
            self.assertEqual(self.refused(side), {"proto/lib": "submodule"})
            self.assertEqual(list(self.gated(side)), ["proto/a.proto"])

    def test_one_without_its_old_commit(self):
        old = self.git("rev-parse", "HEAD", at=self.library)
        self.write({"l.proto": "new"}, self.library)
        self.git("commit", "-q", "-a", "-m", "new", at=self.library)
        self.git("pull", "-q", "origin", "main", at=f"{self.top}/proto/lib")
        self.git("commit", "-q", "-a", "-m", "v2")
        clone = f"{self.room}/clone"
        self.git("clone", "-q", self.top, clone)
        self.git("config", "submodule.proto/lib.url", f"file://{self.library}", at=clone)
        self.git("submodule", "--quiet", "update", "--init", "--depth", "1", at=clone)
        os.chdir(clone)
        self.assertEqual(self.refused("v1"), {"proto/lib": "submodule"})
        self.assertIn(f"git -C proto/lib fetch --depth 1 origin {old}", self.snapshot("v1").refused()["proto/lib"][1])
        self.assertEqual(self.gated("now")["proto/lib/l.proto"], "new")
        self.git("fetch", "-q", "--depth", "1", "origin", old, at=f"{clone}/proto/lib")
        self.assertEqual(self.gated("v1")["proto/lib/l.proto"], "old")

    def test_one_that_was_removed(self):
        self.git("rm", "-q", "proto/lib")
        self.assertEqual(list(self.gated("now")), ["proto/a.proto"])
        self.assertEqual(self.gated("v1")["proto/lib/l.proto"], "old")


if __name__ == "__main__":
    unittest.main()

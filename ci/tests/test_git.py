#!/usr/bin/env python3
"""Tests of how git is called: what a change brings isn't taken for a repository, and git runs nothing of it.

The type of each repository is another one on both sides. What must not run would write a file.
"""

import os
import shutil
import unittest

from common import Repository
from protogate_ci.git import Repository as Git
from protogate_ci.git import check, did_you_mean


class Change(Repository):
    """A repository whose work tree has a change."""

    def setUp(self):
        super().setUp()
        self.marks = f"{self.room}/ran"
        self.write({"proto/a.proto": "old"})
        self.commit()
        self.write({"proto/a.proto": "new"})

    def write_program(self, path, top=None):
        """Writes a program that leaves a mark where it runs, and hands on what it is given."""
        self.write({path: f"#!/bin/sh\necho '{path}' >>'{self.marks}'\nexec cat\n"}, top)
        os.chmod(f"{top or self.top}/{path}", 0o755)

    def both(self, folder="proto", revision="v1"):
        """What each side has, from the current folder, and that nothing ran."""
        where = os.path.relpath(folder, Git.here().top)
        found = [list(self.gated(side, where).values()) for side in (revision, "staged", "now")]
        self.assertFalse(os.path.exists(self.marks))
        return found

    def with_git(self, script):
        """Has another git called, with the real one in REAL."""
        self.write({"git": f"#!/bin/bash\nREAL='{shutil.which('git', path='/usr/bin:/usr/local/bin')}'\n{script}\n"}, f"{self.room}/tools")
        os.chmod(f"{self.room}/tools/git", 0o755)
        os.environ["PATH"] = f"{self.room}/tools:{os.environ['PATH'].replace(self.room + '/tools:', '')}"


OLDER = ('words=(); for it; do case $it in safe.bare*) it=x.y=z ;; --version) echo git version 2.30.2; exit ;; esac; words+=("$it"); done; '
         'exec "$REAL" "${words[@]}"')
SIDES = [["old"], ["old"], ["new"]]


class BareRepositories(Change):
    """A change may commit what git takes for a repository where it is called in it: one in which nothing breaks."""

    def setUp(self):
        super().setUp()
        inner = f"{self.room}/inner"
        for folder in (inner, f"{inner}/proto", f"{inner}/proto/in"):
            self.write({"a.proto": "inner", ".gitattributes": "*.proto filter=x\n"}, folder)
        self.commit(at=inner)
        self.write_program("run", f"{self.room}/programs")
        program, self.bare = f"{self.room}/programs/run", f"{self.top}/proto"
        for name in ("HEAD", "objects", "refs"):
            copy = shutil.copytree if os.path.isdir(f"{inner}/.git/{name}") else shutil.copy
            copy(f"{inner}/.git/{name}", f"{self.bare}/{name}")
        settings = "".join(f"\t{key} = '{program}' %f\n" for key in ("smudge", "clean"))
        self.write({"proto/config": f'[core]\n\tbare = false\n\tworktree = {self.bare}\n\tfsmonitor = {program}\n\thooksPath = {self.bare}/hooks\n'
                                    f'[filter "x"]\n{settings}'})
        for name in ("post-index-change", "post-checkout", "reference-transaction"):
            self.write_program(f"proto/hooks/{name}")

    def test_in_it_above_it_and_below_it(self):
        os.chdir(self.bare)
        self.assertEqual(self.both("."), SIDES)
        os.chdir(f"{self.bare}/refs")
        self.assertEqual(self.both(self.bare), SIDES)
        os.chdir(self.top)
        self.assertEqual(self.both("proto"), SIDES)

    def test_at_the_top_with_an_older_git(self):
        """Before 2.38 git takes a folder for a repository, whatever safe.bareRepository says."""
        self.with_git(OLDER)
        self.assertEqual(self.both("proto"), SIDES)
        for name in ("HEAD", "config", "hooks", "objects", "refs"):
            os.rename(f"{self.bare}/{name}", f"{self.top}/{name}")
        self.assertEqual(self.both("proto"), SIDES)
        self.write({"config": "[core]\n\tbare = false\n\tworktree = .\n"})
        shutil.rmtree(f"{self.top}/.git")
        # A `.git` that is no repository: an older git goes on to what is beside it.
        os.mkdir(f"{self.top}/.git")
        check.cache_clear()
        self.stops(4, Git.here)
        self.assertFalse(os.path.exists(self.marks))

    def test_where_no_git_folder_is_around_it(self):
        shutil.rmtree(f"{self.top}/.git")
        for at in (self.top, self.bare):
            os.chdir(at)
            self.assertIn("there is no repository here", self.stops(4, Git.here))


class Settings(Change):
    """A user's settings may name programs by paths into the work tree."""

    def test_hooks_and_monitors(self):
        self.write({"proto/a.proto": "staged"})
        self.git("add", "-A")
        self.write({"proto/a.proto": "new"})
        for word in ("core.hooksPath=.githooks", "core.fsmonitor=tools/monitor", "core.untrackedCache=true", "index.sparse=true"):
            self.git("config", *word.split("=", 1))
        for name in ("post-index-change", "reference-transaction", "post-checkout"):
            self.write_program(f".githooks/{name}")
        self.write_program("tools/monitor")
        self.assertEqual(self.both(), [["old"], ["staged"], ["new"]])

    def test_each_call(self):
        """(A git that runs no command without these settings. Older ones know no such repository, and newer ones no such monitor.)"""
        needed = ("safe.bareRepository=explicit", "core.hooksPath=/dev/null", "core.fsmonitor=", "protocol.ext.allow=never")
        checks = "".join(f'case " $* " in *" -c {it} "*) ;; *) exit 9 ;; esac\n' for it in needed)
        self.with_git(f'{checks}[ "$GIT_NO_REPLACE_OBJECTS$GIT_LITERAL_PATHSPECS" = 11 ] || exit 9\nexec "$REAL" "$@"')
        self.assertEqual(self.both(), SIDES)

    def test_hooks_of_newer_gits(self):
        """Their programs are named by settings. (A git that has none of these refuses here what would run them.)"""
        self.write({".gitattributes": "b.proto working-tree-encoding=UTF-8\n"})
        self.commit("v2")
        self.git("config", "hook.x.y.command", "tools/run")
        self.with_git('case " $* " in *" write-tree "*|*" read-tree "*) case "$*" in *" hook.x.y.enabled=false "*) ;; *) exit 9 ;; esac ;; esac; '
                      'exec "$REAL" "$@"')
        self.assertEqual(self.both(revision="v2"), [["new"]] * 3)
        self.write({".git/config": "[hook \"x=y\"]\n\tcommand = tools/run\n"})
        self.assertIn("a hook whose name has =", self.stops(4, self.source, "staged"))

    def test_settings_of_the_work_tree(self):
        """Settings may be taken from a file that the change brings."""
        self.write({"proto/.gitattributes": "*.proto filter=a.b\n",
                    ".gitconfig": f'[filter "a.b"]\n\tclean = "{self.top}/tools/run"\n\trequired = true\n[core]\n\tfsmonitor = tools/run\n'})
        self.write_program("tools/run")
        self.git("config", "include.path", "../.gitconfig")
        self.assertEqual(self.both(), SIDES)

    def test_another_repository_that_is_asked(self):
        """With such settings git could ask a repository for what is missing, by a program of the change."""
        self.write_program("tools/run")
        self.write({".gitconfig": f"[remote \"x\"]\n\tpromisor = true\n\turl = .\n\tuploadpack = '{self.top}/tools/run'\n"})
        self.git("config", "include.path", "../.gitconfig")
        self.assertIn(f"{self.top}/.gitconfig, which a change may bring", self.stops(4, Git.here))
        self.assertFalse(os.path.exists(self.marks))

    def test_objects_that_stand_for_others(self):
        """What `git replace` puts in the place of a commit isn't what the commit has."""
        self.git("commit", "-q", "-a", "-m", "v2")
        self.git("replace", "v1", "HEAD")
        self.assertEqual(self.both()[0], ["old"])


class Current(Change):
    def test_a_link_in_the_work_tree(self):
        """A shell says by which path it came there."""
        self.write({"other/a.proto": "other"})
        self.link("other", "link")
        os.chdir("link")
        os.environ["PWD"] = f"{self.top}/link"
        self.assertIn("link is a link in the work tree", self.stops(4, Git.here))
        os.symlink(self.top, f"{self.room}/name")
        for said in (f"{self.room}/name/other", "/", "other"):
            os.environ["PWD"] = said
            self.assertEqual(Git.here().top, self.top)

    def test_a_submodule(self):
        """It has tags of its own."""
        library = f"{self.room}/library"
        self.write({"a.proto": "library"}, library)
        self.commit(at=library)
        self.git("submodule", "--quiet", "add", library, "lib")
        os.chdir("lib")
        self.assertIn("is a submodule of ", self.stops(4, Git.here))

    def test_folders_as_they_are_named(self):
        """They count from the current folder."""
        os.chdir("proto")
        repository = Git.here()
        for folder in (".", "../proto", "./../proto/", f"{self.top}/proto"):
            self.assertEqual(list(self.gated("now", repository.from_top(folder))), ["proto/a.proto"], folder)
        for folder in ("../..", "../../proto", "/", self.room, "none", "../none"):
            self.stops(4, self.snapshot, "now", repository.from_top(folder))
        self.stops(4, repository.from_top, "")

    def test_one_that_is_gone(self):
        os.mkdir("gone")
        os.chdir("gone")
        os.rmdir(f"{self.top}/gone")
        self.assertIn("there is no current folder", self.stops(4, Git.here))


class Environment(Change):
    """Variables may lead git to another repository than the one in which the call is made."""

    def test_another_repository(self):
        other = f"{self.room}/other"
        self.write({"proto/a.proto": "other"}, other)
        self.commit(at=other)
        for more in ({"GIT_DIR": f"{other}/.git"}, {"GIT_DIR": f"{other}/.git", "GIT_WORK_TREE": self.top}, {"GIT_COMMON_DIR": f"{other}/.git"},
                     {"GIT_WORK_TREE": other}, {"GIT_DIR": "none"}):
            os.environ.update(more)
            self.assertTrue(self.stops(4, Git.here).endswith(f"unset {[*more][0]}"), more)
            for name in more:
                del os.environ[name]

    def test_the_same_one(self):
        """As hooks have it, by any name."""
        os.symlink(self.top, f"{self.room}/name")
        for more in ({"GIT_DIR": ".git"}, {"GIT_DIR": f"{self.top}/.git", "GIT_WORK_TREE": "."}, {"GIT_DIR": f"{self.room}/name/.git"},
                     {"GIT_DIR": ".git", "GIT_INDEX_FILE": ".git/index"}, {"GIT_DIR": ""}):
            os.environ.update(more)
            self.assertEqual(self.both(), SIDES, more)
            for name in more:
                del os.environ[name]

    def test_a_folder_below(self):
        """With GIT_DIR git takes the current folder for the top."""
        os.chdir("proto")
        os.environ["GIT_DIR"] = f"{self.top}/.git"
        self.assertIn("unset GIT_DIR", self.stops(4, Git.here))

    def test_objects_elsewhere(self):
        """What a push brings lies in a folder of its own until a hook takes it."""
        self.git("commit", "-q", "-a", "-m", "v2")
        os.rename(".git/objects", f"{self.room}/ob:\"jects")
        os.makedirs(".git/objects/pack")
        os.environ.update({"GIT_OBJECT_DIRECTORY": f"{self.room}/ob:\"jects", "GIT_ALTERNATE_OBJECT_DIRECTORIES": f"{self.room}/none"})
        self.assertEqual(self.both(), [["old"], ["new"], ["new"]])


class Versions(Change):
    def test_versions_of_git(self):
        """One that is too old is said to be so, before it is asked for anything."""
        for said, status in (("git version 2.29.3", 127), ("git version 1.8.3.1", 127), ("git version 2.30.0", 0), ("git version 10.0.windows.1", 0),
                             ("git version 2.39.3 (Apple Git-145)", 0), ("something", 127)):
            self.with_git(f'case " $* " in *" --version "*) echo "{said}"; exit ;; esac; exec "$REAL" "$@"')
            if status:
                self.assertIn(said, self.stops(status, Git.here))
            else:
                self.assertEqual(Git.here().top, self.top)
        self.with_git("exit 1")
        self.stops(127, Git.here)
        os.environ["PATH"] = "/none"
        self.assertIn("install it", self.stops(127, Git.here))


    def test_a_git_that_finds_another_repository(self):
        """Whatever leads it there."""
        for line, said in ((1, "git takes /elsewhere for the repository, and not "), (3, "git takes /elsewhere for the top of the work tree")):
            check.cache_clear()
            self.with_git(f'case " $* " in *" --show-toplevel "*) "$REAL" "$@" | sed "{line}s,.*,/elsewhere,"; exit ;; esac; exec "$REAL" "$@"')
            self.assertIn(said, self.stops(4, Git.here))


class Revisions(Change):
    def setUp(self):
        super().setUp()
        self.git("commit", "-q", "-a", "-m", "v2")
        self.clone = f"{self.room}/clone"

    def test_a_shallow_clone(self):
        self.git("clone", "-q", "--depth", "1", f"file://{self.top}", self.clone)
        commit = self.git("rev-parse", "v1")
        os.chdir(self.clone)
        for revision, what in (("v1", "tag v1"), (commit, commit), ("origin/x", "+x:refs/remotes/origin/x")):
            said = self.stops(4, Git.here().commit_of, revision)
            self.assertTrue(said.startswith(f"git has no revision {revision} here"), said)
            self.assertIn(f" To fetch it: git fetch --depth 1 origin {what} (in a fork, ", said)
        self.git("fetch", "-q", "--depth", "1", "origin", "tag", "v1", at=self.clone)
        self.assertEqual(Git.here().commit_of("v1"), commit)

    def test_odd_revisions(self):
        for said in ("", "-x", "--help", "none", "v1:proto", "v1^{tree}", "v1 v1", "a\nb", "\x1b[m", "v" * 5000):
            self.assertTrue(self.stops(4, Git.here().commit_of, said).isprintable(), said)
        self.assertIn("did you mean v1?", self.stops(4, Git.here().commit_of, "v11"))

    def test_where_a_branch_left(self):
        """What came to a branch after another left it isn't removed on that."""
        left = self.git("rev-parse", "HEAD")
        self.git("checkout", "-q", "-b", "mine")
        self.git("commit", "-q", "--allow-empty", "-m", "mine")
        self.git("checkout", "-q", "main")
        self.git("commit", "-q", "--allow-empty", "-m", "theirs")
        self.git("checkout", "-q", "mine")
        self.assertEqual([Git.here().merge_base(it) for it in ("main", "refs/heads/main", "v1")], [left, left, self.git("rev-parse", "v1")])
        self.stops(4, Git.here().merge_base, "none")
        self.git("checkout", "-q", "--orphan", "alone")
        self.git("commit", "-q", "-m", "alone")
        self.assertIn("main and HEAD have no commit in common here: git fetch --unshallow", self.stops(4, Git.here().merge_base, "main"))

    def test_guesses(self):
        self.assertEqual(did_you_mean("Ordr", ["Order", "Customer"]), "; did you mean Order?")
        self.assertEqual(did_you_mean("Order", ["shop.v1.Order"]), "; did you mean shop.v1.Order?")
        for word, words in (("Order", []), ("x" * 100, ["x" * 99]), ("xyz", ["Order"])):
            self.assertEqual(did_you_mean(word, words), "")


if __name__ == "__main__":
    unittest.main()

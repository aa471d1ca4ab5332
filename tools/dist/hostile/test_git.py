#!/usr/bin/env python3
"""Tests of examples/ci/gate.sh: what a change brings isn't taken for a repository, and git runs nothing of it.

usage: tools/dist/hostile/test_git.py [PROGRAM]    by default the program that was built

Each repository's own type is narrowed, so a right answer is 1 and names it. What must not run would write a file.
"""

import os
import shutil
import sys
import unittest

sys.dont_write_bytecode = True
sys.path.append(os.path.dirname(os.path.dirname(os.path.realpath(__file__))))
import test_ci  # noqa: E402
from test_ci import HEAD  # noqa: E402
from test_ci_trees import NARROW, WIDE, Trees  # noqa: E402

BREAKS = (1, ["breaks p.A 6"])


class Change(Trees):
    """A repository whose work tree narrows a type."""

    def setUp(self):
        super().setUp()
        self.marks = f"{self.room.name}/ran"
        self.write({"proto/a.proto": WIDE % "A"})
        self.commit()
        self.write({"proto/a.proto": NARROW % "A"})

    def write_program(self, path, mark="it", top=None):
        """Writes a program that leaves a mark where it runs, and hands on what it is given."""
        self.write({path: f"#!/bin/sh\necho '{mark}' >>'{self.marks}'\nexec cat\n"}, top)
        os.chmod(f"{top or self.top}/{path}", 0o755)

    def nothing_ran(self):
        self.assertFalse(os.path.exists(self.marks))

    def with_git(self, script):
        """Returns the environment in which a script is called as git, with the real one in REAL."""
        self.write({"git": f"#!/bin/bash\nREAL='{shutil.which('git')}'\n{script}\n"}, f"{self.room.name}/tools")
        os.chmod(f"{self.room.name}/tools/git", 0o755)
        return {"PATH": f"{self.room.name}/tools:{os.environ['PATH']}"}


class BareRepositories(Change):
    """A change may commit what git takes for a repository where it is called in it: one in which nothing breaks."""

    def setUp(self):
        super().setUp()
        inner = f"{self.room.name}/inner"
        for folder in (inner, f"{inner}/proto", f"{inner}/proto/in"):
            self.write({"a.proto": NARROW % "A", ".gitattributes": "*.proto filter=x\n"}, folder)
        self.commit(inner)
        self.write_program("run", top=f"{self.room.name}/programs")
        program = f"{self.room.name}/programs/run"
        self.bare = f"{self.top}/proto"
        for name in ("HEAD", "objects", "refs"):
            copy = shutil.copytree if os.path.isdir(f"{inner}/.git/{name}") else shutil.copy
            copy(f"{inner}/.git/{name}", f"{self.bare}/{name}")
        settings = "".join(f"\t{key} = '{program}' %f\n" for key in ("smudge", "clean"))
        self.write({"proto/config": f'[core]\n\tbare = false\n\tworktree = {self.bare}\n\tfsmonitor = {program}\n\thooksPath = {self.bare}/hooks\n'
                                    f'[filter "x"]\n{settings}'})
        for name in ("post-index-change", "post-checkout", "reference-transaction"):
            self.write_program(f"proto/hooks/{name}", name)

    def test_in_it(self):
        self.assertEqual(self.types("v1", ".", at=self.bare), BREAKS)
        self.nothing_ran()

    def test_above_it_and_below_it(self):
        os.mkdir(f"{self.bare}/in")
        for folder, at in (("proto", self.top), (".", self.top), ("..", f"{self.bare}/in"), ("../../proto", f"{self.bare}/refs")):
            self.assertEqual(self.types("v1", folder, at=at), BREAKS, folder)
        self.nothing_ran()

    def test_at_the_top(self):
        for name in ("HEAD", "config", "hooks", "objects", "refs"):
            os.rename(f"{self.bare}/{name}", f"{self.top}/{name}")
        for folder, at in (("proto", self.top), (".", self.bare)):
            self.assertEqual(self.types("v1", folder, at=at), BREAKS)
        self.nothing_ran()

    def test_with_an_older_git(self):
        """Before 2.38 git takes a folder for a repository, whatever safe.bareRepository says."""
        older = self.with_git('words=(); for it; do case $it in safe.bare*) it=x.y=z ;; --version) echo git version 2.30.2; exit ;; esac; '
                              'words+=("$it"); done; exec "$REAL" "${words[@]}"')
        for folder, at in (("proto", self.top), (".", self.bare)):
            self.assertEqual(self.types("v1", folder, at=at, **older), BREAKS)
        self.nothing_ran()

    def test_where_no_git_folder_is_around_it(self):
        """There it is no repository at all, and not the one to gate in."""
        shutil.rmtree(f"{self.top}/.git")
        self.assertEqual(self.types("v1", ".", at=self.bare), (4, []))
        self.assertEqual(self.types("v1", "proto"), (4, []))
        self.nothing_ran()

    def test_where_the_git_folder_is_none(self):
        """An older git goes on to what is beside a `.git` that is no repository."""
        for name in ("HEAD", "config", "hooks", "objects", "refs"):
            os.rename(f"{self.bare}/{name}", f"{self.top}/{name}")
        self.write({"config": "[core]\n\tbare = false\n\tworktree = .\n"})
        shutil.rmtree(f"{self.top}/.git")
        os.mkdir(f"{self.top}/.git")
        older = self.with_git('words=(); for it; do case $it in safe.bare*) it=x.y=z ;; --version) echo git version 2.30.2; exit ;; esac; '
                              'words+=("$it"); done; exec "$REAL" "${words[@]}"')
        for more in ({}, older):
            self.assertEqual(self.types("v1", "proto", **more), (4, []))
        self.nothing_ran()


class Settings(Change):
    """A user's settings may name programs by paths into the work tree."""

    def settings(self, *words):
        for word in words:
            self.git("config", *word.split("=", 1))

    def test_a_folder_of_hooks(self):
        self.settings("core.hooksPath=.githooks", "core.fsmonitor=tools/monitor")
        for name in ("post-index-change", "reference-transaction", "post-checkout"):
            self.write_program(f".githooks/{name}", name)
        self.write_program("tools/monitor", "monitor")
        self.assertEqual(self.types("v1", "proto"), BREAKS)
        self.nothing_ran()

    def test_filters(self):
        """What git has is gated, as git has it."""
        self.write({"proto/.gitattributes": "*.proto filter=x\n"})
        self.write_program("tools/run")
        self.git("add", ".")
        self.git("commit", "-q", "-m", "v2")
        self.write({"proto/a.proto": WIDE % "A"})
        self.assertEqual(self.types("v1", "proto"), (0, ["compatible p.A"]))
        run = f"'{self.top}/tools/run'"
        for settings in ((f"filter.x.smudge={run}", f"filter.x.clean={run}"), (f"filter.x.process={run}", "filter.x.required=true")):
            self.settings(*settings)
            self.assertEqual(self.types("HEAD", "proto")[0], 0)
            self.nothing_ran()

    def test_settings_of_the_work_tree(self):
        """Settings may be taken from a file that the change brings."""
        self.write({"proto/.gitattributes": "*.proto filter=a.b\n",
                    ".gitconfig": f'[filter "a.b"]\n\tsmudge = "{self.top}/tools/run"\n\trequired = true\n[core]\n\tfsmonitor = tools/run\n'})
        self.write_program("tools/run")
        self.git("add", ".")
        self.git("commit", "-q", "-m", "v2")
        self.settings("include.path=../.gitconfig")
        self.assertEqual(self.types("HEAD", "proto")[0], 0)
        self.nothing_ran()

    def test_another_repository_that_is_asked(self):
        """With such settings git could ask a repository for what is missing, by a program of the change."""
        self.write({"lib/l.proto": HEAD})
        self.commit()
        self.write({"l.proto": HEAD}, f"{self.room.name}/library")
        self.commit(f"{self.room.name}/library")
        self.git("rm", "-q", "-r", "lib")
        self.git("-c", "protocol.file.allow=always", "submodule", "--quiet", "add", f"{self.room.name}/library", "lib")
        self.commit()
        self.write_program("tools/run")
        self.write({".gitconfig": f"[remote \"x\"]\n\tpromisor = true\n\turl = .\n\tuploadpack = '{self.top}/tools/run'\n"})
        self.settings("include.path=../.gitconfig")
        self.assertEqual(self.call("v1", "proto", "--include", "lib"), (4, []))
        self.nothing_ran()
        self.assertIn(f"{self.top}/.gitconfig, which a change may bring", self.advice)

    def test_a_filter_that_can_not_be_turned_off(self):
        self.settings("filter.x.smudge=cat")
        with open(f"{self.top}/.git/config", encoding="utf-8") as file:
            settings = file.read()
        self.write({".git/config": settings.replace('"x"', '"x=y"')})
        self.assertEqual(self.types("v1", "proto"), (4, []))

    def test_what_attributes_do_without_a_program(self):
        """An old side in another encoding is read as the work tree has it."""
        text = (WIDE % "A").encode("utf-16-le")
        self.write({"proto/.gitattributes": "a.proto working-tree-encoding=UTF-16LE\nb.proto eol=crlf\n", "proto/a.proto": text,
                    "proto/b.proto": HEAD + "package p;\r\nmessage B { int32 a = 0; }"})
        self.commit()
        said = ["refused old E401 b.proto:3:19", "refused new E401 b.proto:3:19"]
        status, lines = self.types("v1", "proto")
        self.assertEqual((status, [it for it in lines if " b.proto" in it]), (2, said))
        self.assertEqual([it.split()[1] for it in lines if " a.proto" in it], ["old", "new"])

    def test_attributes_of_a_folder_around(self):
        """They count for the old side as for the new one."""
        self.write({".gitattributes": "*.proto working-tree-encoding=UTF-16LE\n", "proto/a.proto": (WIDE % "A").encode("utf-16-le")})
        self.commit()
        self.write({".gitattributes": "", "proto/a.proto": WIDE % "A"})
        self.assertEqual(self.types("v1", "proto")[1][0].split()[:2], ["refused", "old"])


class Places(Change):
    """A change may lead elsewhere what its reviewers' calls name."""

    def setUp(self):
        super().setUp()
        self.write({"proto/a.proto": WIDE % "A", "other/a.proto": WIDE % "B"})
        self.commit()
        self.git("rm", "-q", "-r", "proto")

    def test_the_folder_is_a_link(self):
        self.git("worktree", "add", "-q", f"{self.room.name}/beside", "v1")
        for target in ("other", f"{self.room.name}/beside"):
            self.link(target, "proto")
            self.assertEqual(self.call("v1", "proto"), (4, []), target)
            self.assertEqual(self.call("v1", "other", "--include", "proto"), (4, []), target)
            os.remove(f"{self.top}/proto")

    def test_the_current_folder_is_by_a_link(self):
        """A shell says by which path it came there."""
        self.link("other", "proto")
        self.assertEqual(self.call("v1", ".", at=f"{self.top}/proto", PWD=f"{self.top}/proto"), (4, []))
        self.assertIn("proto is a link in the work tree", self.advice)
        os.symlink(self.top, f"{self.room.name}/name")
        self.assertEqual(self.types("v1", ".", at=f"{self.top}/other", PWD=f"{self.room.name}/name/other"), (0, ["compatible p.B"]))
        self.assertEqual(self.types("v1", ".", at=f"{self.top}/other", PWD="/"), (0, ["compatible p.B"]))

    def test_the_current_folder_is_a_submodule(self):
        """It has tags of its own."""
        library = f"{self.room.name}/library"
        self.write({"a.proto": NARROW % "A"}, library)
        self.commit(library)
        self.git("-c", "protocol.file.allow=always", "submodule", "--quiet", "add", library, "proto")
        self.git("commit", "-q", "-m", "v2")
        self.assertEqual(self.call("v1", ".", at=f"{self.top}/proto"), (4, []))
        self.assertIn("is a submodule of ", self.advice)
        self.assertEqual(self.types("v1", "proto"), BREAKS)

    def test_programs_of_the_current_folder(self):
        """A path may have the current folder, also as an empty word."""
        for name in ("git", "protogate", "protoc", "find"):
            self.write_program(name)
        self.git("reset", "-q", "--hard", "v1")
        self.write({"proto/a.proto": NARROW % "A"})
        for path in (f".:{os.environ['PATH']}", f":{os.environ['PATH']}", f"{os.environ['PATH']}:"):
            self.assertEqual(self.types("v1", "proto", PATH=path), BREAKS)
            self.assertEqual(self.call("v1", "proto", PATH=path, PROTOGATE="protogate")[0] in (1, 127), True)
            self.nothing_ran()


class Environment(Change):
    """Variables may lead git to another repository than the one in which the call is made."""

    def setUp(self):
        super().setUp()
        self.other = f"{self.room.name}/other"
        self.write({"proto/a.proto": NARROW % "A"}, self.other)
        self.commit(self.other)

    def test_another_repository(self):
        for more in ({"GIT_DIR": f"{self.other}/.git"}, {"GIT_DIR": f"{self.other}/.git", "GIT_WORK_TREE": self.top},
                     {"GIT_COMMON_DIR": f"{self.other}/.git"}, {"GIT_WORK_TREE": self.other}, {"GIT_DIR": "none"}):
            self.assertEqual(self.call("v1", "proto", **more), (4, []), more)
            self.assertIn(f"unset {[*more][0]}\n", self.advice)

    def test_the_same_one(self):
        """As hooks have it, by any name."""
        os.symlink(self.top, f"{self.room.name}/name")
        for more in ({"GIT_DIR": ".git"}, {"GIT_DIR": f"{self.top}/.git", "GIT_WORK_TREE": "."}, {"GIT_DIR": f"{self.room.name}/name/.git"},
                     {"GIT_DIR": ".git", "GIT_INDEX_FILE": ".git/index"}, {"GIT_DIR": ""}):
            self.assertEqual(self.types("v1", "proto", **more), BREAKS, more)
        self.assertEqual(self.types("v1", "proto", at=f"{self.room.name}/name"), BREAKS)

    def test_a_second_work_tree(self):
        """There `.git` is a file, and a hook has the folder that it names."""
        second = f"{self.room.name}/second"
        self.git("worktree", "add", "-q", second, "HEAD")
        self.write({"proto/a.proto": NARROW % "A"}, second)
        folder = self.git("rev-parse", "--absolute-git-dir", at=second)
        for more in ({}, {"GIT_DIR": folder}, {"GIT_DIR": ".git"}, {"GIT_DIR": folder, "GIT_COMMON_DIR": f"{self.top}/.git"}):
            self.assertEqual(self.types("v1", "proto", at=second, **more), BREAKS, more)
        self.assertEqual(self.types("v1", "proto", at=second, GIT_DIR=f"{self.top}/.git"), (4, []))


class Versions(Change):
    def test_versions_of_git(self):
        """One that is too old is said to be so, before it is asked for anything."""
        for said, status in (("git version 2.29.3", 127), ("git version 1.8.3.1", 127), ("git version 2.30.0", 1), ("git version 10.0.windows.1", 1),
                             ("git version 2.39.3 (Apple Git-145)", 1), ("something", 127)):
            called = self.with_git(f'case " $* " in *" --version "*) echo "{said}"; exit ;; esac; exec "$REAL" "$@"')
            self.assertEqual(self.call("v1", "proto", **called)[0], status, said)
        self.call("v1", "proto", **self.with_git("echo git version 2.29.3"))
        self.assertEqual(self.advice, "gate: git version 2.29.3 is too old: version 2.30 or a later one is needed\n")
        self.assertEqual(self.call("v1", "proto", **self.with_git("exit 1"))[0], 127)

    def test_no_git(self):
        """Help needs none."""
        folder = f"{self.room.name}/alone"
        os.mkdir(folder)
        os.symlink(shutil.which("python3"), f"{folder}/python3")
        self.assertEqual(self.call("v1", "proto", PATH=folder), (127, []))
        self.assertEqual(self.advice.count("\n"), 1)
        self.assertEqual(self.call("--help", PATH=folder)[0], 0)


if __name__ == "__main__":
    if len(sys.argv) > 1 and not sys.argv[1].startswith("-"):
        test_ci.PROGRAM = os.path.realpath(sys.argv.pop(1))
    test_ci.run_tests.main()

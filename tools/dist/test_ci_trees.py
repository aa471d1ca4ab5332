#!/usr/bin/env python3
"""Tests of what examples/ci/gate.sh looks at, on trees of its own: links, submodules, names and clones.

usage: tools/dist/test_ci_trees.py [PROGRAM]    by default the program that was built

A type that has an int64 on the old side and an int32 on the new one breaks. So a tree that is narrowed and not gated shows as a status 0.
"""

import os
import shutil
import subprocess
import sys
import unittest

sys.dont_write_bytecode = True
import test_ci  # noqa: E402
from test_ci import HEAD, TOP  # noqa: E402

# What each side of a narrowed type is, by the type's name.
WIDE, NARROW = (HEAD + "package p; message %s { " + it + " a = 1; }" for it in ("int64", "int32"))


class Trees(test_ci.Repository):
    def commit(self, at=None):
        self.git("init", "-q", at=at)
        self.git("add", "-A", at=at)
        self.git("commit", "-q", "-m", "v1", "--allow-empty", at=at)
        self.git("tag", "-f", "v1", at=at)

    def link(self, target, path):
        path = f"{self.top}/{path}"
        os.makedirs(os.path.dirname(path), exist_ok=True)
        os.symlink(target, path)

    def broken(self, *words, **more):
        """The new files of what breaks, of each cause one."""
        return [it.split()[-1].partition(":")[0] for it in self.call(*words, **more)[1] if it.startswith("cause ")]


class Submodules(Trees):
    def setUp(self):
        super().setUp()
        self.env.update({"GIT_CONFIG_COUNT": "1", "GIT_CONFIG_KEY_0": "protocol.file.allow", "GIT_CONFIG_VALUE_0": "always"})
        self.library = f"{self.room.name}/library"
        self.write({"l.proto": WIDE % "L"}, self.library)
        self.commit(self.library)
        self.write({"proto/a.proto": HEAD + "message A { }"})
        self.git("init", "-q")
        self.git("submodule", "--quiet", "add", self.library, "proto/lib")
        self.commit()

    def narrow(self):
        self.write({"proto/lib/l.proto": NARROW % "L"})

    def test_one_that_is_checked_out(self):
        self.narrow()
        self.git("commit", "-q", "-a", "-m", "narrowed", at=f"{self.top}/proto/lib")
        self.git("commit", "-q", "-a", "-m", "v2")
        self.assertEqual(self.types("v1", "proto"), (1, ["breaks p.L 6", "compatible A"]))
        self.assertEqual(self.broken("v1", "../proto", at=f"{self.top}/proto"), ["lib/l.proto"])

    def test_from_a_hook(self):
        self.narrow()
        self.assertEqual(self.broken("v1", "proto", GIT_DIR=".git", GIT_INDEX_FILE=f"{self.top}/.git/index"), ["lib/l.proto"])

    def test_one_inside_another(self):
        inner = f"{self.room.name}/inner"
        self.write({"i.proto": WIDE % "I"}, inner)
        self.commit(inner)
        self.git("submodule", "--quiet", "add", inner, "deep/in", at=f"{self.top}/proto/lib")
        self.git("commit", "-q", "-m", "in", at=f"{self.top}/proto/lib")
        self.commit()
        self.write({"proto/lib/deep/in/i.proto": NARROW % "I"})
        self.assertEqual(self.broken("v1", "proto"), ["lib/deep/in/i.proto"])
        self.git("submodule", "--quiet", "deinit", "--force", "deep/in", at=f"{self.top}/proto/lib")
        self.assertEqual(self.types("v1", "proto"), (2, ["refused new submodule lib/deep/in", "compatible A", "compatible p.L"]))

    def test_one_that_is_not_checked_out(self):
        self.git("submodule", "--quiet", "deinit", "--force", "proto/lib")
        self.assertEqual(self.types("v1", "proto"), (2, ["refused new submodule lib", "compatible A"]))
        self.assertIn("proto/lib is a submodule that isn't checked out: git submodule update --init proto/lib, or ", self.advice)
        self.assertEqual(self.types("v1", "proto", "A"), (2, ["refused new submodule lib", "compatible A"]))
        self.assertEqual(self.types("v1", "proto", "--skip", "lib"), (0, ["skipped lib", "compatible A"]))
        self.assertNotIn("names nothing", self.advice)

    def test_a_clone_without_submodules(self):
        clone = f"{self.room.name}/clone"
        self.git("clone", "-q", self.top, clone)
        self.assertEqual(self.types("v1", "proto", at=clone), (2, ["refused old submodule lib", "refused new submodule lib", "compatible A"]))

    def test_one_without_its_old_commit(self):
        clone, old = f"{self.room.name}/clone", self.git("rev-parse", "HEAD", at=self.library)
        self.write({"l.proto": NARROW % "L"}, self.library)
        self.git("commit", "-q", "-a", "-m", "narrowed", at=self.library)
        self.git("pull", "-q", "origin", "main", at=f"{self.top}/proto/lib")
        self.git("commit", "-q", "-a", "-m", "v2")
        self.git("clone", "-q", self.top, clone)
        self.git("config", "submodule.proto/lib.url", f"file://{self.library}", at=clone)
        self.git("submodule", "--quiet", "update", "--init", "--depth", "1", at=clone)
        self.assertEqual(self.types("v1", "proto", at=clone), (2, ["refused old submodule lib", "compatible A"]))
        self.assertIn(f"git -C proto/lib fetch --depth 1 origin {old}", self.advice)
        self.git("fetch", "-q", "--depth", "1", "origin", old, at=f"{clone}/proto/lib")
        self.assertEqual(self.broken("v1", "proto", at=clone), ["lib/l.proto"])

    def test_one_that_was_removed(self):
        self.git("rm", "-q", "proto/lib")
        self.assertEqual(self.types("v1", "proto"), (2, ["removed p.L", "compatible A"]))


class Links(Trees):
    def test_a_folder(self):
        self.write({"proto/real/a.proto": WIDE % "A"})
        self.link("../real", "proto/v1/common")
        self.commit()
        self.write({"proto/real/a.proto": NARROW % "A"})
        self.assertEqual(self.broken("v1", "proto"), ["real/a.proto"])
        self.assertEqual(self.broken("v1", "proto", "--skip", "real/"), ["v1/common/a.proto"])

    def test_a_file(self):
        self.write({"proto/.real/a.txt": WIDE % "A"})
        self.link(".real/a.txt", "proto/a.proto")
        self.commit()
        self.write({"proto/.real/a.txt": NARROW % "A"})
        self.assertEqual(self.broken("v1", "proto"), ["a.proto"])

    def refuse(self, paths):
        """Both sides refuse the links, and gate the rest."""
        self.write({"proto/keep.proto": WIDE % "Keep"})
        self.commit()
        said = [f"refused {side} link {it}" for side in ("old", "new") for it in paths]
        self.assertEqual(self.types("v1", "proto"), (2, [*said, "compatible p.Keep"]))
        skipped = [word for it in paths for word in ("--skip", it)]
        self.assertEqual(self.types("v1", "proto", *skipped), (0, [*(f"skipped {it}" for it in paths), "compatible p.Keep"]))

    def test_absolute(self):
        self.write({"today/a.proto": NARROW % "A", "proto/in/b.proto": WIDE % "B"}, self.room.name)
        self.link(f"{self.room.name}/today", "proto/folder")
        self.link(f"{self.room.name}/today/a.proto", "proto/file.proto")
        self.refuse(["file.proto", "folder"])
        self.call("v1", "proto")
        self.assertIn("gate: proto/folder is a link that leads out of the folder: ", self.advice)

    def test_one_by_an_absolute_path_into_the_folder(self):
        """Such a path is another one for each program, or on each side."""
        self.write({"proto/in/a.txt": WIDE % "A"})
        self.link("/proc/self/cwd/in/a.txt", "proto/by_cwd.proto")
        self.link(f"{self.top}/proto/in", "proto/by_top")
        self.link("by_top/a.txt", "proto/by_both.proto")
        self.refuse(["by_both.proto", "by_cwd.proto", "by_top"])

    def test_one_that_leads_out(self):
        self.write({"elsewhere/a.proto": WIDE % "A", "LICENSE": "mine"})
        self.link("../elsewhere", "proto/folder")
        self.link("../elsewhere/a.proto", "proto/a.proto")
        self.link("../LICENSE", "proto/LICENSE")
        self.link("a.proto", "proto/b.proto")
        self.refuse(["a.proto", "b.proto", "folder"])

    def test_one_that_leads_out_of_a_linked_folder(self):
        """A link to what is no source file does no harm, in a folder that a link leads to either."""
        self.write({"proto/real/a.proto": WIDE % "A", "LICENSE": "mine"})
        self.link("../../LICENSE", "proto/real/LICENSE")
        self.link("real", "proto/v1")
        self.commit()
        self.assertEqual(self.types("v1", "proto"), (0, ["compatible p.A"]))

    def test_an_import_by_one_that_leads_out(self):
        """What an old source file imports is what it was, and not today's file."""
        self.write({"shared/a.proto": WIDE % "A", "proto/b.proto": HEAD + 'import "folder/a.proto"; message B { p.A a = 1; }'})
        self.link(f"{self.top}/shared", "proto/folder")
        self.commit()
        self.write({"shared/a.proto": NARROW % "A"})
        status, said = self.call("v1", "proto", "--skip", "folder")
        self.assertEqual((status, said[0]), (2, "refused old E301 b.proto:2:8"))

    def test_circles(self):
        self.link(".", "proto/self")
        self.link("../..", "proto/in/up")
        self.link("b", "proto/a")
        self.link("a", "proto/b")
        self.refuse(["a", "b", "self", "in/up"])

    def test_one_that_leads_to_nothing(self):
        self.link("gone", "proto/nothing")
        self.link("gone.proto", "proto/a.proto")
        self.refuse(["a.proto"])

    def test_one_that_came(self):
        """A link that is new hides nothing of the old side."""
        self.write({"proto/a/t.proto": WIDE % "A"})
        self.commit()
        os.rename(f"{self.top}/proto/a", f"{self.top}/proto/b")
        self.write({"proto/b/t.proto": NARROW % "A"})
        self.link("b", "proto/a")
        self.assertEqual(self.broken("v1", "proto"), ["b/t.proto"])

    def test_one_that_leads_elsewhere_now(self):
        """A path is gated as what it was and what it is, however many paths lead to either."""
        self.write({"proto/one/deep/a.proto": WIDE % "A", "proto/two/deep/a.proto": NARROW % "A"})
        self.link("one", "proto/links")
        self.commit()
        self.assertEqual(self.types("v1", "proto"), (0, ["compatible p.A", "compatible p.A"]))
        os.remove(f"{self.top}/proto/links")
        self.link("two", "proto/links")
        self.assertEqual(self.broken("v1", "proto"), ["two/deep/a.proto"])
        # It is gone, so what it had is compared with each that is left.
        os.remove(f"{self.top}/proto/links")
        self.assertEqual(self.broken("v1", "proto"), ["two/deep/a.proto"])

    def test_one_inside_a_linked_folder(self):
        """A link inside a folder that another link leads to leads elsewhere."""
        self.write({"proto/one/a.proto": WIDE % "A", "proto/two/a.proto": NARROW % "A", "proto/first/x": "", "proto/second/x": ""})
        self.link("../one", "proto/first/in")
        self.link("../two", "proto/second/in")
        self.link("first", "proto/links")
        self.commit()
        os.remove(f"{self.top}/proto/links")
        self.link("second", "proto/links")
        self.assertEqual(self.broken("v1", "proto"), ["two/a.proto"])


class Namesakes(Trees):
    def test_one_that_moved(self):
        self.release({"a.proto": WIDE % "T", "b.proto": WIDE % "T"}, {"a.proto": WIDE % "T", "c.proto": NARROW % "T"})
        self.assertEqual(self.broken("v1", "proto"), ["c.proto", "c.proto"])
        self.assertEqual(self.broken("v1", "proto", "p.T"), ["c.proto", "c.proto"])

    def test_one_that_came(self):
        self.release({"a.proto": WIDE % "T"}, {"a.proto": WIDE % "T", "b.proto": NARROW % "T"})
        self.assertEqual(self.broken("v1", "proto"), ["b.proto"])

    def test_one_that_went(self):
        self.release({"a.proto": WIDE % "T", "b.proto": WIDE % "T"}, {"a.proto": NARROW % "T"})
        self.assertEqual(self.broken("v1", "proto"), ["a.proto", "a.proto"])

    def test_one_whose_text_is_refused(self):
        self.release({"a.proto": WIDE % "T", "b.proto": WIDE % "T"}, {"a.proto": WIDE % "T", "b.proto": "no text"})
        refused = "refused new E201 b.proto:1:1"
        self.assertEqual(self.types("v1", "proto"), (2, [refused, "compatible p.T"]))
        self.assertEqual(self.types("v1", "proto", "p.T"), (2, [refused, "compatible p.T"]))


    def test_a_named_one_in_a_text_that_is_refused(self):
        """A second declaration may be in a source file that wasn't read, on either side."""
        fault = " option (x) = 1;"
        hidden = WIDE.replace("message", "message /* here */\n") % "T"
        self.release({"a.proto": WIDE % "T", "c.proto": WIDE % "C"},
                     {"a.proto": WIDE % "T", "b.proto": NARROW % "T" + fault, "c.proto": WIDE % "C"})
        self.assertEqual(self.types("v1", "proto", "p.T"), (2, ["refused new E205 b.proto:2:46", "compatible p.T"]))
        self.assertEqual(self.types("v1", "proto", "p.C"), (0, ["compatible p.C"]))
        self.write({"proto/b.proto": hidden + fault})
        self.commit()
        os.remove(f"{self.top}/proto/b.proto")
        self.assertEqual(self.types("v1", "proto", "p.T"), (2, ["refused old E205 b.proto:3:28", "compatible p.T"]))


class Names(Trees):
    strange = ("-x.proto", "--help.proto", "it's a \"text\".proto", "a b/ c.proto", ".proto", "\u00fc.proto", "a:1:2.proto")

    def test_strange_names(self):
        self.write({f"proto/{it}": WIDE % f"T{number}" for number, it in enumerate(self.strange)})
        self.commit()
        self.write({f"proto/{it}": NARROW % f"T{number}" for number, it in enumerate(self.strange)})
        status, said = self.types("v1", "proto")
        self.assertEqual((status, sorted(said)), (1, [f"breaks p.T{number} 6" for number in range(len(self.strange))]))

    def test_a_strange_folder(self):
        for folder in ("-f", os.fsdecode(b"\xff"), "a\nb", "*"):
            self.write({f"{folder}/a.proto": WIDE % "A"})
            self.commit()
            self.write({f"{folder}/a.proto": NARROW % "A"})
            self.assertEqual(self.broken("v1", f"./{folder}"), ["a.proto"], folder)

    def test_bad_names(self):
        """A bad name is one refusal, on one line, and the run goes on."""
        bad = (b"a\n::error::b.proto", b"\xff.proto", b"\x1b\n.proto")
        self.write({os.fsdecode(b"proto/" + it): WIDE % "A" for it in bad})
        self.write({"proto/keep.proto": WIDE % "Keep"})
        self.commit()
        shown = [r"\x1b\x0a.proto", r"a\x0a::error::b.proto", r"\xff.proto"]
        said = [f"refused {side} name {it}" for side in ("old", "new") for it in shown]
        self.assertEqual(self.types("v1", "proto"), (2, [*said, "compatible p.Keep"]))
        self.assertIn(r"proto/\xff.proto has a line feed in its name, or what isn't UTF-8: rename it", self.advice)
        status, said = self.call("v1", "proto", "--github")
        self.assertEqual([it.partition(" ")[0] for it in said[7:]], ["::error"] * 6)
        skipped = [word for it in shown for word in ("--skip", it)]
        self.assertEqual(self.types("v1", "proto", *skipped), (0, [*(f"skipped {it}" for it in shown), "compatible p.Keep"]))

    def test_no_regular_files(self):
        """They aren't opened, by an import either."""
        self.write({"proto/keep.proto": WIDE % "Keep"})
        self.commit()
        for name in ("proto/u.proto", "proto/pipe"):
            os.mkfifo(f"{self.top}/{name}")
        self.write({"proto/b.proto": HEAD + 'import "u.proto";', "proto/c.proto": HEAD + 'import "pipe";'})
        refused = ["refused new E301 b.proto:2:8", "refused new E301 c.proto:2:8", "refused new file u.proto"]
        self.assertEqual(self.types("v1", "proto"), (2, [*refused, "compatible p.Keep"]))

    def test_what_a_name_leaves_out_is_said_once(self):
        self.write({"proto/keep.proto": WIDE % "Keep", "proto/x.PROTO": "", "proto/.h/a.proto": "", ".github/w.yml": ""})
        self.commit()
        self.assertEqual(self.types("v1", "."), (0, ["compatible p.Keep"]))
        self.assertEqual(self.advice, "gate: what is in a hidden folder isn't gated: proto/.h/a.proto\n"
                                      "gate: a file is only gated if its name ends in .proto, in small letters: proto/x.PROTO\n")

    def test_no_message_types(self):
        self.release({"a.proto": HEAD + "enum E { A = 0; }"}, {"a.proto": HEAD})
        self.assertEqual(self.call("v1", "proto"), (0, ["no message types"]))


class Clones(Trees):
    """What a repository is, in which a gate runs: shallow, sparse, a fork, a second work tree, a branch."""

    def setUp(self):
        super().setUp()
        self.release({"a.proto": WIDE % "A", "b/b.proto": WIDE % "B"}, {"a.proto": NARROW % "A", "b/b.proto": NARROW % "B"})
        self.git("commit", "-q", "-a", "-m", "v2")
        self.clone = f"{self.room.name}/clone"

    def test_a_shallow_one(self):
        self.git("clone", "-q", "--depth", "1", f"file://{self.top}", self.clone)
        commit = self.git("rev-parse", "v1")
        for revision, what in (("v1", "tag v1"), (commit, commit), ("origin/x", "+x:refs/remotes/origin/x")):
            self.assertEqual(self.call(revision, "proto", at=self.clone), (4, []))
            self.assertTrue(self.advice.startswith(f"gate: git has no revision {revision} here"), self.advice)
            self.assertIn(f" To fetch it: git fetch --depth 1 origin {what} (", self.advice)
        self.git("fetch", "-q", "--depth", "1", "origin", "tag", "v1", at=self.clone)
        self.assertEqual(self.broken("v1", "proto", at=self.clone), ["a.proto", "b/b.proto"])

    def test_a_fork(self):
        """A fork may have no tags: they come from the project."""
        self.git("clone", "-q", "--no-tags", self.top, self.clone)
        self.assertEqual(self.call("v1", "proto", at=self.clone), (4, []))
        self.assertIn("(in a fork, name the project's address in the place of origin)\n", self.advice)
        self.git("fetch", "-q", "--depth", "1", self.top, "tag", "v1", at=self.clone)
        self.assertEqual(self.broken("v1", "proto", at=self.clone), ["a.proto", "b/b.proto"])

    def test_a_sparse_one(self):
        self.git("sparse-checkout", "set", "--no-cone", "/proto/*", "!/proto/b")
        self.assertFalse(os.path.exists(f"{self.top}/proto/b"))
        status, said = self.types("v1", "proto")
        self.assertEqual((status, said), (2, ["refused new unseen b/b.proto", "breaks p.A 6"]))
        self.assertIn("proto/b/b.proto isn't in this sparse checkout", self.advice)
        self.git("sparse-checkout", "disable")
        self.assertEqual(self.broken("v1", "proto"), ["a.proto", "b/b.proto"])

    def test_a_sparse_one_of_source_files(self):
        """What is no source file needn't be checked out."""
        self.write({"proto/README": "mine"})
        self.commit()
        self.git("sparse-checkout", "set", "--no-cone", "*.proto")
        self.assertFalse(os.path.exists(f"{self.top}/proto/README"))
        self.assertEqual(self.types("v1", "proto"), (0, ["compatible p.A", "compatible p.B"]))

    def test_a_folder_below_with_the_environment_of_a_hook(self):
        """With GIT_DIR git takes the current folder for the top, and another folder for the old side."""
        self.write({"below/proto/a.proto": NARROW % "A"})
        for at, said in ((self.top, (1, ["breaks p.A 6", "breaks p.B 6"])), (f"{self.top}/below", (4, []))):
            self.assertEqual(self.types("v1", "proto", at=at, GIT_DIR=f"{self.top}/.git"), said)
        self.assertIn("unset GIT_DIR", self.advice)

    def test_a_second_work_tree(self):
        self.git("worktree", "add", "-q", self.clone, "HEAD")
        self.assertEqual(self.broken("v1", "proto", at=self.clone), ["a.proto", "b/b.proto"])

    def test_what_the_work_tree_has_no_longer(self):
        """What is gone is removed, and what was only in the index isn't passed over."""
        self.write({"proto/b/c.proto": WIDE % "C"})
        self.git("add", ".")
        for name in ("a.proto", "b/b.proto", "b/c.proto"):
            os.remove(f"{self.top}/proto/{name}")
        for folder, at in (("proto", self.top), ("..", f"{self.top}/proto/b")):
            self.assertEqual(self.call("v1", folder, at=at), (2, ["refused new unseen b/c.proto", "removed p.A", "removed p.B"]))

    def test_a_branch_that_moved_on(self):
        """What came to a branch after another left it isn't removed on that."""
        self.git("checkout", "-q", "-b", "mine", "v1")
        self.git("checkout", "-q", "main")
        self.write({"proto/n.proto": WIDE % "N"})
        self.commit()
        self.git("checkout", "-q", "mine")
        self.assertEqual(self.types("main", "proto"), (2, ["removed p.N", "compatible p.A", "compatible p.B"]))
        self.assertIn("gate against $(git merge-base main HEAD)\n", self.advice)
        self.assertNotIn("--skip", self.advice)
        self.assertEqual(self.call(self.git("merge-base", "main", "HEAD"), "proto")[0], 0)
        # A release is a tag, and what it had is gone, wherever its commit is.
        self.call("v1", "proto")
        self.assertIn("--skip p.N", self.advice)

    def test_from_a_folder_below(self):
        self.write({"tools/run": ""})
        status, said = self.call("v1", "../proto", "--github", at=f"{self.top}/tools")
        self.assertEqual([it.partition(",")[0] for it in said[6:]], ["::error file=proto/a.proto", "::error file=proto/b/b.proto"])
        self.assertEqual(self.call("v1", "../../elsewhere", at=f"{self.top}/tools")[0], 4)


class Unseen(Trees):
    """The end of a run compares what there is with what was looked at, whatever went wrong on the way."""

    def setUp(self):
        super().setUp()
        self.release({"a.proto": WIDE % "A"}, {"a.proto": WIDE % "A"})

    def with_git(self, command, does):
        """Calls with a git that also does something else, after it does what the command wants."""
        real = shutil.which("git")
        script = f"#!/bin/sh\n'{real}' \"$@\" || exit\ncase \" $* \" in *' {command} '*) {does} ;; esac\n"
        self.write({"git": script}, f"{self.room.name}/tools")
        os.chmod(f"{self.room.name}/tools/git", 0o755)
        return self.types("v1", "proto", PATH=f"{self.room.name}/tools:{os.environ['PATH']}")

    def test_what_git_lists_of_the_old_side(self):
        for mode in ("100644 blob", "120000 blob"):
            said = self.with_git("ls-tree -r", f"printf '{mode} 0123\tproto/b.proto\\0'")
            self.assertEqual(said, (2, ["refused old unseen b.proto", "compatible p.A"]))
        said = self.with_git("ls-tree -r", "printf '120000 blob 0123\tproto/folder\\0'")
        self.assertEqual(said, (2, ["refused old unseen folder", "compatible p.A"]))

    def test_what_git_lists_of_the_new_side(self):
        said = self.with_git("ls-files", "printf 'H 100644 0123 0\tproto/b.proto\\0'")
        self.assertEqual(said, (2, ["refused new unseen b.proto", "compatible p.A"]))

    def test_a_list_that_git_does_not_give(self):
        for command in ("ls-tree -r", "ls-files"):
            self.assertEqual(self.with_git(command, "exit 1"), (3, []))

    def patched(self, patch):
        """Calls a script of which a part is lost."""
        words = [sys.executable, "-B", "-c", f"import sys; sys.path.insert(0, '{TOP}/examples/ci'); import answers, gate, reading, runs, sides, walks\n"
                 f"{patch}\nsys.exit(gate.main(['v1', 'proto']))"]
        done = subprocess.run(words, cwd=self.top, env=self.env, stdout=subprocess.PIPE, stderr=subprocess.PIPE)
        return done.returncode, done.stdout.decode().splitlines()

    def test_a_text_that_is_not_read(self):
        refused = [f"refused {side} unseen a.proto" for side in ("old", "new")]
        self.assertEqual(self.patched("sides.Side.read = lambda *_: None"), (2, refused))
        self.assertEqual(self.patched("walks.Walk.look_at_file = lambda *_: None"), (4, []))

    def test_a_type_that_is_not_gated(self):
        refused = [f"refused {side} unseen a.proto" for side in ("old", "new")]
        self.assertEqual(self.patched("answers.pairs_of = lambda *_: []"), (2, refused))

    def test_a_run_that_is_not_made(self):
        self.assertEqual(self.patched("answers.overviews_of = lambda *_: []"), (3, []))
        self.assertEqual(self.patched("runs.Run.ask = lambda *_: runs.Overview('', 0, [], [])"), (3, []))
        self.assertEqual(self.patched("answers.WAYS = ()"), (2, [f"refused {side} unseen a.proto" for side in ("old", "new")]))


class Together(Trees):
    """Which files are compiled and gated in one call."""

    def calls(self, *words):
        """Calls with a program that notes its calls. Returns what was said, and the words of each call but for folders, those of `--version`
        left out."""
        log = f"{self.room.name}/log"
        self.write({"program": f"#!/bin/sh\nprintf '%s\\n' \"$*\" >>'{log}'\nexec '{test_ci.PROGRAM}' \"$@\"\n"}, self.room.name)
        os.chmod(f"{self.room.name}/program", 0o755)
        said = self.types("v1", "proto", *words, PROTOGATE=f"{self.room.name}/program")
        with open(log, encoding="utf-8") as file:
            found = [[it for it in line.split() if "dir=" not in it and it not in ("--", "--explain")] for line in file if not line.startswith("--")]
        os.remove(log)
        return said, sorted(found)

    def release_three(self):
        imports = HEAD + 'import "a.proto"; package p; '
        old = {"a.proto": WIDE % "A", "b.proto": imports + "message B { A a = 1; }", "c.proto": imports + "message C { A a = 1; int64 c = 2; }"}
        self.release(old, {**old, "a.proto": NARROW % "A"})

    def gated(self, files):
        return ["gate-all", *(f"--{side}={it}" for side in ("old", "new") for it in files)]

    def test_one_call(self):
        """Three files are compiled once a side, and gated once; a cause that three types lead to is told once."""
        self.release_three()
        files = ["a.proto", "b.proto", "c.proto"]
        breaks = ["breaks p.A 6", "breaks p.B 8", "breaks p.C 8"]
        self.assertEqual(self.calls(), ((1, breaks), [["compile", *files]] * 2 + [self.gated(files)]))
        self.assertEqual(self.broken("v1", "proto"), ["a.proto"])
        self.assertEqual(self.calls("--both")[1][2:], [self.gated(files)] * 2)
        self.assertEqual(self.calls("p.C")[1][2:][-1], self.gated(["c.proto"]))

    def test_namesakes(self):
        """A name that a side declares twice makes two runs, and each file is in one of them."""
        self.release_three()
        self.write({"proto/d.proto": WIDE % "B", "proto/e.proto": HEAD + "message E { }"})
        self.commit()
        self.write({"proto/d.proto": NARROW % "B"})
        said, calls = self.calls()
        self.assertEqual(said, (1, ["breaks p.B 6", "compatible p.A", "compatible p.B", "compatible p.C", "compatible E"]))
        runs = [it for it in calls if it[0] == "gate-all"]
        self.assertEqual(runs, [self.gated(["a.proto", "b.proto", "c.proto", "e.proto"]), self.gated(["d.proto"])])

    def test_a_file_that_is_refused(self):
        """It goes out with those that import it, whose own faults are told too; all others are gated in one run."""
        self.release_three()
        texts = {"d.proto": HEAD + 'import "f.proto";', "e.proto": HEAD + 'import /* it */ public "d." "proto";\noption (x) = 1;',
                 "f.proto": HEAD + "message F { } message F { }", "g.proto": HEAD + "message G { }"}
        self.write({f"proto/{name}": text for name, text in texts.items()})
        said, calls = self.calls()
        files = [f"refused new {it}" for it in ("E304 f.proto:2:23", "E205 e.proto:3:8")]
        self.assertEqual((said[0], sorted(said[1])), (2, sorted([*files, "added G", "breaks p.A 6", "breaks p.B 8", "breaks p.C 8"])))
        self.assertEqual([it for it in calls if it[0] == "gate-all"], [self.gated(["a.proto", "b.proto", "c.proto"])])
        self.assertEqual([it for it in self.record("v1", "proto")["refusals"] if it["code"] == "E304"][0]["texts"], ["d.proto", "f.proto"])

    def test_many_files_and_types(self):
        """Where a side has more than one run takes, there are several, and none is passed over."""
        self.release({f"{it}.proto": WIDE % it for it in "ABCDE"}, {f"{it}.proto": NARROW % it for it in "ABCDE"})
        wanted = [f"breaks p.{it} 6" for it in "ABCDE"]
        for patch in ("runs.MOST_FILES = reading.MOST_FILES = 2", "runs.MOST_TYPES = 2", "reading.MOST_FILES = 1"):
            status, said = Unseen.patched(self, patch)
            self.assertEqual((status, [it for it in said if it.startswith("breaks ")]), (1, wanted), patch)
            self.assertEqual(len([it for it in said if it.startswith("cause ")]), 5, patch)

    def test_what_only_some_runs_refuse(self):
        """A run that is refused is divided, so that no other file's types go unanswered."""
        self.release({f"{it}.proto": WIDE % it for it in "ABC"}, {f"{it}.proto": NARROW % it for it in "ABC"})
        does = "case \"$*\" in *gate-all*=B.proto*) echo refused old E001; exit 3 ;; esac"
        self.write({"program": f"#!/bin/sh\n{does}\nexec '{test_ci.PROGRAM}' \"$@\"\n"}, self.room.name)
        os.chmod(f"{self.room.name}/program", 0o755)
        said = self.types("v1", "proto", PROTOGATE=f"{self.room.name}/program")
        self.assertEqual(said, (3, ["refused old E001 p.B", "breaks p.A 6", "breaks p.C 6"]))


if __name__ == "__main__":
    if len(sys.argv) > 1 and not sys.argv[1].startswith("-"):
        test_ci.PROGRAM = os.path.realpath(sys.argv.pop(1))
    test_ci.run_tests.main()

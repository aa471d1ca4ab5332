#!/usr/bin/env python3
"""Tests of what `protogate` at the top does where the program isn't built, or isn't that of the sources: tools/dist/first_answer.py.

usage: tools/dist/test_first_answer.py [--without-kit] [PROGRAM]    by default the program that was built; without `rt` on the path, or with
--without-kit, a part is passed over

Most tests have a stand-in for `rt`, which runs PROGRAM as `rt try` runs what it compiled: in a new folder, without environment, beside
copies of the files that it is given. What is wanted is what PROGRAM says where it is called itself. A build of the kit's `rt try` then
answers a call of each kind. It takes some 225 processor seconds, and up to 3 GB of memory.
"""

import contextlib
import fcntl
import os
import re
import shutil
import signal
import subprocess
import sys
import time
import unittest

sys.dont_write_bytecode = True
from call_files import call_of, copied, imports_in  # noqa: E402
from first_answer import SECONDS  # noqa: E402
from trial_checkout import (  # noqa: E402
    FIRST_PAGE, TOP, Checkout, Compared, KitCheckout, files_below, is_alive, read, run_tests, stand_in, told, write)

HEAD = 'syntax = "proto3";\n'
OLD, NEW = HEAD + "message M { bytes a = 1; }\n", HEAD + "message M { string a = 1; }\n"


class Answers(Compared):
    """Calls of each kind."""

    def test_the_first_page(self):
        said = self.same(*FIRST_PAGE, at=TOP, status=1)
        self.assertEqual(said.splitlines()[:2], [b"breaks Order 3", b"witness 220180"])

    def test_help_and_bad_command_lines(self):
        for words in ([], ["--help"], ["--version"], ["-h"], ["gate", "--help"], ["types"], ["relay"], ["gate"], ["compile"],
                      ["help", "gate"], ["gate", "--old", "a"],
                      ["gate", "--old"], ["show", "--file", "a.proto", "--type", "M"], ["compile", "-x", "a.proto"],
                      ["gate", "--old", "a", "--old", "b", "--new", "a", "--type", "M"], ["types", "--dir", "."], ["compile", "--dir"],
                      ["gate", "--old", "a", "--new", "a", "--type", "M", "--view", "x"], ["verify", "--old", "a", "--new", "b", "c", "d"],
                      ["gate", "--old", "a", "--new", "a", "--type", "M", "--cert=x"], ["compile", "a", "--dir", "--", "b"],
                      ["types", "--file", "a"], ["types", "--dir", "a=b", "--file=a", "a=b"], ["gate-all"], ["gate-all", "--old", "a"],
                      ["gate-all", "--old", "a", "--new", "b", "--type", "M"], ["gate-all", "--old", "a", "b", "--new", "c"],
                      ["gate-all", "--old=a", "--new=b", "--view=names", "--view=names"], ["gate-all", "--old=a", "--new=b", "--both"]):
            self.same(*words, status=4)

    def test_each_subcommand(self):
        self.write({"old/m.proto": OLD, "new/m.proto": NEW})
        sides = ["--old-dir", "old", "--new-dir=new", "--old=m.proto", "--new", "m.proto"]
        for more in ([], ["--both"], ["--explain"], ["--both", "--explain", "--view", "names"]):
            self.same("gate", *sides, "--type", "M", *more, status=1)
        self.write({"old/n.proto": HEAD + 'import "m.proto"; message N { M m = 1; }', "new/n.proto": HEAD})
        self.same("gate-all", *sides, "--view", "names", status=1)
        self.same("gate-all", *sides, "--old=n.proto", "--explain", "--new", "n.proto", "--old=m.proto", status=2)
        self.same("gate-all", *sides, "--old=none.proto", status=2)
        self.write({"M.cert": self.same("gate", *sides, "--type", "M", "--cert", status=1), "wrong": "no certificate\n"})
        self.same("verify", *sides, "M.cert", status=1)
        self.same("verify", *sides, "--", f"{self.folder}/M.cert", status=1)
        self.same("verify", *sides, "../work/M.cert", status=1)
        self.same("verify", *sides, "wrong", status=2)
        self.same("show", "--dir", "old", "--file", "m.proto", "--type", "M", "0a0180", status=0)
        self.same("show", "--dir", "old", "--file", "m.proto", "--type", "M", "-", status=0)
        self.same("show", "--type=M", "--file=m.proto", "--dir=new", "0a0180", status=2)
        self.same("types", "--dir", "old", "m.proto", status=0)
        self.same("types", "--dir", "old", "m.proto", "m.proto", status=0)

    def test_sets(self):
        self.write({"old/m.proto": OLD, "new/m.proto": NEW})
        said = self.same("compile", "--dir", "old", "m.proto", status=0)
        self.assertIn(b"m.proto", said[:12])
        self.write({"old.pb": said, "stdout": said, "program/old.pb": said})
        for file in ("old.pb", f"{self.folder}/old.pb", "./old.pb", "stdout", "program/old.pb", "old/../old.pb"):
            self.same("gate", "--old", file, "--new-dir", "new", "--new", "m.proto", "--type", "M", status=1)
            self.same("types", file, status=0)
        self.same("types", "old.pb", "old/m.proto", status=2)

    def test_a_status_of_rt_itself(self):
        """The program ends with 2, 3 and 4 as `rt try` itself may."""
        self.write({"m.proto": OLD, "f.proto/x": ""})
        self.same("compile", "none.proto", status=2)
        self.same("compile", "f.proto", status=3)
        self.same("compile", "--none", status=4)
        self.same("gate", "--old", "m.proto", "--new", "m.proto", "--type", "M", status=0)


class Folders(Compared):
    """Files are found as the program finds them, wherever they are."""

    def test_imports(self):
        imports = 'import "q/a b.proto";\nimport public /* c */ \'q\' "/d\\056proto"; // import "x";\n'
        self.write({"p/m.proto": HEAD + imports + "message M { A a = 1; }\n",
                    "p/q/a b.proto": HEAD + 'import "q/c.proto";\nmessage A { C c = 1; }\n', "p/q/c.proto": HEAD + "message C {}\n",
                    "p/q/d.proto": HEAD, "m.proto": HEAD + 'import "q/a b.proto";\n'})
        self.same("compile", "--dir", "p", "m.proto", status=0)
        self.same("compile", "--dir", f"{self.folder}/p", "m.proto", status=0)
        self.same("compile", "--dir", "../work/p", "m.proto", at=f"{self.folder}/p", status=2)
        self.same("compile", "--dir", "../p", "m.proto", at=f"{self.folder}/p", status=0)
        self.same("compile", "m.proto", at=f"{self.folder}/p", status=0)
        self.same("compile", "m.proto", status=2)

    def test_names_of_folders_and_files(self):
        for name in ("a folder", "program", "-dash", "ünï", "a\nline", "'quoted\"", "*"):
            self.write({f"{name}/m.proto": OLD, f"{name}/{name}.proto": OLD, f"{name}/set": "none"})
            self.same("types", f"--dir={name}", "m.proto", status=0)
            self.same("types", "--", f"{name}/m.proto", status=0)
            self.same("types", f"--dir={name}", "--", f"{name}.proto", status=0)
            self.same("types", "--", f"{name}/set", status=2)
        self.write({"a=b/m.proto": OLD})
        self.same("types", "--dir", "a=b", "m.proto", status=0)

    def test_ways_upwards(self):
        self.write({"m.proto": HEAD + 'import "../work/deep/n.proto";\n', "deep/n.proto": OLD, "deep/er/m.proto": OLD})
        self.same("compile", "m.proto")
        self.same("compile", "../deep/n.proto", at=f"{self.folder}/deep", status=0)
        self.same("compile", "--dir", "deep/er", "../../deep/n.proto", status=0)
        self.same("compile", "--dir", "none", "../m.proto", status=2)
        self.same("compile", f"{self.folder}/deep/n.proto", status=0)
        self.same("compile", "--dir", "", f"{self.folder}/deep/n.proto"[1:], status=0)
        self.same("compile", "//" + f"{self.folder}/deep/./n.proto", status=0)

    def test_links(self):
        self.write({"real/m.proto": HEAD + 'import "n.proto";\n', "real/n.proto": OLD, "side/m.proto": OLD})
        os.symlink("real", f"{self.folder}/folder")
        os.symlink("../real/n.proto", f"{self.folder}/side/link.proto")
        os.symlink("nowhere", f"{self.folder}/side/broken.proto")
        os.symlink("circle.proto", f"{self.folder}/side/circle.proto")
        self.same("compile", "--dir", "folder", "m.proto", status=0)
        self.same("compile", "--dir", "side", "link.proto", status=0)
        self.same("compile", "--dir", "side", "broken.proto", status=2)
        self.same("compile", "--dir", "side", "circle.proto", status=3)

    def test_included_folders(self):
        self.write({"a/m.proto": HEAD + 'import "n.proto";\n', "b/n.proto": OLD, "c/n.proto": NEW, "c/o.proto": NEW, "d/n.proto/x": "",
                    "n.proto": HEAD, "e/m.proto": OLD})
        os.makedirs(f"{self.folder}/f")
        os.symlink("nowhere", f"{self.folder}/f/m.proto")
        for words, status in ((["--include=b", "--include", "c"], 0), (["--include", "c", "--include=b"], 0), (["--include=d", "--include=b"], 3),
                              (["--include=none", "--include=b"], 0), (["--include=none/../b"], 2), (["--include", f"{self.folder}/b"], 0),
                              (["--include="], 2), ([], 2)):
            self.same("compile", "--dir=a", *words, "m.proto", status=status)
        self.same("types", "--dir=f", "--include=e", "m.proto", status=0)
        self.same("types", "--include=b", "n.proto", status=0)
        self.same("types", "--dir=a", "--include=", f"{self.folder}/b/n.proto"[1:], status=0)
        sides = ["--old-dir=b", "--old-include=e", "--new-dir=a", "--new-include=b", "--new-include=c", "--old=m.proto"]
        self.same("gate", *sides, "--new=o.proto", "--type=M", status=1)
        self.same("gate-all", *sides, "--new=n.proto", status=0)

    def test_lists_of_files(self):
        self.write({"p/m.proto": HEAD + 'import "n.proto";\n', "p/n.proto": OLD, "q/o.proto": HEAD + "message O {}\n", "q/m.proto": NEW,
                    "all": "m.proto\r\n\no.proto", "deep/two": "o.proto\n", "none": "\n\r\n", "bad": b"m.proto\n\xc3(\n", "set": "m.pb\n",
                    "spaced": "m.proto \n", "-": "o.proto\n", "f/x": "", "p/all": "n.proto\n"})
        self.write({"p/m.pb": self.same("compile", "--dir=p", "m.proto", status=0)})
        for name in ("compile", "types"):
            for words, status in ((["--files-from=all"], 0), (["--files-from", "all", "n.proto"], 0), (["--files-from=deep/two", "m.proto"], 0),
                                  (["--files-from", f"{self.folder}/all"], 0), (["--files-from=../work/all"], 0), (["--files-from=-"], 0),
                                  (["--files-from=spaced"], 2), (["--files-from=gone"], 2), (["--files-from=gone", "m.proto"], 2),
                                  (["--files-from="], 2), ([f"--files-from={self.folder}/gone"], 2), (["--files-from=../gone"], 2),
                                  (["--files-from=f"], 3), (["--files-from=bad"], 2), (["--files-from=none"], 4), (["--files-from=none", "m.proto"], 4),
                                  (["--files-from=all", "--files-from=all"], 4), ([], 4), (["--files-from=all/", "m.proto"], 2)):
                self.same(name, "--dir=p", "--include=q", *words, status=status)
        self.same("types", "--dir=p", "--files-from=set", status=0)
        self.same("types", "--dir=p", "--files-from=set", "n.proto", status=2)
        sides = ["gate-all", "--old-dir=p", "--new-dir=q", "--old-include=q"]
        for words, status in ((["--old-files-from=all", "--new=m.proto", "--new-files-from=deep/two"], 1), (["--old-files-from=all", "--new=gone"], 2),
                              (["--old=n.proto", "--new-files-from=all"], 1), (["--old=n.proto", "--new-files-from=bad"], 2),
                              (["--old-files-from=gone", "--new-files-from=bad"], 2), (["--old-files-from=all", "--new-files-from=none"], 4),
                              (["--old-files-from=none", "--new=m.proto"], 4), (["--old-files-from=all"], 4), (["--new-files-from=gone"], 4),
                              (["--old=gone", "--new-files-from=f"], 3), ([], 4)):
            self.same(*sides, *words, status=status)

    def test_a_list_outside_that_is_printed(self):
        """It can't be handed over by its own name, and by no other, since the program prints it."""
        self.write({"deep/m.proto": OLD, "bad": b"\xff", "none": "\n"})
        for name in ("bad", "none"):
            for path in (f"../{name}", f"{self.folder}/{name}"):
                self.assertEqual(self.call("types", f"--files-from={path}", "m.proto", at=f"{self.folder}/deep"), (3, b""))
                self.assertIn(path, self.lines[1])

    def test_what_is_missing_or_no_file(self):
        self.write({"m.proto": HEAD + 'import "none.proto";\n', "n.proto": HEAD + 'import "f.proto";\n', "f.proto/x": "", "o.proto": OLD})
        for file, status in (("m.proto", 2), ("n.proto", 3), ("f.proto", 3), ("none.proto", 2), ("", 2), (".", 3), ("o.proto/", 2),
                             ("o.proto/m.proto", 2), ("x" * 300, 3), ("f.proto/../o.proto", 0), ("x/../o.proto", 2)):
            self.same("compile", "--", file, status=status)
        sides = ["verify", "--old", "o.proto", "--new", "o.proto"]
        for file, status in (("none", 2), (f"{self.folder}/none", 2), ("f.proto", 3), ("../none", 2)):
            self.same(*sides, file, status=status)

    def test_a_large_checkout(self):
        """Only what is imported is handed over."""
        self.write({f"node_modules/{n}/m.proto": OLD for n in range(1000)})
        self.write({"m.proto": HEAD + 'import "n.proto";\n', "n.proto": OLD, "o.proto": OLD})
        self.same("types", "m.proto", status=0)
        handed = [it.partition(b"=")[0] for it in read(f"{self.kit}/handed").splitlines()]
        self.assertEqual(handed, [b"300", b"dir/m.proto", b"dir/n.proto"])

    def test_many_imports(self):
        """The program links 1,024 files of a side, and refuses the import of one more."""
        self.write({f"{n}.proto": HEAD for n in range(1, 1025)})
        for count, status in ((1023, 0), (1024, 2)):
            self.write({"m.proto": HEAD + "".join(f'import "{n}.proto";\n' for n in range(1, count + 1)) + "message M {}\n"})
            self.same("types", "m.proto", status=status)


class Imports(unittest.TestCase):
    def test_what_nothing_ends(self):
        """Each is read once, however often it begins."""
        for more in (b"/* ", b"'" + b"\\'" * 9, b'"' + b'\\"' * 9):
            begun = time.process_time()
            self.assertEqual(imports_in(b'import "a"; ' + more * 50_000)[:1], ["a"])
            self.assertLess(time.process_time() - begun, 10)


class Failures(Checkout):
    """Where there is no answer, that is said, and the status is 3."""

    def fails(self, *wanted, **more):
        self.assertEqual(self.call("--help", **more), (3, b""), self.lines)
        for it in wanted:
            self.assertIn(it, "\n".join(self.lines))

    def test_each_failure(self):
        for status, why in ((1, "refuses the sources"), (2, "failed"), (3, "limit"), (4, "check"), (5, "differ"), (6, "1 MiB")):
            for last in ("run=none proved=no", f"run=fault status={status} proved=no", "proved=no", "another", "run=ended proved=no"):
                self.says("as rt", status, last)
                self.fails(why, last, "tools/build.py")

    def test_a_last_line_of_another_status(self):
        self.says("as rt", 4, "run=ended status=0 runners=1 proved=no")
        self.fails("run=ended status=0")
        self.says("as rt", 0, "run=ended status=4 runners=1 proved=no")
        self.fails("run=ended status=4")

    def test_a_status_of_none(self):
        self.says("as rt", 0, "runners=1 proved=no")
        self.assertEqual(self.call("--help")[0], 0)
        self.says("as rt", 9, "run=ended status=9 proved=no")
        self.assertEqual(self.call("--help")[0], 9)

    def test_a_file_that_was_not_handed_over(self):
        write(f"{self.folder}/m.proto", OLD)
        program = f"{self.room}/liar"
        write(program, "#!/bin/sh\necho 'refused E301 m.proto'\nexit 2\n", 0o755)
        write(f"{self.kit}/rt", stand_in(program), 0o755)
        self.assertEqual(self.call("compile", "m.proto"), (3, b""))
        self.assertIn("wasn't handed", self.lines[1])
        self.assertEqual(self.call("compile", "m.proto", at=self.room), (2, b"refused E301 m.proto\n"))

    def test_a_word_that_cannot_be_handed_over(self):
        self.assertEqual(self.call(b"\xff"), (3, b""))
        self.assertIn("UTF-8", self.lines[1])

    def test_a_name_that_cannot_be_handed_over(self):
        write(f"{self.folder}/a=b.proto", OLD)
        self.assertEqual(self.call("compile", "a=b.proto"), (3, b""))
        self.assertIn("a=b.proto", self.lines[1])

    def test_an_output_that_cannot_be_written(self):
        with open("/dev/full", "wb") as full:
            how = {"stdout": full, "stderr": subprocess.PIPE, "stdin": subprocess.DEVNULL}
            self.assertEqual(subprocess.run([f"{self.top}/protogate", "--help"], env=self.env, check=False, **how).returncode, 3)

    def test_streams_that_are_closed(self):
        call = f"exec '{self.top}/protogate' --version"
        done = subprocess.run(["sh", "-c", f"{call} 2>&-"], env=self.env, stdout=subprocess.PIPE, check=False)
        version = subprocess.run([self.program, "--version"], stdout=subprocess.PIPE, check=False).stdout
        self.assertEqual((done.returncode, done.stdout), (4, version))
        self.assertEqual(subprocess.run(["sh", "-c", f"{call} >&-"], env=self.env, stderr=subprocess.DEVNULL, check=False).returncode, 3)

    def test_tools_that_are_missing(self):
        for it in ("sh", "find", "dirname", "readlink"):
            os.makedirs(f"{self.room}/bin", exist_ok=True)
            os.symlink(shutil.which(it), f"{self.room}/bin/{it}")
        self.assertEqual(self.call("--help", PATH=f"{self.room}/bin"), (127, b""))
        self.assertIn("no python3", self.lines[0])
        os.symlink(sys.executable, f"{self.room}/bin/python3")
        self.assertEqual(self.call("--help", PATH=f"{self.room}/bin"), (3, b""))
        self.assertIn("no `rt`", self.lines[0])
        self.assertEqual(len(self.lines), 1)

    def test_only_the_proved_program(self):
        self.assertEqual(self.call("--help", PROTOGATE_PROVED_ONLY="1"), (127, b""))
        self.assertEqual(len(self.lines), 1)
        self.assertIn("tools/build.py", self.lines[0])

    def test_nothing_else_is_installed(self):
        write(f"{self.top}/tools/install.sh", read(f"{TOP}/tools/install.sh"), 0o755)
        how = {"env": self.env, "stdout": subprocess.PIPE, "stderr": subprocess.PIPE}
        done = subprocess.run([f"{self.top}/tools/install.sh", f"{self.room}/prefix"], check=False, **how)
        self.assertEqual((done.returncode, done.stdout, len(done.stderr.splitlines())), (1, b"", 1), done.stderr)
        self.assertFalse(os.path.exists(f"{self.room}/prefix"))

    @unittest.skipUnless(shutil.which("git"), "there is no git")
    def test_nothing_else_gates(self):
        write(f"{self.folder}/proto/m.proto", OLD)
        who = ["-c", "user.name=nobody", "-c", "user.email=nobody@example.org"]
        for words in (["init", "-q"], ["add", "."], [*who, "commit", "-q", "-m", "m"]):
            subprocess.run(["git", *words], cwd=self.folder, check=True)
        how = {"cwd": self.folder, "stdout": subprocess.PIPE, "stderr": subprocess.PIPE}
        env = {**self.env, "PROTOGATE": f"{self.top}/protogate"}
        done = subprocess.run([f"{TOP}/examples/ci/gate.sh", "HEAD", "proto"], env=env, check=False, **how)
        self.assertEqual((done.returncode, done.stdout, len(done.stderr.splitlines())), (127, b"", 1), done.stderr)


class Running(Checkout):
    """What happens beside a call, or to it."""

    def test_locks(self):
        """Builds lock folders and files. A first answer waits for none."""
        for path in (self.top, f"{self.top}/crates/protogate", f"{self.top}/crates/protogate/src/main.rt", f"{self.top}/crates.txt"):
            with contextlib.ExitStack() as opened:
                handle = os.open(path, os.O_RDONLY)
                opened.callback(os.close, handle)
                fcntl.flock(handle, fcntl.LOCK_EX)
                self.assertEqual(self.call("--help")[0], 4)

    def test_several_at_once(self):
        write(f"{self.folder}/m.proto", OLD)
        words = [f"{self.top}/protogate", "types", "m.proto"]
        how = {"cwd": self.folder, "env": self.env, "stdout": subprocess.PIPE, "stderr": subprocess.DEVNULL}
        calls = [subprocess.Popen(words, **how) for _ in range(5)]
        self.assertEqual([(it.communicate()[0], it.returncode) for it in calls], [(b"M\n", 0)] * 5)

    def test_that_no_file_is_left(self):
        self.call("--help")
        before = files_below(self.top)
        self.assertEqual(self.call("--help")[0], 4)
        self.assertEqual(files_below(self.top), before)

    def test_signals(self):
        for number in (signal.SIGINT, signal.SIGTERM, signal.SIGHUP):
            # What this process ignores, as below nohup, would be ignored by the call too.
            if signal.getsignal(number) is signal.SIG_IGN:
                signal.signal(number, signal.SIG_DFL)
                self.addCleanup(signal.signal, number, signal.SIG_IGN)
            pids, status = told(self, "wait", number)
            self.assertEqual(status, -number)
            self.assertEqual([it for it in pids if is_alive(it)], [])
            # The stand-in was killed before it could remove its own folder, and that too is gone.
            self.assertEqual(os.listdir(f"{self.room}/temporary"), [])


class Kit(KitCheckout):
    """What the kit's own `rt try` answers, beside what the program says."""

    def calls(self):
        """Returns a call of each kind, and the status that it ends with."""
        sides = ["--old-dir", "examples/old", "--new-dir", "examples/new", "--old", "order.proto", "--new", "order.proto"]
        write(f"{self.top}/Order.cert", self.said(["gate", *sides, "--type", "Order", "--cert"])[1])
        sets = ["--old-dir", "examples/sets/old", "--new-dir", "examples/sets/new", "--old", "shop.proto", "--new", "shop.proto"]
        return {
            "compile": (["compile", "--dir", "examples/new", "order.proto"], 0),
            "show": (["show", "--dir", "examples/new", "--file", "order.proto", "--type", "Order", "220161"], 0),
            "verify": (["verify", *sides, "Order.cert"], 1),
            "refused": (["gate", *sets, "--type", "shop.Order"], 2),
            "all": (["gate-all", *sides, "--explain", "--old", "order.proto"], 1),
            "missing": (["types", "--dir", "examples/new", "none.proto"], 2),
            "wrong": (["gate", "--old", "order.proto", "--what"], 4),
            "help": (["gate", "--help"], 4),
        }

    def test_a_call_of_each_kind(self):
        """Each has the words and the files that the launcher would hand over. One build answers all, where the kit takes cases."""
        os.chdir(self.top)
        self.addCleanup(os.chdir, TOP)
        wanted, asked, handed = {}, {}, {}
        for name, (words, status) in self.calls().items():
            wanted[name] = self.said(words)
            self.assertEqual(wanted[name][0], status, name)
            call = call_of(words)
            if call:
                copies, words = copied(call, f"{self.room}/files of {name}")
                for at, file in copies.handed():
                    self.assertEqual(read(file), read(handed.setdefault(at, file)))
            asked[name] = words
        data = [word for at, file in handed.items() for word in ("--data", f"{at}={file}")]
        how = {"stdin": subprocess.DEVNULL, "stdout": subprocess.PIPE, "stderr": subprocess.STDOUT}
        takes_cases = b"--cases" in subprocess.run(["rt", "help"], check=False, **how).stdout
        (self.compare_cases if takes_cases else self.compare_each)(asked, wanted, data)

    def tried(self, words):
        """Runs `rt try` on the program with these words."""
        how = {"cwd": f"{self.top}/crates/protogate", "stdin": subprocess.DEVNULL, "stdout": subprocess.PIPE, "stderr": subprocess.PIPE}
        return subprocess.run(["rt", "try", "--seconds", str(SECONDS), *words], check=False, **how)

    def compare_cases(self, asked, wanted, data):
        for name, words in asked.items():
            write(f"{self.room}/cases/{name}", "")
            write(f"{self.room}/cases/{name}.args", "".join(f"{it}\n" for it in words))
            write(f"{self.room}/cases/{name}.stdout", wanted[name][1])
        done = self.tried([*data, "--cases", f"{self.room}/cases"])
        lines = done.stderr.decode("utf-8", "replace").splitlines()
        for name, (status, _) in wanted.items():
            found = [it for it in lines if re.match(rf"case={name} .*\bstatus={status}\b.*\boutput=expected\b", it)]
            self.assertEqual(len(found), 1, lines)
        self.assertEqual(done.returncode, 0)

    def compare_each(self, asked, wanted, data):
        for name, words in asked.items():
            done = self.tried([*data, "--", *words])
            self.assertEqual((done.returncode, done.stdout), wanted[name], done.stderr)


if __name__ == "__main__":
    sys.exit(run_tests("first answers"))

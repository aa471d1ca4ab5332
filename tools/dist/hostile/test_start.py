#!/usr/bin/env python3
"""Tests of how examples/ci/gate.sh and tools/report.py start and end: with old Pythons, modules of the change, links to the script, closed
outputs and missing modules. Status 1 is for a type that breaks alone.

usage: tools/dist/hostile/test_start.py [PROGRAM]    by default the program that was built
"""

import os
import shutil
import subprocess
import sys
import unittest

sys.dont_write_bytecode = True
sys.path.append(os.path.dirname(os.path.dirname(os.path.realpath(__file__))))
import test_ci  # noqa: E402
from test_ci import GATE, TOP  # noqa: E402
from test_ci_trees import NARROW, WIDE, Trees  # noqa: E402

REPORT = f"{TOP}/tools/report.py"
# The modules of Python that the scripts import, and a few of their own names.
MODULES = ("json", "os", "sys", "re", "argparse", "tempfile", "traceback", "subprocess", "string", "encodings", "gate", "start", "calls", "site",
           "sitecustomize", "usercustomize", "io", "signal")


class Start(Trees):
    def setUp(self):
        super().setUp()
        self.release({"a.proto": WIDE % "A", "b.proto": WIDE % "B"}, {"a.proto": WIDE % "A", "b.proto": NARROW % "B"})

    def shell(self, script, **more):
        """The status of a shell's call, in which GATE and REPORT are the scripts."""
        env = {**self.env, "GATE": GATE, "REPORT": REPORT, **more}
        done = subprocess.run(["bash", "-c", script], cwd=self.top, env=env, stdin=subprocess.DEVNULL, stdout=subprocess.PIPE, stderr=subprocess.PIPE)
        self.said, self.advice = done.stdout.decode(), done.stderr.decode()
        return done.returncode

    def copied(self):
        """Returns a copy of the script."""
        copy = f"{self.room.name}/copy"
        shutil.copytree(f"{TOP}/examples/ci", copy)
        shutil.copy(REPORT, copy)
        return copy


class Modules(Start):
    """Modules that the change brings aren't imported, whatever variables say."""

    def setUp(self):
        super().setUp()
        self.mark = f"{self.room.name}/ran"
        for name in MODULES:
            for path in (f"{name}.py", f"home/.local/lib/python{sys.version_info[0]}.{sys.version_info[1]}/site-packages/{name}.py"):
                self.write({path: f"open({self.mark!r}, 'w')\n"})

    def test_variables(self):
        self.assertEqual(self.shell('"$GATE" v1 proto --record run.json'), 1)
        for more in ({"PYTHONPATH": ":"}, {"PYTHONPATH": "."}, {"PYTHONPATH": self.top}, {"PYTHONSAFEPATH": "1"}, {"PYTHONHOME": self.top},
                     {"PYTHONSTARTUP": f"{self.top}/json.py"}, {"HOME": f"{self.top}/home"}, {"PYTHONUSERBASE": f"{self.top}/home/.local"},
                     {"PYTHONINSPECT": "1"}, {"PYTHONDONTWRITEBYTECODE": ""}):
            self.assertEqual(self.shell('"$GATE" v1 proto', **more), 1, more)
            self.assertIn("breaks p.B 6\n", self.said)
            self.assertEqual(self.shell('"$REPORT" run.json', **more), 0, more)
            self.assertIn("<h1>proto breaks old messages</h1>", self.said)
            self.assertFalse(os.path.exists(self.mark), more)

    def test_a_python_of_the_work_tree(self):
        """A folder of the path that counts from the current one has what the change brings."""
        self.write({"python3": f"#!/bin/sh\n: >'{self.mark}'\n"})
        os.chmod(f"{self.top}/python3", 0o755)
        for path in (f":{os.environ['PATH']}", f".:{os.environ['PATH']}"):
            self.assertEqual(self.shell('"$GATE" v1 proto', PATH=path), 127)
            self.assertFalse(os.path.exists(self.mark))


class Links(Start):
    def test_links_to_the_script(self):
        """The script finds its modules by whatever name it is called."""
        below = f"{self.top}/be low"
        os.mkdir(below)
        os.symlink(GATE, f"{below}/gate it")
        os.symlink("gate it", f"{below}/again")
        os.symlink(f"{TOP}/examples", f"{below}/folder")
        for name in ("'be low/gate it'", "'be low/again'", "./be*/again", f"'{below}/again'", "'be low/folder/ci/gate.sh'", "sh 'be low/again'",
                     "bash 'be low/folder/ci/gate.sh'"):
            self.assertEqual(self.shell(f"{name} v1 proto"), 1, name)
            self.assertIn("breaks p.B 6\n", self.said, name)
        self.assertEqual(self.shell("'gate it' v1 proto", PATH=f"{below}:{os.environ['PATH']}"), 1)
        self.assertEqual(self.shell('"$GATE" v1 proto --record run.json'), 1)
        os.symlink(REPORT, f"{below}/report")
        self.assertEqual(self.shell("'be low/report' run.json"), 0)
        self.assertIn("<h1>", self.said)


class Pythons(Start):
    """Stand-ins for older Pythons: this one, which says that it is another."""

    def python(self, script):
        self.write({"python3": f"#!/bin/sh\n{script}\n"}, f"{self.room.name}/tools")
        os.chmod(f"{self.room.name}/tools/python3", 0o755)
        return {"PATH": f"{self.room.name}/tools:{os.environ['PATH']}"}

    def test_versions(self):
        changed = "import sys; code = sys.argv.pop(1); sys.version_info = %s; exec(code)"
        for version, status in (((2, 7, 18), 127), ((3, 4, 10), 127), ((3, 6, 0), 127), ((3, 8, 20), 127), ((3, 9, 0), 1), ((3, 20, 0), 1)):
            # (the script's words are -I -B -c CODE NAME WORD..)
            more = self.python(f"""[ "$1 $2 $3" = "-I -B -c" ] || exit 9; shift 3; exec '{sys.executable}' -I -B -c '{changed % (version,)}' "$@" """)
            self.assertEqual(self.shell('"$GATE" v1 proto', **more), status, version)
            if status == 127:
                found = ".".join(map(str, version))
                self.assertEqual((self.said, self.advice), ("", f"gate: Python {found} is too old: version 3.9 or a later one is needed\n"))
                self.assertEqual(self.shell('"$REPORT" run.json', **more), status)
                self.assertEqual((self.said, self.advice), ("", f"report: Python {found} is too old: version 3.9 or a later one is needed\n"))

    def test_what_an_old_python_reads(self):
        """What starts the script has no word that Python 2.7 or 3.4 can't read: here, those that came since."""
        import ast
        with open(f"{TOP}/examples/ci/start.py", encoding="utf-8") as file:
            tree = ast.parse(file.read(), feature_version=(3, 4))
        newer = (ast.JoinedStr, ast.NamedExpr, ast.AnnAssign, ast.AsyncFunctionDef, ast.Nonlocal, ast.YieldFrom, ast.Starred)
        self.assertEqual([it for it in ast.walk(tree) if isinstance(it, newer) or isinstance(it, ast.Raise) and it.cause], [])
        self.assertEqual([it for it in ast.walk(tree) if isinstance(it, ast.arguments) and (it.kwonlyargs or it.posonlyargs)], [])

    def test_no_python(self):
        folder = f"{self.room.name}/none"
        os.mkdir(folder)
        os.symlink(shutil.which("sh"), f"{folder}/sh")
        self.assertEqual(self.call("v1", "proto", PATH=folder), (127, []))
        self.assertEqual(self.advice.count("\n"), 1)


class Outputs(Start):
    """What can't be printed is never a 0, nor a 1."""

    def test_closed_and_full_outputs(self):
        for words in ("v1 proto", "v1 proto p.A", "v1 proto p.A --both --types", "v0 proto", "--help", "--version", "v1 none", ""):
            for where in (">&-", ">/dev/full", ">&- 2>&-", ">/dev/full 2>/dev/full", "<&- >&- 2>&-", "| exec 3<&-"):
                # (the last is a pipe that nobody reads any more)
                script = f'set -o pipefail; "$GATE" {words} {where}' if "|" not in where else f'exec 3> >(:); wait $!; "$GATE" {words} >&3'
                self.assertIn(self.shell(script), (2, 3, 4, 127), (words, where))

    def test_closed_and_full_error_outputs(self):
        """Where there is nothing to say on it, the answer is the same."""
        self.assertEqual(self.shell('"$GATE" v1 proto p.A 2>&-'), 0)
        self.assertEqual(self.said, "compatible p.A\n")
        self.assertEqual(self.shell('"$GATE" v1 proto p.A <&- 2>&-'), 0)
        for where in ("2>&-", "2>/dev/full"):
            # The advice on a break is lost.
            self.assertEqual(self.shell(f'"$GATE" v1 proto {where}'), 3)
            self.assertIn("breaks p.B 6\n", self.said)
            self.assertEqual(self.shell(f'"$GATE" v0 proto {where}'), 3)

    def test_a_report(self):
        self.assertEqual(self.shell('"$GATE" v1 proto --record run.json'), 1)
        for where in (">&-", ">/dev/full", ">&- 2>&-", ">/dev/full 2>/dev/full"):
            self.assertEqual(self.shell(f'"$REPORT" run.json {where}'), 3, where)
            self.assertIn(self.shell(f'"$REPORT" none.json {where}'), (3,), where)
            self.assertIn(self.shell(f'"$REPORT" --version {where}'), (3,), where)

    def test_a_pipe_that_nobody_reads(self):
        read, write = os.pipe()
        os.close(read)
        for words in ([GATE, "v1", "proto"], [GATE, "v1", "proto", "p.A"]):
            done = subprocess.run(words, cwd=self.top, env=self.env, stdin=subprocess.DEVNULL, stdout=write, stderr=subprocess.PIPE)
            self.assertEqual(done.returncode, 3, done.stderr)
        os.close(write)


class Faults(Start):
    """What goes wrong in the script itself."""

    def test_modules_that_are_missing_or_broken(self):
        copy = self.copied()
        names = sorted(it for it in os.listdir(copy) if it.endswith(".py") and it not in ("report.py", "said.py", "shown.py"))
        self.assertIn("start.py", names)
        for name in names:
            with open(f"{copy}/{name}", encoding="utf-8") as file:
                text = file.read()
            os.remove(f"{copy}/{name}")
            self.assertEqual(self.shell(f"'{copy}/gate.sh' v1 proto"), 3, name)
            self.assertEqual(self.said, "")
            for broken in ("def", "raise SystemError", "import sys; sys.exit(1)", "raise KeyboardInterrupt"):
                self.write({name: broken}, copy)
                self.assertEqual(self.shell(f"'{copy}/gate.sh' v1 proto"), 3, (name, broken))
                self.assertEqual(self.said, "")
            self.write({name: text}, copy)
        self.assertEqual(self.shell(f"'{copy}/gate.sh' v1 proto"), 1)

    def test_a_report_without_modules(self):
        copy = self.copied()
        for name in ("start.py", "causes.py", "wording.py"):
            os.remove(f"{copy}/{name}")
            self.assertEqual(self.shell(f"'{copy}/report.py' run.json"), 3)

    def test_no_current_folder(self):
        self.assertEqual(self.shell('mkdir gone && cd gone && rmdir "$PWD" && "$GATE" v1 proto'), 4)
        self.assertIn("there is no current folder", self.advice)

    def test_faults(self):
        """Memory, depth, and signals."""
        copy = self.copied()
        with open(f"{copy}/gate.py", encoding="utf-8") as file:
            text = file.read()
        for fault, statuses in (("raise MemoryError", (3,)), ("raise RecursionError", (3,)), ("raise KeyboardInterrupt", (3,)),
                                ("raise SystemExit(1)", (3,)), ("raise SystemExit('x')", (3,)),
                                ("import signal; os.kill(os.getpid(), signal.SIGSEGV)", (139, -11)), ("return call_itself()", (3,))):
            patch = f"\n\ndef call_itself():\n    return call_itself()\n\n\ndef gate_releases(call):\n    {fault}\n"
            self.write({"gate.py": text + patch}, copy)
            self.assertIn(self.shell(f"'{copy}/gate.sh' v1 proto"), statuses, fault)


if __name__ == "__main__":
    if len(sys.argv) > 1 and not sys.argv[1].startswith("-"):
        test_ci.PROGRAM = os.path.realpath(sys.argv.pop(1))
    test_ci.run_tests.main()

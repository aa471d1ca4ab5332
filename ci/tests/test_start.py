#!/usr/bin/env python3
"""Tests of how the gate starts and ends, as one file that Python runs: with old Pythons, modules of the change, closed outputs and faults.

The module that gates has a stand-in. Status 1 is for a type that breaks alone.
"""

import ast
import os
import shutil
import subprocess
import sys
import tempfile
import unittest
import zipapp

CI = os.path.dirname(os.path.dirname(os.path.realpath(__file__)))
# The modules of Python that the gate imports, and a few of its own names.
MODULES = ("json", "os", "sys", "re", "argparse", "tempfile", "traceback", "subprocess", "string", "encodings", "gate", "git", "running", "site",
           "sitecustomize", "usercustomize", "io", "signal", "protogate_ci")
SAYS = "def main(words):\n    print(*words)\n    return int(words[0]) if words else 0\n"


class Start(unittest.TestCase):
    def setUp(self):
        room = tempfile.TemporaryDirectory()
        self.addCleanup(room.cleanup)
        self.room = room.name
        self.top = f"{self.room}/top"
        os.mkdir(self.top)
        self.mark = f"{self.room}/ran"
        self.pack(SAYS)

    def write(self, path, text):
        os.makedirs(os.path.dirname(path), exist_ok=True)
        with open(path, "w", encoding="utf-8") as file:
            file.write(text)

    def pack(self, gate, without=(), more=()):
        """Packs the modules into one file, with a stand-in for the one that gates."""
        folder = f"{self.room}/packed"
        shutil.rmtree(folder, ignore_errors=True)
        shutil.copytree(f"{CI}/protogate_ci", f"{folder}/protogate_ci", ignore=shutil.ignore_patterns("__pycache__", "gate.py", *without))
        for name, text in ((("gate.py", gate), *more) if gate is not None else more):
            self.write(f"{folder}/protogate_ci/{name}", text)
        zipapp.create_archive(folder, f"{self.room}/gate.pyz", main="protogate_ci.__main__:start")

    def shell(self, script, **more):
        """The status of a shell's call, in which GATE is how the gate is called."""
        environment = {**os.environ, "GATE": f"{self.room}/gate.pyz", "PY": sys.executable, **more}
        done = subprocess.run(["bash", "-c", script], cwd=self.top, env=environment, stdin=subprocess.DEVNULL, stdout=subprocess.PIPE,
                              stderr=subprocess.PIPE)
        self.said, self.advice = done.stdout.decode(), done.stderr.decode()
        return done.returncode

    def call(self, words="1", **more):
        return self.shell(f'"$PY" -I -B "$GATE" {words}', **more)


class Modules(Start):
    def test_variables(self):
        """Modules that the change brings aren't imported, whatever variables say."""
        for name in MODULES:
            for path in (f"{name}.py", f"home/.local/lib/python{sys.version_info[0]}.{sys.version_info[1]}/site-packages/{name}.py"):
                self.write(f"{self.top}/{path}", f"open({self.mark!r}, 'w')\n")
        for more in ({}, {"PYTHONPATH": ":"}, {"PYTHONPATH": self.top}, {"PYTHONSAFEPATH": "1"}, {"PYTHONHOME": self.top},
                     {"PYTHONSTARTUP": f"{self.top}/json.py"}, {"HOME": f"{self.top}/home"}, {"PYTHONUSERBASE": f"{self.top}/home/.local"},
                     {"PYTHONINSPECT": "1"}, {"PYTHONDONTWRITEBYTECODE": ""}):
            self.assertEqual((self.call("1 it", **more), self.said), (1, "1 it\n"), more)
            self.assertFalse(os.path.exists(self.mark), more)

    def test_programs_of_the_current_folder(self):
        """A folder of the path that counts from the current one has what the change brings."""
        self.pack("import os\ndef main(words):\n    print(os.environ['PATH'])\n    return 0\n")
        for path in (".:/usr/bin:/bin", ":/usr/bin:/bin", "/usr/bin:tools:/bin", "/usr/bin:/bin:"):
            self.assertEqual((self.call(PATH=path), self.said), (0, "/usr/bin:/bin\n"))


class Pythons(Start):
    def test_versions(self):
        """Stand-ins for older Pythons: this one, which says that it is another."""
        for version, status in (((2, 7, 18), 127), ((3, 4, 10), 127), ((3, 8, 20), 127), ((3, 9, 0), 1), ((3, 20, 0), 1)):
            code = f"import sys, runpy; sys.version_info = {version}; sys.argv = sys.argv[1:]; runpy.run_path(sys.argv[0], run_name='__main__')"
            self.assertEqual(self.shell(f'"$PY" -I -B -c "{code}" "$GATE" 1'), status, version)
            if status == 127:
                found = ".".join(map(str, version))
                wanted = f"protogate-ci: Python {found} is too old: version 3.9 or a later one is needed\n"
                self.assertEqual((self.said, self.advice), ("", wanted))

    def test_what_an_old_python_reads(self):
        """What starts the gate has no word that Python 2.7 or 3.4 can't read: here, those that came since."""
        for name in ("__main__.py", "__init__.py"):
            with open(f"{CI}/protogate_ci/{name}", encoding="utf-8") as file:
                tree = ast.parse(file.read(), feature_version=(3, 4))
            newer = (ast.JoinedStr, ast.NamedExpr, ast.AnnAssign, ast.AsyncFunctionDef, ast.Nonlocal, ast.YieldFrom, ast.Starred)
            self.assertEqual([it for it in ast.walk(tree) if isinstance(it, newer) or isinstance(it, ast.Raise) and it.cause], [])
            self.assertEqual([it for it in ast.walk(tree) if isinstance(it, ast.arguments) and (it.kwonlyargs or it.posonlyargs)], [])


class Outputs(Start):
    """What can't be printed is never a 0, nor a 1."""

    def test_closed_and_full_outputs(self):
        for where in (">&-", ">/dev/full", ">&- 2>&-", ">/dev/full 2>/dev/full", "<&- >&- 2>&-"):
            for word in ("0", "1"):
                self.assertEqual(self.call(f"{word} {where}"), 3, where)
        # (a pipe that nobody reads any more)
        self.assertEqual(self.shell('exec 3> >(:); wait $!; "$PY" -I -B "$GATE" 1 >&3'), 3)

    def test_closed_and_full_error_outputs(self):
        """Where there is nothing to say on it, the answer is the same."""
        for where in ("2>&-", "<&- 2>&-", "2>/dev/full"):
            self.assertEqual((self.call(f"1 {where}"), self.said), (1, "1\n"))
        self.pack("import sys\ndef main(words):\n    print('why', file=sys.stderr)\n    return 1\n")
        for where in ("2>&-", "2>/dev/full"):
            self.assertEqual(self.call(f"1 {where}"), 3)

    def test_what_is_opened_takes_no_closed_number(self):
        self.pack("import os\ndef main(words):\n    return 10 + os.open('/dev/null', os.O_RDONLY)\n")
        self.assertEqual(self.call("<&- >&- 2>&-") >= 13, True)


class Faults(Start):
    """What goes wrong in the gate itself."""

    def test_modules_that_are_missing_or_broken(self):
        self.pack(None)
        self.assertEqual((self.call(), self.said), (3, ""))
        self.assertIn("a module is missing or broken (", self.advice)
        for broken in ("def", "raise SystemError", "import sys; sys.exit(1)", "raise KeyboardInterrupt", ""):
            self.pack(broken)
            self.assertEqual((self.call(), self.said), (3, ""), broken)
        self.pack("from . import running\n" + SAYS, without=("running.py",))
        self.assertEqual((self.call(), self.said), (3, ""))

    def test_faults(self):
        """Memory, depth, signals, and statuses that are none."""
        for fault, status in (("raise MemoryError", 3), ("raise RecursionError", 3), ("raise KeyboardInterrupt", 3), ("raise SystemExit(1)", 3),
                              ("raise SystemExit('x')", 3), ("raise SystemExit(4)", 4), ("raise SystemExit", 0), ("return main(words)", 3),
                              ("return None", 3), ("return 256", 3), ("return -1", 3), ("return '0'", 3), ("return 2", 2),
                              ("import os, signal; os.kill(os.getpid(), signal.SIGSEGV)", -11)):
            self.pack(f"def main(words):\n    {fault}\n")
            self.assertIn(self.call(), (status, 128 - status if status < 0 else status), fault)


if __name__ == "__main__":
    unittest.main()

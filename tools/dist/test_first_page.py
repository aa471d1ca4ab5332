#!/usr/bin/env python3
"""Tests what the first page's example answers where the program isn't built, and once it is kept, and tells how long that takes.

usage: tools/dist/test_first_page.py [PROGRAM]    by default the program that was built; without `rt` on the path it is passed over

The answer of the kit's `rt try` has to be that of PROGRAM, and so has the answer of what it compiled. It takes some 225 processor seconds, and up to
3 GB of memory.
"""

import resource
import subprocess
import sys
import time

sys.dont_write_bytecode = True
from trial_checkout import FIRST_PAGE, KitCheckout, run_tests  # noqa: E402


class FirstPage(KitCheckout):
    def answers(self, name):
        """Answers the example. Returns the lines on standard error."""
        begin, before = time.monotonic(), resource.getrusage(resource.RUSAGE_CHILDREN)
        how = {"cwd": self.top, "stdin": subprocess.DEVNULL, "stdout": subprocess.PIPE, "stderr": subprocess.PIPE}
        done = subprocess.run(["./protogate", *FIRST_PAGE], check=False, **how)
        after = resource.getrusage(resource.RUSAGE_CHILDREN)
        spent = after.ru_utime + after.ru_stime - before.ru_utime - before.ru_stime
        print(f"{name} took {time.monotonic() - begin:.2f} seconds by the clock, and {spent:.2f} processor seconds", flush=True)
        self.assertEqual((done.returncode, done.stdout), self.said(FIRST_PAGE), done.stderr)
        self.assertEqual(done.stdout.splitlines()[0], b"breaks Order 3")
        return done.stderr.splitlines()

    def test_the_first_page(self):
        lines = self.answers("a first answer")
        self.assertIn(b"isn't proved", lines[0])
        if len(lines) == 2:
            self.assertIn(b"nothing is kept", lines[1])
            print("passed over, since this kit leaves no program to keep: a second answer", flush=True)
            return
        self.assertEqual(len(lines), 1)
        lines = self.answers("a second one")
        self.assertEqual(len(lines), 1)
        self.assertIn(b"this build isn't proved", lines[0])


if __name__ == "__main__":
    sys.exit(run_tests("first page"))

"""Runs the tests of a script, and says on lines of their own what was passed over for want of a tool, for the gate to tell."""

import os
import sys
import unittest

# What a test does with git hangs on no settings of the user, nor on the repository of a hook that runs it.
for _name in [it for it in os.environ if it.startswith("GIT_")]:
    del os.environ[_name]
os.environ.update({"GIT_CONFIG_NOSYSTEM": "1", "GIT_CONFIG_GLOBAL": "/dev/null"})


def tell_passed_over(result):
    """Prints a line for each reason why tests of the script that was called were passed over."""
    for reason in sorted({it for _, it in result.skipped}):
        count = sum(it == reason for _, it in result.skipped)
        print(f"passed over, {reason}: {count} of the tests of {sys.argv[0].rpartition('/')[2]}", flush=True)


def main():
    result = unittest.main(module="__main__", exit=False).result
    tell_passed_over(result)
    sys.exit(not result.wasSuccessful())

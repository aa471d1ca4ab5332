#!/usr/bin/env python3
"""Runs all tests of the package beside, or those of the modules that are named.

usage: ci/tests/try_package.py [MODULE..]
"""

import os
import sys
import unittest

sys.dont_write_bytecode = True
HERE = os.path.dirname(os.path.realpath(__file__))
FOLDERS = (HERE, os.path.join(HERE, "hostile"))
sys.path[:0] = FOLDERS


def tell_passed_over(result):
    """Prints a line for each reason why tests were passed over, for what runs all tests to tell."""
    reasons = [reason for _, reason in result.skipped]
    for reason in sorted({*reasons}):
        print(f"passed over, {reason}: {reasons.count(reason)} of the tests of {os.path.basename(sys.argv[0])}", flush=True)


if __name__ == "__main__":
    names = sys.argv[1:] or sorted(it[:-3] for folder in FOLDERS for it in os.listdir(folder) if it.startswith("test_") and it.endswith(".py"))
    done = unittest.main(module=None, argv=[sys.argv[0], *names], exit=False).result
    tell_passed_over(done)
    sys.exit(not done.wasSuccessful())

#!/usr/bin/env python3
"""Tests of what protoc is asked for a hostile change: how often, by which names, and which protoc it is."""

import os
import shutil
import sys
import unittest

sys.path.insert(0, os.path.dirname(os.path.dirname(os.path.realpath(__file__))))
from test_gate import PROTO, STAND_IN, Gate  # noqa: E402
from protogate_ci import protoc  # noqa: E402

# The program refuses the option, and protoc takes it; what refers to nothing both refuse.
TAKEN, REFUSED = (PROTO + f"option {it} = %s;\nmessage M%d {{ int32 a = 1; }}\n" for it in ("java_package", "(none)"))
COUNTS = """#!/bin/sh
echo "$*" >>'%s/calls'
exec '%s' "$@"
"""


@unittest.skipUnless(shutil.which("protoc"), "this needs protoc")
class Asked(Gate):
    def setUp(self):
        super().setUp()
        self.write({"tools/protoc": COUNTS % (self.room, shutil.which("protoc"))}, self.room)
        os.chmod(f"{self.room}/tools/protoc", 0o755)
        os.environ["PATH"] = f"{self.room}/tools:{os.environ['PATH']}"

    def files(self, count, refused=()):
        self.write({f"proto/{it:03}.proto": (REFUSED if it in refused else TAKEN) % ('"a"', it) for it in range(count)})
        self.commit()

    def calls(self):
        if not os.path.exists(f"{self.room}/calls"):
            return 0
        with open(f"{self.room}/calls", encoding="utf-8") as file:
            # (the stand-in reads sets by another one)
            return sum("--descriptor_set_out=" in it and "/dev/stdout" not in it for it in file.read().splitlines())

    def test_one_for_each_side(self):
        self.files(61)
        self.says(0, ["v1", "proto", "--with-protoc"], "told protoc 61 files", "compatible 61 types")
        self.assertEqual(self.calls(), 2)

    def test_some_that_fail(self):
        """The others are gated, after a call for each half on either side."""
        self.files(16, (3,))
        self.says(2, ["v1", "proto", "--with-protoc"], "refused E205 new proto/003.proto:2:1", "told protoc 15 files", "compatible 15 types")
        self.assertLessEqual(self.calls(), 2 * 9)

    def test_all_that_fail(self):
        """There is a bound where each fails."""
        self.files(100, range(100))
        self.assertEqual(self.gate("v1", "proto", "--with-protoc"), 2)
        self.assertLessEqual(self.calls(), 2 * protoc.MOST_CALLS)
        self.assertEqual(sum(it.startswith("refused E205") for it in self.heads()), 100)

    def test_names_that_are_no_options(self):
        """A file's name is no option of protoc, and no file of arguments."""
        names = ("--plugin=x", "-I", "@x", "a b", "'", "-")
        self.write({f"proto/{name}.proto": TAKEN % ('"a"', at) for at, name in enumerate(names)})
        self.write({"x.proto": "--descriptor_set_out=ran\n", "proto/x.proto": PROTO})
        self.commit()
        self.says(0, ["v1", "proto", "--with-protoc"], "told protoc 6 files", "compatible 6 types")
        os.chdir("proto")
        self.says(0, ["v1", ".", "--with-protoc"], "told protoc 6 files", "compatible 6 types")
        self.assertFalse(os.path.exists("ran"))

    def test_a_protoc_of_the_change(self):
        """A folder of the path that isn't named in full is one of the change's: nothing in it runs."""
        self.write({"proto/bin/protoc": f"#!/bin/sh\ntouch '{self.room}/ran'\n"})
        os.chmod("proto/bin/protoc", 0o755)
        self.files(1)
        # (the stand-in reads sets by a protoc too)
        path = f"{os.path.dirname(shutil.which('git'))}:/usr/bin:/bin"
        self.write({"protogate": f"#!/bin/sh\nPATH={path} exec '{sys.executable}' '{STAND_IN}' \"$@\"\n"}, self.room)
        os.chmod(f"{self.room}/protogate", 0o755)
        os.environ["PROTOGATE"] = f"{self.room}/protogate"
        os.environ["PATH"] = f"proto/bin::.:{os.environ['PATH']}"
        self.says(0, ["v1", "proto", "--with-protoc"], "told protoc 1 files", "compatible 1 type")
        self.assertFalse(os.path.exists(f"{self.room}/ran"))


if __name__ == "__main__":
    unittest.main()

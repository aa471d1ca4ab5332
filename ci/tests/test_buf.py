#!/usr/bin/env python3
"""Tests of the folders that buf.yaml and buf.work.yaml name, and of what `init` writes and says. The files are as buf's documentation has them."""

import os
import unittest

import common  # noqa: F401
from test_gate import ORDER, PROTO, Gate
from protogate_ci import buf
from protogate_ci.running import Stop

V2 = """# For details on buf.yaml configuration, visit https://buf.build/docs/configuration/v2/buf-yaml
version: v2
modules:
  - path: proto/foo  # the first
    name: buf.build/acme/foo
    excludes:
      - path: not/this
      - proto/foo/v1
  - path: "proto/bar"
    lint:
      use:
        - STANDARD
      ignore_only:
        path:
          - foo
  - name: buf.build/acme/top
    path: 'vendor'
lint:
  use:
    - STANDARD
breaking:
  use:
    - FILE
deps:
  - buf.build/googleapis/googleapis
"""
WORK = "version: v1\ndirectories:\n  - proto\n- vendor/api\n"


class Files(unittest.TestCase):
    def folders(self, **files):
        return buf.folders_of(lambda name: files.get(name.replace(".", "_"), None))

    def test_versions(self):
        for data, folders in (
                (V2, ["proto/foo", "proto/bar", "vendor"]), ("version: v2\n", ["."]), ("version: v1\nlint:\n  use:\n    - DEFAULT\n", ["."]), ("", ["."]),
                ("version: v1beta1\nbuild:\n  roots:\n    - proto\n    - other\n  excludes:\n    - x\n", ["proto", "other"]),
                ("version: v1beta1\nbuild:\n  excludes: [a]\n  roots: [proto, 'b c']\n", ["proto", "b c"]), ("version: v1beta1\n", ["."]),
                ("version: 'v2'\r\nmodules:\r\n  - path: a\r\n", ["a"]), ("\ufeffversion: v2\nmodules:\n- path: a\n- path: .\n", ["a", "."]),
                ("version: v2\nmodules:\n  -   name: x\n      path: a\n", ["a"])):
            self.assertEqual(self.folders(buf_yaml=data.encode()), folders, data)
        self.assertEqual(self.folders(buf_work_yaml=WORK.encode(), buf_yaml=V2.encode()), ["proto", "vendor/api"])
        self.assertEqual(self.folders(), [])

    def test_odd_files(self):
        """What isn't surely read is refused, and never half read."""
        for data in ("version: v2\nmodules:\n  - {path: a}\n", "version: v2\nmodules: [{path: a}]\n", "version: v2\nmodules:\n  - path: &x a\n",
                     "version: v2\nmodules:\n  - path: |\n      a\n", "version: v2\nmodules:\n  - *x\n", "version: v2\nmodules:\n  - path: [a]\n",
                     "version: v2\nmodules:\n  path: a\n", "{version: v2}\n", "version: v2\nmodules:\n  - path:\n      a\n", "version: v2\n? modules\n",
                     "version: v1beta1\nbuild:\n  roots:\n    proto: x\n", "version: v1beta1\nbuild: {roots: [a]}\n".replace("build: {", "build:\n  roots: {"),
                     "version: v2\nmodules:\n  - path: \"a\\x62\"\n", "version: v2\nmodules:\n  - path: 'it''s'\n", "  - a\n", "\0: x\n", "version: [v2]\n"):
            with self.assertRaises(Stop) as stopped:
                found = self.folders(buf_yaml=data.encode())
                self.fail((data, found))
            self.assertEqual(stopped.exception.status, 4)
            self.assertRegex(str(stopped.exception), r"^buf.yaml:\d+: ")
        with self.assertRaises(Stop):
            self.folders(buf_work_yaml=b"directories: {}\n")


class Runs(Gate):
    def test_folders(self):
        """They are those of the base revision, like the settings."""
        self.write({"buf.yaml": "version: v2\nmodules:\n  - path: a\n  - path: b\n", "a/order.proto": ORDER % "int32", "b/b.proto": PROTO + "message B { int32 b = 1; }\n"})
        self.commit()
        self.write({"a/order.proto": ORDER % "uint32", "buf.yaml": "version: v2\nmodules:\n  - path: b\n"})
        self.says(1, ["v1"], "cause value Order.quantity a/order.proto:4:10", "breaks Order", "compatible 1 type")
        self.says(0, ["v1", "b"], "compatible 1 type")
        self.assertEqual((self.gate("v1", "--no-settings"), self.said), (4, ""))
        self.write({"protogate.ini": "[gate]\nfolder = b\n"})
        self.commit("main")
        self.says(0, ["v1", "--base", "main"], "compatible 1 type")

    def test_folders_outside(self):
        self.write({"buf.work.yaml": "directories:\n  - ../..\n", "proto/a.proto": PROTO})
        self.commit()
        self.assertEqual((self.gate("v1"), self.said), (4, ""))

    def test_init(self):
        self.write({"buf.work.yaml": WORK, "proto/order.proto": ORDER % "int32", "proto/a.proto": PROTO + "option x = 1;\n", "vendor/api/b.proto": "message B {}",
                    "vendor/api/c.proto": 'syntax = "proto3";\nimport "b.proto";\nmessage C { B b = 1; }\n'})
        self.commit()
        self.assertEqual(self.gate("init"), 0, self.advice)
        with open("protogate.ini", encoding="utf-8") as file:
            self.assertEqual(file.read(), "[gate]\nfolder = proto\n    vendor/api\nreleases = v1\n")
        self.assertIn("protogate.ini is written. 1 of 4 files can be gated.\n", self.said)
        self.assertIn(".github/workflows/protogate.yml is written", self.said)
        with open(".github/workflows/protogate.yml", encoding="utf-8") as file:
            self.assertIn("sha256: ${{ vars.PROTOGATE_SHA256 }}", file.read())
        self.assertIn('E201: The first statement is not `syntax = "proto3";`. vendor/api/b.proto\nE205: Unknown option. proto/a.proto\n', self.said)
        self.assertEqual((self.gate("init"), self.said), (4, ""))
        self.commit("main")
        self.write({"proto/a.proto": PROTO})
        self.assertEqual(self.gate("--base", "main"), 2)

    def test_init_elsewhere(self):
        """Without any file of buf there is a folder `proto`, or the top; a link in the place of the settings isn't followed."""
        self.write({"proto/order.proto": ORDER % "int32"})
        self.assertEqual(self.gate("init"), 0, self.advice)
        os.unlink("protogate.ini")
        os.symlink(f"{self.room}/away", "protogate.ini")
        self.assertEqual((self.gate("init"), os.path.lexists(f"{self.room}/away")), (4, False))
        os.unlink("protogate.ini")
        os.rename("proto", "api")
        self.assertEqual(self.gate("init"), 0, self.advice)
        with open("protogate.ini", encoding="utf-8") as file:
            self.assertEqual(file.read(), "[gate]\nfolder = .\n")


if __name__ == "__main__":
    unittest.main()

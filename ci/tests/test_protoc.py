#!/usr/bin/env python3
"""Tests of files that the program refuses and protoc compiles: what is gated so, and what stays refused. They need protoc and its library's files."""

import os
import shutil
import subprocess
import unittest

from common import Repository
from test_gate import PROTO, Gate
from protogate_ci import sets

CUSTOM = """syntax = "proto2";
import "google/protobuf/descriptor.proto";
extend google.protobuf.FieldOptions { optional string mask = 50001; }
message Old { required int32 a = 1; }
"""
USER = 'syntax = "proto3";\npackage shop;\nimport "custom.proto";\n\nmessage User {\n  string name = 1 [(mask) = "x"];\n  %s age = 2;\n}\n'
HAS_PROTOC = shutil.which("protoc") and os.path.exists("/usr/include/google/protobuf/descriptor.proto")
REFUSED = "refused E201 new proto/custom.proto:1:1"


@unittest.skipUnless(HAS_PROTOC, "this needs protoc, and its library below /usr/include")
class Sets(Gate):
    def files(self, **more):
        self.write({f"proto/{name}.proto": text for name, text in more.items()})

    def test_options(self):
        """A file that imports a proto2 file for options alone is gated, with positions; the proto2 file itself isn't."""
        self.files(custom=CUSTOM, user=USER % "int32", plain=PROTO + "message A { int32 a = 1; }\n")
        self.commit()
        self.says(2, ["v1", "proto"], REFUSED, "compatible 1 type")
        self.assertIn("Not gated for it: proto/user.proto.", self.said)
        self.says(2, ["v1", "proto", "--with-protoc"], REFUSED, "told protoc 1 files", "compatible 2 types")
        self.assertNotIn("Not gated for it", self.said)
        skip = ["v1", "proto", "--with-protoc", "--skip", "path:proto/custom.proto"]
        self.says(0, skip, "skipped path:proto/custom.proto", "told protoc 1 files", "compatible 2 types")
        self.files(user=USER % "uint32")
        self.says(1, skip, "cause value shop.User.age proto/user.proto:7:10", "breaks shop.User", "skipped path:proto/custom.proto", "told protoc 1 files",
                  "compatible 1 type")

    def test_one_side_alone(self):
        """An option that comes, or a file that goes, is no removed type more than it is."""
        self.files(custom=CUSTOM, user=PROTO + "package shop;\nmessage User { string name = 1; int32 age = 2; }\n")
        self.commit()
        skip = ["v1", "proto", "--with-protoc", "--skip", "path:proto/custom.proto"]
        self.files(user=USER % "int32")
        self.says(0, skip, "skipped path:proto/custom.proto", "told protoc 1 files", "compatible 1 type")
        self.commit("v2")
        os.unlink("proto/user.proto")
        self.says(2, ["v2", *skip[1:]], "removed shop.User", "skipped path:proto/custom.proto", "told protoc 1 files")
        self.says(0, ["v2", "proto", "--new", "v2", *skip[2:]], "skipped path:proto/custom.proto", "told protoc 1 files", "compatible 1 type")

    def test_what_needs_proto2(self):
        """A message that holds one of a proto2 file stays refused, and so does what protoc refuses. The others are gated."""
        self.files(custom=CUSTOM, user=USER % "int32", holds=PROTO + 'import "custom.proto";\nmessage Holds { Old old = 1; }\n',
                   broken=PROTO + "option (none) = 1;\n", more=(USER % "int32").replace("User", "More"))
        self.commit()
        self.assertEqual(self.gate("v1", "proto", "--with-protoc"), 2)
        self.assertEqual(self.heads(), ["refused E205 new proto/broken.proto:2:1", REFUSED, "told protoc 2 files", "compatible 2 types"])
        self.assertIn("Not gated for it: proto/holds.proto.", self.said)

    def test_what_moves(self):
        """A type that moves between a file that protoc compiles and one that the program takes isn't compared, and is refused."""
        self.files(custom=CUSTOM, user=USER % "int32", plain=PROTO + "message A { int32 a = 1; }\n")
        self.commit()
        self.files(user=(USER % "int32").replace("User", "Other"), plain=PROTO + "package shop;\nmessage User { int32 age = 2; }\n")
        self.assertEqual(self.gate("v1", "proto", "--with-protoc", "--skip", "path:proto/custom.proto", "--skip", "type:A"), 2)
        self.assertIn("refused apart new", self.heads())

    def test_compatibility_of_folders(self):
        """What protoc compiles has the compatibility of its folder too."""
        self.write({"proto/custom.proto": CUSTOM, "proto/out/user.proto": USER % "int32"})
        self.commit()
        self.write({"proto/out/user.proto": USER % "int64", "protogate.ini": "[for path:proto/out]\ncompatibility = forward\n"})
        self.commit("main")
        skip = ["v1", "proto", "--with-protoc", "--skip", "path:proto/custom.proto"]
        self.assertEqual(self.gate(*skip), 0)
        self.assertEqual(self.gate(*skip, "--base", "main"), 1)
        self.assertIn("breaks shop.User (forward)", self.heads())

    def test_no_protoc(self):
        self.files(custom=CUSTOM)
        self.commit()
        programs = f"{self.room}/programs"
        os.mkdir(programs)
        for name in ("git", "python3"):
            os.symlink(shutil.which(name), f"{programs}/{name}")
        os.environ["PATH"] = f"{programs}:proto"
        self.assertEqual(self.gate("v1", "proto", "--with-protoc"), 2)
        self.files(user=USER % "int32")
        self.assertEqual((self.gate("v1", "proto", "--with-protoc"), self.said), (3, ""))
        self.assertIn("there is no protoc", self.advice)


@unittest.skipUnless(HAS_PROTOC, "this needs protoc, and its library below /usr/include")
class Bytes(Repository):
    """What is read and written of sets, by protoc's own reading of them."""

    def made(self, text, *names, **files):
        self.write({f"{name}.proto": it for name, it in {**files, "a": text}.items()})
        subprocess.run(["protoc", "-I.", "-I/usr/include", "--include_imports", "--include_source_info", "--descriptor_set_out=set.pb", "a.proto", *names],
                       check=True, stderr=subprocess.DEVNULL)
        with open("set.pb", "rb") as file:
            return {sets.word(it, sets.NAME): it for it in sets.all_of(file.read(), 1)}

    def decoded(self, file):
        return subprocess.run(["protoc", "-I/usr/include", "--decode=google.protobuf.FileDescriptorProto", "google/protobuf/descriptor.proto"], input=file,
                              stdout=subprocess.PIPE, check=True).stdout.decode()

    def test_without(self):
        """The imports that are left keep their places, and nothing else changes."""
        files = {name: PROTO + f"message {name.upper()} {{}}\n" for name in ("b", "c", "d")}
        files["e"] = CUSTOM
        found = self.made(PROTO + 'import "b.proto";\nimport public "e.proto";\nimport public "c.proto";\nimport public "d.proto";\nmessage A { D d = 300; }\n',
                          **files)
        whole, less = (self.decoded(it) for it in (found["a.proto"], sets.without(found["a.proto"], {"e.proto", "other.proto"})))
        self.assertEqual([it for it in less.split("\n") if "dependency" in it], [
            '  dependency: "b.proto"'.strip(), 'dependency: "c.proto"', 'dependency: "d.proto"', "public_dependency: 1", "public_dependency: 2"])
        self.assertEqual([it for it in less.split("\n") if "dependency" not in it],
                         [it for it in whole.partition("source_code_info")[0].split("\n") if "dependency" not in it][:-1] + whole.split("\n")[-2:])

    def test_places(self):
        text = PROTO + "package x.y;\nmessage A {\n  int32 a = 1;\n  message B { repeated\n    string b = 2; }\n  map<string, B> m = 3;\n  oneof o { A c = 4; }\n}\n"
        found = sets.places_of(self.made(text)["a.proto"], "proto/a.proto")
        self.assertEqual({name: tuple(it) for name, it in found.items() if "Entry" not in name}, {
            "x.y.A.a": ("proto/a.proto", 4, 9), "x.y.A.B.b": ("proto/a.proto", 6, 12), "x.y.A.m": ("proto/a.proto", 7, 18),
            "x.y.A.c": ("proto/a.proto", 8, 15)})

    def test_what_is_cut(self):
        """A set that isn't whole is no set, wherever it is cut."""
        whole = self.made(PROTO + "message A { int32 a = 1; }\n")["a.proto"]
        for at in range(1, len(whole)):
            try:
                sets.places_of(whole[:at], "a")
                list(sets.records(whole[:at]))
            except (IndexError, KeyError):
                continue
            self.assertEqual(b"".join(it for *_, it in sets.records(whole[:at])), whole[:at])


if __name__ == "__main__":
    unittest.main()

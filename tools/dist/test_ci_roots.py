#!/usr/bin/env python3
"""Tests of where examples/ci/gate.sh looks for imports, on trees of its own: import roots and the library's files.

usage: tools/dist/test_ci_roots.py [PROGRAM]    by default the program that was built

A type that has an int64 on the old side and an int32 on the new one breaks. So a tree that is narrowed and not gated shows as a status 0.
"""

import os
import shutil
import sys
import unittest

sys.dont_write_bytecode = True
import test_ci  # noqa: E402
from test_ci import HEAD  # noqa: E402
from test_ci_trees import NARROW, WIDE, Trees  # noqa: E402


class Roots(Trees):
    """Folders for imports, and the library's files."""

    IMPORT = HEAD + 'import "m/m.proto"; message A { p.M a = 1; }'

    def test_an_include(self):
        """It is laid out of the same revision, and only what imports it is gated."""
        self.write({"proto/a.proto": self.IMPORT, "third/m/m.proto": WIDE % "M", "third/other.proto": "no text"})
        self.commit()
        self.assertEqual(self.call("v1", "proto")[0], 2)
        self.assertEqual(self.types("v1", "proto", "--include", "third"), (0, ["compatible A"]))
        self.write({"third/m/m.proto": "\n" + NARROW % "M"})
        cause = "cause value 6 088080808008 1 p.M.a third/m/m.proto:2:30 p.M.a third/m/m.proto:3:30"
        status, said = self.call("v1", "proto", "--include=./third/")
        self.assertEqual((status, said[0], said[2:]), (1, cause, ["breaks A 8"]))
        status, said = self.call("v1", "proto", "--include=./third/", "A")
        named = "breaks A 8 witness 0a06088080808008 at p.M.a third/m/m.proto:2:30 p.M.a third/m/m.proto:3:30"
        self.assertEqual((status, said[2:]), (1, [named]))
        status, said = self.call("v1", "../../proto", "--include", "..", "--github", at=f"{self.top}/third/m")
        self.assertIn("::error file=third/m/m.proto,title=protogate%3A value p.M.a,line=3,col=30::", said[3])
        record = self.record("v1", "proto", "--include", "third")
        self.assertEqual(record["call"][-4:], ["--include", "third", "v1", "proto"])

    def test_what_only_an_include_has(self):
        """Its types aren't gated, so what breaks in one that no gated type holds isn't told."""
        self.write({"proto/a.proto": self.IMPORT, "third/m/m.proto": WIDE % "M" + " message N { int64 n = 1; }"})
        self.commit()
        self.write({"third/m/m.proto": WIDE % "M" + " message N { int32 n = 1; }"})
        self.assertEqual(self.call("v1", "proto", "--include", "third"), (0, ["compatible 1 type"]))

    def test_several_includes(self):
        self.write({"proto/a.proto": HEAD + 'import "m/m.proto"; import "m/n.proto"; message A { p.M a = 1; p.N b = 2; }'})
        self.write({"one/m/m.proto": WIDE % "M", "two/m/n.proto": WIDE % "N", "one/README": "one", "two/README": "two", "proto/m/o.proto": HEAD})
        self.commit()
        words = ("v1", "proto", "--include", "one", "--include", "two")
        self.assertEqual(self.types(*words), (0, ["compatible A"]))
        self.write({"two/m/n.proto": NARROW % "N"})
        self.assertEqual(self.broken(*words), ["two/m/n.proto"])
        self.write({"two/m/m.proto": WIDE % "M", "two/m/n.proto": WIDE % "N"})
        self.assertEqual(self.types(*words), (0, ["compatible A"]))
        self.write({"two/m/m.proto": NARROW % "M"})
        self.assertEqual(self.types(*words), (2, ["refused new twice m/m.proto", "compatible A"]))
        self.assertIn("one/m/m.proto and two/m/m.proto go by one name, and differ: ", self.advice)

    def test_an_include_that_is_a_submodule(self):
        self.write({"m/m.proto": WIDE % "M"}, f"{self.room.name}/library")
        self.commit(f"{self.room.name}/library")
        self.write({"proto/a.proto": self.IMPORT})
        self.git("init", "-q")
        self.git("-c", "protocol.file.allow=always", "submodule", "--quiet", "add", f"{self.room.name}/library", "third")
        self.commit()
        self.write({"third/m/m.proto": NARROW % "M"})
        self.assertEqual(self.broken("v1", "proto", "--include", "third"), ["third/m/m.proto"])

    def test_a_submodule_of_an_include_that_is_not_checked_out(self):
        """Another include's file of the same name doesn't count in its place."""
        library = f"{self.room.name}/library"
        self.write({"m.proto": WIDE % "M"}, library)
        self.commit(library)
        self.write({"proto/a.proto": self.IMPORT, "two/m/m.proto": WIDE % "M"})
        self.git("init", "-q")
        self.git("-c", "protocol.file.allow=always", "submodule", "--quiet", "add", library, "third/m")
        self.commit()
        self.git("submodule", "--quiet", "deinit", "--force", "third/m")
        words = ("v1", "proto", "--include", "third")
        self.assertEqual(self.call(*words)[1], ["refused new E301 a.proto:2:8"])
        self.assertEqual(self.types(*words, "--include", "two"), (2, ["refused new E301 a.proto:2:8", "refused new submodule m"]))
        self.assertEqual(self.call(*words, "--include", "two", "--skip", "m"), (2, ["refused new E301 a.proto:2:8", "skipped m"]))

    def test_the_library_in_place_of_what_is_closed(self):
        """A link that leads out, or a submodule that isn't checked out, gives way to no file of the library, also where it is skipped."""
        path = "google/protobuf/timestamp.proto"
        text = HEAD + f'import "{path}"; message A {{ google.protobuf.Timestamp t = 1; }}'
        for top, words, target in (("third", ("--include", "third"), "../../../evil.proto"), ("proto", ("--skip", "google"), "../../../evil.proto"),
                                   ("third", ("--include", "third"), "gone.proto")):
            shutil.rmtree(self.top)
            self.write({"proto/a.proto": text, f"{top}/{path}": HEAD + "package google.protobuf; message Timestamp { int64 seconds = 1; }"})
            self.commit()
            self.write({"evil.proto": HEAD + "package google.protobuf; message Timestamp { string seconds = 1; }"})
            os.remove(f"{self.top}/{top}/{path}")
            self.link(target, f"{top}/{path}")
            status, said = self.call("v1", "proto", *words)
            self.assertEqual((status, said[0]), (2, "refused new E301 a.proto:2:8"), top)

    def test_an_include_that_became_a_submodule(self):
        """One that isn't checked out, or a folder below one, isn't a folder that came or went."""
        library = f"{self.room.name}/library"
        self.write({"m.proto": WIDE % "M", "src/m.proto": WIDE % "M"}, library)
        self.commit(library)
        self.write({"proto/a.proto": self.IMPORT, "third/m/m.proto": WIDE % "M", "two/a.txt": ""})
        self.commit()
        self.git("rm", "-q", "-r", "third", "two")
        for path in ("third", "two"):
            self.git("-c", "protocol.file.allow=always", "submodule", "--quiet", "add", library, path)
        self.git("commit", "-q", "-m", "v2")
        self.git("tag", "v2")
        self.assertEqual(self.call("v2", "proto", "--include", "two/src"), (4, []))
        self.assertIn("two/src is below two, which was a submodule: name that folder", self.advice)
        self.git("submodule", "--quiet", "deinit", "--force", "third")
        self.assertEqual(self.call("v1", "proto", "--include", "third"), (4, []))
        self.assertIn("third is a submodule that isn't checked out", self.advice)

    def test_an_include_of_one_side(self):
        self.write({"proto/a.proto": HEAD + "message A { }"})
        self.commit()
        self.assertEqual(self.call("v1", "proto", "--include", "third"), (4, []))
        self.assertEqual(self.call("v1", "proto", "--include", self.room.name), (4, []))
        self.write({"third/m/m.proto": WIDE % "M", "proto/b.proto": HEAD + 'import "m/m.proto"; message B { p.M a = 1; }'})
        self.assertEqual(self.types("v1", "proto", "--include", "third"), (0, ["added B", "compatible A"]))

    def test_what_an_include_may_not_reach(self):
        """An absolute link of an include isn't read on either side."""
        self.write({"today/m.proto": WIDE % "M"}, self.room.name)
        self.write({"proto/a.proto": self.IMPORT})
        self.link(f"{self.room.name}/today", "third/m")
        self.commit()
        self.assertEqual(self.call("v1", "proto", "--include", "third"), (2, [f"refused {it} E301 a.proto:2:8" for it in ("old", "new")]))


    def test_a_file_where_an_include_has_a_folder(self):
        """What is closed in a folder stays closed, whatever another include has by the folder's name."""
        self.write({"today/m.proto": WIDE % "M"}, self.room.name)
        self.write({"proto/a.proto": self.IMPORT, "two/m": "a file", "third/README": "mine"})
        self.link(f"{self.room.name}/today/m.proto", "third/m/m.proto")
        self.commit()
        said = [f"refused {it} E301 a.proto:2:8" for it in ("old", "new")]
        self.assertEqual(self.call("v1", "proto", "--include", "third", "--include", "two"), (2, said))


class Library(Trees):
    """The library's own files. Those of these tests are in no library, but where a test puts them."""

    IMPORT = HEAD + 'import "google/protobuf/%s.proto"; message A { google.protobuf.L a = 1; int64 b = 2; }'
    TEXT = HEAD + "package google.protobuf; message L { }"
    VALUE = "  The new program reads this value as another one, or refuses it."

    def protoc_of(self, texts):
        """Puts a protoc on the path, with a library beside it that has these source files."""
        self.write({"bin/protoc": "#!/bin/sh\nexit 1\n"}, self.room.name)
        self.write({f"include/google/protobuf/{name}.proto": text for name, text in texts.items()}, self.room.name)
        os.chmod(f"{self.room.name}/bin/protoc", 0o755)
        self.env["PATH"] = f"{self.room.name}/bin:{os.environ['PATH']}"

    def release_import(self, name):
        text = self.IMPORT % name
        self.release({"a.proto": text}, {"a.proto": text.replace("int64", "int32")})

    def test_beside_protoc(self):
        self.protoc_of({"here": self.TEXT})
        self.release_import("here")
        place = f"a.proto:2:{(self.IMPORT % 'here').split(chr(10))[1].index('b = 2') + 1}"
        self.assertEqual(self.call("v1", "proto"), (1, [f"cause value 6 108080808008 2 A.b {place} A.b {place}", self.VALUE, "breaks A 6"]))

    def test_below_an_include(self):
        """What the repository has goes before what the machine has."""
        self.protoc_of({"here": "no text"})
        self.write({"third/google/protobuf/here.proto": self.TEXT})
        self.release_import("here")
        self.assertEqual(self.broken("v1", "proto", "--include", "third"), ["a.proto"])

    @unittest.skipUnless(os.path.isfile("/usr/include/google/protobuf/timestamp.proto"), "the system has no library")
    def test_of_the_system(self):
        self.write({"none": ""}, f"{self.room.name}/bin")
        text = HEAD + 'import "google/protobuf/timestamp.proto"; message A {\n google.protobuf.Timestamp a = 1;\n int64 b = 2; }'
        self.release({"a.proto": text}, {"a.proto": text.replace("int64", "int32")})
        self.assertEqual(self.call("v1", "proto"), (1, ["cause value 6 108080808008 2 A.b a.proto:4:8 A.b a.proto:4:8", self.VALUE, "breaks A 6"]))

    def test_a_fault_in_the_library(self):
        """Its position is where the file is."""
        self.protoc_of({"here": HEAD + "package google.protobuf;\nmessage L { int32 a = 0; }"})
        self.release_import("here")
        place = f"{os.path.realpath(self.room.name)}/include/google/protobuf/here.proto:3:19"
        status, said = self.call("v1", "proto", "--github")
        self.assertEqual((status, said[:2]), (2, [f"refused {it} E401 {place}" for it in ("old", "new")]))
        self.assertNotIn("file=", said[3])

    def test_what_is_not_found(self):
        """Only what may be the library's comes with protoc. Its proto2 files aren't taken."""
        self.protoc_of({"two": 'syntax = "proto2";'})
        for name in ("google/protobuf/two.proto", "google/type/money.proto"):
            text = HEAD + f'import "{name}";'
            self.write({"proto/a.proto": text})
            self.commit()
            self.assertEqual(self.call("v1", "proto", "--no-with-protoc"), (2, ["refused old E301 a.proto:2:8", "refused new E301 a.proto:2:8"]))
            self.assertEqual("without --no-with-protoc" in self.advice, name.startswith("google/protobuf/"), name)


if __name__ == "__main__":
    if len(sys.argv) > 1 and not sys.argv[1].startswith("-"):
        test_ci.PROGRAM = os.path.realpath(sys.argv.pop(1))
    test_ci.run_tests.main()

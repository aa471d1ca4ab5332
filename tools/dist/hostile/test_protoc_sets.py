#!/usr/bin/env python3
"""Tests of what examples/ci/gate.sh takes of the sets that protoc makes: proto2 files, what needs them, and what a change may try.

usage: tools/dist/hostile/test_protoc_sets.py [PROGRAM]    by default the program that was built; it is passed over where there is no protoc
"""

import os
import shutil
import sys

sys.dont_write_bytecode = True
sys.path.insert(0, os.path.dirname(os.path.realpath(__file__)))
from test_options import LANGUAGE, PROTO2, Options  # noqa: E402
import test_ci  # noqa: E402
from test_ci import HEAD, NO_PROTOC  # noqa: E402


@NO_PROTOC
class Proto2(Options):
    """Files that aren't proto3, and what needs them."""

    OLD = PROTO2 + "package o; message O { optional int32 a = 1; } enum E { Z = 1; }"
    # It imports the file, and holds nothing of it.
    IMPORTS = HEAD + 'import "o.proto"; message I { int64 a = 1; }'
    # It holds a message of it, by way of another file.
    BETWEEN = HEAD + 'import "o.proto"; message W { o.O o = 1; }'
    HOLDS = HEAD + 'import "w.proto"; message H { W w = 1; }'

    def test_it_is_one_line(self):
        texts = {"o.proto": self.OLD, "w.proto": self.BETWEEN, "h.proto": self.HOLDS}
        self.release(texts, texts)
        self.assertEqual(self.call("v1", "proto"), (2, ["refused new E201 o.proto:1:1"]))
        (refusal,) = self.record("v1", "proto")["refusals"]
        self.assertEqual(sorted(refusal["texts"]), ["h.proto", "o.proto", "w.proto"])
        self.assertEqual(self.call("v1", "proto", "--no-with-protoc"), (2, ["refused new E201 o.proto:1:1"]))

    def test_two_of_them(self):
        """Each is a line, also where one holds what the other has, and a third imports both."""
        texts = {"o.proto": self.OLD, "q.proto": PROTO2 + 'import "o.proto"; message Q { optional o.O o = 1; }',
                 "i.proto": HEAD + 'import "q.proto"; import "o.proto"; message I { int64 a = 1; }'}
        self.release(texts, texts)
        self.assertEqual(self.call("v1", "proto"), (2, ["refused new E201 o.proto:1:1", "refused new E201 q.proto:1:1", "compatible 1 type"]))

    def test_one_side_alone(self):
        self.release({"o.proto": self.OLD}, {"o.proto": HEAD + "package o; message O { int32 a = 1; }"})
        self.assertEqual(self.call("v1", "proto"), (2, ["refused old E201 o.proto:1:1"]))

    def test_it_is_skipped(self):
        """It is no fault, and what needs it is named by itself, with the reason."""
        texts = {"o.proto": self.OLD, "i.proto": self.IMPORTS, "w.proto": self.BETWEEN, "h.proto": self.HOLDS}
        self.release(texts, texts)
        skip = ("--skip", "o.proto")
        status, said = self.call("v1", "proto", *skip)
        self.assertEqual((status, said), (2, ["refused new import h.proto", "refused new import w.proto", "skipped o.proto", "compatible 1 type"]))
        self.assertIn("gate: W.o holds o.O of o.proto, which isn't proto3, or leave it out: --skip w.proto\n", self.advice)
        self.assertIn("gate: W.o holds o.O of o.proto, which isn't proto3, or leave it out: --skip h.proto\n", self.advice)
        more = (*skip, "--skip", "w.proto", "--skip", "h.proto")
        self.assertEqual(self.types("v1", "proto", *more), (0, ["skipped o.proto", "skipped w.proto", "skipped h.proto", "compatible I"]))
        status, said = self.call("v1", "proto", *skip, "--no-with-protoc")
        self.assertEqual((status, said), (2, [*(f"refused new import {it}.proto" for it in "hiw"), "skipped o.proto"]))
        self.assertIn("i.proto imports o.proto, which is left out, and refused for E201 (protoc may make a set without that file)", self.advice)

    def test_what_imports_it_is_gated(self):
        """It is narrowed."""
        texts = {"o.proto": self.OLD, "i.proto": self.IMPORTS}
        self.release(texts, {**texts, "i.proto": self.IMPORTS.replace("int64", "int32")})
        status, said = self.call("v1", "proto")
        self.assertEqual((status, len(self.causes(said)), said[-2:]), (2, 1, ["refused new E201 o.proto:1:1", "breaks I 6"]))
        self.assertEqual(self.call("v1", "proto", "--skip", "o.proto")[0], 1)

    def test_a_named_type(self):
        texts = {"o.proto": self.OLD, "h.proto": self.HOLDS, "w.proto": self.BETWEEN, "i.proto": self.IMPORTS}
        self.release(texts, texts)
        for name, wanted in (("H", 2), ("o.O", 2), ("I", 0)):
            self.assertEqual(self.call("v1", "proto", "--skip", "o.proto", name)[0], wanted, name)

    def test_an_option_that_is_reached(self):
        """A message that an option is of may be a field's type too."""
        self.set_up_third()
        text = HEAD + 'import "validate/validate.proto"; message A { int64 a = 1; validate.StringRules r = 2; }'
        self.release({"a.proto": text}, {"a.proto": text.replace("int64", "int32")})
        self.assertEqual(self.call("v1", "proto"), (2, ["refused new import a.proto"]))
        self.assertIn("A.r holds validate.StringRules of validate/validate.proto, which isn't proto3", self.advice)

    def test_one_that_has_another_fault_first(self):
        """A token is looked at before the syntax, and protoc knows which it is."""
        old = PROTO2 + "message O { optional float a = 1 [default = 1.5]; optional bytes b = 2 [default = '\\xff']; }"
        texts = {"o.proto": old, "h.proto": HEAD + 'import "o.proto"; message H { O o = 1; }', "i.proto": self.IMPORTS}
        self.release(texts, texts)
        self.assertEqual(self.call("v1", "proto"), (2, ["refused new E201 o.proto", "compatible 1 type"]))
        self.assertEqual(self.call("v1", "proto", "--skip", "o.proto"), (2, ["refused new import h.proto", "skipped o.proto", "compatible 1 type"]))
        said = [*(f"refused new import {it}.proto" for it in "hi"), "skipped o.proto"]
        self.assertEqual(self.call("v1", "proto", "--skip", "o.proto", "--no-with-protoc"), (2, said))

    def test_one_that_is_skipped_for_another_fault(self):
        """What needs it is named, and not the file that is left out."""
        texts = {"o.proto": HEAD + "message O { int32 a = 0; }", "h.proto": HEAD + 'import "o.proto"; message H { O o = 1; }'}
        self.release(texts, texts)
        self.assertEqual(self.call("v1", "proto", "--skip", "o.proto"), (2, ["refused new import h.proto", "skipped o.proto"]))
        self.assertIn("h.proto imports o.proto, which is left out, and refused for E401", self.advice)
        self.assertEqual(self.call("v1", "proto"), (2, ["refused old E401 o.proto:2:19", "refused new E401 o.proto:2:19"]))

    def test_the_language_itself(self):
        text = HEAD + LANGUAGE + "message A { repeated google.protobuf.FileDescriptorProto a = 1; }"
        self.release({"a.proto": text}, {"a.proto": text})
        self.assertEqual(self.call("v1", "proto"), (2, ["refused new import a.proto"]))


@NO_PROTOC
class Changes(Options):
    """What a change may try, to get its file out of the gate by an option."""

    PLAIN = HEAD + 'import "p.proto"; message A { int64 a = 1; q.T t = 2; q.E e = 3; map<string, q.M> m = 4; }'
    WITH = PLAIN.replace("int64 a = 1", "int64 a = 1 [ctype = CORD]")
    PUBLIC = HEAD + 'import public "q.proto";'
    HELD = HEAD + "package q; message T { int64 t = 1; } enum E { Z = 0; } message M { N n = 1; message N { int64 n = 1; } }"

    def texts(self, **more):
        return {"a.proto": self.WITH, "p.proto": self.PUBLIC, "q.proto": self.HELD, **more}

    def test_what_is_held_by_way_of_public_imports(self):
        self.release(self.texts(), self.texts())
        self.assertEqual(self.call("v1", "proto"), (0, ["compatible 4 types"]))
        for old, new, field in (("int64 t", "int32 t", "q.T.t"), ("int64 n", "int32 n", "q.M.N.n")):
            self.write({"proto/q.proto": self.HELD.replace(old, new)})
            status, said = self.call("v1", "proto", "A")
            self.assertEqual((status, [it.split()[5] for it in self.causes(said)]), (1, [field]))

    def test_a_held_type_of_an_include(self):
        """Neither its file nor the one between is gated: the set has it all the same."""
        self.write({"protogate.ini": "[gate]\ninclude = third\n", "third/p.proto": self.PUBLIC, "third/q.proto": self.HELD})
        self.release({"a.proto": self.WITH}, {"a.proto": self.WITH})
        self.assertEqual(self.call("v1", "proto")[0], 0)
        self.write({"third/q.proto": self.HELD.replace("int64 n", "int32 n")})
        status, said = self.call("v1", "proto")
        column = self.HELD.split("\n")[1].index("n = 1; } }") + 1
        self.assertEqual((status, [it.split()[-1] for it in self.causes(said)]), (1, [f"third/q.proto:2:{column}"]))

    def test_a_file_that_becomes_one_with_options(self):
        plain = self.texts(**{"a.proto": self.PLAIN})
        self.release(plain, self.texts(**{"a.proto": self.WITH.replace("int64", "int32")}))
        self.assertEqual(self.call("v1", "proto")[0], 1)
        self.git("add", ".")
        self.git("commit", "-q", "-m", "v2")
        self.write({"proto/a.proto": self.PLAIN.replace("int64", "sint64")})
        self.assertEqual(self.call("HEAD", "proto")[0], 1)

    def test_a_type_in_two_files(self):
        """The second declaration is narrowed, and in a file with an option."""
        texts = {"a.proto": HEAD + "message A { int64 a = 1; }"}
        self.release(texts, {**texts, "b.proto": HEAD + "message A { int32 a = 1; bytes b = 2 [ctype = CORD]; }"})
        status, said = self.call("v1", "proto")
        self.assertEqual((status, [it.split()[-1] for it in self.causes(said)]), (1, ["b.proto:2:19"]))

    def test_a_type_that_moves(self):
        texts = {"a.proto": HEAD + "message A { int64 a = 1; }", "b.proto": HEAD}
        self.release(texts, {"a.proto": HEAD, "b.proto": HEAD + "message A { int32 a = 1; bytes b = 2 [ctype = CORD]; }"})
        self.assertEqual(self.call("v1", "proto")[0], 1)

    def test_a_weak_import(self):
        text = HEAD + 'import weak "q.proto"; message A { int64 a = 1; q.T t = 2; }'
        self.release({"a.proto": text, "q.proto": self.HELD}, {"a.proto": text, "q.proto": self.HELD.replace("int64 t", "int32 t")})
        self.assertEqual(self.call("v1", "proto")[0], 1)

    def test_a_set_that_breaks_a_rule(self):
        """protoc takes it, and the program doesn't: it is refused by that rule, also where an option is before it."""
        entry = "message T { option map_entry = true; int32 key = 1; int32 value = 2; }"
        option = "message B { bytes b = 1 [ctype = CORD]; } "
        texts = {"a.proto": HEAD + entry, "b.proto": HEAD + option + entry.replace("T", "U"),
                 "c.proto": HEAD + "message C { bytes b = 1 [ctype = CORD]; }"}
        self.release(texts, texts)
        status, said = self.call("v1", "proto")
        self.assertEqual((status, [it.split()[3].partition(":")[0] for it in said if it.startswith("refused")], said[-1]),
                         (2, ["a.proto", "b.proto"] * 2, "compatible 1 type"))
        self.assertTrue(all(it.startswith(("refused old E", "refused new E")) for it in said[:-1]), said)

    def test_what_protoc_refuses_too(self):
        """The refusal stays, with what protoc says, and with an option before the fault."""
        faults = {"number": "int32 a = 1 [ctype = CORD]; int32 b = 1;", "reserved": "reserved 2; bytes a = 2 [ctype = CORD];",
                  "name": "bytes foo_bar = 1 [ctype = CORD]; bytes fooBar = 2;", "type": "bytes a = 1 [ctype = CORD]; No b = 2;",
                  "label": "bytes a = 1 [ctype = CORD]; required int32 b = 2;"}
        texts = {f"{name}.proto": f"{HEAD}package {name}; message M {{ {it} }}" for name, it in faults.items()}
        self.release(texts, texts)
        status, said = self.call("v1", "proto")
        self.assertEqual((status, len(said)), (2, 2 * len(faults)), said)
        # Of a fault that no option is before, protoc says but the same.
        for name in ("number", "name"):
            self.assertIn(f"protoc refuses it on the new side, too: {name}.proto:", self.advice)
        self.assertEqual(self.call("v1", "proto", "--with-protoc"), (status, said))
        for name in faults:
            self.assertIn(f"protoc refuses it on the new side, too: {name}.proto:", self.advice)

    def test_faults_without_end(self):
        """protoc is ended where it says more than anybody reads."""
        self.release(self.texts(), self.texts())
        self.write({"bin/protoc": "#!/bin/sh\nexec yes 'a.proto:1:1: a fault' >&2\n"}, self.room.name)
        os.chmod(f"{self.room.name}/bin/protoc", 0o755)
        path = f"{self.room.name}/bin:{os.environ['PATH']}"
        self.assertEqual(self.call("v1", "proto", PATH=path)[0], 2)
        self.assertLess(len(self.advice), 2000)

    def test_an_import_that_nothing_finds(self):
        """protoc says but the same of it."""
        self.release({"a.proto": HEAD + 'import "gone.proto";'}, {"b.proto": HEAD + 'import "gone.proto";'})
        self.assertEqual(self.call("v1", "proto"), (2, ["refused old E301 a.proto:2:8", "refused new E301 b.proto:2:8"]))
        self.assertNotIn("protoc", self.advice)

    def test_a_fault_of_a_set_that_ends(self):
        """A protoc that says nothing, or only a part, makes nothing that is gated."""
        self.release(self.texts(), self.texts())
        real = shutil.which("protoc")
        out = "out=$(for it; do case $it in --descriptor_set_out=*) echo \"${it#*=}\" ;; esac; done)"
        for does, wanted in (("exit 0", 3), ("kill -9 $$", 2), (f"{out}; {real} \"$@\"; head -c 40 \"$out\" > \"$out.x\"; mv \"$out.x\" \"$out\"", 3),
                             (f"{out}; {real} \"$@\"; : > \"$out\"", 3)):
            self.write({"bin/protoc": f"#!/bin/sh\n{does}\n"}, self.room.name)
            os.chmod(f"{self.room.name}/bin/protoc", 0o755)
            status = self.call("v1", "proto", PATH=f"{self.room.name}/bin:{os.environ['PATH']}")[0]
            self.assertEqual(status, wanted, does)
            self.assertNotIn("Traceback", self.advice)


if __name__ == "__main__":
    if len(sys.argv) > 1 and not sys.argv[1].startswith("-"):
        test_ci.PROGRAM = os.path.realpath(sys.argv.pop(1))
    test_ci.run_tests.main()

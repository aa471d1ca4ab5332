#!/usr/bin/env python3
"""Checks that no message outlives the bytes that it borrows from.

usage: tools/gate/try_lent.py [ROOM]    of the repository in the room, or of this one: it wants the libraries that `rt ci` or `rt lib` built there

A function that drops the bytes before it uses the message is refused for just that, and the same one that drops them afterwards is
proved. An edit can't show this: a body that isn't compiled counts for nothing there. The last line says how many of the
two were as they should be; the status is 1 where one wasn't.
"""

import os
import shutil
import sys
import tempfile

sys.dont_write_bytecode = True
import child_programs  # noqa: E402
import kit  # noqa: E402
from crates import Crate, crates_of  # noqa: E402

LIBRARIES = ("pg_schema", "pg_dyn")
HEAD = """//! Reads bytes that are dropped.
#![tactic(auto)]

ghost use Rattle.std.specs.Prelude.{◌<◌, length};
ghost use Rattle.pg_schema.specs.Parts.{shape_of};

use pg_dyn::decode_ref;
use pg_schema::{Schema, TypeId};
use std::alloc::Global;

pub fn is_read(alloc: Global, schema: &Schema, type_id: TypeId, bytes: Vec<u8>) -> bool
    requires { type_id.index < length (shape_of schema.now) }
{
    let read = decode_ref(alloc, schema, type_id, &bytes, 100);
"""
FIRST = "    drop(bytes);\n    read.is_ok()\n}\n"
AFTERWARDS = "    let is_read = read.is_ok();\n    drop(read);\n    drop(bytes);\n    is_read\n}\n"


def checked(room, body):
    """Returns what the check says of the crate with this body, in a repository of its own in the room."""
    crates = crates_of(".")
    lent = Crate("lent", f"lent: {' '.join(LIBRARIES)}", "", [crates[it] for it in LIBRARIES])
    shutil.rmtree(room, ignore_errors=True)
    folder = kit.make_repository(room, lent)
    os.makedirs(f"{folder}/src")
    with open(f"{folder}/src/lib.rt", "w", encoding="utf-8") as file:
        file.write(HEAD + body)
    return kit.check(folder, [])[1]


def main():
    with tempfile.TemporaryDirectory(prefix="protogate-lent-") as room:
        refused, proved = checked(f"{room}/first", FIRST), checked(f"{room}/afterwards", AFTERWARDS)
    results = [("borrow-e0505" in refused and "logic=proved" not in refused, refused), ("logic=proved" in proved, proved)]
    for is_right, said in results:
        if not is_right:
            print(said[-2000:])
    print(f"bytes dropped before a message that borrows from them: {sum(it for it, _ in results)} of 2 as wanted")
    return 0 if all(it for it, _ in results) else 1


if __name__ == "__main__":
    child_programs.on_signals()
    os.chdir(sys.argv[1] if sys.argv[1:] else os.path.dirname(os.path.dirname(os.path.dirname(os.path.realpath(__file__)))))
    sys.exit(main())

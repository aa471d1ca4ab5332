#!/usr/bin/env python3
"""Compiles proto3 files with `protogate compile` and with `protoc --descriptor_set_out`, and compares the sets by contents.

    tools/fuzz/compare_sets.py [--program P] [--list] ROOT [FOLDER ..]

ROOT is the folder that imports count from (protoc's -I); the files are all *.proto below it, or below the FOLDERs in it, whose
first statement asks for proto3. It wants protoc and python3-protobuf. One line is printed for each file whose sets differ, and
at the end the counts: equal, refused (by protogate's code), refused by protoc too or alone, different. The status is 0 where
none differs.

Both sets are decoded, and what the standard leaves to the writer is made alike: the order of a map's entry type among the
nested types, an rpc's options that state nothing, and the name of a oneof that `optional` makes.
"""
import argparse
import collections
import os
import re
import subprocess
import sys
import tempfile

from google.protobuf import descriptor_pb2

COMMENT = re.compile(rb'//[^\n]*|/\*.*?\*/', re.S)
FIRST = re.compile(rb'''\A(?:\xef\xbb\xbf)?\s*syntax\s*=\s*["']proto3["']''')


def is_proto3(path):
    with open(path, "rb") as file:
        return FIRST.match(COMMENT.sub(b" ", file.read())) is not None


def texts_below(root, folders):
    found = set()
    for folder in folders or ["."]:
        for above, _, names in os.walk(os.path.join(root, folder)):
            for name in names:
                path = os.path.join(above, name)
                if name.endswith(".proto") and is_proto3(path):
                    found.add(os.path.relpath(path, root))
    return sorted(found)


def settle_message(message):
    for field in message.field:
        if field.proto3_optional:
            message.oneof_decl[field.oneof_index].name = "_"
    nested = sorted(message.nested_type, key=lambda inner: inner.options.map_entry)
    settled = [settle_message(inner) for inner in nested]
    del message.nested_type[:]
    message.nested_type.extend(settled)
    return message


def settle(data):
    """The set of these bytes, with what is the writer's choice made alike."""
    decoded = descriptor_pb2.FileDescriptorSet()
    decoded.MergeFromString(data)
    for file in decoded.file:
        for message in file.message_type:
            settle_message(message)
        for service in file.service:
            for method in service.method:
                if method.HasField("options") and not method.options.ListFields():
                    method.ClearField("options")
    return decoded


def difference(ours, theirs):
    """The first lines that differ, or None."""
    if ours == theirs and ours.SerializeToString(deterministic=True) == theirs.SerializeToString(deterministic=True):
        return None
    names = [file.name for file in ours.file], [file.name for file in theirs.file]
    if names[0] != names[1]:
        return "files %s and %s" % names
    for one, other in zip(ours.file, theirs.file):
        if one != other:
            pairs = zip(str(one).splitlines() + [""], str(other).splitlines() + [""])
            for mine, their in pairs:
                if mine != their:
                    return "%s: '%s' and '%s'" % (one.name, mine.strip(), their.strip())
    return "the bytes differ"


def protoc_of(root, path):
    with tempfile.NamedTemporaryFile() as out:
        run = subprocess.run(["protoc", "-I", ".", "--include_imports", "--descriptor_set_out=" + out.name, path],
                             cwd=root, capture_output=True)
        if run.returncode != 0:
            return None, run.stderr.decode(errors="replace").splitlines()[:1]
        return out.read(), []


def main():
    parser = argparse.ArgumentParser()
    parser.add_argument("--program", default=os.path.join(os.path.dirname(os.path.abspath(__file__)), "..", "..", "protogate"))
    parser.add_argument("--list", action="store_true", help="print a line for each file")
    parser.add_argument("root")
    parser.add_argument("folders", nargs="*")
    words = parser.parse_args()
    program = os.path.abspath(words.program)
    counts = collections.Counter()
    for path in texts_below(words.root, words.folders):
        run = subprocess.run([program, "compile", path], cwd=words.root, capture_output=True)
        theirs, why = protoc_of(words.root, path)
        if run.returncode != 0:
            line = run.stdout.decode(errors="replace").strip()
            code = line.split(" ")[1] if line.startswith("refused ") else "status %d" % run.returncode
            kind = "refused %s" % code + ("" if theirs is not None else ", by protoc too")
            detail = line
        elif theirs is None:
            kind, detail = "refused by protoc alone", " ".join(why)
        else:
            detail = difference(settle(run.stdout), settle(theirs))
            kind = "equal" if detail is None else "different"
        counts[kind] += 1
        if kind == "different" or words.list:
            print("%s: %s%s" % (path, kind, "" if detail is None else ": " + detail))
    for kind in sorted(counts):
        print("%s: %d" % (kind, counts[kind]))
    sys.exit(1 if counts["different"] else 0)


if __name__ == "__main__":
    main()

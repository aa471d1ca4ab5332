#!/usr/bin/env python3
"""Stands in for the program where tests need what it answers, and not how: it reads flat messages of scalars and messages, and prints lines as JSON.

Sets are read by what protoc makes text of. A root is left out where it, or a file that it imports, isn't proto3, has an option, or isn't there. PROTOGATE_STAND_IN names a file in place of the
answer, whose first line is the status.
"""

import argparse
import json
import os
import re
import subprocess
import sys

VARINTS = ("int32", "int64", "uint32", "uint64", "sint32", "sint64", "bool")
PIECE = re.compile(r"message (\w+) \{|service (\w+) \{|\}|(repeated |optional )?([\w.]+) (\w+) = (\d+);|rpc (\w+)\(([\w.]+)\) returns \(([\w.]+)\);")


def say(**it):
    print(json.dumps(it, ensure_ascii=False, separators=(",", ":")))


class Fault(Exception):
    pass


class Side:
    def __init__(self, role, folders, roots):
        self.role, self.folders, self.types, self.left, self.files, self.methods = role, folders, {}, [], {}, {}
        self.refused = None
        for root in roots:
            if not root.endswith(".proto"):
                self.read_set(root)
                continue
            try:
                found = self.read(root, {})
            except Fault as fault:
                code, file, line, says = fault.args
                self.left.append({"kind": "left-out", "side": role, "root": root, "code": code, "file": file, "line": line, "column": line and 1,
                                  "sentence": says})
                continue
            self.types.update(found)

    def read(self, file, seen):
        if file in seen:
            return {}
        seen[file] = True
        if file not in self.files:
            there = next((os.path.join(it, file) for it in self.folders if os.path.lexists(os.path.join(it, file))), None)
            if there is None:
                raise Fault("E301", file, None, "The import was not found.")
            with open(there, encoding="utf-8") as opened:
                self.files[file] = opened.read()
        text, found, name = self.files[file], {}, None
        if 'syntax = "proto3";' not in text:
            raise Fault("E201", file, 1, 'The first statement is not `syntax = "proto3";`.')
        for number, line in enumerate(text.split("\n"), 1):
            if line.startswith("option"):
                raise Fault("E205", file, number, "Unknown option.")
            imported = re.match('import "(.*)";', line)
            if imported:
                found.update(self.read(imported[1], seen))
            package = (re.search(r"package ([\w.]+);", text) or ["", ""])[1]
            for it in PIECE.finditer(line):
                if it[1] or it[2]:
                    name = f"{package}.{it[1] or it[2]}".lstrip(".")
                    found.update({name: {}} if it[1] else {})
                elif it[5]:
                    element = it[4] if it[4].islower() else f"{package}.{it[4]}".lstrip(".") if it[4][0] != "." else it[4][1:]
                    found[name][int(it[6])] = {"name": f"{name}.{it[5]}", "element": element, "file": file, "line": number, "column": it.start(5) + 1,
                                               "label": it[3]}
                elif it[7]:
                    self.methods[f"{name}.{it[7]}"] = (it[8], it[9], {"name": f"{name}.{it[7]}", "file": file, "line": number, "column": it.start(7) + 1})
        return found

    def read_set(self, path):
        """Reads a set. A file that isn't proto3, or that refers to what isn't there, refuses it."""
        with open(path, "rb") as opened:
            said = subprocess.run(["protoc", "-I/usr/include", "--decode=google.protobuf.FileDescriptorSet", "google/protobuf/descriptor.proto"],
                                  stdin=opened, stdout=subprocess.PIPE, check=True).stdout.decode()
        files = re.split(r"^file \{\n", said, flags=re.M)[1:]
        names = {re.match(r'  name: "(.*)"', it)[1] for it in files}
        for it in files:
            if not re.search('^  syntax: "proto3"', it, re.M):
                self.refused = self.refused or "E702"
            elif not set(re.findall(r'^  dependency: "(.*)"', it, re.M)) <= names - {"google/protobuf/descriptor.proto"}:
                self.refused = self.refused or "E704"
            package = (re.search(r'^  package: "(.*)"', it, re.M) or ["", ""])[1]
            for service in re.findall(r"^  service \{\n(.*?)^  \}", it, re.M | re.S):
                about = f"{package}.{re.match('    name: .(.*).', service)[1]}".lstrip(".")
                for one in re.findall(r"^    method \{\n(.*?)^    \}", service, re.M | re.S):
                    told = dict(re.findall(r'^      (\w+): "(.*?)"$', one, re.M))
                    at = {"name": f"{about}.{told['name']}", "file": None, "line": None, "column": None}
                    self.methods[at["name"]] = (told["input_type"], told["output_type"], at)
            for message in re.findall(r"^  message_type \{\n(.*?)^  \}", it, re.M | re.S):
                name = f"{package}.{re.match('    name: .(.*).', message)[1]}".lstrip(".")
                self.types[name] = {}
                for one in re.findall(r"^    field \{\n(.*?)^    \}", message, re.M | re.S):
                    told = dict(re.findall(r'^      (\w+): "?(.*?)"?$', one, re.M))
                    self.types[name][int(told["number"])] = {
                        "name": f"{name}.{told['name']}", "element": told.get("type_name", told["type"][5:].lower()).lstrip("."), "file": None, "line": None,
                        "column": None, "label": "repeated " if told["label"] == "LABEL_REPEATED" else None}
        if any("." + it["element"] not in {f".{name}" for name in self.types} for fields in self.types.values() for it in fields.values()
               if not it["element"].islower()):
            self.refused = self.refused or "E704"


def field(it):
    return {key: it[key] for key in ("name", "element", "file", "line", "column")}


def why(old, new):
    if old["label"] == "repeated " and new["label"] != "repeated ":
        return "list-to-one"
    if old["element"] == new["element"] or (old["element"], new["element"]) in (("int32", "int64"), ("string", "bytes")):
        return None
    return "value" if {old["element"], new["element"]} <= {*VARINTS} or old["element"] == "bytes" and new["element"] == "string" else "unlike"


def compare(call, old, new, names, known):
    """Tells each cause of a pair of types, and of those that it leads to, once. Returns whether the pair breaks."""
    if names in known:
        return known[names]
    known[names] = False
    for number, was in old.types[names[0]].items():
        now = new.types[names[1]].get(number)
        if not now:
            continue
        if was["element"] in old.types and now["element"] in new.types:
            known[names] |= compare(call, old, new, (was["element"], now["element"]), known)
            continue
        case = why(was, now)
        if case:
            known[names] = True
            say(kind="cause", why=case, length=11, message="10ffffffffffffffffff01", number=number, old=field(was), new=field(now), others=[])
            if call.explain:
                say(kind="reading", side="old", text=f"{number} {was['name'].rpartition('.')[2]} int -1\nagain 10ffffffffffffffffff01\n")
                say(kind="reading", side="new", text=f"{number} {now['name'].rpartition('.')[2]} int 4294967295\nagain 10ffffffff0f\n")
    return known[names]


def gate_all(call):
    old, new = (Side(role, [getattr(call, f"{role}_dir"), *getattr(call, f"{role}_include")], getattr(call, role)) for role in ("old", "new"))
    for side in (old, new):
        if side.refused:
            say(kind="refused", side=side.role, code=side.refused, file=None, line=None, column=None, byte=None, says="The set is refused.")
            return 2
    notes, known = [], {}
    shared = [it for it in old.types if it in new.types]
    for name in shared:
        compare(call, old, new, (name, name), known)
        for number, was in old.types[name].items():
            now = new.types[name].get(number)
            if not now:
                notes.append({"what": "number-unreserved", "number": number, "old": field(was), "new": None, "now": None})
            elif now["name"] != was["name"]:
                there = next((it for it, other in new.types[name].items() if other["name"] == was["name"]), None)
                notes.append({"what": "field-renamed", "number": number, "old": field(was), "new": field(now), "now": there})
    for name, (*types, was) in old.methods.items():
        if name in new.methods and types != list(new.methods[name][:2]):
            notes.append({"what": "method-changed", "number": None, "old": was, "new": new.methods[name][2], "now": None})
    for name in shared:
        say(kind="breaks", type=name, length=13 if name.startswith("Protogate") else 11) if known[name, name] else say(kind="compatible", type=name)
    removed = [it for it in old.types if it not in new.types]
    for name in removed:
        say(kind="removed", type=name)
    for name in [it for it in new.types if it not in old.types]:
        say(kind="added", type=name)
    for it in (*old.left, *new.left):
        say(**it)
    for it in notes if call.notes else ():
        say(kind="note", **it)
    return 2 if removed or old.left or new.left else 1 if any(known.values()) else 0


def main():
    if sys.argv[1:] == ["--version"]:
        print("protogate 0.0.0")
        return 4
    if os.environ.get("PROTOGATE_STAND_IN"):
        with open(os.environ["PROTOGATE_STAND_IN"], "rb") as said:
            status, _, rest = said.read().partition(b"\n")
        sys.stdout.buffer.write(rest)
        return int(status)
    parser = argparse.ArgumentParser(allow_abbrev=False)
    parser.add_argument("subcommand")
    parser.add_argument("files", nargs="*")
    parser.add_argument("--dir", default=".")
    parser.add_argument("--include", action="append", default=[])
    for role in ("old", "new"):
        parser.add_argument(f"--{role}-dir", default=".")
        parser.add_argument(f"--{role}-include", action="append", default=[])
        parser.add_argument(f"--{role}", action="append", default=[])
        parser.add_argument(f"--{role}-files-from")
    parser.add_argument("--files-from")
    for flag in ("json", "notes", "explain", "keep-going"):
        parser.add_argument(f"--{flag}", action="store_true")
    parser.add_argument("--view", default="numbers")
    call = parser.parse_intermixed_args()
    if not call.json and call.subcommand != "compile":
        return 4
    for roots, path in ((call.files, call.files_from), (call.old, call.old_files_from), (call.new, call.new_files_from)):
        if path:
            with open(path, encoding="utf-8") as said:
                roots += said.read().split("\n")[:-1]
    if call.subcommand == "types":
        side = Side("old", [call.dir, *call.include], call.files)
        if side.refused:
            return 2
        for name in side.types:
            say(kind="declared", type=name)
        return 2 if side.left else 0
    if call.subcommand == "compile":
        sys.stdout.flush()
        folders = [f"-I{it}" for it in (call.dir, *call.include)]
        return subprocess.call(["protoc", *folders, "--include_imports", "--descriptor_set_out=/dev/stdout", *call.files])
    return gate_all(call)


if __name__ == "__main__":
    sys.exit(main())

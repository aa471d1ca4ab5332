#!/usr/bin/env python3
"""Runs `protogate gate` on every source file below a folder, each against itself, and compares what it answers.

    tools/fuzz/try_source_files.py PROGRAM FOLDER [FOLDER ..]

The files are ones that `protoc` takes, as those of Debian's libprotobuf-dev in /usr/include. Each is compared with
itself under a root type that no file declares, so that a file which compiles gives the refusal of the missing root
(E901). What this program leaves out is refused by its code: a file of another syntax, groups, extensions, custom
options, weak imports and imports that aren't there, in the file or in what it imports. Which code that is, is read
off the files here, without their comments and strings. One line is printed for each file that is answered otherwise,
then a line for each answer with its count; the status is 1 where a file was answered otherwise.
"""
import collections
import pathlib
import re
import subprocess
import sys

ROOT = "NoSuchType"
TAKEN = "E901"
COMMENT_OR_STRING = re.compile(r'//[^\n]*|/\*.*?\*/|"(?:\\.|[^"\\\n])*"|\'(?:\\.|[^\'\\\n])*\'', re.DOTALL)
SYNTAX = re.compile(r"^\s*syntax\s*=\s*(['\"])proto3\1\s*;")
IMPORT = re.compile(r"\bimport\s+(?:public\s+)?(['\"])([^'\"]+)\1\s*;")
LEFT_OUT = [
    ("E203", re.compile(r"\bgroup\s+\w+\s*=")),
    ("E204", re.compile(r"\b(?:extend\s+[\w.]+\s*\{|extensions\s+\d)")),
    ("E205", re.compile(r"\boption\s*\(|[\[,]\s*\(")),
    ("E206", re.compile(r"\bimport\s+weak\b")),
]


def without(text, keeps_strings):
    def blank(found):
        is_string = found.group()[0] in "\"'"
        return found.group() if is_string and keeps_strings else '""' if is_string else " "
    return COMMENT_OR_STRING.sub(blank, text)


def own_code(text):
    """The code of the first thing that is left out, or None."""
    if not SYNTAX.match(without(text, True)):
        return "E201"
    bare = without(text, False)
    found = [(where.start(), code) for code, pattern in LEFT_OUT for where in [pattern.search(bare)] if where]
    return min(found)[1] if found else None


def expected(folder, path, seen):
    """The code that a file below a folder is refused with: its own, or the first of what it imports."""
    if path in seen:
        return TAKEN
    seen.add(path)
    file = pathlib.Path(folder) / path
    if not file.is_file():
        return "E301"
    text = file.read_text(encoding="utf-8")
    code = own_code(text)
    if code:
        return code
    codes = (expected(folder, found.group(2), seen) for found in IMPORT.finditer(without(text, True)))
    return next((code for code in codes if code != TAKEN), TAKEN)


def answer(program, folder, path):
    words = [program, "gate", "--old-dir", folder, "--new-dir", folder, "--old", path, "--new", path, "--type", ROOT]
    run = subprocess.run(words, capture_output=True, text=True, timeout=60, check=False)
    line = run.stdout.strip()
    codes = [word for word in line.split() if re.fullmatch(r"E\d{3}", word)]
    return (codes or [line or f"status {run.returncode}"])[0], line


def main():
    program, folders = sys.argv[1], sys.argv[2:]
    counts, others = collections.Counter(), 0
    for folder in folders:
        for file in sorted(pathlib.Path(folder).rglob("*.proto")):
            path = str(file.relative_to(folder))
            code, line = answer(program, folder, path)
            counts[code] += 1
            wanted = expected(folder, path, set())
            if code != wanted:
                others += 1
                print(f"{file}: {line} (wanted {wanted})")
    for code, count in sorted(counts.items()):
        print(f"{count:6d} {'taken' if code == TAKEN else code}")
    sys.exit(1 if others else 0)


main()

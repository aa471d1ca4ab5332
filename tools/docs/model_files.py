#!/usr/bin/env python3
"""Lists the files of definitions that a promise rests on, and compares them with docs/MODEL.md.

usage: tools/docs/model_files.py            the files and lines: of a breaking message, of what `gate`, `gate_with`, `relay` and `gate_all`
                                            promise of schemas, and of what the gate over files and the whole program promise
       tools/docs/model_files.py --compare  status 1 where docs/MODEL.md lists other files, where it, docs/GUARANTEES.md or README.md says other
                                            counts, or where a page names a file of code or definitions, or docs/PROOFS.md, docs/COSTS.md or
                                            docs/ARCHITECTURE.md a word, that isn't there

A promise rests on the files that have its words, and on all that these import, onwards. Whole files count, so it may rest on less. Of the kit
the models of a command line (`clap`) and of hexadecimal digits (`hex`) are counted apart, where the kit has them as files; its words for numbers,
lists and strings are left out. Kits differ, so these counts are compared only where the kit on the path is the one that docs/MODEL.md names.
"""

import functools
import os
import re
import shutil
import subprocess
import sys

TOP = os.path.dirname(os.path.dirname(os.path.dirname(os.path.realpath(__file__))))
ROOTS = {
    "a message breaks": ["crates/pg_dyn/specs/views/Breaking.antt"],
    "what `gate` promises": ["crates/pg_gate/specs/answer/Answer.antt"],
    "what `gate_with` promises": ["crates/pg_gate/specs/answer/ViewAnswer.antt"],
    "what `relay` promises": ["crates/pg_gate/specs/Relaying.antt"],
    "what `gate_all` promises": ["crates/pg_causes/specs/Overview.antt"],
}
# Promises of which docs/GUARANTEES.md says the counts alone, by the words of their contracts.
UNLISTED = {
    "what the gate promises of texts and sets": [
        "crates/pg_call/specs/Paths.antt",
        "crates/pg_gate/specs/answer/Files.antt",
        "crates/pg_gate/specs/answer/Answer.antt",
    ],
    "what `run` promises": [
        "crates/pg_call/specs/Call.antt",
        *(f"crates/pg_gate/specs/{it}.antt" for it in ("answer/Grants", "print/Printed", "Run")),
    ],
}
# Which documents say the counts of which promise.
COUNTED = {
    "README.md": ["a message breaks", "what `gate` promises"],
    "docs/MODEL.md": ["what `gate` promises", "what `gate_with` promises", "what `relay` promises", "what `gate_all` promises"],
    "docs/GUARANTEES.md": [
        "a message breaks",
        "what `gate` promises",
        "what `gate_with` promises",
        "what `gate_all` promises",
        "what `relay` promises",
        *UNLISTED,
    ],
}
# Pages of which each word in backticks has to be in code or definitions.
WORDED = ("docs/PROOFS.md", "docs/COSTS.md", "docs/ARCHITECTURE.md")
# A path of code or definitions that a page names: from the top, below `crates`, or below a crate's folder.
NAMED = re.compile(r"`([\w/+-]+/[\w+-]+\.(?:rt|antt))`")
IMPORT = re.compile(r"^\s*(?:pub\s+)?use\s+Rattle\.(\w+)\.specs\.(\w+(?:\.\w+)*)", re.M)
# The crates of the kit whose definitions are counted.
MODELS = ("clap", "hex")
# The promise of which these documents say what it takes of these.
WHOLE = "what `run` promises"
TRUSTING = ("README.md", "SECURITY.md", "docs/GUARANTEES.md")


@functools.lru_cache(maxsize=None)
def kit_folder():
    """Returns the folder of the kit with its crates, or nothing where there is none."""
    if not shutil.which("rt"):
        return None
    said = subprocess.run(["rt", "doc"], stdin=subprocess.DEVNULL, stdout=subprocess.PIPE, stderr=subprocess.DEVNULL, text=True, check=False)
    folder = f"{os.path.dirname(said.stdout.strip())}/rattle"
    return folder if os.path.isdir(f"{folder}/{MODELS[0]}/specs") else None


def kit_name():
    """Returns the name of the kit."""
    said = subprocess.run(["rt", "version"], stdin=subprocess.DEVNULL, stdout=subprocess.PIPE, stderr=subprocess.DEVNULL, text=True, check=False)
    return said.stdout.split(" ")[0].strip()


def modules_of(path):
    """Returns the crates and modules that a file of definitions imports."""
    with open(path, encoding="utf-8") as file:
        return IMPORT.findall(file.read())


def imported(path):
    """Returns the files of definitions of the repository that one imports."""
    found = [(crate, module) for crate, module in modules_of(f"{TOP}/{path}") if crate.startswith("pg_")]
    named = [f"crates/{crate}/specs/{module.replace('.', '/')}.antt" for crate, module in found]
    return [it for it in dict.fromkeys(named) if os.path.isfile(f"{TOP}/{it}")]


def model_of(crate, paths):
    """Returns the files of a crate of the kit that these files of the repository rest on."""
    found = []

    def visit(path):
        for other, module in modules_of(path):
            it = f"{kit_folder()}/{crate}/specs/{module.replace('.', '/')}.antt"
            if other == crate and it not in found and os.path.isfile(it):
                found.append(it)
                visit(it)

    for path in paths:
        visit(f"{TOP}/{path}")
    return found


def models():
    """Yields each crate of the kit that `run` rests on, with the counts of its files and lines."""
    for crate in MODELS if kit_folder() else ():
        paths = model_of(crate, files_of(WHOLE))
        yield crate, f"{len(paths)} {'file' if len(paths) == 1 else 'files'} with {lines_of(paths):,} lines"


def rests_on(*paths):
    """Returns the files and all that they rest on, what is imported first."""
    found = []

    def visit(it):
        if it not in found:
            for other in imported(it):
                visit(other)
            found.append(it)

    for path in paths:
        visit(path)
    return list(dict.fromkeys(found))


def files_of(what):
    """Returns the files that a promise rests on."""
    return rests_on(*{**ROOTS, **UNLISTED}[what])


def lines_of(paths):
    count = 0
    for path in paths:
        with open(os.path.join(TOP, path), encoding="utf-8") as file:
            count += sum(1 for _ in file)
    return count


def differences():
    """Returns what the pages say otherwise than the definitions: files, and counts of files and lines."""
    said = {it: open(f"{TOP}/{it}", encoding="utf-8").read() for it in COUNTED}
    listed = re.findall(r"^\| `(crates/pg_\w+/specs/[\w/]+\.antt)` \|", said["docs/MODEL.md"], re.M)
    wanted = dict.fromkeys(it for roots in ROOTS.values() for it in rests_on(*roots))
    found = [f"docs/MODEL.md lacks {it}" for it in wanted if it not in listed]
    found += [f"docs/MODEL.md lists {it}, which no promise imports" for it in listed if it not in wanted]
    for document, promises in COUNTED.items():
        for what in promises:
            files = files_of(what)
            counts = f"{len(files)} files with {lines_of(files):,} lines"
            found += [] if counts in said[document] else [f"{document} doesn't say of {what}: {counts}"]
    for document in TRUSTING:
        with open(f"{TOP}/{document}", encoding="utf-8") as file:
            page = file.read()
        found += [] if re.search(r"`rattle-kit-\w+` `clap`: \d+ files", page) else [f"{document} doesn't count the kit's models"]
        if f"`{kit_name()}`" in page:
            found += [f"{document} doesn't say of {crate}: {counts}" for crate, counts in models() if f"`{crate}`: {counts}" not in page]
    return found


def missing_paths():
    """Returns what documents name and the repository hasn't."""
    names = [it for it in sorted(os.listdir(f"{TOP}/docs")) if it.endswith(".md")]
    crates = [f"{TOP}/crates/{it}" for it in os.listdir(f"{TOP}/crates")]
    folders = [TOP, f"{TOP}/crates", *crates, *(f"{it}/src" for it in crates)]
    found = []
    for document in ["README.md", "CONTRIBUTING.md", *(f"docs/{it}" for it in names)]:
        with open(f"{TOP}/{document}", encoding="utf-8") as file:
            named = dict.fromkeys(NAMED.findall(file.read()))
        found += [f"{document} names {it}, which isn't there" for it in named if not any(os.path.isfile(f"{at}/{it}") for at in folders)]
    return found


def missing_words():
    """Returns the words in backticks of some pages that are nowhere in code or definitions."""
    known = set()
    for at, folders, names in os.walk(f"{TOP}/crates"):
        folders[:] = [it for it in folders if it != "out"]
        for name in names:
            if name.endswith((".rt", ".antt")):
                with open(f"{at}/{name}", encoding="utf-8") as file:
                    known.update(re.findall(r"\w+", file.read()), [name.partition(".")[0]])
    known.update(os.listdir(f"{TOP}/crates"))
    found = []
    for document in WORDED:
        with open(f"{TOP}/{document}", encoding="utf-8") as file:
            said = dict.fromkeys(re.findall(r"`(\w+)`", file.read()))
        found += [f"{document} has {it}, which is nowhere in code or definitions" for it in said if it not in known]
    return found


def main(words):
    if words == ["--compare"]:
        found = differences() + missing_paths() + missing_words()
        print("\n".join(found) or "docs/MODEL.md names just the files of the promises, and the documents name files that are there")
        return 1 if found else 0
    for what in [*ROOTS, *UNLISTED]:
        files = files_of(what)
        print(f"{what}: {len(files)} files, {lines_of(files):,} lines")
        for it in files:
            print(f"  {it} {lines_of([it])}")
    for crate, counts in models():
        print(f"of the kit's {crate}: {counts}")
    return 0


if __name__ == "__main__":
    sys.exit(main(sys.argv[1:]))

"""The kit on the path: its name, checks of a copy of a crate, and a folder for what passed.

Kits differ from machine to machine. So each verdict rests on what `rt help` documents alone. The script `rt` is read for a checksum. Where it
is of the kind that has a store, it is also told which libraries came from there (`note_taken`); where it isn't, nothing but time is lost.
"""

import functools
import hashlib
import os
import shutil
import stat
import subprocess
import sys
import tempfile

import child_programs

PARTS = ("src", "specs", "proofs")
# Where rt finds what earlier checks of the crate kept, in kits that share it between checkouts of a machine: they leave a folder that is there alone.
KEPT = "out/incremental"
# How the lines begin that `rt check` adds to what the prover says: of itself, and of how far the check is.
ADDED = ("rt: ", "so far: ", "checked ")


def script():
    """Returns the path of the kit's script, with all links followed."""
    return os.path.realpath(shutil.which("rt") or "rt")


@functools.lru_cache(maxsize=None)
def version():
    """Returns the line that names the kit."""
    said = subprocess.run(["rt", "version"], stdin=subprocess.DEVNULL, stdout=subprocess.PIPE, text=True, errors="replace", check=False)
    return said.stdout.strip()


@functools.lru_cache(maxsize=None)
def identity():
    """Returns what tells this kit from others: the line that names it, and a checksum of its script."""
    with open(script(), "rb") as file:
        return version(), hashlib.sha256(file.read()).hexdigest()


def is_ours(folder):
    """Returns whether the folder is one that only this user can write."""
    try:
        found = os.lstat(folder)
    except OSError:
        return False
    return stat.S_ISDIR(found.st_mode) and found.st_uid == os.geteuid() and not found.st_mode & 0o022


def store():
    """Returns the folder in which passed tries are kept: beside what the kit keeps, where it does, else in this user's cache; nothing where neither is
    ours alone."""
    beside = f"{os.path.dirname(os.path.dirname(os.path.dirname(script())))}/rattle-kept"
    cache = os.environ.get("XDG_CACHE_HOME") or os.path.expanduser("~/.cache")
    at = f"{beside}/protogate-edits" if is_ours(beside) else f"{cache}/protogate"
    try:
        os.makedirs(at, 0o700, exist_ok=True)
    except OSError:
        return None
    return at if is_ours(at) and os.access(at, os.W_OK) else None


def link_or_copy(one, other):
    """Gives a file a second name, or a copy where it can't have one. A kit makes a library's files anew, and writes into none."""
    try:
        os.link(one, other)
    except OSError:
        shutil.copy2(one, other)


def copy_parts(folder, to):
    """Copies what a check reads of a crate."""
    os.makedirs(to, exist_ok=True)
    for part in PARTS:
        if os.path.isdir(f"{folder}/{part}"):
            shutil.copytree(f"{folder}/{part}", f"{to}/{part}")


def link_built(folder, to):
    """Links what was built of a library into another folder, which takes no room, without what its own checks keep."""
    if os.path.isdir(f"{folder}/out"):
        left = shutil.ignore_patterns(os.path.basename(KEPT))
        shutil.copytree(f"{folder}/out", f"{to}/out", copy_function=link_or_copy, ignore=left, symlinks=True)


def make_repository(room, crate):
    """Makes a repository of the crate and of the libraries below it, these with what was built of them. Returns the crate's folder, which is still
    empty."""
    for it in crate.below():
        copy_parts(it.folder, f"{room}/crates/{it.name}")
        link_built(it.folder, f"{room}/crates/{it.name}")
    with open(f"{room}/crates.txt", "w", encoding="utf-8") as file:
        file.write("".join(f"{it.line}\n" for it in (*crate.below(), crate)))
    os.makedirs(f"{room}/crates/{crate.name}/{KEPT}")
    return f"{room}/crates/{crate.name}"


def check(folder, words):
    """Checks the crate in this folder by `rt check` and these words, with one job. Returns the status, what the prover said, and the processor seconds."""
    with tempfile.TemporaryFile("w+", encoding="utf-8", errors="replace") as log:
        how = {"cwd": folder, "stdin": subprocess.DEVNULL, "stdout": log, "stderr": subprocess.STDOUT}
        status, seconds = child_programs.run(["rt", "check", "--jobs", "1", *words], **how)
        log.seek(0)
        lines = [*log]
    # (where rt stopped, what it says itself is all that there is)
    return status, "".join(it for it in lines if status == 2 or not it.startswith(ADDED)), seconds


# Has a kit that takes libraries from a store note of each that it is built, as it does of those that it builds itself.
NOTE = """import importlib.machinery, importlib.util, os, sys
loader = importlib.machinery.SourceFileLoader("kit_rt", sys.argv[1])
made = importlib.util.module_from_spec(importlib.util.spec_from_loader("kit_rt", loader))
loader.exec_module(made)
for it in made.rtlib.crates_below(sys.argv[2]):
    path = os.path.join(os.path.dirname(it.rlib), "stamp")
    if os.path.isfile(os.path.join(it.rlib, "format")) and not os.path.exists(path):
        with open(path, "w") as file:
            file.write(it.stamp())
"""


def note_taken(top):
    """Has `rt lib` know of the libraries that `rt ci` took from its store, where the kit is of that kind. With another nothing is done: `rt lib` builds
    again what it doesn't know."""
    how = {"stdin": subprocess.DEVNULL, "stdout": subprocess.DEVNULL, "stderr": subprocess.DEVNULL}
    child_programs.run([sys.executable, "-Bc", NOTE, script(), top], **how)


def build_libraries(crates):
    """Builds these libraries, lowest first, where they aren't built, and returns whether all are."""
    how = {"stdin": subprocess.DEVNULL, "stdout": subprocess.PIPE, "stderr": subprocess.STDOUT}
    for it in crates:
        with tempfile.TemporaryFile("w+", encoding="utf-8", errors="replace") as log:
            if child_programs.run(["rt", "lib"], cwd=it.folder, **{**how, "stdout": log})[0]:
                log.seek(0)
                print(log.read(), end="", flush=True)
                return False
    return True

#!/usr/bin/env python3
"""Runs the built program, from outside, on the rows that crates/rows_gate runs it on inside, and on files and outputs that fail.

    tools/rows/try_rows.py [--jobs N] [PROGRAM]

Each row of crates/rows_gate/stdin has words, and files of the old and of the new side. Those of the old side are written to the folder in
which the program runs, those of the new side below another, which `--new-dir` names. The program has to end with the status and
the output that crates/rows_gate/stdout has. Where a row says so, they are other ones by names.

A file that fails is a folder in its place. An output that fails is a library in front of the C library's `write` (tools/rows/slow_output.c,
built by cc, without which these runs are passed over): it takes one byte at a time, and fails at a given one. What was taken has to be
a beginning of the output, and the status 3. The last line has the counts; the status is 1 where a run failed.
"""
import collections
import os
import re
import shutil
import subprocess
import sys
import tempfile
import time

sys.dont_write_bytecode = True
sys.path.append(f"{os.path.dirname(os.path.realpath(__file__))}/../fuzz")
from fuzz_seeds import bytes_of, lines_of  # noqa: E402
from long_rows import printed  # noqa: E402
from refused_memory import ROOT, ask_for_stack, options_of  # noqa: E402
from workers import called  # noqa: E402

# How many seconds a run may take.
LIMIT = 60
# A repeat of a row, as crates/kit_rows/src/repeats.rt spells it.
REPEAT = re.compile(r"<<(\d+) (\d+) (.*?)>>", re.S)
NEW = "new-side"
# The other options whose paths lie there.
BELOW = ("--new-include", "--new-files-from")
# So many runs that failed are printed.
MOST_PRINTED = 20

# What a run has to print: its words, the files of both sides by path, the status, and the output or parts of it.
Row = collections.namedtuple("Row", "what words old new status text parts")


def unrolled(row):
    def repeat(found):
        begin, end = int(found[1]), int(found[2])
        return "".join(found[3].replace("#", str(at)) for at in range(begin, end, 1 if begin < end else -1))
    return REPEAT.sub(repeat, row)


def files_of(spelled):
    """Returns the files that a side of a row spells, by path."""
    pairs = (it.partition("=") for it in spelled.split(" ; ") if "=" in it)
    return {path: bytes_of(data) for path, _, data in pairs}


def rows_of(line, wanted):
    """Returns the runs of a row: one, or one by each view where they differ."""
    what, words, old, new, parts = (unrolled(line).split(" | ", 4) + [""] * 4)[:5]
    words = words.split(" ") if words else []
    answers = wanted.partition(" | ")[2].split(" | by names ")
    for view, answer in zip(([], ["--view", "names"]), answers):
        status, _, text = answer.partition(" ")
        yield Row(what, [*words, *view], files_of(old), files_of(new), int(status), text, parts.split(" ; ") if parts else [])


def all_rows():
    return [row for line, wanted in zip(lines_of("rows_gate", "stdin"), lines_of("rows_gate", "stdout")) for row in rows_of(line, wanted)]


def words_from_outside(row):
    """Returns the words with the folders and the list of the new side in them. A command line that is bad stays as it is."""
    is_bad = row.status == 4 and not row.text.startswith("refused")
    if is_bad or row.words[:1] not in (["gate"], ["gate-all"], ["verify"]):
        return row.words
    words, is_named = list(row.words), False
    for at, word in enumerate(words):
        if word.startswith("--new-dir="):
            words[at], is_named = f"--new-dir={NEW}/" + word.partition("=")[2], True
        elif word == "--new-dir":
            words[at + 1], is_named = f"{NEW}/{words[at + 1]}", True
        elif word.startswith(BELOW):
            option, is_there, path = word.partition("=")
            if is_there:
                words[at] = f"{option}={NEW}/{path}"
            else:
                words[at + 1] = f"{NEW}/{words[at + 1]}"
    return words if is_named else [words[0], f"--new-dir={NEW}", *words[1:]]


def put(folder, files):
    for path, data in files.items():
        os.makedirs(os.path.dirname(os.path.join(folder, path)), exist_ok=True)
        with open(os.path.join(folder, path), "wb") as file:
            file.write(data)


def run(program, words, folder, **more):
    """Returns the status of a run, and what it printed."""
    env = {**os.environ, **{name: str(it) for name, it in more.items()}}
    ended = subprocess.run([program, *words], cwd=folder, env=env, stdin=subprocess.DEVNULL, capture_output=True, timeout=LIMIT, check=False)
    return ended.returncode, ended.stdout + ended.stderr


def fault_of(what, wanted, seen):
    return "" if wanted == seen else f"{what}\n  wanted: {str(wanted)[:300]}\n  said:   {str(seen)[:300]}"


def try_row(program, row):
    """Runs a row, and returns what is wrong with it, or nothing."""
    with tempfile.TemporaryDirectory(prefix="protogate-rows-") as folder:
        os.mkdir(os.path.join(folder, NEW))
        put(folder, row.old)
        put(os.path.join(folder, NEW), row.new)
        status, said = run(program, words_from_outside(row), folder)
    # (a list is named with its folder)
    said = printed(said.replace(f"{NEW}/".encode(), b""))
    if row.parts:
        said = " ; ".join(it for it in row.parts if it in said)
    return fault_of(row.what, (row.status, row.text), (status, said))


def try_failing_files(program):
    """Compiles a file and the one that it imports, with a folder in the place of one of them, and returns what is wrong."""
    with tempfile.TemporaryDirectory(prefix="protogate-rows-") as folder:
        for name in ("a.proto", "b.proto"):
            shutil.rmtree(folder)
            put(folder, {"a.proto": b'syntax = "proto3";\nimport "b.proto";\n'} if name == "b.proto" else {"b.proto": b""})
            os.mkdir(os.path.join(folder, name))
            seen = run(program, ["compile", "a.proto"], folder)
            yield fault_of(f"a folder in the place of {name}", (3, f"refused E309 {name}\n".encode()), seen)


def try_slow_outputs(program):
    """Runs the gate, for one type and for all, with an output that takes one byte at a time, and with one that fails at each byte, and returns
    what is wrong."""
    if not shutil.which("cc"):
        print("passed over, without cc: slow outputs")
        return
    fields = b"1 M.a m.proto:2:19 M.a m.proto:2:20\n"
    answers = {"gate --type M": b"breaks M 11\nwitness 08ffffffffffffffffff01\nstep " + fields,
               "gate-all": b"cause value 11 08ffffffffffffffffff01 " + fields + b"breaks M 11\n"}
    with tempfile.TemporaryDirectory(prefix="protogate-rows-") as folder:
        library = os.path.join(folder, "slow.so")
        subprocess.run(["cc", "-O2", "-shared", "-fPIC", "-o", library, os.path.join(ROOT, "tools/rows/slow_output.c"), "-ldl"], check=True)
        for side, scalar in (("old", "int32"), ("new", "uint32")):
            put(folder, {f"{side}/m.proto": f'syntax = "proto3";\nmessage M {{ {scalar} a = 1; }}\n'.encode()})
        for call, text in answers.items():
            words = f"{call} --old-dir old --new-dir new --old m.proto --new m.proto".split()
            yield fault_of(f"{call}: a slow output", (1, text), run(program, words, folder, LD_PRELOAD=library))
            for at in range(1, len(text) + 1):
                seen = run(program, words, folder, LD_PRELOAD=library, FAIL_AT=at)
                yield fault_of(f"{call}: an output that fails at byte {at}", (3, text[:at - 1]), seen)


def main():
    options, begun = options_of(__doc__), time.time()
    ask_for_stack()
    rows = all_rows()
    found = called(try_row, [(options.program, row) for row in rows], options.jobs, 16)
    files, outputs = list(try_failing_files(options.program)), list(try_slow_outputs(options.program))
    faults = [it for it in (*found, *files, *outputs) if it]
    print("\n".join(faults[:MOST_PRINTED]), end="\n" * bool(faults))
    counts = f"{len(rows)} rows, {len(files)} files that fail, {len(outputs)} slow outputs"
    print(f"{counts}: {len(faults)} failed; {time.time() - begun:.0f} seconds")
    return 1 if faults else 0


if __name__ == "__main__":
    sys.exit(main())

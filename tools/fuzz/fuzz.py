#!/usr/bin/env python3
"""Runs the built program on source files, descriptor sets, certificates and messages that are changed at random, and judges its answers.

    tools/fuzz/fuzz.py [--seed N] [--count N] [--seconds N] [--jobs N] [--only KIND:NUMBER] [--folder FOLDER] [PROGRAM]

KIND is `text` (source files), `set`, `certificate` or `message`. Of each kind COUNT inputs are tried (20,000 by default), by as many
processes side by side as there are processors. That takes a minute or two of four of them. It goes on until all are tried, but fails where that takes more than
SECONDS (600), and says how many were. What is changed are the repository's own inputs (tools/fuzz/fuzz_seeds.py), one to four times each
(tools/fuzz/fuzz_changes.py). The input of a kind and number is the same for a seed, however many are tried.

Asked of every run: it ends within a minute with a status from 0 to 5, by no signal, with nothing on standard error, and prints
just what docs/USAGE.md and docs/ERRORS.md say of that subcommand and status. Of one in eight inputs a call is made again with `--json`: it
ends with the same status, and its objects have the words of the lines to the byte (tools/fuzz/fuzz_json.py). Of one in eight a call names some of
the input's files in lists: it says what it says with the names as words, to the byte, or what is wrong with a list (tools/fuzz/fuzz_lists.py).
Asked of what is accepted:

- `text`, `set`: the certificate of `gate --cert` passes `verify`, with the same status and the length of its root, and names the view
  that was asked for, by numbers or by names. Of one in eight `gate` without `--cert` says the same; of one in sixteen `--both` begins with that, the
  witness has its length, the old side reads it and writes it again, and `--explain` says what `show` says of it. Of one in eight `types` names the types of the changed side, each
  by its full name and the one that was asked for among them where the gate answers; it refuses what `gate` refuses of that side. Of one in
  sixteen `gate-all` says of all types what `gate` says of one and `types` names, `show` reads the message of a cause as it says, and `--notes`
  adds lines of notes alone
- `text`: what `compile` refuses, `gate` refuses alike; the set that `compile` writes is one for protoc, where it is there, and, of one in
  four, for `show`
- certificate: `gate` answers what `verify` says has been proved
- message: `show` of what was written again shows the same, and the same bytes again

An input that fails is written to a folder below FOLDER (./fuzz-failures), with its files and the commands of its runs, and is printed
at the end with the command that tries it again, by number and kind, however many processes there were. Wants cc. The last line counts the inputs
of each kind, how many of them were accepted and how many refused, the runs, the failures and the seconds. The status is 1 where an input
failed, or where not all were tried in time.
"""
import argparse
import collections
import itertools
import os
import random
import resource
import shlex
import shutil
import signal
import struct
import subprocess
import sys
import tempfile
import time

sys.dont_write_bytecode = True
import fuzz_gate_all  # noqa: E402
import fuzz_json  # noqa: E402
import fuzz_lists  # noqa: E402
from fuzz_changes import changed_certificate, changed_message, changed_text  # noqa: E402
from fuzz_grammar import ANSWERS, PROTOC_ALONE  # noqa: E402
from fuzz_seeds import ROOT, Seed, all_seeds  # noqa: E402
from workers import called  # noqa: E402

KINDS = ("text", "set", "certificate", "message")
# How many seconds a run may take.
LIMIT = 60
# The files by which a starter is asked and answers (tools/fuzz/start_many.c).
ASKED, TOLD = 200, 201
# A share of the inputs ends with as many failures.
MOST_FAILURES = 10
# How the view is asked for by which enums are compared; without words it is that by numbers.
VIEWS = ([], ["--view", "numbers"], ["--view", "names"])
# Of so many inputs one is asked further things of: a start of the program takes longer than all else that is done with an input.
SHOW_SHARE, TYPES_SHARE, PLAIN_SHARE, BOTH_SHARE, ALL_SHARE, JSON_SHARE, LIST_SHARE = 4, 8, 8, 16, 16, 8, 8
# The subcommands that take lists, with what is in front of the options of each side.
LISTED = {"compile": ("",), "types": ("",), "gate-all": ("old-", "new-")}
PROTOC = shutil.which("protoc")
ACCEPTED = {"compile": (0,), "gate": (0, 1), "verify": (0, 1, 5), "show": (0,), "types": (0,)}


class Failure(Exception):
    """What the program did that it must not do."""


def overdue(*_):
    raise TimeoutError


def quoted(data):
    """Returns what was printed, short enough for a line."""
    return ascii(data[:200].decode("latin-1"))


def build_starter(folder):
    """Builds the library by which a program is started many times (tools/fuzz/start_many.c), and returns its path. Wants cc."""
    library, source = os.path.join(folder, "start.so"), os.path.join(ROOT, "tools/fuzz/start_many.c")
    subprocess.run(["cc", "-O2", "-shared", "-fPIC", "-o", library, source, "-ldl"], check=True)
    return library


class Starter:
    """A process that starts the program, each time in a process of its own: with these ends, in the folder where it was begun."""

    def __init__(self, program, library, ends):
        requests, answers = os.pipe(), os.pipe()
        inside = [*enumerate(ends), (ASKED, requests[0]), (TOLD, answers[1])]
        actions = [(os.POSIX_SPAWN_DUP2, file, end) for end, file in inside]
        checks = {it: os.environ[it] for it in ("ASAN_OPTIONS",) if it in os.environ}
        self.pid = os.posix_spawn(program, [program], {"LD_PRELOAD": library, **checks}, file_actions=actions)
        os.close(requests[0]), os.close(answers[1])
        self.requests, self.answers = requests[1], answers[0]
        signal.signal(signal.SIGALRM, overdue)

    def start(self, words):
        """Starts the program and returns its process."""
        request = b"".join(os.fsencode(it) + b"\0" for it in words)
        os.write(self.requests, struct.pack("=I", len(request)) + request)
        return self.answer()

    def answer(self):
        answer = os.read(self.answers, 4)
        expect(len(answer) == 4, "the program can't be started")
        return struct.unpack("=i", answer)[0]

    def status_of(self, words):
        """Runs the program and returns how it ended, below zero by a signal."""
        pid = self.start(words)
        signal.setitimer(signal.ITIMER_REAL, LIMIT)
        try:
            return os.waitstatus_to_exitcode(self.answer())
        except TimeoutError:
            os.kill(pid, signal.SIGKILL)
            self.answer()
            raise Failure(f"more than {LIMIT} seconds: {shlex.join(words)}") from None
        finally:
            signal.setitimer(signal.ITIMER_REAL, 0)

    def end(self):
        os.close(self.requests), os.close(self.answers)
        os.waitpid(self.pid, 0)


class Room:
    """A folder of its own with the files of an input, in which the program runs. It keeps the commands of the input's runs."""

    def __init__(self, options):
        self.program, self.calls, self.runs = options.program, [], 0
        self.path = tempfile.mkdtemp(dir=options.rooms)
        os.chdir(self.path)
        os.mkdir("old")
        os.mkdir("new")
        hard = resource.getrlimit(resource.RLIMIT_STACK)[1]
        resource.setrlimit(resource.RLIMIT_STACK, (hard, hard))
        # What a run prints goes to memory, which is emptied for the next: no file is opened for a run.
        self.said, self.faults = os.memfd_create("said"), os.memfd_create("faults")
        self.starter = Starter(options.program, options.library, [os.open(os.devnull, os.O_RDONLY), self.said, self.faults])

    def clear(self):
        self.calls = []
        taken(self.said), taken(self.faults)
        for folder in ("old", "new", "."):
            for entry in list(os.scandir(folder)):
                if entry.is_file():
                    os.unlink(entry.path)
                elif entry.name not in ("old", "new"):
                    shutil.rmtree(entry.path)

    def put(self, side, files):
        for name, data in files.items():
            if "/" in name:
                os.makedirs(os.path.join(side, os.path.dirname(name)), exist_ok=True)
            with open(f"{side}/{name}", "wb") as file:
                file.write(data)

    def remove(self):
        self.starter.end()
        os.chdir(ROOT)
        shutil.rmtree(self.path)

    def ran(self, words, keep=None):
        """Runs the program, and returns its status and what it printed on both ends."""
        self.calls.append((words, keep))
        self.runs += 1
        return self.starter.status_of(words), taken(self.said), taken(self.faults)

    def run(self, words, wanted=None, keep=None):
        """Runs the program, judges its answer by what such a call may print, and returns its status and what it printed."""
        status, said, faults = self.ran(words, keep)
        forms = ANSWERS[wanted or words[0]]
        if status not in forms:
            raise Failure(f"status {status}: {shlex.join(words)}: {quoted(said)} {quoted(faults)}")
        if not forms[status].fullmatch(said) or faults:
            raise Failure(f"printed with status {status}: {shlex.join(words)}: {quoted(said)} {quoted(faults)}")
        if keep:
            self.put(".", {keep: said})
        return status, said


def taken(file):
    """Returns what was written to a file in memory, and empties it."""
    length = os.lseek(file, 0, os.SEEK_CUR)
    if not length:
        return b""
    data = os.pread(file, length, 0)
    os.lseek(file, 0, os.SEEK_SET)
    os.ftruncate(file, 0)
    return data


def expect(is_so, what):
    if not is_so:
        raise Failure(what)


def spread(random_, change, data, other):
    """Returns the data changed once, or up to four times."""
    for _ in range(random_.choice((1, 1, 1, 2, 2, 3, 4))):
        data = change(random_, data, other)
    return data


def shown_by(room, sides, side, type_, witness):
    """Returns what `show` prints of bytes by the type of a side."""
    return room.run(["show", "--dir", side, "--file", sides[sides.index(f"--{side}") + 1], "--type", type_, witness.decode()])[1]


def judge_witness(room, words, sides, type_, said):
    """Compares a witness with its length, asks that the old side reads it and writes it again, where it isn't too deep for `show`, and
    compares what `--explain` prints with `show` by both sides."""
    length, witness = int(said.split()[2]), said.split()[4]
    expect(len(witness) == 2 * length, f"length and witness: {quoted(said)}")
    old, new = (shown_by(room, sides, it, type_, witness) for it in ("old", "new"))
    is_deep = old.startswith(b"refused E608")
    expect(is_deep or old.endswith(b"again %s\n" % witness) and b"unknown" not in old, f"{quoted(said)} shown: {quoted(old)}")
    explained = room.run([*words, "--explain"], "explained")[1]
    expect(explained == said + b"old\n" + old + b"new\n" + new, f"explained: {quoted(explained)}, shown: {quoted(old)} {quoted(new)}")


def view_of(certificate):
    """Returns the name of the view that a certificate of version 2 names."""
    return certificate.split(b"\n")[1].split()[1].decode()


def claim_of(certificate):
    """Returns what `verify` says of a certificate of version 2 that holds: its root with the root's bound."""
    lines = certificate.split(b"\n")
    root = lines[2][len(b"root "):]
    bound = next(it.split()[-1] for it in lines if it.startswith(b"pair %s " % root))
    name = root.split()[0]
    return b"compatible %s\n" % name if bound == b"none" else b"breaks %s %s\n" % (name, bound)


def judge_answer(room, words, sides, type_, said):
    """Compares an answer of the gate with that in both directions, and its witness with what both sides make of it."""
    both, answers = room.run([*words, "--both"], "both")
    expect(answers.startswith(b"forward\n" + said), f"gate: {quoted(said)}, with --both: {quoted(answers)}")
    if said.startswith(b"breaks"):
        expect(both == 1, f"gate: {quoted(said)}, status {both} with --both")
        judge_witness(room, words, sides, type_, said)


def judge_certificate(room, words, sides, status, certificate):
    """Checks the gate's certificate of these words, and returns what `verify` says."""
    verified, verdict = room.run(["verify", *sides, "c"])
    expect(verified == status, f"status {status} of gate --cert, {verified} of verify")
    expect(verdict == claim_of(certificate), f"{quoted(certificate)}, verify: {quoted(verdict)}")
    view = words[words.index("--view") + 1] if "--view" in words else VIEWS[1][1]
    expect(view_of(certificate) == view, f"{shlex.join(words)} --cert: {quoted(certificate)}")
    return verdict


def judge_gate(room, random_, sides, type_):
    """Asks the gate of two sides for its certificate by one view, and checks it; of a share also for the answer, and of a part of that for
    both directions, and the witness is shown. Returns the status and the output of the first of these calls."""
    words = ["gate", *sides, "--type", type_, *random_.choice(VIEWS)]
    is_both, is_plain = (random_.randrange(it) == 0 for it in (BOTH_SHARE, PLAIN_SHARE))
    status, said = room.run([*words, "--cert"], "certificate", keep="c")
    if status not in ACCEPTED["gate"]:
        expect(not is_plain or room.run(words) == (status, said), f"gate --cert: {quoted(said)}, without: another answer")
        return status, said
    verdict = judge_certificate(room, words, sides, status, said)
    if is_plain or is_both:
        plain, answer = room.run(words)
        expect(plain == status and answer.startswith(verdict), f"gate: {quoted(answer)}, verify: {quoted(verdict)}")
        if is_both:
            judge_answer(room, words, sides, type_, answer)
    return status, said


def judge_types(room, side, sides, type_, answer):
    """Asks which types the changed side has, and compares that with the answer of the gate: its status and output."""
    status, said = answer
    listed, names = room.run(["types", "--dir", side, sides[sides.index("--" + side) + 1]])
    if listed not in ACCEPTED["types"]:
        expect(is_refused_alike(names, said, side), f"types: {quoted(names)}, gate: {quoted(said)}")
        return
    is_asked = type_.encode() in names.splitlines()
    lacks = b"refused E901\n" if side == "old" else b"refused E902\n"
    expect(not said.startswith(b"refused " + side.encode()), f"types: {quoted(names)}, gate: {quoted(said)}")
    expect(is_asked if status in ACCEPTED["gate"] else not is_asked or said != lacks, f"types: {quoted(names)}, gate: {quoted(said)}")


def is_refused_alike(refused, said, side):
    """Returns whether the gate says of the changed side what this refusal says of its files: the other side has no fault."""
    return said == b"refused " + side.encode() + refused[len(b"refused"):]


def judge_protoc(path, name):
    """Asks protoc to read a set. What it alone refuses are whole lines of its own, each of a form that is listed."""
    words = ["protoc", f"--descriptor_set_in={path}", "-o", os.devnull, name]
    run = subprocess.run(words, stdin=subprocess.DEVNULL, capture_output=True, timeout=LIMIT, check=False)
    expect(run.returncode == 0 or PROTOC_ALONE.fullmatch(run.stderr), f"{shlex.join(words)}: {quoted(run.stderr)}")


def judge_compile(room, random_, side, name, type_, answer):
    """Compiles the source file of a side, and reads the set that is written. What is refused `gate` refuses alike."""
    status, said = room.run(["compile", "--dir", side, name], keep="compiled.pb")
    if status not in ACCEPTED["compile"]:
        expect(is_refused_alike(said, answer, side), f"compile: {quoted(said)}, gate: {quoted(answer)}")
        return
    expect(not answer.startswith(b"refused " + side.encode()), f"compiled, gate: {quoted(answer)}")
    if PROTOC:
        judge_protoc("compiled.pb", name)
    if random_.randrange(SHOW_SHARE) == 0:
        shown = room.run(["show", "--file", "compiled.pb", "--type", type_, "-"])
        expect(shown in ((0, b"again -\n"), (2, b"refused E901\n")), f"show of the set: {quoted(shown[1])}")


def judge_all(room, random_, sides, type_):
    """Asks for all types of two sides, and compares that with the answer for one of them, the types of each, and what is shown of a cause."""
    view = random_.choice(VIEWS)
    status, said = room.run(["gate", *sides, "--type", type_, *view])
    status_of_all, whole = room.run(["gate-all", *sides, *view, "--explain"], "causes")
    plain = room.run(["gate-all", *sides, *view])
    if status_of_all in (2, 3) and whole.startswith(b"refused "):
        expect(plain == (status, said) == (status_of_all, whole), f"gate: {quoted(said)}, gate-all: {quoted(whole)} {quoted(plain[1])}")
        return
    answer = fuzz_gate_all.Answer(whole)
    expect(plain == (status_of_all, answer.plain), f"gate-all: {quoted(plain[1])}, with --explain: {quoted(whole)}")
    status_with_notes, noted = room.run(["gate-all", *sides, *view, "--notes"], "noted")
    rest = noted.removeprefix(answer.plain).splitlines()
    expect(status_with_notes == status_of_all and noted.startswith(answer.plain) and all(it.startswith(b"note ") for it in rest),
           f"gate-all: {quoted(plain[1])}, with --notes: {quoted(noted)}")
    types = [room.run(["types", "--dir", it, sides[sides.index("--" + it) + 1]])[1].split() for it in ("old", "new")]
    for fault in (*fuzz_gate_all.faults(answer, status_of_all, *types), *fuzz_gate_all.faults_beside_gate(answer, said, type_.encode())):
        raise Failure(f"gate-all, {fault}: {quoted(whole)}, gate: {quoted(said)}")
    if answer.causes:
        _, _, witness, old, new, _, *readings = random_.choice(answer.causes)
        shown = [shown_by(room, sides, side, owner.decode(), witness) for side, owner in (("old", old), ("new", new))]
        is_deep = shown[0].startswith(b"refused E608")
        expect(shown == readings and (is_deep or shown[0].endswith(b"again %s\n" % witness) and b"unknown" not in shown[0]),
               f"gate-all: {quoted(whole)}, shown: {quoted(shown[0])} {quoted(shown[1])}")


def files_in(folder):
    """Returns the paths of the files of an input below one of its folders."""
    return sorted(os.path.relpath(f"{at}/{it}", folder) for at, _, names in os.walk(folder) for it in names)


def words_of_side(before, folder, files):
    """Returns the words that name these files of a side."""
    return [f"--{before}dir", folder, *(f"--{before[:-1]}={it}" if before else it for it in files)]


def judge_lists(room, random_):
    """Makes a call with lists of the input's files. Where none is at fault, it says what it says with the names as words."""
    command = random_.choice(sorted(LISTED))
    call, plain, fault, named = [command], [command], None, []
    for before in LISTED[command]:
        folder = random_.choice([it for it in ("old", "new", ".") if files_in(it)])
        side, path = fuzz_lists.Listed(random_, files_in(folder)), before + random_.choice(("l", "l.proto", "l.pb"))
        room.put(".", {path: side.data})
        found = fuzz_lists.fault_of(path, side.data)
        fault = fault or found and (found[0], f"refused {before[:-1]} {found[1]}\n".replace("  ", " ").encode(), b"")
        listed = fuzz_lists.names_in(side.data)
        call += [*words_of_side(before, folder, side.words), f"--{before}files-from={path}"]
        plain += words_of_side(before, folder, [*side.words, *listed])
        named += listed
    answer = room.ran(call)
    if fault or fuzz_lists.can_be_words(named):
        wanted = fault or (*room.run(plain), b"")
        expect(answer == wanted, f"{shlex.join(call)}: {answer[0]} {quoted(answer[1])} {quoted(answer[2])}, wanted: {wanted[0]} {quoted(wanted[1])}")


def judge_json(room, random_):
    """Makes a call of an input again with `--json`, and compares the words of its objects with the lines."""
    calls = [words for words, _ in room.calls if words[0] != "compile"]
    words = random_.choice(calls)
    answer, (status, said, faults) = room.ran(words), room.ran([*words, "--json"])
    try:
        again = (status, fuzz_json.words_of(said), faults)
    except fuzz_json.Wrong as fault:
        raise Failure(f"{shlex.join(words)} --json: {fault}: {quoted(said)}") from None
    expect(again == answer, f"{shlex.join(words)}: {answer[0]} {quoted(answer[1])}, with --json: {status} {quoted(said)} {quoted(faults)}")


def judge_sides(room, random_, seed, side, type_):
    """Asks the gate of two sides of which one was changed, of a share also which types that has, and returns its status and output."""
    sides = sides_of(seed)
    status, said = judge_gate(room, random_, sides, type_)
    if random_.randrange(TYPES_SHARE) == 0:
        judge_types(room, side, sides, type_, (status, said))
    if random_.randrange(ALL_SHARE) == 0:
        judge_all(room, random_, sides, type_)
    return status, said


def try_text(room, random_, seeds):
    """Changes a source file of one side, and compares it with the other side."""
    seed, other = random_.choice(seeds["text"]), random_.choice(seeds["text"])
    side, type_ = random_.choice(("old", "new")), random_.choice(seed.types)
    files = {"old": dict(seed.old_files), "new": dict(seed.new_files)}
    name = seed.old if side == "old" else seed.new
    changed = name if random_.random() < 0.8 else random_.choice(sorted(files[side]))
    files[side][changed] = spread(random_, changed_text, files[side][changed], other.old_files[other.old])
    room.put("old", files["old"])
    room.put("new", files["new"])
    status, said = judge_sides(room, random_, seed, side, type_)
    judge_compile(room, random_, side, name, type_, said)
    return status in ACCEPTED["gate"]


def sides_of(seed):
    return ["--old-dir", "old", "--new-dir", "new", "--old", seed.old, "--new", seed.new]


def try_set(room, random_, seeds):
    """Changes the set of one side and compares it with the other side."""
    seed, other = random_.choice(seeds["set"]), random_.choice(seeds["set"])
    files = {"old": dict(seed.old_files), "new": dict(seed.new_files)}
    names = [(side, it) for side in files for it in sorted(files[side]) if not it.endswith(".proto")]
    side, name = random_.choice(names)
    files[side][name] = spread(random_, changed_message, files[side][name], other.old_files[other.old])
    room.put("old", files["old"])
    room.put("new", files["new"])
    return judge_sides(room, random_, seed, side, random_.choice(seed.types))[0] in ACCEPTED["gate"]


def in_version_2(certificate):
    """Returns the certificate of version 2 that says what one of version 1 does; others as they are."""
    return certificate.replace(b"protogate-certificate 1\n", b"protogate-certificate 2\nview numbers\n", 1)


def judge_verdict(room, seed, certificate, said):
    """Compares what a certificate proves with what the gate answers by its view, where the types of both sides have one name."""
    forms, certificate = ANSWERS["certificate"], in_version_2(certificate)
    expect(forms[0].fullmatch(certificate) or forms[1].fullmatch(certificate), f"verify takes {quoted(certificate)}")
    verdict, root, *length = said.split()
    types = certificate.split(b"\n")[2].split()[1:]
    if types[0] != types[1]:
        return
    words = ["gate", *sides_of(seed), "--type", root.decode(), "--view", view_of(certificate)]
    answer, found, *rest = room.run(words)[1].split()
    if verdict == b"bound":
        is_proved = answer == b"compatible" or int(rest[0]) >= int(length[0])
    else:
        is_proved = [answer, *rest[:1]] == [verdict, *length]
    expect(found == root and is_proved, f"verify: {quoted(said)}, gate: {answer.decode()} {rest[:1]}")


def try_certificate(room, random_, seeds):
    """Changes a certificate and checks it between the sides that it was made for."""
    seed, other = random_.choice(seeds["certificate"]), random_.choice(seeds["certificate"])
    certificate = spread(random_, changed_certificate, seed.data, other.data)
    room.put("old", seed.old_files)
    room.put("new", seed.new_files)
    room.put(".", {"c": certificate})
    status, said = room.run(["verify", *sides_of(seed), "c"])
    if status in ACCEPTED["verify"]:
        judge_verdict(room, seed, certificate, said)
    return status in ACCEPTED["verify"]


def word_of(random_, data):
    """Returns bytes as `show` takes them, seldom with a digit that is none or too many."""
    word = data.hex() if random_.randrange(2) else data.hex().upper()
    if random_.randrange(60) == 0:
        word += random_.choice("0gx-. ")
    return word or "-"


def try_message(room, random_, seeds):
    """Changes a message and shows it, then shows what was written again."""
    seed, other = random_.choice(seeds["message"]), random_.choice(seeds["message"])
    word = word_of(random_, spread(random_, changed_message, seed.data, other.data))
    room.put(".", seed.old_files)
    words = ["show", "--file", seed.old, "--type", seed.types[0]]
    status, said = room.run([*words, word])
    if status in ACCEPTED["show"]:
        again = room.run([*words, said.split()[-1].decode()])
        expect(again == (status, said), f"shown: {quoted(said)}, what was written again: {quoted(again[1])}")
    return status in ACCEPTED["show"]


TRIES = {"text": try_text, "set": try_set, "certificate": try_certificate, "message": try_message}


def write_failure(room, folder, kind, number):
    """Keeps the files of an input that failed, with the commands of its runs, and returns the folder."""
    kept = os.path.join(folder, f"{kind}-{number}")
    shutil.rmtree(kept, ignore_errors=True)
    shutil.copytree(room.path, kept)
    lines = ["ulimit -s unlimited\n"]
    for words, keep in room.calls:
        lines.append(shlex.join([room.program, *words]) + (f" >{keep}" if keep else "") + "\n")
    with open(os.path.join(kept, "commands.sh"), "w", encoding="utf-8", errors="surrogateescape") as file:
        file.writelines(lines)
    return kept


def try_one(room, options, seeds, kind, number, counts):
    """Tries the input of a kind and number, counts what came of it, and returns what to print where it fails."""
    room.clear()
    try:
        is_accepted = TRIES[kind](room, random.Random(f"{options.seed} {kind} {number}"), seeds)
        # (by numbers of its own, so that the input of a kind and number stays what it was)
        random_ = random.Random(f"{options.seed} {kind} {number} json")
        if random_.randrange(JSON_SHARE) == 0:
            judge_json(room, random_)
        random_ = random.Random(f"{options.seed} {kind} {number} lists")
        if random_.randrange(LIST_SHARE) == 0:
            judge_lists(room, random_)
        counts[kind, "accepted" if is_accepted else "refused"] += 1
        return ""
    except Failure as failure:
        counts[kind, "failed"] += 1
        kept = write_failure(room, options.folder, kind, number)
        again = [os.path.realpath(__file__), "--seed", str(options.seed), "--only", f"{kind}:{number}", options.program]
        return f"{kind} {number}: {failure}\n  kept in {kept}\n  again: {shlex.join(again)}"


def inputs_of(options, share):
    """Returns the kinds and numbers of a share of the inputs, the kinds in turn."""
    if options.only:
        kind, _, number = options.only.partition(":")
        return [(kind, int(number))] if share == 0 else []
    return ((kind, number) for number in range(share, options.count, options.jobs) for kind in KINDS)


def try_share(options, seeds, share):
    """Tries a share of the inputs, as far as the time goes. Returns its counts, and what to print of each failure, with its index in the
    order."""
    room, counts, failures = Room(options), collections.Counter(), []
    try:
        for kind, number in inputs_of(options, share):
            if time.monotonic() > options.end or len(failures) >= MOST_FAILURES:
                break
            failure = try_one(room, options, seeds, kind, number, counts)
            if failure:
                failures.append((number, KINDS.index(kind), failure))
    finally:
        room.remove()
    counts["runs"] = room.runs
    return counts, failures


def made_seeds(options, seeds):
    """Returns the sets that the program makes of the source files of each change, and the certificates between them, by both views."""
    room, sets, certificates = Room(options), [], []
    for seed in seeds:
        room.clear()
        room.put("old", seed.old_files)
        room.put("new", seed.new_files)
        (done, old), (also, new) = (room.run(["compile", "--dir", *it]) for it in (("old", seed.old), ("new", seed.new)))
        expect(done == also == 0, f"a seed is refused: {quoted(old)} {quoted(new)}")
        sets.append(Seed({"m.pb": old}, "m.pb", {"m.pb": new}, "m.pb", seed.types, b""))
        for type_, view in itertools.product(seed.types, VIEWS[1:]):
            status, said = room.run(["gate", *sides_of(seed), "--type", type_, *view, "--cert"], "certificate")
            if status in ACCEPTED["gate"]:
                certificates.append(seed._replace(types=[type_], data=said))
    room.remove()
    return sets, certificates


def try_all(options, seeds):
    """Tries all inputs, by processes side by side, and returns what each of them returned."""
    sets, certificates = made_seeds(options, seeds["text"])
    seeds["set"] += sets
    seeds["certificate"] += certificates
    return called(try_share, [(options, seeds, share) for share in range(options.jobs)], options.jobs)


def options_of():
    parser = argparse.ArgumentParser(description=__doc__.partition("\n")[0])
    parser.add_argument("--seed", type=int, default=1)
    parser.add_argument("--count", type=int, default=20_000)
    parser.add_argument("--seconds", type=float, default=600)
    parser.add_argument("--jobs", type=int, default=len(os.sched_getaffinity(0)))
    parser.add_argument("--only", metavar="KIND:NUMBER")
    parser.add_argument("--folder", default="fuzz-failures", type=os.path.abspath)
    parser.add_argument("program", nargs="?", default=os.path.join(ROOT, "crates/protogate/out/protogate"), type=os.path.abspath)
    return parser.parse_args()


def main():
    options, begun = options_of(), time.monotonic()
    if not os.access(options.program, os.X_OK):
        sys.exit(f"no program: {options.program}")
    if not PROTOC:
        print("passed over, without protoc: sets that `compile` writes, read by it")
    options.end = begun + options.seconds
    memory = "/dev/shm" if os.access("/dev/shm", os.W_OK) else None
    with tempfile.TemporaryDirectory(prefix="protogate-fuzz-") as folder, tempfile.TemporaryDirectory(prefix="protogate-fuzz-", dir=memory) as rooms:
        options.library, options.rooms = build_starter(folder), rooms
        shares = try_all(options, all_seeds())
    counts = sum((it for it, _ in shares), collections.Counter())
    for _, _, failure in sorted(it for _, failures in shares for it in failures):
        print(failure)
    tried = {kind: sum(counts[kind, it] for it in ("accepted", "refused", "failed")) for kind in KINDS}
    parts = [f"{kind} {tried[kind]} inputs: {counts[kind, 'accepted']} accepted, {counts[kind, 'refused']} refused" for kind in KINDS]
    failed = sum(counts[kind, "failed"] for kind in KINDS)
    is_short = not options.only and min(tried.values()) < options.count
    short = f"not all {options.count} of each were tried in {options.seconds:g} seconds; " if is_short else ""
    end = f"{short}{counts['runs']} runs; {failed} failures; seed {options.seed}; {time.monotonic() - begun:.0f} seconds"
    print("; ".join([*parts, end]))
    return 1 if failed or is_short else 0


if __name__ == "__main__":
    sys.exit(main())

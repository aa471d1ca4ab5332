#!/usr/bin/env python3
"""Runs the gate (`rt ci`: each proof, the tests and the programs; and the edits that must be refused) and tells what it cost.

usage: tools/prove.py [--anew [--costs]] [--tested=CHECKSUM,PART,..] [CRATE..]    ends with the gate's status, and with its last line, 'N passed, M failed'

The gate runs on a copy of the repository, or, where crates are named, of these and of those below them. Edits are taken out of the
copy, and tried afterwards over the libraries that `rt ci` built there, those of a crate in one check or a few (try_edits.py); `rt ci` in
the repository itself tries each alone, and proves each crate that has some a second time. With no names the documents' words, links and
pictures are compared first, and that each public function has an edit; a message that outlives its bytes is tried over the libraries too
(try_lent.py). What passed is put back into the repository, where its sources are still the same, and tried last: the program and the
libraries' calls with each request for memory refused, the program on rows and on random inputs, the scripts that call it, the commands of
the documents, and the tests of these scripts.
What earlier runs on this machine passed isn't proved again; with --anew all is proved and tried again. tools/test.py --prove hands over which
of its parts passed, by --tested, and a checksum of the repository at that time: those that need no program aren't tried again, and all are counted.
Where a file was changed since, all is tried again.

It says at the start, and each minute, how long it is likely to take. A line of rt follows the seconds since the start. The last lines are the
processor seconds of each crate by kind: its proof, its seeds (a second proof, where edits are left to `rt ci`), its edits, its tests, and
what builds and runs programs, with what tries the built ones, and what belongs to no crate (rt itself, linking). With --costs these become
what later runs are measured by (costs.txt), and the page that has their sums says so (costs_table.py).
"""

import hashlib
import os
import re
import resource
import shutil
import subprocess
import sys
import tempfile
import threading
import time

sys.dont_write_bytecode = True
sys.path.append(f"{os.path.dirname(os.path.realpath(__file__))}/gate")
import child_programs  # noqa: E402
import kit  # noqa: E402
import stamp  # noqa: E402
import testers  # noqa: E402
import times  # noqa: E402
from costs import KINDS, Costs, others, print_costs  # noqa: E402
from crates import crates_of  # noqa: E402
from machine import CHECK, DISK_OF_GATE, PROGRAMS_OF_GATE, is_confined, lanes, missing, processors  # noqa: E402
from parts import Part, all_parts, tried  # noqa: E402
from side_by_side import SideBySide  # noqa: E402
from try_edits import plan, try_all  # noqa: E402

TOP = os.path.dirname(os.path.dirname(os.path.realpath(__file__)))
# The program that the gate builds.
BUILT = f"{TOP}/crates/{stamp.PROGRAM}/out/{stamp.PROGRAM}"
# How the word begins that hands over which parts of tools/test.py passed, and of which files.
TESTED = "--tested="
# What the gate of some crates takes of the disk, in bytes.
DISK_OF_SOME = 2_000_000_000
# What a line of rt says of a crate whose proof is done.
DONE = re.compile(r"rt: (\w+) (?:proved|NOT PROVED|(is kept))\b")
HOW = {"stdin": subprocess.DEVNULL, "stdout": subprocess.PIPE, "stderr": subprocess.STDOUT, "text": True, "errors": "replace"}


def say(text):
    print(f"protogate: {text}", flush=True)


def named(names):
    """Returns these crates and those below them."""
    crates = crates_of(".")
    return {it.name: it for name in names if name in crates for it in (*crates[name].below(), crates[name])}


def copy_all(room):
    """Copies the repository, without what was built."""
    here = os.getcwd()

    def passed_over(at, names):
        inside = os.path.relpath(at, here).split("/")
        return [it for it in names if it == "out" and inside[0] == "crates" or at == here and it == ".git"]

    shutil.copytree(here, room, ignore=passed_over, symlinks=True, dirs_exist_ok=True)
    subprocess.run(["git", "init", "-q", room], check=True)


def copy_of(crates, room):
    """Makes a repository of these crates."""
    for name in crates:
        shutil.copytree(f"crates/{name}", f"{room}/crates/{name}", ignore=shutil.ignore_patterns("out"))
    shutil.copyfile("HANDLES", f"{room}/HANDLES")
    with open(f"{room}/crates.txt", "w", encoding="utf-8") as file:
        file.write("".join(f"{it.line}\n" for it in crates.values()))
    subprocess.run(["git", "init", "-q", room], check=True)


def sums(top):
    """Returns a checksum of each file that the program is made of, by its path."""
    found = {}
    crates = [f"{top}/crates/{it}/{part}" for it in os.listdir(f"{top}/crates") for part in kit.PARTS]
    files = [f"{at}/{name}" for folder in crates for at, _, names in os.walk(folder) for name in names]
    for path in (*files, f"{top}/crates.txt", f"{top}/HANDLES"):
        with open(path, "rb") as file:
            found[os.path.relpath(path, top)] = hashlib.sha256(file.read()).hexdigest()
    return found


def take_edits(room):
    """Takes the edits that try_edits.py tries out of a repository, and returns them: none where `rt ci` will say what is wrong with it."""
    try:
        plans = plan(room)
    except (SystemExit, OSError, KeyError):
        return []
    for path in (path for it in plans for path in it.paths):
        os.remove(path)
    for it in plans:
        if not os.listdir(f"{it.crate.folder}/must-fail"):
            os.rmdir(f"{it.crate.folder}/must-fail")
    return plans


def progress_of(room, plans, left):
    """Returns how far a run is: the proofs of the crates in the room, their edits, and these testers."""
    costs, crates = times.read(), crates_of(room)
    proofs = {it: sum(costs.get(it, times.UNKNOWN)[kind] for kind in ("proof", "tests", "programs")) for it in crates}
    edits = {f"edits of {it.crate.name}": max(10, costs.get(it.crate.name, times.UNKNOWN)["edits"]) for it in plans}
    share = costs.get(times.TESTERS, times.UNKNOWN)["programs"] / max(1, sum(it.seconds for it in left))
    tried = {testers.name_of(it): share * it.seconds for it in left}
    below = {it: [dep.name for dep in crates[it].deps] for it in crates}
    phases = {"crates": (proofs, below), "crates' edits": (edits, dict.fromkeys(edits, ())), "testers": (tried, dict.fromkeys(tried, ()))}
    return times.Progress(phases, lanes(), say)


def environment():
    """Returns what rt is told of its jobs: what the user set, else as many checks as there are processors, and memory for each by what checks were
    measured to take. Where the system itself is short of memory, rt keeps checks apart by the memory that it expects, which is two to five times as
    much. But of the limits of containers it reads fewer."""
    if "RT_JOBS" in os.environ or lanes() < processors() and not is_confined():
        return {**os.environ}
    return {**os.environ, "RT_JOBS": str(lanes())}


class Proofs:
    """A run of `rt ci` on the repository in the room: its lines as they come, and what its checks take."""

    def __init__(self, room, progress):
        self.room, self.progress, self.kept, self.begun = room, progress, [], time.time()

    def pass_on(self, lines):
        """Prints each line as it comes but the last. Returns the first and the last."""
        first = held = ""
        for line in lines:
            print(held, end="", flush=True)
            line = line.replace(f"{self.room}/", "")
            first = first or line
            if done := DONE.match(line):
                self.progress.end(done[1])
                self.kept += [done[1]] * bool(done[2])
            held = f"{time.time() - self.begun:5.0f} s  {line}" if line.startswith("rt:") else line
        return first, held

    def run(self, words):
        """Runs `rt ci` with these words. Returns its status, its first and last line, the costs of each crate and their sum."""
        run = child_programs.start(["rt", "ci", *words], cwd=self.room, env=environment(), **HOW)
        costs = Costs(run.pid, self.progress.begin)
        watch = threading.Thread(target=costs.watch, daemon=True)
        watch.start()
        first, last = self.pass_on(run.stdout)
        costs.is_over = True
        watch.join()
        status, seconds = child_programs.wait(run)
        return status, first, last.strip(), costs.table(), seconds


def run_ci(room, flags, progress):
    """Runs `rt ci` on the repository in the room, with --anew where that is asked for and the kit takes it. Returns its status, its last line, the costs
    of each crate and their sum."""
    proofs = Proofs(room, progress)
    status, first, last, table, whole = proofs.run(flags)
    if flags and status == 2 and first.lstrip().startswith("usage:"):
        say("this kit's `rt ci` takes no --anew: it decides itself what to prove again")
        status, first, last, table, whole = proofs.run([])
    if proofs.kept:
        say(f"kept from earlier runs: the proofs of {' '.join(proofs.kept)}")
    return status, last, table, whole


def try_plans(room, plans, is_anew, progress):
    """Tries these edits over the libraries that were built. Returns how many passed and failed."""
    kit.note_taken(room)
    if not kit.build_libraries({dep.folder: dep for it in plans for dep in it.crate.below()}.values()):
        return 0, 1

    def note(tries, is_over):
        (progress.end if is_over else progress.begin)(f"edits of {tries.crate.name}")

    passed, failed = try_all(plans, lanes(), is_anew, note=note)
    kept = [it.crate.name for it in plans if it.is_kept]
    if kept:
        say(f"kept from earlier runs: the edits of {' '.join(kept)}")
    return passed, failed


def prove(room, flags, plans, progress):
    """Runs `rt ci` on the repository in the room, and tries the edits of its crates. Returns the status, the last line, the costs of each
    crate and their sum."""
    begun = time.time()
    status, last, table, whole = run_ci(room, flags, progress)
    last = counted(last, 0, 0)
    if status == 0:
        before = resource.getrusage(resource.RUSAGE_CHILDREN)
        passed, failed = try_plans(room, plans, "--anew" in flags, progress)
        status, last = int(failed > 0), counted(last, passed, failed)
        for it in (it for it in plans if it.seconds):
            table.setdefault(it.crate.name, dict.fromkeys(KINDS, 0.0))["edits"] += it.seconds
        whole += seconds_since(before)
    print(f"{time.time() - begun:.0f} seconds by the clock, on {processors()} processors", flush=True)
    return status, last, table, whole


def seconds_since(before):
    after = resource.getrusage(resource.RUSAGE_CHILDREN)
    return after.ru_utime + after.ru_stime - before.ru_utime - before.ru_stime


def own_seconds():
    own = resource.getrusage(resource.RUSAGE_SELF)
    return own.ru_utime + own.ru_stime


def put_back(room, copied, begun):
    """Puts the programs that were built in the room into the repository, where its sources are those that were copied, and notes that. Returns whether it
    did."""
    here = sums(".")
    changed = [it for it in sorted({*here, *copied}) if here.get(it) != copied.get(it)]
    if changed:
        say(f"{changed[0]} was changed while the gate ran, so what it built isn't put into place: run it again")
        return False
    for name in os.listdir(f"{room}/crates"):
        made = f"{room}/crates/{name}/out"
        for it in os.listdir(made) if os.path.isdir(made) else []:
            if os.path.isfile(f"{made}/{it}"):
                os.makedirs(f"crates/{name}/out", exist_ok=True)
                with stamp.replaced(f"crates/{name}/out/{it}") as path:
                    shutil.copy2(f"{made}/{it}", path)
    stamp.write(".", begun)
    return True


def documents_agree(tested):
    """Returns whether the documents name the files that the promise rests on, their links lead somewhere, the pictures are those of their sources,
    errors have one wording, words are plain, costs are those that were measured, and each public function has an edit."""
    left = testers.without(testers.COMPARED, tested)
    return all([subprocess.run(testers.words_of(it, None), check=False).returncode == 0 for it in left])


def try_lent(room):
    """Tries a message that outlives its bytes over the libraries in the room. Prints what was said, and returns whether it was right."""
    return child_programs.run([sys.executable, f"{os.getcwd()}/tools/gate/try_lent.py", room], stdin=subprocess.DEVNULL)[0] == 0


class Tried(Part):
    """A tester of what `rt ci` built."""

    def __init__(self, tester):
        super().__init__(testers.name_of(tester), tester.seconds)
        self.tester, self.is_alone = tester, tester.how != testers.BESIDE
        self.memory = CHECK * (testers.CHECKS in tester.needs)

    def run(self):
        return tried(self.name, testers.words_of(self.tester, BUILT), TOP)


def try_program(left, progress):
    """Runs these testers of what `rt ci` built side by side, those that check crates no more at once than there is room for, and then each of those that
    come alone. Prints what each said and took. Returns which passed, and what was passed over."""
    passed, over = [], []

    def ended(part, outcome, _):
        passed.append(outcome.is_well)
        progress.end(part.name)
        print(f"{outcome.said}{part.tester.path}: {outcome.seconds:.0f} processor seconds", flush=True)
        over.extend(it for it in outcome.said.splitlines() if it.startswith("passed over"))

    SideBySide([Tried(it) for it in left], lambda it: progress.begin(it.name), ended).run()
    return passed, over


def counted(last, passed, failed):
    """Returns the last line of `rt ci` with these among what passed and failed. Where it ended in another way, that failed too."""
    found = re.match(r"(\d+) passed, (\d+) failed", last)
    return f"{int(found[1]) + passed} passed, {int(found[2]) + failed} failed" if found else f"{passed} passed, {failed + 1} failed"


def tell_start(progress):
    say(f"{times.in_words(progress.left())} on {processors()} processors, where nothing is kept from earlier runs")


def prove_all(flags, tested):
    """Runs the whole gate, after these parts of tools/test.py have passed. Returns its status and the costs of each crate."""
    if not documents_agree(tested):
        print(f"the documents, pictures or edits lack something\n{len(tested)} passed, 1 failed")
        return 1, {}
    left = testers.without(testers.TESTERS, tested)
    before, passed, over = resource.getrusage(resource.RUSAGE_CHILDREN), [], []
    with tempfile.TemporaryDirectory(prefix="protogate-gate-") as room, child_programs.all_ended():
        begun = stamp.read_now(".")
        copy_all(room)
        copied, plans = sums(room), take_edits(room)
        progress = progress_of(room, plans, left)
        tell_start(progress)
        with progress:
            status, last, table, _ = prove(room, flags, plans, progress)
            if status == 0:
                proved = resource.getrusage(resource.RUSAGE_CHILDREN)
                passed = [try_lent(room), put_back(room, copied, begun)]
                if passed[-1]:
                    tried, over = try_program(left, progress)
                    passed += tried
                table[times.TESTERS] = {**dict.fromkeys(KINDS, 0.0), "programs": seconds_since(proved)}
                table[times.OTHERS] = {**dict.fromkeys(KINDS, 0.0), "programs": others(table, seconds_since(before) + own_seconds())}
    print_costs(table, seconds_since(before) + own_seconds())
    for line in dict.fromkeys(over):
        print(line)
    print(counted(last, sum(passed) + len(tested), len(passed) - sum(passed)))
    return status or 1 - all(passed), table


def prove_named(names, flags):
    """Runs the gate on a copy of these crates and of those below them. Returns its status and the costs of each crate."""
    crates = named(names)
    unknown = [it for it in names if it not in crates]
    if unknown:
        print(f"crates.txt has no {', '.join(unknown)}", file=sys.stderr)
        return 2, {}
    with tempfile.TemporaryDirectory(prefix="protogate-gate-") as room, child_programs.all_ended():
        copy_of(crates, room)
        plans = take_edits(room)
        progress = progress_of(room, plans, ())
        tell_start(progress)
        with progress:
            status, last, table, whole = prove(room, flags, plans, progress)
    print_costs(table, whole)
    print(last)
    return status, table


def handed_over(words):
    """Returns the parts of tools/test.py that are said to have passed, and the checksum of the files of which they did. Raises ValueError where that
    can't be."""
    said = [it[len(TESTED) :].split(",") for it in words if it.startswith(TESTED)]
    if not said:
        return [], None
    (of, *parts), *others = said
    if others or not parts or len({*parts}) < len(parts) or not {*parts} <= {it.name for it in all_parts(TOP)}:
        raise ValueError("--tested comes once, with a checksum and parts of tools/test.py, each once")
    return parts, of


def measured(table):
    """Returns the costs to write after a run. A crate that it didn't prove anew, as where the kit kept the proof, keeps its row."""
    before, none, names = times.read(), dict.fromkeys(times.KINDS, 0), (*crates_of("."), times.TESTERS, times.OTHERS)
    found = {it: {**row, "proof": row["proof"] + row["seeds"]} for it, row in table.items() if row["proof"] or it in (times.TESTERS, times.OTHERS)}
    return {it: found.get(it) or before.get(it, none) for it in names}


def main():
    names = [it for it in sys.argv[1:] if not it.startswith("--")]
    try:
        tested, of = handed_over(sys.argv[1:])
    except ValueError as fault:
        print(fault, file=sys.stderr)
        return 2
    unknown = {it for it in sys.argv[1:] if not it.startswith(TESTED)} - {*names, "--anew", "--costs"}
    if unknown:
        print(f"unknown: {' '.join(sorted(unknown))}\n\n{__doc__}", file=sys.stderr)
        return 2
    if "--costs" in sys.argv and ("--anew" not in sys.argv or tested):
        print("--costs goes with --anew alone: what is kept from earlier runs, or was tested before, isn't measured", file=sys.stderr)
        return 2
    flags = ["--anew"] * ("--anew" in sys.argv)
    places = {tempfile.gettempdir(): DISK_OF_SOME if names else DISK_OF_GATE}
    lacking = missing(PROGRAMS_OF_GATE, places if names else {**places, stamp.out_of("."): 0})
    if lacking:
        print("\n".join([*lacking, f"{len(tested)} passed, 1 failed"]), flush=True)
        return 2
    if tested and of != stamp.sum_of_files(TOP):
        say("a file was changed since the tests ran, so all of them run again")
        tested = []
    child_programs.on_signals()
    status, table = prove_named(names, flags) if names else prove_all(flags, tested)
    if status == 0 and "--costs" in sys.argv:
        times.write(measured(table))
        subprocess.run(["tools/docs/costs_table.py", "--write"], check=False)
    return status


if __name__ == "__main__":
    os.chdir(TOP)
    sys.exit(main())

#!/usr/bin/env python3
"""Says for each edit of must-fail what refused it: the function, and the clause or other goal that wasn't proved.

usage: tools/gate/why_refused.py [CRATE..]      all crates that have edits, where none is named; status 1 where an edit isn't refused so
       tools/gate/why_refused.py --log FILE     the same of what a run of the gate printed

Runs `rt must-fail`. A reader compares the reason with the edit's name. An edit that is refused for a name that it takes away, or for the
shape of a proof written by hand, shows nothing of the contract, and counts as not refused.
"""

import os
import re
import subprocess
import sys

TOP = os.path.dirname(os.path.dirname(os.path.dirname(os.path.realpath(__file__))))
TRIED = re.compile(r"must-fail (\w+)/([\w.-]+)\.edit: (.*)")
REFUSED = re.compile(r"refused, as it must be: (?:note: )?(?:\./)?(\S+?):(\d+):\d+: (.*)")
# A goal of a function whose answers are in a file of its own, and what is said of one that stays open.
ANSWER = re.compile(r"proofs/(?:\S*/)?([^/]+)/Answers\.antt")
OPEN = re.compile(r"no proof of|it is not proved that|gave up at one of its limits")
GOAL = re.compile(r"\(`([^`]*)`\)")
FUNCTION = re.compile(r"^\s*(?:pub(?:\(\w+\))?\s+)?(?:const\s+)?fn\s+(\w+)")


def function_at(path, line):
    """Returns the function that the line is of: that which begins there or after its comments, else the last that began before it."""
    try:
        with open(path, encoding="utf-8") as file:
            lines = file.read().split("\n")
    except OSError:
        return "?"
    at = line - 1
    while at < len(lines) and re.match(r"\s*(///|#\[|//)", lines[at]):
        at += 1
    for text in reversed(lines[: at + 1]):
        found = FUNCTION.match(text)
        if found:
            return found[1]
    return "?"


def clause_of(goal):
    """Returns the clause that a goal is of, by the names that the prover gives goals: returns-in-Err-clause-refused is of refused."""
    named = re.search(r"clause-(\w+)", goal)
    return f"{named[1]} ({goal})" if named else goal


def reason(crate, said):
    """Returns the function and the goal that stayed open, or nothing where the edit was refused for something else."""
    found = REFUSED.match(said)
    if not found or not OPEN.search(found[3]):
        return None
    path, line, text = found[1], int(found[2]), found[3]
    answer = ANSWER.fullmatch(path)
    if answer:
        goal = re.search(r"`([^`]*)`", text)
        return f"{path} {answer[1]}: {clause_of(goal[1])}"
    goal = GOAL.search(text)
    of = function_at(f"{TOP}/crates/{crate}/{path}", line)
    return f"{path} {of}: {clause_of(goal[1]) if goal else text[:100]}"


def crates_with_edits():
    folders = sorted(os.listdir(f"{TOP}/crates"))
    return [it for it in folders if os.path.isdir(f"{TOP}/crates/{it}/must-fail")]


def answers(words):
    """Returns the status and the lines of `rt must-fail`, or those of a run of the gate that a file has."""
    if words[:1] == ["--log"]:
        with open(words[1], encoding="utf-8", errors="replace") as file:
            return 0, file.read()
    words = ["rt", "must-fail", *(words or crates_with_edits())]
    run = subprocess.run(words, cwd=TOP, stdout=subprocess.PIPE, stderr=subprocess.STDOUT, text=True)
    return run.returncode, run.stdout


def main(words):
    status, told = answers(words)
    count = bad = 0
    for crate, edit, said in TRIED.findall(told):
        count += 1
        found = reason(crate, said)
        bad += found is None
        print(f"{crate}/{edit}: {found or said}")
    print(f"{count} edits, {bad} of them refused for no clause or goal, or not refused")
    return 1 if bad or status else 0


if __name__ == "__main__":
    sys.exit(main(sys.argv[1:]))

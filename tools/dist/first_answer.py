#!/usr/bin/env python3
"""Answers a call of protogate where the program isn't built: `rt try` compiles it with checks, without proof, and runs it once.

usage: tools/dist/first_answer.py [WORD..]    takes the words that `protogate` takes

It prints what the program prints and ends with its status: so does a call of the proved program. What was compiled is kept where it can be
(tools/gate/unproved.py), and `protogate` starts it at later calls. Where `rt try` comes to no answer, a program that is kept answers; else the
status is 3, and this says what `rt try` said. It works beside builds and other calls, and leaves nothing but the program that it keeps.
"""

import os
import re
import shutil
import signal
import sys
import tempfile
import time

sys.dont_write_bytecode = True
TOP = os.path.dirname(os.path.dirname(os.path.dirname(os.path.realpath(__file__))))
sys.path.append(f"{TOP}/tools/gate")
import child_programs  # noqa: E402
import stamp  # noqa: E402
from call_files import Unanswerable, call_of, copied  # noqa: E402
from unproved import OTHER_KEEPS, SECONDS, keep_program, tried  # noqa: E402

CRATE = f"{TOP}/crates/{stamp.PROGRAM}"
BEFORE = (
    "no program of these sources is built on this machine: this call compiles one that isn't proved, in some two minutes, and keeps it for later "
    "calls, which start at once"
)
# What is said where nothing is kept: before why, and after.
NOT_KEPT = "nothing is kept here, since "
AFTER = (
    "; so the next call compiles it again; to have the proved program, run tools/build.py (some 45 minutes on four processors), or "
    "tools/prove.py, which runs every check too"
)
# The status of a call that comes to no answer.
NO_ANSWER = 3
# Set where this script starts the kept program: where `protogate` takes that for stale, as if a source were of tomorrow, it doesn't do so again.
AGAIN = "PROTOGATE_ANSWERS_AGAIN"
# What `rt try` ends with where the program doesn't end by itself.
REASONS = {
    1: "the kit refuses the sources",
    2: "`rt try` failed",
    3: "the kit met a limit of its own",
    4: "a check of the running program failed",
    5: "two runs of the program differ",
    6: f"the program printed more than 1 MiB, or took more than {SECONDS} seconds",
}
# How long the end by a signal is waited for, in seconds.
PATIENCE = 5
SIGNALS = (signal.SIGINT, signal.SIGTERM, signal.SIGHUP)


def write_all(stream, data):
    """Writes bytes to a stream as it was opened, and returns whether that went well."""
    try:
        while stream and data:
            data = data[os.write(stream.fileno(), data) :]
    except OSError:
        return False
    return not data


def say(words):
    write_all(sys.stderr, os.fsencode(f"protogate: {words}\n"))


def lacks_tools():
    """Says what is missing, and returns whether anything is."""
    if shutil.which("rt"):
        return False
    say("there is no program that is built and proved here, and no `rt` on the path to build one")
    return True


def read_sources():
    """Returns when the sources are read and their checksum, and nothing; or nothing and why no program of them can be kept."""
    try:
        return stamp.read_now(TOP), ""
    except (OSError, ValueError) as fault:
        return None, str(fault)


def why_not_kept(trial, begun):
    """Keeps what was compiled of the sources as they were read. Returns nothing, or why it didn't."""
    try:
        return keep_program(TOP, begun, trial)
    except (OSError, ValueError) as fault:
        return str(fault)


def handed_over(words, room):
    """Returns the words to hand over, copies of what they name, these as files by their names, and nothing: or other words, which compile the program
    too, and why those of the user can't be handed over."""
    try:
        call = call_of(words)
        copies, asked = copied(call, f"{room}/files") if call else (None, words)
        return asked, copies, copies.handed() if copies else (), None
    except Unanswerable as fault:
        return ["--version"], None, (), (str(fault), b"")


def fault_of(answer, copies):
    """Returns why what `rt try` came to is no answer for the user, with what it said of that, or nothing where it is one."""
    if not answer.has_ended():
        return REASONS.get(answer.status, f"`rt try` ended with {answer.status}"), answer.said
    if not (copies.can_say(answer.printed) if copies else not re.match(rb"refused .*E3(01|09) ", answer.printed)):
        return "the program asked for a file that wasn't handed to it", b""
    return None


def show_refusals(printed, words):
    """Shows on a terminal in words what was refused, as the script that starts a kept program does."""
    scripts = f"{TOP}/examples/ci"
    if sys.stderr and sys.stderr.isatty() and os.path.isfile(f"{scripts}/shown.py"):
        sys.path.append(scripts)
        from shown import shown

        write_all(sys.stderr, os.fsencode(shown(os.fsdecode(printed), words, "gate.sh")))


def show(answer, words):
    """Prints what the program printed, and returns the status to end with."""
    status = answer.status if write_all(sys.stdout, answer.printed) else NO_ANSWER
    if status in (2, 3, 4):
        show_refusals(answer.printed, words)
    return status


def answered(words, room):
    """Answers the words. Returns the status to end with, why there is no answer, and why the program isn't kept, or nothing where it is."""
    begun, why = read_sources()
    asked, copies, data, fault = handed_over(words, room)
    with tried(CRATE, asked, data, seconds=SECONDS) as trial:
        fault = fault or fault_of(trial.answer, copies)
        status = NO_ANSWER if fault else show(trial.answer, words)
        return status, fault, why or why_not_kept(trial, begun)


def run(words):
    """Answers the words, and returns the status to end with."""
    if lacks_tools():
        return NO_ANSWER
    say(BEFORE)
    status, why = NO_ANSWER, "nothing was compiled"
    try:
        with tempfile.TemporaryDirectory(prefix="protogate-") as room:
            status, fault, why = answered(words, room)
        if fault and not why and AGAIN not in os.environ:
            # It has no limits of `rt try`, and reads the user's own files.
            os.execve(f"{TOP}/protogate", ["protogate", *words], {**os.environ, AGAIN: "1"})
        if fault:
            write_all(sys.stderr, fault[1])
            say(f"no answer: {fault[0]}")
    except OSError as fault:
        say(f"no answer: {fault}")
    if why:
        say(f"{why}, and later calls start it" if why == OTHER_KEEPS else f"{NOT_KEPT}{why}{AFTER}")
    return status


class Told(BaseException):
    """A signal that tells this process to end."""


def stop(number, _):
    for it in SIGNALS:
        signal.signal(it, signal.SIG_IGN)
    child_programs.end_all()
    raise Told(number)


def main():
    for number in SIGNALS:
        # What the caller ignores, as below nohup, stays so.
        if signal.getsignal(number) is not signal.SIG_IGN:
            signal.signal(number, stop)
    try:
        return run(sys.argv[1:])
    except Told as told:
        number = told.args[0]
        signal.signal(number, signal.SIG_DFL)
        os.kill(os.getpid(), number)
        time.sleep(PATIENCE)
        return 128 + number


if __name__ == "__main__":
    sys.exit(main())

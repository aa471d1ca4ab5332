"""Starts the gate of a repository, once Python is new enough, and sees to it that the status is its own.

Python itself ends with 1 where a program fails, and with 120 where its output can't be written; but 1 says that a type breaks. Whatever isn't
the gate's own status is a 3 here. (Python 2.7 and 3.4 can read this, to say that they are too old.)
"""

import io
import os
import sys

NAME = "protogate-ci"
OLDEST = (3, 9)
FAILED, NOT_INSTALLED = 3, 127


def say(words):
    try:
        os.write(2, (NAME + ": " + words + "\n").encode("utf-8", "replace"))
    except OSError:
        pass


def open_streams():
    """Opens what the caller closed, so that no other file takes its number. What is written there fails, as on a full device."""
    for number in (0, 1, 2):
        try:
            os.fstat(number)
        except OSError:
            os.open(os.devnull, os.O_RDONLY)
    sys.stdout = sys.stdout or io.open(1, "w", closefd=False)
    sys.stderr = sys.stderr or io.open(2, "w", closefd=False)


def drop_relative_folders():
    """Leaves those folders of PATH that don't depend on where this is called: there a change may bring programs by the names of git and others."""
    folders = os.environ.get("PATH", os.defpath).split(os.pathsep)
    os.environ["PATH"] = os.pathsep.join([it for it in folders if it.startswith("/")])


def status_of(words):
    try:
        main = __import__("protogate_ci.gate", fromlist=["main"]).main
    except BaseException as fault:
        say("a module is missing or broken (" + type(fault).__name__ + ": " + str(fault) + ")")
        return FAILED
    try:
        status = main(words)
    except SystemExit as ended:
        status = 0 if ended.code is None else ended.code
        return status if status in (0, 2, 4) else FAILED
    except BaseException as fault:
        say("a fault of this program (" + type(fault).__name__ + ": " + str(fault) + "): nothing is said of what wasn't printed")
        return FAILED
    return status if isinstance(status, int) and 0 <= status < 256 else FAILED


def start():
    if sys.version_info[:2] < OLDEST:
        found, oldest = (".".join(map(str, it)) for it in (sys.version_info[:3], OLDEST))
        say("Python " + found + " is too old: version " + oldest + " or a later one is needed")
        os._exit(NOT_INSTALLED)
    open_streams()
    drop_relative_folders()
    status = status_of(sys.argv[1:])
    for stream in (sys.stdout, sys.stderr):
        try:
            stream.flush()
        except (OSError, ValueError) as fault:
            if status != FAILED:
                say("what was to be printed is lost (" + str(fault) + ")")
            status = FAILED
    os._exit(status)


if __name__ == "__main__":
    start()

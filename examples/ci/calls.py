"""How gate.py runs programs, and ends where nothing can be gated."""

import difflib
import os
import re
import subprocess
from concurrent.futures import ThreadPoolExecutor

from endings import STATE, forget, start
from processors import processors


class Limit:
    """How long each program may run, in seconds, or None."""

    seconds = 600


LIMIT = Limit()


class Stop(Exception):
    """Nothing can be gated: why, and the status to end with."""

    def __init__(self, status, why):
        super().__init__(why)
        self.status = status


# A mark that a CI takes for a command, wherever it is in a line: `##[`, or `##vso[`.
COMMAND = re.compile(r"##(?=\w*\[)")


def plain(words):
    """Returns words as one line may hold them: what isn't printed, what isn't UTF-8, and half of what a CI takes for a command, by number."""
    words = words if words.isprintable() else "".join(it if it.isprintable() else escape(it) for it in words)
    return COMMAND.sub(r"#\\x23", words) if "##" in words else words


def escape(letter):
    code = ord(letter)
    if 0xDC80 <= code <= 0xDCFF:
        return f"\\x{code - 0xDC00:02x}"
    return f"\\x{code:02x}" if code < 0x100 else f"\\u{code:04x}" if code < 0x10000 else f"\\U{code:08x}"


def run(words, **how):
    """Returns a process's status, what it printed, and what it printed on standard error, where that is piped. The run stops where a program
    takes too long."""
    given = how.pop("input", None)
    with start(words, stdin=subprocess.DEVNULL if given is None else subprocess.PIPE, stdout=subprocess.PIPE, **how) as started:
        try:
            said, faults = started.communicate(given, LIMIT.seconds)
        except subprocess.TimeoutExpired:
            raise Stop(3, f"{words[0]} took more than {LIMIT.seconds} seconds, and was ended: nothing is said of what wasn't printed") from None
        finally:
            forget(started)
    return started.returncode, said, os.fsdecode(faults or b"")


def program():
    return os.environ.get("PROTOGATE") or "protogate"


def called(*words, **how):
    """Runs the program, and only one that is proved. Returns its status, what it printed, and what was said on standard error, where that is
    piped."""
    try:
        return run([program(), *words], env={**os.environ, "PROTOGATE_PROVED_ONLY": "1", "PROTOGATE_WORDS": "no"}, **how)
    except OSError as fault:
        raise Stop(127, f"{program()} can't be run ({fault.strerror}): install it, or say where it is in PROTOGATE") from None


def look_for_program():
    """Stops where there is no program, or the script of a checkout in which none is proved."""
    status, _, why = called("--version", stderr=subprocess.PIPE)
    if status == 127:
        raise Stop(127, why.strip() or f"{program()} can't be run")


def protogate(*words):
    """Runs the program: its status and what it printed. A program that a signal ended, or that ended in no way of its own, is a 3."""
    status, said, _ = called(*words)
    if status not in (0, 1, 2, 3):
        raise Stop(3, f"protogate ended with {status} on: {' '.join(words)[:500]}")
    return status, said


def side_by_side(call, items):
    """Returns what a call answers for each item, in their order, with as many programs running as it may use processors. A signal doesn't wait for
    them."""
    pool = ThreadPoolExecutor(processors())
    try:
        return list(pool.map(call, items))
    finally:
        pool.shutdown(wait=not STATE.number, cancel_futures=True)


class Guess:
    """What is compared to guess which word was meant. A change may bring many words, and long ones: beyond a limit nothing is guessed."""

    # As many letters has a word that is compared, as many words are looked at in all, and as many pairs of letters are compared.
    MOST_LETTERS, words, pairs = 100, 200000, 3000000

    @classmethod
    def likeness(cls, matcher, word, least):
        """Returns how much a word is like that of the matcher, if it is at least so much, or 0."""
        matcher.set_seq1(word)
        if min(matcher.real_quick_ratio(), matcher.quick_ratio()) < least:
            return 0
        cls.pairs -= len(word) * len(matcher.b)
        return matcher.ratio()

    @classmethod
    def like(cls, word, words):
        """Returns the word that is most like one, or nothing."""
        matcher, found, most = difflib.SequenceMatcher(), None, 0.6
        matcher.set_seq2(word[: cls.MOST_LETTERS + 1])
        for it in words if len(word) <= cls.MOST_LETTERS else ():
            cls.words -= 1
            if cls.words < 0 or cls.pairs < 0:
                break
            likeness = cls.likeness(matcher, it, most) if len(it) <= cls.MOST_LETTERS else 0
            if likeness >= most and (found is None or likeness > most):
                found, most = it, likeness
        return found


def nearest(word, words):
    """Returns the word that was probably meant, or nothing: one that ends so, or one that is spelled much like it."""
    ends = ("." + word, "/" + word)
    return next((it for it in words if it.endswith(ends)), None) or Guess.like(word, words)


def did_you_mean(word, words):
    found = nearest(word, words)
    return f"; did you mean {found}?" if found else ""

"""Runs programs, each in a session of its own, with limits of time and of what it prints, and ends all of a session together.

Once `on_signals` is called, Ctrl-C, SIGTERM and SIGHUP raise `Ended`: what was started and made is ended and removed on its way. One that the caller
ignores, as SIGHUP below nohup, is ignored here too. `end_by_signal` then ends this process by the same signal.
"""

import contextlib
import os
import re
import select
import shutil
import signal
import subprocess
import tempfile
import time

SIGNALS = (signal.SIGINT, signal.SIGTERM, signal.SIGHUP)
# How long what is told to end is waited for, and after how long it is looked whether a signal came, in seconds.
PATIENCE, LOOK = 5, 1
# As many bytes a program prints, unless a call says otherwise.
MOST_BYTES = 256_000_000
# A mark that a CI takes for a command, wherever it is in a line: `##[`, or `##vso[`.
COMMAND = re.compile(r"##(?=\w*\[)")


class State:
    """How long a program may run, in seconds; the signal that came, and how often it is held back."""

    limit, number, held = 600, 0, 0


STATE = State()


class Stop(Exception):
    """Nothing can be gated: why, and the status to end with."""

    def __init__(self, status, why):
        super().__init__(why)
        self.status = status


class Ended(BaseException):
    """A signal ends this program."""


def plain(words):
    """Returns words as one line may hold them: what isn't printed, what isn't UTF-8, and half of what a CI takes for a command, by number."""
    words = words if words.isprintable() else "".join(it if it.isprintable() else escape(it) for it in words)
    return COMMAND.sub(r"#\\x23", words)


def escape(letter):
    code = ord(letter)
    if 0xDC80 <= code <= 0xDCFF:
        return f"\\x{code - 0xDC00:02x}"
    return f"\\x{code:02x}" if code < 0x100 else f"\\u{code:04x}" if code < 0x10000 else f"\\U{code:08x}"


# Programs.


def run(words, given=b"", most=MOST_BYTES, **how):
    """Returns a program's status, what it printed, and its faults. One that prints more than `most` bytes is ended, and its status is None."""
    with tempfile.TemporaryFile() as source, tempfile.TemporaryFile() as faults:
        source.write(given)
        source.seek(0)
        with started(words, stdin=source, stdout=subprocess.PIPE, stderr=faults, **how) as running:
            said = printed(running, words, most)
        faults.seek(0)
        return (None, b"", "") if said is None else (running.returncode, said, os.fsdecode(faults.read(1 << 16)))


def printed(running, words, most):
    """Returns what a program prints until it ends, or nothing where that is too much. The run stops where it takes too long."""
    said, until = bytearray(), time.monotonic() + STATE.limit
    with contextlib.suppress(subprocess.TimeoutExpired):
        while time.monotonic() < until:
            # (a signal that comes just before this ends no wait)
            if not select.select([running.stdout], [], [], LOOK)[0]:
                continue
            part = os.read(running.stdout.fileno(), 1 << 20)
            said += part
            if len(said) > most:
                return None
            if not part:
                running.wait(max(0.0, until - time.monotonic()))
                return bytes(said)
    raise Stop(3, f"{words[0]} took more than {STATE.limit} seconds, and was ended: nothing is said of what wasn't printed")


@contextlib.contextmanager
def started(words, **how):
    """Starts a program in a session of its own. One that is left in the end is ended."""
    running = None
    try:
        with held():
            running = subprocess.Popen(words, start_new_session=True, **how)
        yield running
    finally:
        if running:
            with held(), running.stdout:
                if running.returncode is None:
                    end(running)


def end(group):
    """Ends a program with its group. What doesn't end by itself is killed."""
    for number in (signal.SIGTERM, signal.SIGKILL):
        until = time.monotonic() + PATIENCE
        with contextlib.suppress(OSError):
            os.killpg(group.pid, number)
        # (what nobody waits for stays in its group after its end: this too is waited for no longer than that)
        while is_there(group) and time.monotonic() < until:
            time.sleep(0.01)


def is_there(group):
    group.poll()
    try:
        os.killpg(group.pid, 0)
    except OSError:
        return False
    return True


@contextlib.contextmanager
def room():
    folder = None
    try:
        with held():
            folder = tempfile.mkdtemp(prefix="protogate-ci-")
        yield folder
    finally:
        if folder:
            with held():
                shutil.rmtree(folder, ignore_errors=True)


# Signals.


@contextlib.contextmanager
def held():
    """Holds signals back, so that what is started or made inside is known."""
    STATE.held += 1
    try:
        yield
    finally:
        STATE.held -= 1
        if STATE.number and not STATE.held:
            raise Ended


def on_signal(number, _):
    for it in SIGNALS:
        signal.signal(it, signal.SIG_IGN)
    STATE.number = number
    if not STATE.held:
        raise Ended


def on_signals():
    for it in SIGNALS:
        if signal.getsignal(it) is not signal.SIG_IGN:
            signal.signal(it, on_signal)


def end_by_signal():
    signal.signal(STATE.number, signal.SIG_DFL)
    os.kill(os.getpid(), STATE.number)
    # (no signal ends the first process of a container)
    os._exit(128 + STATE.number)

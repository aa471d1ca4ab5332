"""Starts programs, and ends them: each is the first of a group of its own, and all of a group are ended together.

Once `on_signals` is called, Ctrl-C, SIGTERM and SIGHUP end what was started and raise `Ended`. One that the caller ignores, as SIGHUP below
nohup, is ignored here too. `end_by_signal` removes the folders that are left, and ends this script by the same signal.
"""

import contextlib
import os
import shutil
import signal
import subprocess
import tempfile
import threading
import time

SIGNALS = (signal.SIGINT, signal.SIGTERM, signal.SIGHUP)
# So long what is told to end is waited for, in seconds.
PATIENCE = 5
GUARD = threading.Lock()


class State:
    """What runs, the folders to remove, the signal that ends this script, and how often the main thread holds it back."""

    def __init__(self):
        self.running, self.rooms, self.number, self.held = {}, set(), 0, 0


STATE = State()


class Ended(BaseException):
    """A signal ends this script."""


@contextlib.contextmanager
def held():
    """Holds signals back, so that what is started or made inside is noted too. They come to the main thread: another one changes no count."""
    if threading.current_thread() is not threading.main_thread():
        yield
        return
    STATE.held += 1
    try:
        yield
    finally:
        STATE.held -= 1
        if not STATE.held and STATE.number:
            finish()


def start(words, **how):
    """Starts a program in a session of its own."""
    with held(), GUARD:
        if STATE.number:
            raise Ended
        run = subprocess.Popen(words, start_new_session=True, **how)
        STATE.running[run.pid] = run
    return run


def is_there(run):
    """Returns whether any program of a group is left."""
    run.poll()
    try:
        os.killpg(run.pid, 0)
    except OSError:
        return False
    return True


def end(runs):
    """Ends programs with their groups. What doesn't end by itself is killed."""
    for number in (signal.SIGTERM, signal.SIGKILL):
        until = time.monotonic() + PATIENCE
        for it in filter(is_there, runs):
            with contextlib.suppress(OSError):
                os.killpg(it.pid, number)
        # (what nobody waits for stays in its group after its end: this too is waited for no longer than that)
        while any(map(is_there, runs)) and time.monotonic() < until:
            time.sleep(0.01)


def forget(run):
    """Notes that a program has ended, once it has: one that is left is ended."""
    if run.returncode is None:
        end([run])
    STATE.running.pop(run.pid, None)


def finish():
    with GUARD:
        runs = list(STATE.running.values())
    end(runs)
    raise Ended


def on_signal(number, _):
    for it in SIGNALS:
        signal.signal(it, signal.SIG_IGN)
    STATE.number = number
    if not STATE.held:
        finish()


def insist(pipe):
    """Sends a signal again until the main thread heeds it: one that comes just before that thread waits for another or for a program is noted by
    Python, but ends no wait. Others that the script heeds are noted too."""
    number = None
    while number not in SIGNALS:
        number = os.read(pipe, 1)[0]
    while not STATE.number:
        signal.pthread_kill(threading.main_thread().ident, number)
        time.sleep(0.05)


def on_signals():
    """Has signals that end this script end all that it started."""
    noted, notes = os.pipe()
    os.set_blocking(notes, False)
    signal.set_wakeup_fd(notes, warn_on_full_buffer=False)
    threading.Thread(target=insist, args=(noted,), daemon=True).start()
    for it in SIGNALS:
        if signal.getsignal(it) is not signal.SIG_IGN:
            signal.signal(it, on_signal)


@contextlib.contextmanager
def room():
    """Makes a folder, and removes it in the end."""
    with held():
        folder = tempfile.mkdtemp(prefix="protogate-ci-")
        STATE.rooms.add(folder)
    try:
        yield folder
    finally:
        with held():
            shutil.rmtree(folder, ignore_errors=True)
            if not os.path.lexists(folder):
                STATE.rooms.discard(folder)


def end_by_signal():
    """Removes the folders that are left, as soon as no thread writes there any more, and ends by the signal that came."""
    until, was_gone, is_gone = time.monotonic() + PATIENCE, False, False
    # (a thread that goes on may write there once more: a folder that stayed away for a while is gone)
    while not (was_gone and is_gone) and time.monotonic() < until:
        left = [it for it in STATE.rooms if os.path.lexists(it)]
        was_gone, is_gone = is_gone, not left
        for it in left:
            shutil.rmtree(it, ignore_errors=True)
        time.sleep(0.02)
    signal.signal(STATE.number, signal.SIG_DFL)
    os.kill(os.getpid(), STATE.number)
    # (no signal ends the first process of a container)
    os._exit(128 + STATE.number)

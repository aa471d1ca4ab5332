"""Runs other programs so that they end with this one: each is the first of a session of its own, and all of a session are ended together.

`on_signals` has Ctrl-C, SIGTERM and SIGHUP end them, and then this program by SystemExit. So the code of a `finally` or a `with` still runs.
One that the caller ignores, as SIGHUP below nohup, is ignored here too.
"""

import contextlib
import os
import signal
import subprocess
import sys
import threading
import time

SIGNALS = (signal.SIGINT, signal.SIGTERM, signal.SIGHUP)
# So long a session may take to end by itself, in seconds.
PATIENCE = 5
RUNNING, GUARD = {}, threading.RLock()
STATE = {"is_over": False}


class Ended(Exception):
    """This program is ending, and begins nothing any more."""


def start(words, **how):
    """Starts a program in a session of its own."""
    with GUARD:
        if STATE["is_over"]:
            raise Ended
        run = subprocess.Popen(words, start_new_session=True, **how)
        RUNNING[run.pid] = run
        return run


def wait(run):
    """Waits until a program that was started here has ended. Returns its status, and the processor seconds of it and of what it waited for."""
    _, status, used = os.wait4(run.pid, 0)
    with GUARD:
        RUNNING.pop(run.pid, None)
    # (as os.waitstatus_to_exitcode has it)
    run.returncode = -os.WTERMSIG(status) if os.WIFSIGNALED(status) else os.WEXITSTATUS(status)
    return run.returncode, used.ru_utime + used.ru_stime


def run(words, **how):
    """Runs a program. Returns its status and its processor seconds."""
    return wait(start(words, **how))


def processes():
    """Returns the parent and the session of each process that runs."""
    found = {}
    for pid in filter(str.isdigit, os.listdir("/proc")):
        try:
            with open(f"/proc/{pid}/stat", encoding="utf-8", errors="replace") as file:
                fields = file.read().rpartition(")")[2].split()
        except OSError:
            continue
        if fields[0] not in "ZX":
            found[int(pid)] = (int(fields[1]), int(fields[3]))
    return found


def begun(sessions, top=None):
    """Returns the processes that one began, by default this one, and those that they did, with all of these sessions. Adds the sessions of each, but not
    this one's own."""
    own, found = os.getpid(), set()
    left, running = [top or own], processes()
    while left:
        above = left.pop()
        new = [it for it, (parent, _) in running.items() if parent == above and it not in found]
        found.update(new)
        left += new
    sessions.update(running[it][1] for it in found)
    sessions.discard(os.getsid(0))
    return found | {it for it, (_, session) in running.items() if session in sessions and it != own}


def end_all():
    """Ends all that this program began, and lets nothing more begin. What doesn't end by itself is killed."""
    with GUARD:
        STATE["is_over"] = True
        sessions = {*RUNNING}
    until, number = time.monotonic() + PATIENCE, signal.SIGTERM
    while found := begun(sessions):
        for pid in found if number else ():
            with contextlib.suppress(OSError):
                os.kill(pid, number)
        number = signal.SIGKILL if time.monotonic() > until else 0
        time.sleep(0.05)


def kill(run):
    """Kills a program that was started here, with all that it began. All are stopped first: one that begins another in its last moment would leave it,
    and nobody could tell whose it was."""
    until, sessions, known = time.monotonic() + PATIENCE, {run.pid} & {*RUNNING}, set()
    while sessions and (found := begun(sessions, run.pid)) and time.monotonic() < until:
        number = signal.SIGKILL if found <= known else signal.SIGSTOP
        for pid in found:
            with contextlib.suppress(OSError):
                os.kill(pid, number)
        known |= found
        time.sleep(0.05)


@contextlib.contextmanager
def limited(run, seconds):
    """Kills a program, with all that it began, where it runs longer than so many seconds."""
    limit = threading.Timer(seconds, kill, [run])
    limit.daemon = True
    limit.start()
    try:
        yield
    finally:
        limit.cancel()


def end_in_words(name, status, seconds):
    """Returns a line that says how a program ended, after so many seconds, where that isn't well."""
    how = f"killed by {signal.Signals(-status).name}" if status < 0 else f"ended with status {status}"
    return f"{name}: {how} after {seconds:.0f} seconds\n" if status else ""


@contextlib.contextmanager
def all_ended():
    """Ends all that was begun meanwhile, where an error ends what is inside."""
    try:
        yield
    except BaseException:
        end_all()
        raise


def end(number, _):
    for it in SIGNALS:
        signal.signal(it, signal.SIG_IGN)
    end_all()
    sys.exit(128 + number)


def insist(pipe):
    """Sends a signal again until the main thread heeds it: one that comes just before that thread begins to wait is noted by Python, but ends no
    wait. Others that the program heeds are noted too."""
    number = None
    while number not in SIGNALS:
        number = os.read(pipe, 1)[0]
    while not STATE["is_over"]:
        signal.pthread_kill(threading.main_thread().ident, number)
        time.sleep(0.05)


def on_signals():
    """Has signals that end this program end all that it started."""
    noted, notes = os.pipe()
    os.set_blocking(notes, False)
    signal.set_wakeup_fd(notes, warn_on_full_buffer=False)
    threading.Thread(target=insist, args=(noted,), daemon=True).start()
    for it in SIGNALS:
        if signal.getsignal(it) is not signal.SIG_IGN:
            signal.signal(it, end)

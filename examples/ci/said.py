"""Starts protogate where standard error is a terminal. It says there that a run of over a second is at work, and shows what is refused in
words (shown.py).

usage: said.py PROGRAM [WORD..]    the words of a call

Standard output and the status are the program's own.
"""

# (little is imported here, since each call on a terminal waits for it)
import os
import signal
import sys

# How long a run takes at least that is said to be at work, in seconds.
AT_WORK = 1
# The statuses of a call that may have been refused: 4 is also that of help.
REFUSED = (2, 3, 4)
# Passed on to the program: what a caller sends to it by its number.
PASSED_ON = (signal.SIGTERM, signal.SIGHUP, signal.SIGCONT)


def state_of(process):
    """Returns the letter of a process's state, or nothing where it is gone."""
    try:
        with open(f"/proc/{process}/stat", encoding="utf-8", errors="replace") as file:
            return file.read().rpartition(")")[2].split()[0]
    except OSError:
        return ""


def say_at_work(process, call):
    """Says that the run is at work, unless it has ended or is stopped."""
    if state_of(process) not in ("", "T", "t", "X", "Z"):
        print(f"protogate: still at work: {' '.join(call[1:2])}", file=sys.stderr, flush=True)


def pass_on(process, number):
    try:
        os.kill(process, number)
    except ProcessLookupError:
        pass


def end_of(process, call, awaited):
    """Returns the status of the program as the system tells it. It is stopped, goes on and ends with this process. Ctrl-C reaches both by
    itself."""
    signal.alarm(AT_WORK)
    while True:
        number = signal.sigwait(awaited)
        if number == signal.SIGALRM:
            say_at_work(process, call)
        elif number in PASSED_ON:
            pass_on(process, number)
        found, status = os.waitpid(process, os.WUNTRACED | os.WNOHANG)
        if found:
            signal.alarm(0)
            if not os.WIFSTOPPED(status):
                return status
            # (a terminal stops both by itself)
            if os.WSTOPSIG(status) == signal.SIGSTOP:
                os.kill(os.getpid(), signal.SIGSTOP)


def status_of(call):
    """Runs the program, and returns its status. Signals are held back until they are asked for, so none comes before a wait and ends nothing;
    those that the caller ignores, as below nohup, are ignored."""
    heeded = [it for it in (signal.SIGINT, *PASSED_ON) if signal.getsignal(it) is not signal.SIG_IGN]
    awaited = {*heeded, signal.SIGALRM, signal.SIGCHLD}
    for it in awaited:
        signal.signal(it, lambda *_: None)
    before = signal.pthread_sigmask(signal.SIG_BLOCK, awaited)
    try:
        # (with each file that the caller has open)
        process = os.posix_spawn(call[0], call, os.environ, setsigmask=before)
        return end_of(process, call, awaited)
    finally:
        signal.pthread_sigmask(signal.SIG_SETMASK, before)


def end_as(status):
    """Ends as the program did."""
    if os.WIFSIGNALED(status):
        try:
            signal.signal(os.WTERMSIG(status), signal.SIG_DFL)
        except OSError:
            pass
        os.kill(os.getpid(), os.WTERMSIG(status))
    os._exit(os.WEXITSTATUS(status))


def show(words, status):
    """Shows what the call was refused for, if it was."""
    from shown import printed, shown

    # How the script for pull requests is called that is beside this one.
    here = os.path.dirname(os.path.realpath(__file__))
    name = "gate.sh" if here.endswith("/examples/ci") else "protogate-ci"
    print(shown(printed(words[0], words[1:], (status,)), words[1:], name, words[0]), end="", file=sys.stderr, flush=True)


def main(words):
    sys.stderr.reconfigure(errors="backslashreplace")
    try:
        status = status_of(words)
    except OSError as fault:
        print(f"protogate: {words[0]}: {fault.strerror}", file=sys.stderr)
        return 126
    if os.WIFEXITED(status) and os.WEXITSTATUS(status) in REFUSED:
        show(words, os.WEXITSTATUS(status))
    return end_as(status)


if __name__ == "__main__":
    sys.exit(main(sys.argv[1:]))

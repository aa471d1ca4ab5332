"""Compiles programs by the kit's `rt try`, with checks and without proof, and keeps what was compiled, so that later runs start at once.

`rt try` compiles below TMPDIR, runs the program once there, and removes all of it. What is compiled is opened while it is there: a file that is
open can be read after it was removed. This leans on the kit's inside, so nothing is kept but a program that answers the same when it is run
again. Where there is none, as with another kit may be, the answer of `rt try` is all that there is.
"""

import collections
import contextlib
import errno
import fcntl
import math
import os
import re
import shutil
import signal
import stat
import tempfile
import time

import child_programs
import stamp

# How long a program may run, in seconds.
SECONDS = 300
# How often what was compiled is looked for, in seconds: it was seen to be there for a third of a second.
PAUSE = 0.02
# No program that is compiled with checks has fewer bytes.
LEAST_BYTES = 100_000
# Where one of its checks fails, a kept program ends by a signal: with no status that could be its own. It needs nothing else of an environment.
ENVIRONMENT = {"ASAN_OPTIONS": "abort_on_error=1"}
# The words before those of a kept program that give it the stack that `./protogate` gives it.
UNLIMITED = ("/bin/sh", "-c", 'ulimit -S -s unlimited 2>/dev/null || ulimit -S -s "$(ulimit -H -s)" 2>/dev/null; exec "$@"', "sh")
# The file beside the folders of kept programs that has the name of the one that counts. A link would keep the kit's own gate from running here.
NAMED = "unproved.name"
# Why a call keeps nothing where another one does so at the same time.
OTHER_KEEPS = "another call keeps one just now"
# What `rt try` was called with: the crate's folder, the program's words, pairs of a name and a file that the program finds by it, and its input.
Call = collections.namedtuple("Call", "folder words data stdin seconds")


class Answer(collections.namedtuple("Answer", "status printed said is_kept")):
    """What `rt try` came to: its status, what the program printed, what `rt try` said itself, and whether what was compiled is kept."""

    def has_ended(self):
        """Returns whether the status is the program's own, by the last line. `rt try` has statuses of its own among 1 to 6."""
        last = self.said.rstrip().rpartition(b"\n")[2]
        run = re.search(rb"\brun=(\S+)", last)
        its_status = re.search(rb"\bstatus=(\d+)\b", last)
        if not last.endswith(b"proved=no") or run and run[1] != b"ended":
            return False
        return int(its_status[1]) == self.status if its_status else self.status == 0


class Found:
    """The files below a folder that may be the program, each held open from when it came."""

    def __init__(self, top):
        self.top, self.files = top, {}

    def look(self):
        """Holds the files that have come. Others may go meanwhile."""
        for at, _, names in os.walk(self.top):
            for name in names:
                with contextlib.suppress(OSError):
                    self.hold(f"{at}/{name}")

    def hold(self, path):
        found = os.lstat(path)
        is_one = stat.S_ISREG(found.st_mode) and found.st_mode & stat.S_IXUSR and found.st_size >= LEAST_BYTES
        if is_one and found.st_ino not in self.files:
            self.files[found.st_ino] = os.open(path, os.O_RDONLY | os.O_NOFOLLOW)

    def last_first(self):
        return [*reversed(self.files.values())]

    def close(self):
        for it in self.files.values():
            os.close(it)
        self.files = {}


class Differs(Exception):
    """A file that was found is another program, or none."""


def wait(run, seconds=math.inf, meanwhile=lambda: None):
    """Waits until a program has ended, and ends it after so many seconds. Returns its status."""
    until = time.monotonic() + seconds
    while not os.waitid(os.P_PID, run.pid, os.WEXITED | os.WNOHANG | os.WNOWAIT):
        meanwhile()
        if time.monotonic() > until:
            os.killpg(run.pid, signal.SIGKILL)
        time.sleep(PAUSE)
    return child_programs.wait(run)[0]


@contextlib.contextmanager
def streams(room, stdin):
    """Gives files for a program's streams: standard input has these bytes."""
    with open(f"{room}/stdin", "w+b") as given, open(f"{room}/stdout", "w+b") as printed, open(f"{room}/stderr", "w+b") as said:
        given.write(stdin or b"")
        given.seek(0)
        yield {"stdin": given, "stdout": printed, "stderr": said}


def contents(file):
    file.seek(0)
    return file.read()


def copy_files(data, room):
    """Copies files for a program to find them by their names."""
    os.mkdir(room)
    for name, file in data:
        path = f"{room}/{os.path.normpath(name)}"
        os.makedirs(os.path.dirname(path), exist_ok=True)
        shutil.copyfile(file, path)


def write_program(number, path):
    """Writes what an open file has as a program. Nothing is started meanwhile: a file that a child still has open for writing can't be run."""
    with child_programs.GUARD, open(number, "rb", closefd=False) as one, open(path, "wb") as other:
        one.seek(0)
        shutil.copyfileobj(one, other, 1 << 20)
    os.chmod(path, 0o755)
    if not os.access(path, os.X_OK):
        raise PermissionError(errno.EACCES, "no program can be started there", path)


class Trial:
    """A run of `rt try`: its answer, and what it compiled as long as that can be kept."""

    def __init__(self, call, room):
        self.call, self.room = call, room
        os.mkdir(f"{room}/temporary")
        self.found = Found(f"{room}/temporary")
        self.answer = None

    def run(self):
        data = [word for name, file in self.call.data for word in ("--data", f"{name}={file}")]
        words = ["rt", "try", "--seconds", str(self.call.seconds), *data, "--", *self.call.words]
        with streams(self.room, self.call.stdin) as how:
            run = child_programs.start(words, cwd=self.call.folder, env={**os.environ, "TMPDIR": self.found.top}, **how)
            status = wait(run, meanwhile=self.found.look)
            self.answer = Answer(status, contents(how["stdout"]), contents(how["stderr"]), False)

    def said_by(self, program, words):
        """Returns the status of a program and what it prints, where it is run as `rt try` ran it, but with these words."""
        copy_files(self.call.data, f"{self.room}/in")
        try:
            with streams(self.room, self.call.stdin) as how:
                run = child_programs.start([*UNLIMITED, program, *words], cwd=f"{self.room}/in", env=ENVIRONMENT, **how)
                return wait(run, self.call.seconds), contents(how["stdout"])
        finally:
            shutil.rmtree(f"{self.room}/in", ignore_errors=True)

    def is_it(self, program, name):
        """Returns whether this is the program: it answers as `rt try` did. Where that ended the program at a limit, its version is of this name."""
        if self.answer.has_ended():
            return self.said_by(program, self.call.words) == (self.answer.status, self.answer.printed)
        # (what ran was whole)
        is_whole = name and self.answer.status in (4, 6)
        return is_whole and self.said_by(program, ["--version"])[1].startswith(f"{name} ".encode())

    def keep(self, path, name=None):
        """Has what was compiled take the place of a file, at once. Returns whether it did: else the file is as it was. Raises OSError where nothing can be
        written or started there."""
        for number in self.found.last_first():
            with contextlib.suppress(Differs), stamp.replaced(path) as new:
                write_program(number, new)
                if not self.is_it(new, name):
                    raise Differs
                return True
        return False


@contextlib.contextmanager
def tried(folder, words=(), data=(), stdin=b"", seconds=SECONDS):
    """Compiles the program of a crate's folder, and runs it once: with these words, a copy of each file of `data` (pairs of a name and a file), these
    bytes as standard input, and for so many seconds at most. Gives the trial. Raises OSError where there is no `rt`."""
    with tempfile.TemporaryDirectory(prefix="protogate-") as room:
        trial = Trial(Call(folder, tuple(words), tuple(data), stdin, seconds), room)
        try:
            trial.run()
            yield trial
        finally:
            trial.found.close()


def compiled(folder, kept, words=(), data=(), stdin=b"", seconds=SECONDS):
    """Compiles a program, runs it once, as `tried` does, and returns what `rt try` answers. What was compiled takes the place of the file `kept`, at
    once, if it answers the same again; else `kept` stays as it was, and `is_kept` is false. Raises OSError where it can't be kept there."""
    os.makedirs(os.path.dirname(kept), exist_ok=True)
    with tried(folder, words, data, stdin, seconds) as trial:
        return trial.answer._replace(is_kept=trial.keep(kept))


@contextlib.contextmanager
def alone(folder):
    """Tells whether no other process keeps a program in this folder now."""
    handle = os.open(folder, os.O_RDONLY)
    try:
        yield has_lock(handle, fcntl.LOCK_EX | fcntl.LOCK_NB)
    finally:
        os.close(handle)


def has_lock(handle, how):
    """Locks an open folder, and returns whether no other process has the lock. Some file systems have none."""
    try:
        fcntl.flock(handle, how)
    except BlockingIOError:
        return False
    except OSError:
        pass
    return True


def wait_for_others(top):
    """Waits until no other process keeps a program."""
    handle = os.open(stamp.out_of(top), os.O_RDONLY)
    try:
        has_lock(handle, fcntl.LOCK_SH)
    finally:
        os.close(handle)


def named_in(out):
    """Returns the folder of the kept program that counts, or nothing."""
    with contextlib.suppress(OSError), open(f"{out}/{NAMED}", encoding="utf-8") as file:
        return f"{out}/{file.read().strip()}"
    return ""


def kept_program(top):
    """Returns the program that `./protogate` starts without proof, where it is of these sources and of this kit, and else None."""
    path = f"{named_in(stamp.out_of(top))}/{stamp.PROGRAM}"
    return path if stamp.is_of(path, top) else None


def clear(out):
    """Removes all kept programs but the one that counts, with what earlier scripts left: a link to it."""
    now = named_in(out)
    with contextlib.suppress(OSError):
        os.remove(f"{out}/unproved")
    for it in (f"{out}/{it}" for it in os.listdir(out) if it.startswith("unproved-")):
        if it != now:
            shutil.rmtree(it, ignore_errors=True)


def keep_program(top, begun, trial):
    """Keeps the program for later calls of `./protogate`, if its sources are still as they were read, and were so meanwhile. Returns why it didn't, or
    nothing where it did. The name of a folder of its own is written at once, so no call finds it half there. What was kept of other sources is
    removed."""
    out = stamp.out_of(top)
    with alone(out) as is_alone:
        if not is_alone:
            return OTHER_KEEPS
        if not stamp.is_unchanged(top, begun):
            return "a source was changed meanwhile"
        room = tempfile.mkdtemp(prefix="unproved-", dir=out)
        try:
            os.chmod(room, 0o755)
            if trial.keep(f"{room}/{stamp.PROGRAM}", stamp.PROGRAM):
                stamp.write(top, begun, room)
                with stamp.replaced(f"{out}/{NAMED}") as new, open(new, "w", encoding="utf-8") as file:
                    file.write(f"{os.path.basename(room)}\n")
        finally:
            clear(out)
        return "" if room == named_in(out) else "`rt try` left no program that answers again"

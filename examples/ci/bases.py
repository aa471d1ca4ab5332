"""Where the settings of a call are from: the base revision, since a change must not decide about itself, or a file that the caller names."""

import os
import stat

from calls import Stop, plain
from settings import FILE, MOST_BYTES, Settings, unmarked
from repositories import git
from trees import commit_of, lines_of

FILES = ("100644", "100755")
# In place of the bytes of what is no file. No settings that count have a zero byte.
NO_FILE = b"\0"
WAYS = "--base REVISION, --settings FILE and --no-settings name others"


class Base:
    """The settings that count for a call, the revision and the file that they are of, and how messages call these."""

    def __init__(self, data, name, revision=None, shown=None):
        self.data, self.name, self.revision, self.shown = data, name, revision, shown or name

    def settings(self):
        whence = f" (as it was at {self.revision}; {WAYS})" if self.revision else ""
        return Settings(self.data or b"", self.name or FILE, whence)


def base_of(call):
    """Returns the settings that count: of a file, none, or those of the base revision."""
    if call.settings is not None:
        return Base(read_file(call.settings), os.path.normpath(call.settings))
    if call.no_settings:
        return Base(None, None, shown="--no-settings")
    if call.base == "":
        raise Stop(4, "--base is empty: the command or variable that it comes from gave nothing")
    revision = call.revision if call.base is None else call.base
    data = read_revision(commit_of(revision), revision)
    return Base(data, None if data is None else FILE, revision)


def read_revision(commit, revision):
    """Returns the bytes of the settings in a commit, or nothing where it has none. What isn't a file there is none."""
    listed = lines_of("ls-tree", "-z", "-l", "--full-tree", commit, "--", FILE, must_work=True)
    if not listed:
        return None
    mode, _, name, size = listed[0].partition("\t")[0].split()
    if mode not in FILES:
        raise Stop(4, f"{FILE} is no file at {plain(revision)}: {WAYS}")
    if int(size) > MOST_BYTES:
        raise Stop(4, f"{FILE}:1: the file has over {MOST_BYTES:,} bytes at {plain(revision)}: {WAYS}")
    status, data, faults = git("cat-file", "blob", name)
    if status != 0:
        raise Stop(3, f"git can't read {FILE} at {plain(revision)}: {faults.strip()}")
    return data


def has_settings(commit):
    """Returns whether a commit has something by the name of the settings."""
    return bool(lines_of("ls-tree", "-z", "--full-tree", commit, "--", FILE, must_work=True))


def read_file(path):
    """Returns the bytes of a file of settings, and no more than one byte too many."""
    try:
        # (a fifo would be waited for)
        with open(os.open(path, os.O_RDONLY | os.O_NONBLOCK | os.O_CLOEXEC), "rb") as file:
            if not stat.S_ISREG(os.fstat(file.fileno()).st_mode):
                raise Stop(4, f"--settings: {plain(path)} is no file")
            return file.read(MOST_BYTES + 1)
    except OSError as fault:
        raise Stop(4, f"--settings: {plain(path)} can't be read ({fault.strerror})") from None


def own(top):
    """Returns the bytes of the work tree's own settings, or nothing where it has none. What is no file there has none that can be read."""
    path = os.path.join(top, FILE)
    if os.path.lexists(path):
        return read_file(path) if stat.S_ISREG(os.lstat(path).st_mode) else NO_FILE
    listed = lines_of("ls-files", "-t", "-s", "-z", "--", FILE, at=("-C", top))
    # (what a sparse checkout leaves out is as git's index has it)
    kept = [it.split()[2] for it in listed if it.startswith("S ")]
    return git("cat-file", "blob", kept[0])[1] if kept else None


def difference(base, top):
    """Returns what is said where the work tree's own settings aren't those that count, or nothing."""
    mine = own(top)
    if mine is None and (base.data is None or base.revision is None):
        return None
    if None not in (mine, base.data) and unmarked(mine) == unmarked(base.data):
        return None
    if base.revision is None:
        return f"{FILE} of the work tree isn't read: {base.shown} counts"
    at = plain(base.revision)
    if mine is None:
        return f"{FILE} is missing in the work tree, and that of {at} counts ({WAYS})"
    return f"{FILE} of the work tree isn't read: " + (f"{at} has none" if base.data is None else f"it differs from that of {at}, which counts") + f" ({WAYS})"

"""What is below a folder: its source files, what is passed over for its name, and what can't be gated, with the reason."""

import itertools
import os
from collections import deque

from calls import Stop, plain
from tokens import MOST_BYTES

# As many paths a folder may have, as many folders one in another, and as many links one after another, as the system follows.
MOST_PATHS, MOST_DEPTH, MOST_LINKS = 100_000, 100, 40
OUTSIDE = "is a link that leads out of the folder: put what it leads to into the folder, or gate the folder around both"
BY_ROOT = "is a link by an absolute path, which isn't the same on both sides: make it a relative one"


class Walk:
    """Walks a folder, and follows links that stay in it: each real folder is walked once. `shown` is the folder's path as users know it.
    `files_outside` has the paths of links that lead out of the folder to a file. `skipped` has what a call leaves out."""

    def __init__(self, folder, shown, files_outside=(), skipped=()):
        self.folder, self.shown, self.files_outside, self.skipped = folder, shown, files_outside, skipped
        self.skipped_below = {"/".join(parts[:count]) for parts in (it.split("/") for it in skipped) for count in range(1, len(parts))}
        self.top = os.path.realpath(folder)
        self.texts, self.unread, self.passed_over = [], {}, {}
        # The folders that were walked, and links to files that are no source files.
        self.folders, self.idle = set(), set()
        # What the program must not open: a fifo would hang it, and an old link may lead to a file of today.
        self.closed = set()
        # Files with more bytes than the program takes of a source file.
        self.long = set()
        # The paths of folders that were walked by another path, with this one.
        self.same = {}
        # The path by which each real folder was walked: where nothing of it is left out, and else.
        self.walked, self.left_out = {}, {}
        self.count = 0
        # Folders to walk, each with the real folders around it. Those that git lists come first, then links to them.
        self.pending, self.links = deque([("", (self.top,))]), deque()
        while self.pending or self.links:
            self.enter(*(self.pending or self.links).popleft())
        self.texts.sort()

    def enter(self, path, way):
        """Walks a folder, unless it was walked by another path. What is hidden or skipped there isn't what is neither here."""
        is_seen = not is_hidden(path, False) and not is_skipped(path, self.skipped)
        is_whole = is_seen and path not in self.skipped_below and plain(path) not in self.skipped_below
        known = self.walked.get(way[-1]) or (None if is_seen else self.left_out.get(way[-1]))
        self.folders.add(path)
        if known:
            self.same[path] = known
            return
        (self.walked if is_whole else self.left_out)[way[-1]] = path
        self.go_through(path, way)

    def go_through(self, path, way):
        try:
            with os.scandir(os.path.join(self.folder, path)) as found:
                entries = sorted(itertools.islice(found, MOST_PATHS + 1), key=lambda it: it.name)
        except OSError as fault:
            self.refuse(path or ".", "folder", f"can't be read ({fault.strerror})")
            return
        self.count += len(entries)
        if self.count > MOST_PATHS:
            raise Stop(3, f"{plain(self.shown)} has more than {MOST_PATHS:,} files and folders: gate a folder below it")
        for entry in entries:
            if entry.name != ".git":
                self.look_at(entry, os.path.join(path, entry.name), way)

    def known(self, path):
        """Returns the path of what is at a path, by which its folder was walked."""
        found = ""
        for part in path.split("/") if self.same else ():
            found = os.path.join(found, part)
            found = self.same.get(found, found)
        return found if self.same else path

    def around(self, closed):
        """Returns the folders that have any of these paths below them, also by way of another path."""
        others = {}
        for path, known in self.same.items():
            others.setdefault(known, []).append(path)
        found, pending = set(), [os.path.dirname(it) for it in closed]
        for path in pending:
            if path not in found:
                found.add(path)
                pending += [*others.get(path, ()), *[os.path.dirname(path)] * bool(path)]
        return found

    def refuse(self, path, kind, why):
        """Closes a path to the program. Notes why it isn't gated, unless it is hidden."""
        self.closed.add(path)
        if is_hidden(path, is_text(path)):
            self.passed_over[path] = "hidden"
        else:
            self.unread[path] = (kind, f"{plain(os.path.normpath(os.path.join(self.shown, path)))} {why}")

    def look_at(self, entry, path, way):
        try:
            is_folder, is_file = entry.is_dir(), entry.is_file()
            self.long.update([path] if is_file and entry.stat().st_size > MOST_BYTES else [])
        except OSError:
            self.refuse(path, "link", "is a link that leads back to itself")
            return
        if entry.is_symlink() and not self.may_follow(path, way, is_folder, is_file):
            return
        if is_folder and len(way) > MOST_DEPTH:
            self.refuse(path, "folder", f"is a folder in {MOST_DEPTH} others: gate one of those")
        elif is_folder:
            real = os.path.realpath(entry.path) if entry.is_symlink() else os.path.join(way[-1], entry.name)
            (self.links if entry.is_symlink() else self.pending).append((path, (*way, real)))
        elif is_file:
            self.look_at_file(path)
        elif is_text(path):
            self.refuse(path, "file", "is no regular file")
        else:
            self.closed.add(path)

    def may_follow(self, path, way, is_folder, is_file):
        """Returns whether a link leads to a folder or a file of this folder."""
        real = os.path.realpath(os.path.join(self.folder, path))
        # The link's path but for links on the way to it, as git lists it.
        listed = os.path.relpath(os.path.join(way[-1], os.path.basename(path)), self.top)
        is_inside = real == self.top or real.startswith(os.path.join(self.top, ""))
        why = OUTSIDE
        if is_inside and leads_by_root(os.path.join(way[-1], os.path.basename(path))):
            is_inside, why = False, BY_ROOT
        if not is_inside and (is_text(path) or not is_file and listed not in self.files_outside):
            self.refuse(path, "link", why)
        elif not is_inside:
            self.closed.add(path)
            self.idle.add(path)
        elif is_folder and real in way:
            self.refuse(path, "link", "is a link that leads back to a folder around it")
        elif is_text(path) and not is_folder and not is_file and not os.path.lexists(real):
            self.refuse(path, "link", "is a link that leads to no file")
        elif not is_folder and not is_text(path):
            self.idle.add(path)
        else:
            return True
        return False

    def look_at_file(self, path):
        """Takes a source file, if the program takes its name and a line of output can hold it."""
        if not is_text(path):
            if path.lower().endswith(".proto"):
                self.passed_over[path] = "other"
        elif "\n" in path or any("\udc80" <= it <= "\udcff" for it in path):
            self.refuse(path, "name", "has a line feed in its name, or what isn't UTF-8: rename it")
        elif is_hidden(path, True):
            self.passed_over[path] = "hidden"
        else:
            self.texts.append(path)


def leads_by_root(path):
    """Returns whether a link leads somewhere by way of an absolute path, as /proc/self/cwd: that is elsewhere for each program, or on each side."""
    pending, at, count = path.split("/")[::-1], "/", 0
    while pending:
        part = pending.pop()
        at = os.path.dirname(at) if part == ".." else os.path.join(at, part) if part not in ("", ".") else at
        if os.path.islink(at):
            target, count = os.readlink(at), count + 1
            if target.startswith("/") or count > MOST_LINKS:
                return True
            pending += target.split("/")[::-1]
            at = os.path.dirname(at)
    return False


def is_text(path):
    return path.endswith(".proto")


def is_hidden(path, is_file):
    """Returns whether a folder of a path is hidden. The name of a file may begin with a dot."""
    parts = path.split("/")
    return any(it.startswith(".") and it != "." for it in (parts[:-1] if is_file else parts))


def is_skipped(path, skipped):
    """Returns whether a call leaves out a path or a folder around it. A path may be given as it is printed."""
    return is_below(path, skipped) or plain(path) in skipped


def is_below(path, paths):
    """Returns whether a path is one of others, or below one."""
    while paths and path not in paths and "/" in path:
        path = path.rpartition("/")[0]
    return path in paths

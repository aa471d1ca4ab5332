"""What one side has: `{path: (mode, blob)}`, wherever it is from, with its links followed in that table, and the folder in which it is laid out.

Paths count from the top of the repository, and only those below the folders that are asked for are there. What can't be read, or isn't what
it seems, is in `closed`, with the kind and the reason: it isn't laid out, and nothing takes its place.
"""

import hashlib
import itertools
import os
from collections import deque
from typing import Any, NamedTuple

from .git import did_you_mean
from .running import Stop, plain

LINK, SUBMODULE, FOLDER = "120000", "160000", "040000"
FILES = ("100644", "100755", "100664")
# As many paths a side may have, as many folders one in another, as many links one after another, as the system follows, and as many parts of
# paths on the way of all links.
MOST_PATHS, MOST_DEPTH, MOST_LINKS, MOST_STEPS = 100_000, 100, 40, 4_000_000
# As many bytes a source file may have for the program, all of them on a side, a link's path, a path, and a name.
MOST_BYTES, MOST_OF_ALL, MOST_TARGET, MOST_PATH, MOST_NAME = 4_194_304, 2_000_000_000, 4095, 3000, 255
OUTSIDE = "is a link that leads out of the folders that are read: put what it leads to into one of them, or name the folder around both"
BY_ROOT = "is a link by an absolute path, which isn't the same on both sides: make it a relative one"


class Entry(NamedTuple):
    """A file or a link: its mode, the name of its blob, and the store that has it."""

    mode: str
    blob: str
    store: Any


class Lost(Exception):
    """A path leads by a link to where no table goes: its words say why. `target` is that of a link by an absolute path."""

    def __init__(self, why, target=None):
        super().__init__(why)
        self.target = target


class Way:
    """Follows paths part by part, as a system does. `target_of` returns where a link leads, or nothing for what is no link."""

    def __init__(self, target_of):
        self.target_of, self.steps = target_of, 0

    def end_of(self, path):
        pending, at, links = path.split("/")[::-1], "", 0
        while pending:
            part, self.steps = pending.pop(), self.steps + 1
            if self.steps > MOST_STEPS:
                raise Stop(3, f"links have more than {MOST_STEPS:,} parts on their ways: take some away")
            if part == ".." and not at:
                raise Lost(OUTSIDE)
            at = os.path.dirname(at) if part == ".." else os.path.join(at, part) if part not in ("", ".") else at
            target = self.target_of(at) if part not in ("", ".", "..") else None
            if target is None:
                continue
            links += 1
            if links > MOST_LINKS:
                raise Lost("is a link that leads back to itself")
            if target.startswith("/"):
                raise Lost(BY_ROOT, target)
            pending += target.split("/")[::-1]
            at = os.path.dirname(at)
        return at


class Snapshot:
    """What a side has below some folders of a source, the gated ones first and then those for imports alone."""

    def __init__(self, source, folders, includes=()):
        self.source, self.entries, self.folders, self.closed = source, {}, {""}, {}
        # Where links lead as they are written, and without links; and what git's index has and the work tree hasn't.
        self.targets, self.links, self.missing = {}, {}, set()
        self.roots = [root_of(source, it) for it in folders]
        self.includes = [it for it in (root_of(source, path, True) for path in includes) if it is not None]
        self.read()

    def read(self):
        every = dict.fromkeys([*self.roots, *self.includes])
        for root in every:
            if not any(it != root and is_below(root, (it,)) for it in every):
                self.source.list(self, root)
        for path in self.folders.intersection(self.entries):
            self.close(path, "name", "is there as a file and as a folder")
        for path in [it for it in self.entries if is_below(os.path.dirname(it), self.closed)]:
            self.entries.pop(path)
        self.follow()

    # What the source says.

    def add(self, path, mode, blob, store):
        """Takes a file or a link, unless it is closed. Returns whether it did."""
        if not self.admits(path, mode):
            return False
        self.entries[path] = Entry(mode, blob, store)
        self.add_folder(os.path.dirname(path))
        return True

    def admits(self, path, mode):
        """Returns whether a path can be laid out, and printed if it may be that of a source file. Else it is closed."""
        if len(self.entries) + len(self.closed) >= MOST_PATHS:
            raise Stop(3, f"{self.source.shown} has more than {MOST_PATHS:,} files: gate a folder below it")
        parts = path.split("/")
        if len(parts) > MOST_DEPTH + 1:
            self.close("/".join(parts[:MOST_DEPTH + 1]), "folder", f"is a folder in {MOST_DEPTH} others: gate one of those")
        elif set(parts) & {"", ".", "..", ".git"} or len(os.fsencode(path)) > MOST_PATH or max(len(os.fsencode(it)) for it in parts) > MOST_NAME:
            self.close(path, "name", "is no path that can be laid out: rename it")
        elif (is_text(path) or mode not in FILES) and ("\n" in path or any("\udc80" <= it <= "\udcff" for it in path)):
            self.close(path, "name", "has a line feed in its name, or what isn't UTF-8: rename it")
        else:
            return True
        return False

    def add_folder(self, path):
        while path not in self.folders:
            self.folders.add(path)
            path = os.path.dirname(path)

    def close(self, path, kind, why):
        self.entries.pop(path, None)
        self.links.pop(path, None)
        self.closed[path] = (kind, f"{plain(path or '.')} {why}")

    # Links.

    def follow(self):
        """Finds where each link leads, and closes those that lead nowhere in the table."""
        way, outside = Way(self.targets.get), {}
        for path in [it for it, entry in self.entries.items() if entry.mode == LINK]:
            try:
                real = way.end_of(path)
            except Lost as lost:
                if is_text(path) or not (lost.target and os.path.isfile(lost.target)):
                    self.close(path, "link", str(lost))
                continue
            if is_below(real, self.closed):
                self.close(path, "link", f"is a link to {plain(real)}, which can't be read")
            elif real in self.entries or real in self.folders:
                self.lead(path, real)
            elif not is_below(real, (*self.roots, *self.includes)):
                outside[path] = real
            elif is_text(path):
                self.close(path, "link", "is a link that leads to no file")
        files = self.source.files_among({it for path, it in outside.items() if not is_text(path)})
        for path, real in outside.items():
            if is_text(path) or real not in files:
                self.close(path, "link", OUTSIDE)

    def lead(self, path, real):
        if real in self.folders and is_below(os.path.dirname(path), (real,)):
            self.close(path, "link", "is a link that leads back to a folder around it")
        else:
            self.links[path] = real

    # What is gated.

    def needed(self):
        """Returns the files that are laid out: each whose name, or that of a link to it, is one of a source file."""
        found = {it for it, entry in self.entries.items() if entry.mode in FILES and is_text(it)}
        return found.union(real for it, real in self.links.items() if is_text(it) and real in self.entries)

    def gated(self, skipped=()):
        """Returns the source files to gate, with what each is without links: every real file once, by its own path where that is neither hidden
        nor skipped, and else by that of the first link to it."""
        inner, around = self.inner(), {"/".join(it.split("/")[:count]) for it in skipped for count in range(1, it.count("/") + 1)}
        own, others = deque((it, it) for it in self.roots), deque()
        found, walked, count = {}, set(), 0
        while own or others:
            path, real = (own or others).popleft()
            if is_skipped(path, skipped):
                continue
            if real in self.entries:
                found.setdefault(real, path)
            elif real not in walked and self.sees(path):
                walked.update([real] if path not in around else [])
                for name in inner.get(real, ()):
                    below, there = os.path.join(path, name), os.path.join(real, name)
                    leads = self.links.get(there, there)
                    if leads in self.folders or leads in self.entries and is_text(below):
                        (own if leads == there else others).append((below, leads))
                count += len(inner.get(real, ()))
            if count > 4 * MOST_PATHS:
                raise Stop(3, f"{self.source.shown} has more than {4 * MOST_PATHS:,} paths, by way of links: take some away")
        return {path: real for real, path in found.items()}

    def sees(self, folder):
        """Returns whether a folder is below a gated one, and in no hidden folder there."""
        return any(is_below(folder, (it,)) and not is_hidden(within(folder, it)) for it in self.roots)

    def inner(self):
        names = {}
        for path in sorted({*self.entries, *self.folders} - {""}):
            names.setdefault(os.path.dirname(path), []).append(os.path.basename(path))
        return names

    def refused(self, skipped=()):
        """Returns what the gated folders have and can't be read, unless it is skipped, with the kind and the reason."""
        return {path: why for path, why in self.closed.items()
                if self.sees(os.path.dirname(path) if is_text(path) else path) and not is_skipped(path, skipped)}

    def has(self, path):
        return path in self.entries or path in self.folders

    def passed_over(self):
        """Returns the files that aren't gated for their names: `hidden` in a hidden folder, or `other` with an ending in other letters."""
        named = [it for it, entry in self.entries.items() if entry.mode in FILES and it.lower().endswith(".proto") and is_below(it, self.roots)]
        return {it: "other" if self.sees(os.path.dirname(it)) else "hidden" for it in named if not (is_text(it) and self.sees(os.path.dirname(it)))}

    # What is laid out.

    def lay(self, into, laid):
        """Lays what is needed out below a folder, and links as they lead in it. A file whose bytes aren't here is closed by this. `laid` has by their
        hash where bytes lie already, on any side: another name for a file costs much less than another file."""
        needed, stores, total = sorted(self.needed()), {}, 0
        for folder in {os.path.dirname(it) for it in (*needed, *self.links)}:
            os.makedirs(os.path.join(into, folder), exist_ok=True)
        for path in needed:
            stores.setdefault(self.entries[path].store, {}).setdefault(self.entries[path].blob, []).append(path)
        for store, paths in stores.items():
            sizes = store.sizes(list(paths))
            short = {blob: size for blob, size in sizes.items() if size is not None and size <= MOST_BYTES}
            total += sum(size * len(paths[blob]) for blob, size in short.items())
            if total > MOST_OF_ALL:
                raise Stop(3, f"{self.source.shown} has more than {MOST_OF_ALL:,} bytes of source files: gate a folder below it")
            # (the program refuses by its size what is too long, whatever it holds)
            for blob, data in itertools.chain(((it, None) for it in sizes if it not in short), store.blobs(short)):
                for path in paths[blob]:
                    if sizes[blob] is None:
                        self.close(path, "file", "isn't here, or can't be read: git may not have fetched what it holds")
                    else:
                        lay_file(os.path.join(into, path), data, laid)
        for path, real in self.links.items():
            os.symlink(os.path.relpath(os.path.join("/", real), os.path.join("/", os.path.dirname(path))), os.path.join(into, path))


def lay_file(path, data, laid):
    """Writes a file. Without bytes it is one that is too long."""
    key = None if data is None else hashlib.sha256(data).digest()
    try:
        os.link(laid[key], path)
    except (KeyError, OSError):
        with open(path, "xb") as file:
            file.write(data or b"")
            file.truncate(MOST_BYTES + 1 if data is None else None)
        laid[key] = path


def root_of(source, folder, may_be_missing=False):
    """Returns a folder's path without links, or nothing where it is missing and may be."""
    try:
        found = Way(source.target).end_of(folder)
    except Lost as lost:
        more = "" if str(lost) == OUTSIDE else f": it, or a folder around it, {lost}"
        raise Stop(4, f"{plain(folder)} isn't in {source.shown}{more}") from None
    if not source.is_folder(found):
        if may_be_missing:
            return None
        around = os.path.dirname(found)
        more = did_you_mean(found, source.folders(around)) if source.is_folder(around) else ""
        raise Stop(4, f"{source.shown} has no folder {plain(folder)}{more}")
    return found


def unseen(old, new):
    """Returns what the new side's index has, and neither its work tree nor the old side: nobody looked at it."""
    return {path: ("unseen", f"{plain(path)} is in git's index, and isn't there") for path in new.missing if not old.has(path)}


def is_text(path):
    return path.endswith(".proto")


def is_hidden(path):
    return any(it.startswith(".") and it not in (".", "..") for it in path.split("/"))


def within(path, folder):
    return path[len(folder):].lstrip("/")


def is_skipped(path, skipped):
    """Returns whether a call leaves out a path or a folder around it. A path may be given as it is printed."""
    return bool(skipped) and (is_below(path, skipped) or is_below(plain(path), skipped))


def is_below(path, paths):
    """Returns whether a path is one of others, or below one."""
    while path and path not in paths:
        path = path.rpartition("/")[0]
    return path in paths

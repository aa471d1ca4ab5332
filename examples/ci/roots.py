"""The folders in which a side's imports are looked for, and the one folder in which the program finds them all, laid of links."""

import filecmp
import functools
import os
import re
import tempfile
from collections import deque

import tokens
from calls import Stop, plain
from protocs import protoc_on_path
from walks import MOST_PATHS, is_text

LIBRARY = "google/protobuf"
SYSTEM = "/usr/include"


class Root:
    """A folder, its walk, and its path from the top of the repository. The library has neither of these."""

    def __init__(self, folder, walk, top, unread=()):
        self.folder, self.walk, self.top = folder, walk, top
        # What isn't there to be read, or must not be, by path: the kind and the reason.
        self.unread = {**walk.unread, **dict(unread)} if walk else {}
        # The folders on the way to what isn't laid as it is.
        self.around = walk.around(self.others()) if walk else set()

    def known(self, path):
        """Returns the path of what is at a path, by which it was walked."""
        return self.walk.known(path) if self.walk else path

    def others(self):
        """Returns what isn't laid as it is: what is closed, and what is too long."""
        return self.walk.closed | self.walk.long if self.walk else set()

    def is_long(self, path):
        return bool(self.walk) and self.known(path) in self.walk.long

    def has(self, path):
        return not (self.walk and self.known(path) in self.walk.closed) and os.path.lexists(os.path.join(self.folder, path))

    def hides(self, path):
        """Returns whether what is at a path can't be shown, as a link that leads out or nowhere, or a submodule that isn't checked out."""
        known = self.known(path)
        there = os.path.join(self.folder, path)
        return bool(self.walk) and (known in self.unread or known in self.walk.closed or os.path.islink(there) and not os.path.exists(there))


def library(room):
    """Returns a root with the library's own source files, as protoc or the system has them, or nothing. Those that aren't proto3 are left
    out: descriptor.proto."""
    program = protoc_on_path()
    besides = [os.path.join(os.path.dirname(it), "..", "include") for it in (program, os.path.realpath(program))] if program else []
    found = next((it for it in map(os.path.normpath, [*besides, SYSTEM]) if os.path.isdir(f"{it}/{LIBRARY}")), None)
    if not found:
        return None
    folder = tempfile.mkdtemp(dir=room)
    os.makedirs(f"{folder}/{LIBRARY}")
    for name in sorted(os.listdir(f"{found}/{LIBRARY}")):
        path = f"{found}/{LIBRARY}/{name}"
        if is_text(name) and os.path.isfile(path) and is_proto3(path):
            os.symlink(path, f"{folder}/{LIBRARY}/{name}")
    return Root(folder, None, None)


def may_import_library(roots):
    """Returns whether a source file below some roots may import one of the library. An import with an escape, or in parts, may be any."""
    for root in roots:
        for path in root.walk.texts:
            text = tokens.read(os.path.join(root.folder, path)) or b""
            odd = (b"\\" in it[0] or it[0].count(b'"') + it[0].count(b"'") > 2 for it in re.finditer(rb"import\b[^;]*", text))
            if b"google/protobuf/" in text or any(odd):
                return True
    return False


def is_proto3(path):
    return re.search(rb"""^[ \t]*syntax\s*=\s*["']proto3["']""", tokens.read(path) or b"", re.M) is not None


class Roots:
    """All roots of a side, the gated folder first and the library last, laid below one folder. A path that two roots have with different
    bytes is noted. A file of the library counts only where no other root has one."""

    def __init__(self, roots, room):
        self.roots, self.twice = roots, {}
        self.room = tempfile.mkdtemp(dir=room)
        self.folder = os.path.join(self.room, "all")
        # What was laid of folders that are made anew, by what each root has there.
        self.laid = {}
        if len(roots) == 1 and not roots[0].others():
            os.symlink(os.path.abspath(roots[0].folder), self.folder)
        else:
            self.lay_all()
        self.note_unread()

    def note_unread(self):
        """Notes what an include has and can't show, where a later one has something by its name, which would count in its place."""
        for at, root in enumerate(self.roots[1:], 2):
            for path, why in root.unread.items():
                if any(it.walk and os.path.lexists(os.path.join(it.folder, path)) for it in self.roots[at:]):
                    self.twice[path] = why

    def lay_all(self):
        """Lays what the roots have, what is real first: where links lead to it, it is laid already."""
        pending, others, count = deque([("", self.roots)]), deque(), 0
        while pending or others:
            for inner, having in self.lay(*(pending or others).popleft()):
                is_real = all(it.known(inner) == inner for it in having)
                (pending if is_real else others).append((inner, having))
                count += 1
            if count > MOST_PATHS * len(self.roots):
                raise Stop(3, f"the folders for imports have more than {MOST_PATHS:,} paths each, by way of links: take some away")

    def lay(self, path, roots):
        """Lays what the roots have at a path, and returns what is to be laid below it. A folder that several have, or that has something
        closed below it, is made anew, once; all else is one link."""
        into = os.path.join(self.folder, path) if path else self.folder
        folders = [it for it in roots if os.path.isdir(os.path.join(it.folder, path))]
        # A file that another root has there is no way to what is closed in the first one's folder.
        roots = folders if roots[0] in folders else roots
        if folders != roots or path and len(roots) == 1 and roots[0].known(path) not in roots[0].around:
            self.compare(path, roots)
            os.symlink(self.too_long if roots[0].is_long(path) else os.path.abspath(os.path.join(roots[0].folder, path)), into)
            return []
        key = tuple((self.roots.index(it), it.known(path)) for it in roots)
        if key in self.laid:
            os.symlink(self.laid[key], into)
            return []
        self.laid[key] = into
        os.mkdir(into)
        names = sorted({name for it in roots for name in os.listdir(os.path.join(it.folder, path))})
        return list(self.having(roots, [os.path.join(path, name) for name in names]))

    def having(self, roots, paths):
        """Yields each path that some roots have, with these. What one of them can't show isn't shown by those after it: a change could put theirs in
        its place. Notes what an earlier one can't show there by way of a link, as below."""
        for path in paths:
            last = next((at for at, it in enumerate(roots) if it.hides(path)), len(roots))
            having = [it for it in roots[: last + 1] if it.has(path)]
            hidden = [it for it in roots if it.known(path) != path and it.known(path) in it.unread] if having else []
            if hidden and roots.index(hidden[0]) < roots.index(having[-1]):
                self.twice[path] = hidden[0].unread[hidden[0].known(path)]
            if having:
                yield path, having

    def compare(self, path, roots):
        having = [it for it in roots if it.walk and os.path.isfile(os.path.join(it.folder, path))]
        files = [os.path.join(it.folder, path) for it in having]
        is_long = len(files) > 1 and any(it.is_long(path) for it in roots)
        if is_text(path) and (is_long or not all(filecmp.cmp(files[0], it, shallow=False) for it in files[1:])):
            tops = [plain(os.path.join(it.top, it.known(path))) for it in having]
            known = roots[0].known(path) if roots[0] is self.roots[0] else path
            self.twice[known] = ("twice", f"{' and '.join(tops)} go by one name, and differ: leave one, or gate without the other's folder")

    @functools.cached_property
    def too_long(self):
        """A file that is laid in the place of each one that is too long: nothing of that is read, and the program refuses both alike."""
        path = os.path.join(self.room, "too_long")
        with open(path, "wb") as made:
            made.truncate(tokens.MOST_BYTES + 1)
        return path

    def hides(self, path):
        """Returns whether a root has something at a path, or around it, that can't be shown."""
        parts = path.split("/")
        return any(it.hides("/".join(parts[:count])) for it in self.roots for count in range(1, len(parts) + 1))

    def of(self, path):
        """Returns the root that has a path."""
        return next((it for it in self.roots if it.has(path)), self.roots[0])

    def shown(self, path):
        """Returns a path as users know it: one in the gated folder from there, others from the top of the repository, or whole."""
        root = self.of(path)
        return path if root is self.roots[0] else os.path.normpath(self.in_repository(path) or os.path.realpath(os.path.join(root.folder, path)))

    def in_repository(self, path):
        """Returns a path from the top of the repository, or nothing where it isn't there."""
        top = self.of(path).top
        return None if top is None else os.path.normpath(os.path.join(top, path))

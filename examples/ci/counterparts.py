"""Which files of the new side go by the paths of an old one, where links give a file several paths.

A folder is walked by one path alone. A link may lead to another folder than before, though. So both sides are gone through together, and each
pair of folders that one path leads to is looked at once.
"""

import os

from calls import Stop
from walks import MOST_PATHS


class Below:
    """What a walk found, by folder: the names of folders and of source files."""

    def __init__(self, walk):
        self.walk, self.folders, self.texts = walk, {}, {}
        for found, paths in ((self.folders, walk.folders - {""}), (self.texts, walk.texts)):
            for path in paths:
                found.setdefault(os.path.dirname(path), []).append(os.path.basename(path))

    def step(self, folder, name, is_folder):
        """Returns the path of what is in a folder by a name, as it was walked, or the folder itself where there is no such."""
        path = os.path.join(folder, name)
        is_here = path in self.walk.folders if is_folder else name in self.texts.get(folder, ())
        return self.walk.known(path) if is_here else folder


def counterparts(old, new):
    """Returns the paths of the new side, as they were walked, that go by the paths of each old source file. What isn't there any more is the
    nearest folder around it. Without links to folders each file has its own path alone, and nothing is returned."""
    found, pending, seen = {}, [("", "")], {("", "")}
    if not old.same and not new.same:
        return found
    first, second = Below(old), Below(new)
    for here, there in pending:
        for name in first.texts.get(here, ()):
            found.setdefault(os.path.join(here, name), {})[second.step(there, name, False)] = None
        states = {(old.known(os.path.join(here, it)), second.step(there, it, True)) for it in first.folders.get(here, ())}
        pending += sorted(states - seen)
        seen |= states
        if len(pending) > MOST_PATHS:
            raise Stop(3, f"links lead to more than {MOST_PATHS:,} pairs of an old and a new folder: take some of them away")
    return found

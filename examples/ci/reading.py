"""How the source files of a side are compiled: all of them in one run, as far as they go together, and singly what is refused."""

import os
import re
import stat

import tokens
from calls import Stop, plain, protogate, side_by_side
from sets import files_in

# As many files the program links at most.
MOST_FILES = 1024
# As many files that import one which is refused are compiled by themselves, so that their own faults are told too.
MOST_ALONE = 100
# As many bytes of paths are in the words of one run, and in one path: the system takes no more.
MOST_IN_WORDS, MOST_IN_PATH = 500000, 4000


def compiled(folder, files):
    """Compiles source files together. Returns the files of their set by path, or nothing, with the line of the refusal and the status."""
    status, said = protogate("compile", f"--dir={folder}", "--", *files)
    if status == 0:
        return files_of_set(said, files, "protogate"), None, 0
    said = os.fsdecode(said).strip()
    if status == 1 or not re.fullmatch(r"refused E\d{3}(?: .+)?", said, re.S):
        raise Stop(3, f"protogate ended with {status} on {plain(' '.join(files)[:500])}, and it isn't clear what it says: {said[:500]}")
    return None, said, status


def files_of_set(made, files, maker):
    """Returns the files of a set by path. A set that is cut off, or that lacks a file that was named, is no answer."""
    try:
        found = files_in(made)
    except (LookupError, ValueError):
        found = {}
    missing = [it for it in files if it not in found]
    if missing:
        raise Stop(3, f"the set that {maker} made of {plain(missing[0])} isn't whole")
    return found


def leads_out(folder, path):
    """Returns whether the program must not open what a path of an import leads to: it would leave the folder, or wait for what isn't a file.
    A path that is longer than the system takes leads nowhere."""
    if path[:1] == b"/" or b".." in path.split(b"/") or b"\0" in path or len(path) > MOST_IN_PATH:
        return True
    try:
        mode = os.stat(os.path.join(os.fsencode(folder), path)).st_mode
    except OSError:
        return False
    return not stat.S_ISREG(mode) and not stat.S_ISDIR(mode)


def distinct(imports):
    """Yields each path once, with its offset: as many as the program opens for one file."""
    seen = set()
    for path, offset in imports:
        if len(seen) > MOST_FILES:
            return
        if path not in seen:
            seen.add(path)
            yield path, offset


def position_of(text, offset):
    """Returns the line and the column of an offset."""
    return f"{text.count(10, 0, offset) + 1}:{offset - text.rfind(10, 0, offset)}"


def groups_of(files):
    """Returns source files in groups, of which one run takes each."""
    groups, size = [[]], 0
    for file in files:
        size += len(os.fsencode(file))
        if len(groups[-1]) == MOST_FILES or size > MOST_IN_WORDS and groups[-1]:
            groups.append([])
            size = len(os.fsencode(file))
        groups[-1].append(file)
    return groups if files else []


def named_in(refusal):
    """Returns the file that the line of a refusal names, or nothing."""
    place = refusal.partition(" ")[2].partition(" ")[2]
    found = re.fullmatch(r"(.+):\d+:\d+", place, re.S)
    return found[1] if found else place


class Reading:
    """Reads source files below a folder. In the end each is known, as the set says of it, or refused, with the line and the status. What
    they import is known too. `importing` has the files that import each path, by their tokens: where these are read otherwise than by the
    program, a file is compiled once more."""

    def __init__(self, folder):
        self.folder, self.known, self.refused, self.importing = folder, {}, {}, {}
        # The files with an import that leads out, or that import such a file: no other program reads them either.
        self.leading_out = set()

    def read(self, files):
        self.read_imports(files)
        pending = groups_of([it for it in files if it not in self.refused])
        while pending:
            said = side_by_side(lambda it: compiled(self.folder, it), pending)
            pending = [it for group, answer in zip(pending, said) for it in self.after(group, *answer)]

    def after(self, group, made, refusal, status):
        """Notes what was said of files, and returns those to compile next, by groups: single ones that are refused, and halves of the rest."""
        if made is not None:
            self.known.update(made)
            return []
        if len(group) == 1:
            self.refused[group[0]] = refusal, status
            return []
        out = self.refused_in(group, refusal)
        rest = [it for it in group if it not in out]
        half = (len(rest) + 1) // 2
        return [[it] for it in group if it in out and it not in self.refused] + [it for it in (rest[:half], rest[half:]) if it]

    def refused_in(self, group, refusal):
        """Returns which files of a group can't be taken for this refusal: the one that it names, if that is refused by itself too, and those
        that import it. Some faults are none of one file, as a name that two of them declare."""
        culprit = named_in(refusal)
        made, alone, status = compiled(self.folder, [culprit]) if culprit else ({}, None, 0)
        if made is not None:
            return set()
        out = [it for it in self.importers(group, culprit) if it != culprit]
        for it in out[MOST_ALONE:] + [culprit] * (culprit in group):
            self.refused[it] = alone, status
        return {*out, culprit}

    def read_imports(self, files):
        """Notes what the files import, and what that does, before the program opens any of it. An import that leads out of the folder isn't
        found, whatever is there: it is refused, with all that imports its file."""
        pending, seen, faults = list(files), set(files), {}
        for path in pending:
            text = tokens.read(os.path.join(self.folder, path)) or b""
            for target, offset in distinct(tokens.imports_in(text)):
                if leads_out(self.folder, target):
                    faults.setdefault(path, f"refused E301 {path}:{position_of(text, offset)}")
                    continue
                target = os.fsdecode(target)
                self.importing.setdefault(target, []).append(path)
                pending += [target] * (target not in seen)
                seen.add(target)
        pending = list(faults)
        for path in pending:
            following = [it for it in self.importing.get(path, []) if it not in faults]
            faults.update((it, faults[path]) for it in following)
            pending += following
        self.leading_out.update(faults)
        self.refused.update((it, (faults[it], 2)) for it in files if it in faults)

    def importers(self, group, culprit):
        """Returns the files of a group that import a file, by way of others too."""
        found, pending = set(), [culprit]
        for path in pending:
            following = [it for it in self.importing.get(path, []) if it not in found]
            found.update(following)
            pending += following
        return [it for it in group if it in found]

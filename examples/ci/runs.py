"""Which source files `protogate gate-all` takes in one run, and what it says of their types.

All files of both sides are one run, where they go together. Where a side declares a name twice, or a side has too many files or types, there
are several runs; each has what its files import. What protoc made of files is one set, a side without source files.
"""

import os
import re
from concurrent.futures import ThreadPoolExecutor

from calls import Stop, protogate
from cuts import fields_in
from reading import MOST_FILES, MOST_IN_WORDS
from ways import Ways, pair_of

# As many message types the program links at most.
MOST_TYPES = 4096
# What a cause says before the fields.
CAUSE = re.compile(r"cause (\S+) (\d+) ([0-9a-f]+) (\d+) (.+)", re.S)
REFUSAL = re.compile(r"(old |new )?E\d{3}( .+)?", re.S)


class Half:
    """One side of a run: the files that are named, all that is linked, by path, and where each message type is declared."""

    def __init__(self, side):
        self.side, self.named, self.files, self.names, self.is_set = side, [], {}, {}, False
        # How many bytes the paths of the named files have.
        self.size = 0

    def more_for(self, file):
        """Returns what a source file brings with it, or nothing where it doesn't go together with what is here."""
        if not self.may_take(file):
            return None
        found, pending, known = {}, [file], self.known_with(file)
        for path in pending:
            if path not in found and path not in self.files:
                found[path] = known[path]
                pending += found[path].imports
        names = [name for it in found.values() for name in it.types]
        is_free = len(set(names)) == len(names) and self.names.keys().isdisjoint(names)
        fits = len(self.files) + len(found) <= MOST_FILES and len(self.names) + len(names) <= MOST_TYPES
        return found if is_free and fits or not self.named else None

    def may_take(self, file):
        """Returns whether a source file goes together with what is here, as far as it shows without what it imports."""
        if self.named and (file in self.side.sets) != self.is_set:
            return False
        is_new = self.named and file not in self.files
        fits = not self.named or self.size + len(os.fsencode(file)) <= MOST_IN_WORDS
        is_free = not is_new or len(self.files) < MOST_FILES and self.names.keys().isdisjoint(self.known_with(file)[file].types)
        return fits and is_free

    def known_with(self, file):
        """Returns the files among which the program finds what a source file needs, by path: those of protoc's sets, or source files."""
        return self.side.made.files if file in self.side.sets else self.side.known

    def add(self, file, more):
        if file not in self.named:
            self.named.append(file)
            self.size += len(os.fsencode(file))
        self.is_set = file in self.side.sets
        self.files.update(more)
        self.names.update((name, path) for path, it in more.items() for name in it.types)

    def words(self, name):
        """The words of a call that name this side."""
        if self.is_set:
            folder, file = os.path.split(self.side.made.written(self.files.values()))
            return [f"--{name}-dir={folder}", f"--{name}={file}"]
        return [f"--{name}-dir={self.side.folder}", *(f"--{name}={it}" for it in self.named)]


class Overview:
    """What a run says: its causes, of each type of both sides the length of a shortest message that breaks, or None, and what only one side
    has; or the line of a refusal. Its positions have the paths of the two sides."""

    def __init__(self, said, status, old_paths, new_paths):
        self.paths = old_paths, new_paths
        self.causes, self.types, self.removed, self.added, self.refused, self.status = [], {}, [], [], None, status
        self.reading, self.is_clear, self.ways = None, True, None
        lines = said.split("\n")
        self.is_clear = lines.pop() == ""
        for line in lines:
            self.take(line)

    def take(self, line):
        first, _, rest = line.partition(" ")
        if first == "cause":
            self.reading = None
            self.is_clear &= self.take_cause(line)
        elif line in ("old", "new") and self.causes and not self.types:
            self.reading = self.causes[-1]["readings"].setdefault(line, [])
        elif first in ("compatible", "breaks", "removed", "added"):
            self.reading = None
            self.is_clear &= self.take_type(first, rest)
        elif self.reading is not None:
            self.reading.append(line)
        elif first == "refused" and self.refused is None:
            self.refused = rest
        else:
            self.is_clear = False

    def take_cause(self, line):
        """Takes the line of a cause, and returns whether it is one."""
        found = CAUSE.fullmatch(line)
        fields = fields_in(found[5], *self.paths, 1 + (found[1] == "oneof"), found[1] == "oneof") if found else None
        if fields:
            case, length, witness, number, _ = found.groups()
            self.causes.append({"case": case, "number": number, "length": int(length), "witness": witness, "fields": fields, "readings": {}})
        return bool(fields) and not self.types

    def take_type(self, word, rest):
        """Takes the line of a type, and returns whether it is one that wasn't there before."""
        name, _, length = rest.partition(" ")
        if word in ("removed", "added"):
            (self.removed if word == "removed" else self.added).append(name)
            return not length
        is_new = name not in self.types
        self.types[name] = int(length) if length.isdigit() else None
        return is_new and (length == "" if word == "compatible" else length.isdigit())

    def is_whole(self):
        """Returns whether the lines are of one answer, and agree with its status. What breaks has a cause, a cause breaks something, and no
        type with a cause of its own is compatible."""
        if self.refused is not None:
            is_alone = self.is_clear and not (self.causes or self.types or self.removed or self.added)
            return is_alone and bool(REFUSAL.fullmatch(self.refused)) and self.status in (2, 3)
        breaks = any(length is not None for length in self.types.values())
        are_read = all(len(it["readings"]) == 2 and 2 * it["length"] == len(it["witness"]) for it in self.causes)
        pairs = {pair_of(it) for it in self.causes}
        breaks_as_told = all(length is not None or (name, name) not in pairs for name, length in self.types.items())
        wanted = 2 if self.removed else 1 if self.causes else 0
        return self.is_clear and are_read and breaks_as_told and breaks == bool(self.causes) and self.status == wanted


class Run:
    """Source files that are gated in one call. Backward the sides are exchanged: then its old half writes what its new half reads."""

    def __init__(self, old, new):
        self.old, self.new, self.pairs = Half(old), Half(new), []

    def take(self, pair):
        """Takes a source file of each side, and returns whether they go together with what is here."""
        halves = (self.old, self.new)
        more = [half.more_for(file) for half, file in zip(halves, pair)]
        if None in more:
            return False
        for half, file, it in zip(halves, pair, more):
            half.add(file, it)
        self.pairs.append(pair)
        return True

    def ask(self, way, options):
        """Returns what the program says of one direction. What isn't an answer for just the types of both sides stops the run."""
        first, second = (self.old, self.new) if way == "forward" else (self.new, self.old)
        # While the program goes, its answer's check is prepared.
        with ThreadPoolExecutor(1) as pool:
            asked = pool.submit(protogate, "gate-all", *first.words("old"), *second.words("new"), "--explain", *options)
            ways = Ways(first.files.values(), second.files.values(), [it for it in first.names if it in second.names])
            status, said = asked.result()
        said = os.fsdecode(said)
        overview = Overview(said, status, first.files, second.files)
        overview.ways = ways
        if not overview.is_whole():
            raise Stop(3, f"protogate ended with {status}, and it isn't clear what its lines say: {said[:500]}")
        wanted = [set(first.names) & set(second.names), set(first.names) - set(second.names), set(second.names) - set(first.names)]
        told = [set(overview.types), set(overview.removed), set(overview.added)]
        if not overview.refused and told != wanted:
            odd = sorted(one for these, those in zip(told, wanted) for one in these ^ those)
            raise Stop(3, f"protogate ended with {status}, and its lines don't answer for {odd[0]}: {said[:500]}")
        return overview


def runs_of(pairs, old, new):
    """Returns the runs in which pairs of source files are gated."""
    runs = []
    for pair in pairs:
        if not any(it.take(pair) for it in runs):
            runs.append(Run(old, new))
            runs[-1].take(pair)
    return runs


def overviews_of(pairs, old, new, way, options):
    """Yields each run with what it says of a direction. One that is refused is divided, as far as it goes, so that what is refused hides
    nothing else."""
    pending = runs_of(pairs, old, new)
    for run in pending:
        overview = run.ask(way, options)
        half = len(run.pairs) // 2
        if overview.refused and half:
            pending += [*runs_of(run.pairs[:half], old, new), *runs_of(run.pairs[half:], old, new)]
        else:
            yield run, overview

"""The sets that protoc makes of source files that protogate refuses, so that they are gated too.

All such files of a side go into one call of protoc, as far as they go together. Each file of its set is pared down to what messages need, so
that a file which is imported for options alone is none of the set that the program reads.
"""

import os
import re
import shutil
import tempfile
from concurrent.futures import ThreadPoolExecutor

from calls import Stop, plain, protogate, run, side_by_side
from located import places_in
from reading import MOST_FILES
from sets import file_of, is_proto3, joined, last, needs_of, pared, records, split

# After as many calls that failed for several files, each file is tried by itself. As many calls are made of a side in all.
MOST_DIVIDED, MOST_CALLS = 64, 2000
# As many bytes may protoc say of faults and warnings, and as many of its lines and of their letters are kept.
MOST_FAULTS, SHOWN_LINES, SHOWN_LETTERS = 1 << 20, 10, 2000
# A fault of a file, in a line of protoc.
FAULT = re.compile(r"(.+?\.proto):(?:\d+:\d+:)? (?!warning:)")


def protoc_on_path():
    """Returns where protoc is on the path, or nothing. It is called in folders that change, so a folder of the path counts only by its full
    name."""
    folders = (it for it in os.environ.get("PATH", os.defpath).split(os.pathsep) if os.path.isabs(it))
    return shutil.which("protoc", path=os.pathsep.join(folders))


def faults_of(words, folder):
    """Runs protoc in a folder. Returns its status, and the first of what it says. One that says too much is ended by a signal."""
    read_end, write_end = os.pipe()
    with ThreadPoolExecutor(1) as pool:
        said = pool.submit(first_of, read_end)
        try:
            status, _, _ = run(words, cwd=folder, stderr=write_end)
        finally:
            os.close(write_end)
        lines = os.fsdecode(said.result()).strip().split("\n", SHOWN_LINES)
        return status, "\n".join(lines[:SHOWN_LINES])[:SHOWN_LETTERS]


def first_of(pipe):
    with open(pipe, "rb") as opened:
        return opened.read(MOST_FAULTS)


def divided(ask, take, groups):
    """Asks for each group, side by side, until there is none: `take` is given each with what was answered, and returns groups to ask for."""
    while groups:
        said = side_by_side(ask, groups)
        groups = [it for group, answer in zip(groups, said) for it in take(group, answer)]


def halves(files):
    half = (len(files) + 1) // 2
    return [it for it in (files[:half], files[half:]) if it]


def files_of(made, named):
    """Returns each file of protoc's set by path: its descriptor, and its source info. A set that isn't whole is no answer."""
    try:
        found = {os.fsdecode(last(it, 1)): split(it) for number, it in records(made) if number == 1}
        whole = {path: file_of(it).path for path, (it, _) in found.items()}
    except (LookupError, ValueError):
        whole = {}
    missing = [it for it in named if it not in whole]
    if missing:
        raise Stop(3, f"the set that protoc made of {plain(missing[0])} isn't whole")
    return found


class Made:
    """The source files of a side that protoc makes sets of, below a folder: what each is, as protoc says it and pared, why a file isn't gated,
    and where names are declared."""

    def __init__(self, folder, room):
        self.folder, self.room, self.program, self.calls, self.failed = folder, room, protoc_on_path(), 0, 0
        # By path: each file as protoc says it, and pared, with what it needs; and its source info.
        self.whole, self.files, self.needs, self.infos, self.places = {}, {}, {}, {}, {}
        # What protoc says of a file of which it makes no set. The line and status by which the program refuses a set.
        self.says, self.refused = {}, {}

    def make(self, files):
        """Has sets made of source files. What comes of each is noted: protoc's fault, what in it isn't proto3, the program's refusal, or
        none of these."""
        if not self.program:
            raise Stop(3, "--with-protoc: there is no protoc on the path")
        divided(self.compiled, self.after, [files])
        made = [it for it in files if it not in self.says and self.is_proto3(it) and not self.other(it)]
        divided(self.refusal_of, self.after_refusal, [made[at : at + MOST_FILES] for at in range(0, len(made), MOST_FILES)])

    def compiled(self, group):
        """Has protoc make a set of source files. Returns its bytes or nothing, and what protoc says."""
        self.calls += 1
        if self.calls > MOST_CALLS:
            return None, f"protoc was called {MOST_CALLS} times, and no more."
        with tempfile.TemporaryDirectory(dir=self.room) as room:
            # (no name of a file is an option of protoc, or too long a line for the system)
            with open(f"{room}/files", "wb") as arguments:
                arguments.write(b"".join(b"./" + os.fsencode(it) + b"\n" for it in group))
            words = ["-I.", "--include_imports", "--include_source_info", f"--descriptor_set_out={room}/set.pb", f"@{room}/files"]
            try:
                status, says = faults_of([self.program, *words], self.folder)
            except OSError as fault:
                return None, f"{self.program} can't be run ({fault.strerror})"
            if status != 0:
                return None, says or f"protoc ended with {status}"
            with open(f"{room}/set.pb", "rb") as opened:
                return opened.read(), says

    def after(self, group, answer):
        """Notes what protoc made of files, and returns those to try next: the one of which it tells a fault, and halves of the rest."""
        made, says = answer
        if made is not None:
            self.take(files_of(made, group))
            return []
        if len(group) == 1:
            self.says[group[0]] = says
            return []
        self.failed += 1
        if self.failed > MOST_DIVIDED:
            return [[it] for it in group]
        told = {it[1] for it in map(FAULT.match, says.split("\n")) if it}
        first = next((it for it in group if it in told), None)
        return [[first]] * (first is not None) + halves([it for it in group if it != first])

    def take(self, found):
        """Takes the files of a set of protoc. Each is the same in all sets."""
        needs = needs_of({path: it for path, (it, _) in found.items()})
        for path, (descriptor, info) in found.items():
            if self.whole.setdefault(path, file_of(descriptor)).descriptor != descriptor:
                raise Stop(3, f"{plain(path)} was changed while it was read")
            self.needs[path], self.infos[path] = needs[path], info
            self.files[path] = file_of(pared(descriptor, needs[path]))

    def closure(self, files):
        """Returns what files need, by path, pared, with each of them."""
        pending = list(dict.fromkeys(files))
        found = dict.fromkeys(pending)
        for path in pending:
            following = [it for it in self.needs[path] if it not in found]
            found.update(dict.fromkeys(following))
            pending += following
        return {path: self.files[path] for path in found}

    def is_proto3(self, file):
        return is_proto3(self.files[file].descriptor)

    def other(self, file):
        """Returns a file that a source file needs and that isn't proto3, with why it does, or nothing."""
        for path in self.closure([file]):
            for needed, (field, name) in self.needs[path].items():
                if not self.is_proto3(needed):
                    return needed, f"{field} holds {name} of {plain(needed)}, which isn't proto3"
        return None

    def written(self, files):
        """Writes the set of some files, which have all that they need, and returns its path."""
        path = os.path.join(tempfile.mkdtemp(dir=self.room), "set.pb")
        with open(path, "wb") as made:
            made.write(joined((1, it.descriptor) for it in files))
        return path

    def refusal_of(self, group):
        """Has the program read the set of some files with what these need. Returns its refusal, or nothing, and its status."""
        files = self.closure(group)
        folder, name = os.path.split(self.written(files.values()))
        status, said = protogate("types", f"--dir={folder}", "--", name)
        said = os.fsdecode(said)
        if status == 0 and sorted(said.split("\n")) == sorted(["", *(it for file in files.values() for it in file.types)]):
            return None, 0
        if status in (2, 3) and re.fullmatch(r"refused E\d{3}(?: at \d+)?\n", said):
            return said.strip(), status
        raise Stop(3, f"protogate ended with {status} on what protoc made of {plain(group[0])}, and it isn't clear what it says: {said[:500]}")

    def after_refusal(self, group, answer):
        """Notes by which line a single file's set is refused, and returns halves of several files."""
        if answer[0] and len(group) == 1:
            self.refused[group[0]] = answer
        return halves(group) if answer[0] and len(group) > 1 else []

    def place(self, file, kind, name):
        """Returns the line and column at which a file declares a name, or nothing where that isn't surely known."""
        if file not in self.places:
            self.places[file] = self.places_of(file)
        return self.places[file].get((kind, name))

    def places_of(self, file):
        """Returns all that are surely known. What protoc brought with it isn't below the folder."""
        try:
            with open(os.path.join(self.folder, file), "rb") as opened:
                return places_in(opened.read(), self.whole[file].descriptor, self.infos[file])
        except OSError:
            return {}

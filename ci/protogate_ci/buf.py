"""Where a repository has its source files by `buf.yaml` or `buf.work.yaml`, and what `init` writes of it."""

import os
import pkgutil
import re

from . import forms, protoc, settings
from .asking import BACKWARD, Asked, Side, library_of
from .git import Repository
from .running import Stop, plain, room
from .snapshot import Snapshot
from .sources import WorkTree, read_file
from .words import listed

WORK, MODULE, WORKFLOW = "buf.work.yaml", "buf.yaml", ".github/workflows/protogate.yml"
KEY = re.compile(r"([\w-]+):(?:\s+(.*))?$", re.A)
WORD = re.compile(r"""'([^'\\]*)'|"([^"\\]*)"|([^\s'"&*!|>%@`{}\[\],?:-][^'"{}\[\],:]*|\.)""")
# What is asked for, and so has to be clear.
ASKED = ("version", "directories", "build", "modules")


class File:
    """The little of YAML that these files are written in: keys, lists and words, each on lines of their own. What else is asked for is refused."""

    def __init__(self, name, data):
        self.name, self.values, self.number, stack = name, [], 0, []
        for self.number, line in enumerate(settings.unmarked(data).decode("utf-8", "replace").split("\n"), 1):
            words = re.sub(r"(^|\s)#.*", "", line).rstrip()
            said = words.lstrip()
            if said and words != "---":
                self.take(stack, len(words) - len(said), said)

    def take(self, stack, indent, said):
        """Notes the values of a line by the keys around it. An item of a list has the key `-`, and may have keys itself."""
        if said.startswith("- "):
            # (items may be as far to the right as the key of their list)
            while stack and (stack[-1][0] > indent or stack[-1] == (indent, "-")):
                stack.pop()
            if not stack:
                raise self.odd(self.number)
            stack.append((indent, "-"))
            inner = said[2:].lstrip()
            self.note(stack, None if KEY.match(inner) else inner)
            if KEY.match(inner):
                self.take(stack, indent + len(said) - len(inner), inner)
            return
        while stack and stack[-1][0] >= indent:
            stack.pop()
        begun = KEY.match(said)
        if not begun and (not stack or stack[0][1] in ASKED):
            raise self.odd(self.number)
        if begun:
            stack.append((indent, begun[1]))
            inline = re.fullmatch(r"\[(.*)\]", begun[2] or "")
            for word in inline[1].split(",") if inline else [begun[2]] * bool(begun[2]):
                self.note([*stack, *([(indent, "-")] if inline else [])], word.strip())

    def note(self, stack, said):
        self.values.append((self.number, tuple(key for _, key in stack), said))

    def odd(self, number):
        return Stop(4, f"{self.name}:{number}: it isn't clear which folders are meant: name them in the call, or in {settings.FILE}")

    def word(self, number, is_meant, said):
        found = WORD.fullmatch(said or "") if is_meant else None
        if not found:
            raise self.odd(number)
        return next(it for it in found.groups() if it is not None).strip()

    def words(self, *keys):
        """Returns the words that some keys have. Nothing else may be below these, and no word in their place."""
        around = keys[:-1] if keys[-1] == "-" else keys
        return [self.word(number, there == keys, said) for number, there, said in self.values
                if there[:len(around)] == around or there == around[:len(there)]]

    def modules(self):
        found = []
        for number, there, said in self.values:
            if there[:3] == ("modules", "-", "path"):
                found[-1] = self.word(number, len(there) == 3, said)
            elif there == ("modules", "-") and said is None:
                found.append(".")
            elif there[:1] == ("modules",) and (len(there) < 3 or there[1] != "-"):
                raise self.odd(number)
        return found


def folders_of(read):
    """Returns the folders of a repository's modules, or nothing where no file says it. `read` returns the bytes of a file at the top, or nothing."""
    data = read(WORK)
    if data is not None:
        return File(WORK, data).words("directories", "-")
    data = read(MODULE)
    if data is None:
        return []
    file = File(MODULE, data)
    version = (file.words("version") or ["v1"])[0]
    return {"v1beta1": lambda: file.words("build", "roots", "-"), "v2": file.modules}.get(version, list)() or ["."]


def init(words):
    repository = Repository.here()
    path = os.path.join(repository.top, settings.FILE)
    if os.path.lexists(path):
        raise Stop(4, f"{settings.FILE} is there already")

    def read(name):
        there = os.path.join(repository.top, name)
        return read_file(there, settings.MOST_BYTES) if os.path.isfile(there) and not os.path.islink(there) else None
    usual = "proto" if os.path.isdir(os.path.join(repository.top, "proto")) else "."
    folders = [repository.from_top(it) for it in words] or folders_of(read) or [usual]
    with room() as within:
        roots, closed, faults, helped = share(repository, folders, within)
    tag = (repository.tags() or [""])[-1]
    lines = ["[gate]", "folder = " + "\n    ".join(folders), *([f"releases = {tag}"] if tag else []), *(["with-protoc = yes"] if helped else [])]
    if any(not it.isprintable() or it.strip() != it or it.startswith(("#", ";")) for it in (*folders, tag)):
        raise Stop(4, "a folder's or tag's name can't be written into settings: rename it")
    forms.write(path, ("\n".join(lines) + "\n").encode("utf-8", "surrogateescape"))
    workflow = os.path.join(repository.top, WORKFLOW)
    if not os.path.lexists(workflow):
        os.makedirs(os.path.dirname(workflow), exist_ok=True)
        forms.write(workflow, pkgutil.get_data(__package__, "templates/github.yml"))
        print(f"{WORKFLOW} is written: it says what is left to do.")
    lost = {it.root or it.place.path: it for it in faults if it.root not in helped}
    count = len(roots) + closed
    print(f"{settings.FILE} is written. {count - len(lost)} of {count} files can be gated.")
    if helped:
        print(f"{len(helped)} of them need protoc.")
    for code in sorted({it.code for it in lost.values()}):
        some = [it for it in lost.values() if it.code == code]
        print(f"{code}: {some[0].says} {listed(sorted({plain(it.place.path if it.place else '?') for it in some}), 3)}")
    return 0


def share(repository, folders, within):
    """Returns the roots that some folders have and how many files aren't even that, what is refused of them, and the roots that protoc can help
    with."""
    side = Side("new", within, snapshot=Snapshot(WorkTree(repository), folders))
    side.lay(set(), library_of(within), {})
    faults, helped = [*side.faults, *Asked(side, side).found(BACKWARD).faults], set()
    if protoc.protoc_paths():
        helped = {it for group, *_ in protoc.gated(side, side, faults, [BACKWARD], "numbers", within) for it in group}
    return side.roots, len({it.place.path for it in side.faults if it.place}), faults, helped

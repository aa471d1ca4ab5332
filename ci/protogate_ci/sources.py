"""Where a side is from: a revision, what is staged, the work tree, a folder outside git, or a descriptor set.

A source lists what it has below a folder into a snapshot's table. A submodule has a table of its own in it, by the repository that has its
commit. The work tree is what is there, whatever git knows of it: a file that is ignored, or in a repository inside, is gated like others. Its
bytes are those that compilers read. Those of a revision are as git has them: line ends may differ, which is no matter, and no filter runs. A
file that a checkout gives another encoding is closed, since compilers would read other bytes there.
"""

import functools
import os
import shutil
import stat
import tempfile

from .running import Stop, plain
from .snapshot import FILES, FOLDER, LINK, MOST_BYTES, MOST_DEPTH, MOST_PATHS, MOST_TARGET, SUBMODULE, is_below, is_text, within

ATTRIBUTES = ".gitattributes"
# As many bytes a descriptor set has at most, and all links together; and as many paths are asked for in one call.
MOST_OF_SET, MOST_OF_LINKS, MOST_ASKED = 2_147_483_647, 20_000_000, 25


class Tree:
    """A tree of git: that of a revision, or of what is staged. `shown` is what messages call it."""

    def __init__(self, repository, tree, shown, room):
        self.repository, self.tree, self.shown, self.room = repository, tree, shown, room
        self.find = functools.lru_cache(maxsize=None)(self.find)

    def find(self, path):
        """Returns what is at a path: the repository and the tree that have it, the path of that tree, and the mode and the name."""
        repository, tree, top = self.repository, self.tree, ""
        while path != top:
            parts = within(path, top).split("/")
            ways = ["/".join(parts[:count]) for count in range(1, len(parts) + 1)]
            found = {it: (mode, name) for it, mode, name in repository.tree(tree, ways, "-t")}
            way = next((it for it in ways if found.get(it, ("", ""))[0] == SUBMODULE), None)
            if way is None:
                return (repository, tree, top, *found.get(ways[-1], (None, None)))
            around, top = top, os.path.join(top, way)
            repository, tree = repository.submodule(way, found[way][1]), found[way][1]
            if repository is None:
                raise Stop(4, is_not_here(os.path.join(around, way), tree))
        return repository, tree, top, FOLDER, tree

    def target(self, path):
        repository, _, _, mode, name = self.find(path)
        return os.fsdecode(read_links(repository, [name])[name] or b"/") if mode == LINK else None

    def is_folder(self, path):
        return self.find(path)[3] == FOLDER

    def folders(self, around):
        repository, tree, top = self.find(around)[:3]
        listed = repository.tree(tree, [within(around, top) + "/"] if around != top else [])
        return [os.path.join(top, path) for path, mode, _ in listed if mode == FOLDER]

    def files_among(self, paths):
        paths = sorted(it for it in paths if "\0" not in it)
        listed = [it for at in range(0, len(paths), MOST_ASKED) for it in self.repository.tree(self.tree, paths[at : at + MOST_ASKED])]
        return {path for path, mode, _ in listed if mode in FILES}

    def list(self, snapshot, folder):
        repository, tree, top = self.find(folder)[:3]
        pending = [(repository, tree, top, within(folder, top))]
        for repository, tree, top, inner in pending:
            links, listed = {}, repository.tree(tree, [inner], "-r")
            for path, mode, name in listed:
                there = os.path.join(top, path)
                if not is_below(path, (inner,)):
                    raise Stop(3, f"git lists {plain(path)} below {plain(inner)}")
                if mode == SUBMODULE:
                    found = repository.submodule(path, name) if snapshot.admits(there, mode) else None
                    if found:
                        pending.append((found, name, there, ""))
                    elif not is_below(there, snapshot.closed):
                        snapshot.closed[there] = ("submodule", is_not_here(there, name))
                elif snapshot.add(there, mode, name, repository) and mode == LINK:
                    links.setdefault(name, []).append(there)
            for name, target in read_links(repository, links).items():
                for path in links[name]:
                    take_link(snapshot, path, target)
            for path in self.encoded(repository, tree, inner, listed):
                snapshot.close(os.path.join(top, path), "file", "has another encoding in a checkout, by its working-tree-encoding: take that away")

    def encoded(self, repository, tree, folder, listed):
        """Returns the files to which attributes of a tree give another encoding. Git is only asked where some attributes may do that."""
        parts = folder.split("/")
        around = ["/".join([*parts[:count], ATTRIBUTES]) for count in range(len(parts) if folder else 0)]
        found = [*(repository.tree(tree, around) if around else []), *(it for it in listed if os.path.basename(it[0]) == ATTRIBUTES)]
        sizes = repository.sizes(list({name for _, mode, name in found if mode != SUBMODULE})) if found else {}
        short = {name: size for name, size in sizes.items() if size is not None and size <= MOST_BYTES}
        if len(short) == len(sizes) and not any(b"encoding" in data for _, data in repository.blobs(short)):
            return []
        return repository.encoded(tree, [path for path, mode, _ in listed if mode in FILES], self.room)


def read_links(repository, names):
    """Returns what links say, or nothing of one that is too long or not here."""
    sizes = repository.sizes(list(names)) if names else {}
    short = {name: size for name, size in sizes.items() if size is not None and size <= MOST_TARGET}
    if sum(short.values()) > MOST_OF_LINKS:
        raise Stop(3, f"links have more than {MOST_OF_LINKS:,} bytes: take some away")
    return {**dict.fromkeys(names), **dict(repository.blobs(short))}


def take_link(snapshot, path, target):
    if not target or b"\0" in target:
        snapshot.close(path, "link", "is a link that leads nowhere")
    else:
        snapshot.targets[path] = os.fsdecode(target)


def is_not_here(path, commit):
    here = plain(path)
    return (f"{here} was a submodule, and its commit {commit[:12]} isn't here: git submodule update --init {here}, and git -C {here} fetch "
            f"--depth 1 origin {commit}")


class Folder:
    """A folder as it is now. It is a store too: a blob has its file's whole path for its name."""

    def __init__(self, top, shown):
        self.top, self.shown, self.count = os.path.abspath(top), shown, 0

    def at(self, path):
        return os.path.join(self.top, path)

    def target(self, path):
        return os.readlink(self.at(path)) if os.path.islink(self.at(path)) else None

    def is_folder(self, path):
        return os.path.isdir(self.at(path))

    def folders(self, around):
        return [os.path.join(around, it) for it in sorted(os.listdir(self.at(around))) if self.is_folder(os.path.join(around, it))]

    def files_among(self, paths):
        return {it for it in paths if os.path.isfile(self.at(it))}

    def list(self, snapshot, folder):
        pending = [folder]
        for path in pending:
            snapshot.add_folder(path)
            try:
                with os.scandir(self.at(path)) as found:
                    for entry in found:
                        self.count += 1
                        if self.count > MOST_PATHS:
                            raise Stop(3, f"{self.shown} has more than {MOST_PATHS:,} files and folders: gate a folder below it")
                        if entry.name != ".git":
                            pending += self.look_at(snapshot, os.path.join(path, entry.name), entry)
            except OSError as fault:
                snapshot.close(path, "folder", f"can't be read ({fault.strerror})")

    def look_at(self, snapshot, path, entry):
        """Takes what is at a path. Returns the folder there, if it is one to go into."""
        if entry.is_symlink():
            if snapshot.add(path, LINK, entry.path, self):
                take_link(snapshot, path, os.readlink(os.fsencode(entry.path)))
        elif entry.is_dir():
            if path.count("/") < MOST_DEPTH:
                return [path]
            snapshot.close(path, "folder", f"is a folder in {MOST_DEPTH} others: gate one of those")
        elif entry.is_file():
            snapshot.add(path, FILES[0], entry.path, self)
        elif is_text(path):
            snapshot.close(path, "file", "is no regular file")
        return []

    def sizes(self, blobs):
        return {it: os.lstat(it).st_size if os.access(it, os.R_OK) else None for it in blobs}

    def blobs(self, sizes):
        for blob in sizes:
            yield blob, read_file(blob, MOST_BYTES)


class WorkTree(Folder):
    """The work tree of a repository, with what git's index says of it."""

    def __init__(self, repository):
        super().__init__(repository.top, "the work tree")
        self.repositories = {"": repository}

    def list(self, snapshot, folder):
        around, inner = "", folder
        parts = folder.split("/")
        for path in ("/".join(parts[:count]) for count in range(1, len(parts) + 1)):
            if self.is_submodule(around, path):
                self.enter(path)
                around, inner = path, within(folder, path)
        listed = self.indexed(around, inner)
        if (folder, SUBMODULE) in [(path, mode) for path, _, mode in listed]:
            raise Stop(4, is_not_checked_out(folder))
        super().list(snapshot, folder)
        for path, state, mode in listed:
            if not snapshot.has(path) or mode == SUBMODULE:
                self.look_for(snapshot, path, state, mode)

    def is_submodule(self, around, path):
        inner = within(path, around)
        is_there = inner and os.path.lexists(self.at(os.path.join(path, ".git")))
        return is_there and (inner, SUBMODULE) in [(it, mode) for it, _, mode in self.repositories[around].index(inner)]

    def enter(self, path):
        self.repositories[path] = self.repositories[""].below(self.at(path))

    def indexed(self, around, inner):
        """Returns what the index lists of a folder of a repository, and those of the submodules below it that are checked out."""
        pending, listed = [(around, inner)], []
        for around, inner in pending:
            for path, state, mode in self.repositories[around].index(inner):
                there = os.path.join(around, path)
                listed.append((there, state, mode))
                if mode == SUBMODULE and os.path.lexists(self.at(os.path.join(there, ".git"))):
                    self.enter(there)
                    pending.append((there, ""))
        return listed

    def look_for(self, snapshot, path, state, mode):
        """Notes what the index has and the work tree hasn't."""
        if mode == SUBMODULE:
            if path not in self.repositories:
                snapshot.closed[path] = ("submodule", is_not_checked_out(path))
        elif (is_text(path) or mode == LINK) and not is_below(path, snapshot.closed):
            if state == "S" and not os.path.lexists(self.at(path)):
                snapshot.close(path, "unseen", "isn't in this sparse checkout: add it to that")
            else:
                snapshot.missing.add(path)


def is_not_checked_out(path):
    return f"{plain(path)} is a submodule that isn't checked out: git submodule update --init {plain(path)}"


def opened(path):
    # (a fifo would be waited for)
    file = open(os.open(path, os.O_RDONLY | os.O_NONBLOCK | os.O_CLOEXEC), "rb")
    if not stat.S_ISREG(os.fstat(file.fileno()).st_mode):
        file.close()
        raise Stop(4, f"{plain(path)} is no file")
    return file


def read_file(path, most):
    with opened(path) as file:
        return file.read(most + 1)


def descriptor_set(path, room):
    """Returns the path of a copy of a descriptor set, which stays as it is now."""
    copy = os.path.join(tempfile.mkdtemp(dir=room), "set.pb")
    try:
        with opened(path) as file, open(copy, "xb") as made:
            if os.fstat(file.fileno()).st_size > MOST_OF_SET:
                raise Stop(4, f"{plain(path)} has more than {MOST_OF_SET:,} bytes")
            shutil.copyfileobj(file, made)
    except OSError as fault:
        raise Stop(4, f"{plain(path)} can't be read ({fault.strerror})") from None
    return copy

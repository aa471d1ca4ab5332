"""How git is called: at the top of a work tree alone, so that nothing below it is taken for a repository, and so that it runs nothing of it."""

import difflib
import functools
import os
import re
import shutil
import tempfile

from .running import MOST_BYTES, Stop, plain, run

# The first git whose rev-parse takes --end-of-options.
OLDEST = (2, 30)
# A hook has the first three in its environment: they are compared with what git finds without them, and no more needed.
LEADING = ("GIT_DIR", "GIT_WORK_TREE", "GIT_COMMON_DIR", "GIT_PREFIX")
# These go on to git at the top alone. They must not lead it there where a submodule is meant.
OF_ONE_REPOSITORY = ("GIT_INDEX_FILE", "GIT_OBJECT_DIRECTORY")
# Paths are no patterns, an object is what its name says, and git neither asks anybody nor writes to an index that it only reads.
ALWAYS = {"GIT_NO_REPLACE_OBJECTS": "1", "GIT_LITERAL_PATHSPECS": "1", "GIT_OPTIONAL_LOCKS": "0", "GIT_TERMINAL_PROMPT": "0"}
# A folder with HEAD, objects and refs is no repository unless a `.git` leads to it. A user's settings may name a program of the work tree,
# which the change brings. (An empty fsmonitor is none for each git; before 2.36 `false` was a program.)
SAFELY = ("safe.bareRepository=explicit", "core.hooksPath=/dev/null", "core.fsmonitor=", "protocol.ext.allow=never")
# As many bytes a list of paths has, and blobs that are read in one go.
MOST_LISTED, MOST_AT_ONCE = 64_000_000, 16_000_000
# As many names are compared to guess which was meant, and as many letters of each.
MOST_NAMES, MOST_LETTERS = 500, 60


def called(words, at, dropped=LEADING + OF_ONE_REPOSITORY, given=b"", most=MOST_BYTES, **more):
    """Runs git. Returns its status, what it printed, up to `most` bytes, and its faults."""
    environment = {**{name: it for name, it in os.environ.items() if name not in dropped}, **ALWAYS, **more}
    words = ["git", *(word for it in SAFELY for word in ("-c", it)), *at, *words]
    try:
        return run(words, given, most, env=environment)
    except OSError as fault:
        raise Stop(127, f"git can't be run ({fault.strerror}): install it") from None


def look_for_git():
    status, said, faults = called(("--version",), ("-C", "/"))
    found = re.match(rb"git version (\d+)\.(\d+)", said)
    if status != 0 or not found:
        raise Stop(127, f"git --version failed: {faults.strip() or plain(os.fsdecode(said.strip()))}")
    if tuple(map(int, found.groups())) < OLDEST:
        raise Stop(127, f"{os.fsdecode(said.strip())} is too old: version {'.'.join(map(str, OLDEST))} or a later one is needed")


def did_you_mean(word, words):
    """Returns a question for the word that was probably meant, or nothing. A change may bring many words, and long ones: these aren't compared."""
    words = [it for it in words if len(it) <= MOST_LETTERS][:MOST_NAMES] if len(word) <= MOST_LETTERS else []
    found = next((it for it in words if it.endswith(("." + word, "/" + word))), None) or next(iter(difflib.get_close_matches(word, words, 1)), None)
    return f"; did you mean {plain(found)}?" if found else ""


# Which repository it is.


def top_around(folder):
    """Returns the nearest folder with a `.git`, this one or one around it, or nothing. Whatever else looks like a repository is none."""
    while not os.path.lexists(os.path.join(folder, ".git")):
        if folder == os.path.dirname(folder):
            return None
        folder = os.path.dirname(folder)
    return folder


def is_in(path, top):
    return os.path.join(os.path.realpath(path), "").startswith(os.path.join(os.path.realpath(top), ""))


def asked(top):
    """Returns the real paths that git tells of a work tree: its repository, the one that it shares, and its top."""
    status, said, faults = called(("rev-parse", "--absolute-git-dir", "--git-common-dir", "--show-toplevel"), ("-C", top))
    paths = os.fsdecode(said).split("\n")[:-1]
    if status != 0 or len(paths) != 3:
        raise Stop(4, f"git takes {plain(top)} for no work tree: {faults.strip() or 'a path has a line feed'}")
    return [os.path.realpath(os.path.join(top, it)) for it in paths]


def led_to(path):
    """Returns the real path of the folder that a `.git` is, or that it names."""
    if os.path.isfile(path):
        with open(path, "rb") as file:
            words = os.fsdecode(file.read(1 << 16)).rstrip("\r\n")
        path = os.path.join(os.path.dirname(path), words[len("gitdir: "):]) if words.startswith("gitdir: ") else path
    return os.path.realpath(path)


@functools.lru_cache(maxsize=None)
def check(top):
    """Stops where git takes another folder than the `.git` of a work tree for its repository, or another work tree."""
    (told, _, shown), wanted = asked(top), led_to(os.path.join(top, ".git"))
    if told != wanted:
        raise Stop(4, f"git takes {plain(told)} for the repository, and not {plain(wanted)}, where {plain(os.path.join(top, '.git'))} leads")
    if shown != os.path.realpath(top):
        raise Stop(4, f"git takes {plain(shown)} for the top of the work tree, which is {plain(top)}")
    check_settings(top)


def check_settings(top):
    """Stops where git may ask another repository for what it lacks, and goes by settings of a file in the work tree: these name the program that
    it asks by, and the change may bring the file."""
    words = os.fsdecode(called(("config", "--list", "--show-origin", "--name-only", "-z"), ("-C", top))[1]).split("\0")
    if not any(it.startswith("remote.") and it.endswith(".promisor") or it == "extensions.partialclone" for it in words[1::2]):
        return
    for kind, _, path in (it.partition(":") for it in dict.fromkeys(words[::2])):
        path = os.path.realpath(os.path.join(top, path))
        if kind == "file" and is_in(path, top) and not is_in(path, os.path.join(top, ".git")):
            raise Stop(4, f"git's settings are also those of {plain(path)}, which a change may bring: take that out of them")


def check_current(top):
    """Stops where a change may have led to the current folder: by a link of the work tree, or as a submodule in place of a folder."""
    said = os.environ.get("PWD", "")
    around = said if said.startswith("/") and os.path.isdir(said) and os.path.samefile(said, ".") else os.getcwd()
    while os.path.realpath(around) != top and around != "/":
        if os.path.islink(around) and is_in(os.path.dirname(around), top):
            raise Stop(4, f"{plain(around)} is a link in the work tree: call this in the folder where it leads")
        around = os.path.dirname(around)
    outer = top_around(os.path.dirname(top)) if top != "/" else None
    if outer:
        check(outer)
        if called(("ls-files", "-s", "-z", "--", os.path.relpath(top, outer)), ("-C", outer))[1].startswith(b"160000 "):
            raise Stop(4, f"{plain(top)} is a submodule of {plain(outer)}: call this there, and name the folder")


def check_environment(top):
    """Stops where the environment names another repository or work tree. A hook's names the one that it is called for."""
    here = os.getcwd()
    for name, it in zip(("GIT_DIR", "GIT_COMMON_DIR", "GIT_WORK_TREE"), asked(top)):
        said = os.environ.get(name)
        found = led_to(os.path.join(here, said)) if said else it
        if found != it:
            raise Stop(4, f"{name} names {plain(found)}, and not {plain(it)}, which is the one here: unset {name}")
    # Without the other one git takes the current folder for the top.
    if os.environ.get("GIT_DIR") and not os.environ.get("GIT_WORK_TREE") and here != os.path.realpath(top):
        raise Stop(4, f"with GIT_DIR git takes {plain(here)} for the top of the work tree, which is {plain(top)}: unset GIT_DIR")


class Repository:
    """A repository, where its work tree is, and the words by which git finds it."""

    def __init__(self, top, at=None, dropped=LEADING + OF_ONE_REPOSITORY):
        self.top, self.at, self.dropped, self.more = top, at or ("-C", top), dropped, {}

    @classmethod
    def here(cls):
        look_for_git()
        try:
            top = top_around(os.getcwd())
        except OSError as fault:
            raise Stop(4, f"there is no current folder ({fault.strerror})") from None
        if top is None:
            more = ": unset GIT_DIR" if os.environ.get("GIT_DIR") else ""
            raise Stop(4, f"there is no repository here: neither the current folder nor one around it has a .git{more}")
        check(top)
        check_environment(top)
        check_current(top)
        return cls(top, dropped=LEADING)

    @classmethod
    def below(cls, top):
        check(top)
        return cls(top)

    def call(self, *words, at=None, **how):
        return called(words, at or self.at, self.dropped, **{**self.more, **how})

    def must(self, *words, **how):
        status, said, faults = self.call(*words, **how)
        if status is None:
            raise Stop(3, f"git {words[0]} lists more than {MOST_LISTED:,} bytes of paths in {plain(self.top)}: gate a folder below it")
        if status != 0:
            raise Stop(3, f"git {words[0]} failed: {faults.strip()}")
        return said

    def items(self, *words):
        return os.fsdecode(self.must(*words, most=MOST_LISTED)).split("\0")[:-1]

    def from_top(self, folder):
        """Returns the path from the top of a folder that a call names where it is made."""
        if not folder:
            raise Stop(4, "a folder's name is empty: the command or variable that it comes from gave nothing")
        return os.path.relpath(folder, self.top) if folder.startswith("/") else os.path.join(os.path.relpath(os.getcwd(), self.top), folder)

    # Revisions.

    def commit_of(self, revision):
        if not revision:
            raise Stop(4, "REVISION is empty: the command or variable that it comes from gave nothing")
        status, said, faults = self.call("rev-parse", "--verify", "--quiet", "--end-of-options", f"{revision}^{{commit}}")
        if status == 0:
            return os.fsdecode(said).strip()
        names = os.fsdecode(self.must("for-each-ref", "--format=%(refname:short)")).splitlines()
        meant = did_you_mean(revision, names) or "."
        raise Stop(4, faults.strip() or f"git has no revision {plain(revision)} here{meant}{self.how_to_fetch(revision)}")

    def how_to_fetch(self, revision):
        remotes = os.fsdecode(self.must("remote")).split()
        if not remotes:
            return ""
        remote = "origin" if "origin" in remotes else remotes[0]
        what = revision if re.fullmatch("[0-9a-f]{40}", revision) else f"tag {revision}"
        if revision.startswith(f"{remote}/"):
            what = f"+{revision[len(remote) + 1:]}:refs/remotes/{revision}"
        return plain(f" To fetch it: git fetch --depth 1 {remote} {what} (in a fork, name the project's address in the place of {remote})")

    def tags(self):
        return os.fsdecode(self.must("for-each-ref", "--sort=creatordate", "--format=%(refname:strip=2)", "refs/tags")).splitlines()

    def merge_base(self, branch):
        status, said, faults = self.call("merge-base", self.commit_of(branch), self.commit_of("HEAD"))
        if status != 0:
            raise Stop(4, faults.strip() or f"{plain(branch)} and HEAD have no commit in common here: git fetch --unshallow, or fetch more of both")
        return os.fsdecode(said).split()[0]

    # What a repository has.

    def tree(self, tree, paths, *options):
        """Returns what a tree has at some paths, or with `-r` below them: of each its path, its mode, and the name of its blob or commit."""
        listed = self.items("ls-tree", "-z", "--full-tree", *options, tree, "--", *(it for it in paths if it))
        return [(path, *words.split()[::2]) for words, _, path in (it.partition("\t") for it in listed)]

    def index(self, path):
        """Returns what the index lists of a path and below it: of each its path, the letter of its state, and its mode."""
        listed = self.items("ls-files", "--full-name", "-s", "-t", "-z", "--", path or ".")
        return [(there, *words.split()[:2]) for words, _, there in (it.partition("\t") for it in listed)]

    def keep_objects_in(self, room):
        """Has all that git writes from now on lie in a folder, and nothing in the repository."""
        if self.more:
            return
        told = os.fsdecode(self.must("rev-parse", "--git-path", "objects"))[:-1]
        quoted = '"' + os.path.join(self.top, told).replace("\\", "\\\\").replace('"', '\\"') + '"'
        others = os.environ.get("GIT_ALTERNATE_OBJECT_DIRECTORIES")
        folder = tempfile.mkdtemp(dir=room)
        self.more = {"GIT_OBJECT_DIRECTORY": folder, "GIT_ALTERNATE_OBJECT_DIRECTORIES": f"{quoted}:{others}" if others else quoted}

    def staged(self, room):
        """Returns the tree of what is staged. It is made of a copy of the index, so that this stays as it is."""
        self.keep_objects_in(room)
        there = os.path.join(self.top, os.fsdecode(self.must("rev-parse", "--git-path", "index"))[:-1])
        copy = os.path.join(tempfile.mkdtemp(dir=room), "index")
        if os.path.exists(there):
            shutil.copyfile(there, copy)
        status, said, faults = self.call("write-tree", at=self.without_hooks, GIT_INDEX_FILE=copy)
        if status != 0:
            raise Stop(4, f"what is staged is no tree yet: {faults.strip()}")
        return os.fsdecode(said).strip()

    @functools.cached_property
    def without_hooks(self):
        """The words by which git finds this repository, and runs no hook of a user's settings, as newer gits have them, where it writes an index: its
        program may be a file of the change."""
        said = self.call("config", "--name-only", "-z", "--get-regexp", r"^hook\..*\.")[1]
        keys = sorted({it.rpartition(".")[0] for it in os.fsdecode(said).split("\0") if it})
        if any("=" in it for it in keys):
            raise Stop(4, f"git's settings have a hook whose name has =, which can't be turned off: {plain(', '.join(keys))}")
        return (*self.at, *(word for it in keys for word in ("-c", f"{it}.enabled=false")))

    def encoded(self, tree, paths, room):
        """Returns which files of a tree have another encoding in a checkout, by the attributes that it has itself."""
        index = os.path.join(tempfile.mkdtemp(dir=room), "index")
        self.must("read-tree", tree, at=self.without_hooks, GIT_INDEX_FILE=index)
        given = os.fsencode("".join(f"{it}\0" for it in paths))
        said = self.must("check-attr", "--cached", "--stdin", "-z", "working-tree-encoding", given=given, GIT_INDEX_FILE=index)
        words = os.fsdecode(said).split("\0")
        return [path for path, value in zip(words[::3], words[2::3]) if value.upper() not in ("UNSPECIFIED", "UNSET", "UTF-8", "UTF8")]

    def sizes(self, names):
        """Returns how many bytes each blob of these names has, or None for one that isn't here."""
        said = self.must("cat-file", "--batch-check=%(objecttype) %(objectsize)", given="".join(f"{it}\n" for it in names).encode())
        found = [it.split() for it in said.split(b"\n")[:-1]]
        return {name: int(size) if kind == b"blob" else None for name, (kind, size) in zip(names, found)}

    def blobs(self, sizes):
        """Yields each blob whose size is told, with its bytes. Not all of them are held at a time."""
        part, total = [], 0
        for name, size in sizes.items():
            if part and total + size > MOST_AT_ONCE:
                yield from self.blobs_of(part)
                part, total = [], 0
            part.append((name, size))
            total += size
        if part:
            yield from self.blobs_of(part)

    def blobs_of(self, sizes):
        said, at = self.must("cat-file", "--batch", given="".join(f"{name}\n" for name, _ in sizes).encode()), 0
        for name, size in sizes:
            head = f"{name} blob {size}\n".encode()
            data = said[at + len(head) : at + len(head) + size]
            if said[at : at + len(head)] != head or len(data) != size:
                raise Stop(3, f"git can't read the blob {name}")
            at += len(head) + size + 1
            yield name, data

    def submodule(self, path, commit):
        """Returns the repository of a submodule at a path, where it is here and has the commit: in the work tree, or among those that this
        repository keeps."""
        there = os.path.join(self.top, path)
        if os.path.lexists(os.path.join(there, ".git")) and not os.path.islink(there):
            found = Repository.below(there)
            if found.has(commit):
                return found
        kept = os.path.join(self.top, os.fsdecode(self.must("rev-parse", "--git-path", f"modules/{path}"))[:-1])
        # Its settings name a folder for its files, which may be gone.
        found = Repository(kept, ("--git-dir", kept, "--work-tree", kept))
        return found if os.path.lexists(os.path.join(kept, "HEAD")) and found.has(commit) else None

    def has(self, commit):
        return self.call("cat-file", "-e", f"{commit}^{{commit}}")[0] == 0

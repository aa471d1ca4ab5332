"""What git knows of both sides: the old side, laid out of a revision with its submodules, and what git lists of each side."""

import os
import re
import tempfile

from calls import Stop, did_you_mean, plain, run
from repositories import git, top_of_work_tree, without_filters
from walks import is_text

LINK, SUBMODULE = "120000", "160000"


def lines_of(*words, must_work=False, **how):
    """Returns the lines that git prints, or with `-z` the items that zero bytes end. Where git fails there are none, or the run stops."""
    status, said, faults = git(*words, **how)
    if status != 0 and must_work:
        raise Stop(3, f"git {words[0]} failed: {faults.strip()}")
    said = os.fsdecode(said) if status == 0 else ""
    return [it for it in said.split("\0" if "-z" in words else "\n") if it]


# The revision.


def how_to_fetch(revision):
    """Returns what fetches a revision that isn't here, for a message."""
    remotes = lines_of("remote")
    if not remotes:
        return ""
    remote = "origin" if "origin" in remotes else remotes[0]
    what = f"tag {revision}"
    if re.fullmatch("[0-9a-f]{40}", revision):
        what = revision
    elif revision.startswith(f"{remote}/"):
        branch = revision[len(remote) + 1 :]
        what = f"+{branch}:refs/remotes/{revision}"
    return f" To fetch it: git fetch --depth 1 {remote} {what} (in a fork, name the project's address in the place of {remote})"


def commit_of(revision):
    """Returns the full name of a revision's commit."""
    if not revision:
        raise Stop(4, "REVISION is empty: the command or variable that it comes from gave nothing")
    status, said, faults = git("rev-parse", "--verify", "--quiet", "--end-of-options", f"{revision}^{{commit}}")
    if status == 0:
        return os.fsdecode(said).strip()
    names = lines_of("for-each-ref", "--format=%(refname:short)")
    meant = did_you_mean(revision, names) or "."
    raise Stop(4, faults.strip() or f"git has no revision {plain(revision)} here{meant}{how_to_fetch(revision)}")


def advice_on_branch(revision, commit):
    """Returns what to gate against in the place of a branch that has moved on, or nothing."""
    name = "".join(lines_of("rev-parse", "--verify", "--quiet", "--symbolic-full-name", revision))
    if not name.startswith(("refs/heads/", "refs/remotes/")) or git("merge-base", "--is-ancestor", commit, "HEAD")[0] != 1:
        return None
    shallow = lines_of("rev-parse", "--is-shallow-repository") == ["true"]
    return (f"{plain(revision)} has commits that HEAD hasn't, and what came with them counts as removed or changed here: gate against "
            f"$(git merge-base {plain(revision)} HEAD)" + ", after git fetch --unshallow" * shallow)


# The old side.


class Place:
    """A folder as users name it, and its path from the top of the repository."""

    def __init__(self, folder):
        if not folder:
            raise Stop(4, "a folder's name is empty")
        self.folder = os.path.relpath(folder)
        top = os.path.normpath(os.path.join(os.path.relpath(os.getcwd(), top_of_work_tree()), self.folder))
        if top.split("/")[0] in ("..", ""):
            raise Stop(4, f"{plain(folder)} isn't in the repository")
        if os.path.realpath(self.folder) != os.path.normpath(os.path.join(top_of_work_tree(), top)):
            raise Stop(4, f"{plain(folder)} is a link, or in one: name the folder to which it leads")
        self.top = "" if top == "." else f"{top}/"


class Laid:
    """A folder that is laid out of git: where it is, what git lists of it with the modes, and which submodules aren't laid out."""

    def __init__(self, folder):
        self.folder, self.listed, self.unread, self.files_outside = folder, {}, {}, set()


def write_tree(tree, laid, below, room, at=(), prefix=""):
    """Writes a tree's files below a folder that is laid out, as links where they are links, and returns the commits of its submodules. With a
    prefix these are the files below it alone, at the end of that folder's name: the attributes of the folders around count for them too."""
    into = os.path.join(laid.folder, below)
    os.makedirs(into, exist_ok=True)
    submodules, words = {}, ("-z", "--full-tree", tree, "--", *[prefix] * bool(prefix))
    for line in lines_of("ls-tree", "-r", *words, at=at, must_work=True, GIT_LITERAL_PATHSPECS="1"):
        (mode, _, name), listed = line.partition("\t")[0].split(), line.partition("\t")[2]
        if not listed.startswith(prefix):
            raise Stop(3, f"git lists {plain(listed)} below {plain(prefix)}")
        path = os.path.join(below, listed[len(prefix) :])
        laid.listed[path] = mode
        if mode == SUBMODULE:
            submodules[path] = name
    # (it is asked again, so that what is laid out and what is listed can be compared)
    names = lines_of("ls-tree", "--name-only", "-r", *words, at=at, must_work=True, GIT_LITERAL_PATHSPECS="1")
    index = {"GIT_INDEX_FILE": os.path.join(tempfile.mkdtemp(dir=room), "index")}
    around = os.path.normpath(os.path.join(into, *[".."] * prefix.count("/")))
    plainly = ["-c", "core.symlinks=true", "-c", "core.sparseCheckout=false", *without_filters(at), f"--work-tree={around}"]
    for words, given in ((["read-tree", tree], b""), (["checkout-index", "-z", "--stdin"], os.fsencode("".join(f"{it}\0" for it in names)))):
        status, _, faults = git(*plainly, *words, at=at, input=given, **index)
        if status != 0:
            raise Stop(3, f"the files of {tree} can't be laid out: {faults.strip()}")
    return submodules


def repository_of(commit, checked_out, at, path):
    """Returns the arguments by which git finds a submodule's own repository, if that is here and has the commit: in the work tree, or
    among those that the repository around it keeps, where `path` is the submodule's."""
    kept = "".join(lines_of("rev-parse", "--git-path", f"modules/{path}", at=at))
    kept = os.path.join(at[1] if at[:1] == ("-C",) else "" if at else top_of_work_tree(), kept)
    # Its settings name a folder for its files, which may be gone.
    alone = ("--git-dir", kept, "--work-tree", kept)
    for words, there in ((("-C", checked_out), f"{checked_out}/.git"), (alone, f"{kept}/HEAD")):
        if os.path.lexists(there) and git("cat-file", "-e", f"{commit}^{{commit}}", at=words)[0] == 0:
            return words
    return None


def write_submodules(laid, submodules, room, around):
    """Lays out what submodules had, and what theirs had."""
    pending = [(path, commit, (), os.path.normpath(around.top + path)) for path, commit in submodules.items()]
    for path, commit, at, path_there in pending:
        words = repository_of(commit, os.path.join(around.folder, path), at, path_there)
        if words:
            inner = write_tree(f"{commit}^{{tree}}", laid, path, room, words)
            pending += [(it, name, words, os.path.relpath(it, path)) for it, name in inner.items()]
        else:
            here = plain(os.path.normpath(os.path.join(around.folder, path)))
            laid.unread[path] = ("submodule", f"{here} was a submodule, and its commit {commit[:12]} isn't here: git submodule update --init "
                                 f"{here}, and git -C {here} fetch --depth 1 origin {commit}")


def lay_out(commit, around, room):
    """Lays a folder out as it was in a commit. Returns nothing where the commit has no such folder."""
    name = "".join(lines_of("rev-parse", "--verify", "--quiet", "--end-of-options", f"{commit}:{around.top[:-1]}"))
    kind = kind_of(commit, around.top[:-1]) if name else "blob"
    if kind == "blob":
        refuse_below_submodules(commit, around)
        return None
    laid = Laid(os.path.join(tempfile.mkdtemp(dir=room), around.top))
    # A submodule is the name of a commit that this repository hasn't.
    write_submodules(laid, write_tree(commit, laid, "", room, prefix=around.top) if kind == "tree" else {"": name}, room, around)
    if "" in laid.unread:
        raise Stop(4, laid.unread[""][1])
    laid.files_outside = files_outside(commit, laid, around.top)
    return laid


def kind_of(commit, path):
    """Returns what a path of a commit is. The object itself isn't asked for: git would seek it at another repository."""
    found = lines_of("ls-tree", "-z", "--full-tree", commit, "--", path, GIT_LITERAL_PATHSPECS="1") if path else []
    return found[0].split()[1] if found else "tree"


def refuse_below_submodules(commit, around):
    """Stops where a folder was below a submodule in a commit: that has it, and not this repository."""
    parts = around.top.split("/")[:-1]
    for path in ("/".join(parts[:count]) for count in range(1, len(parts))):
        if kind_of(commit, path) == "commit":
            raise Stop(4, f"{plain(around.folder)} is below {plain(path)}, which was a submodule: name that folder")


def files_outside(commit, laid, top):
    """Returns the links that lead out of a folder to what is a file in the commit, and no folder."""
    targets = {}
    for path in (it for it, mode in laid.listed.items() if mode == LINK and os.path.islink(os.path.join(laid.folder, it))):
        target = os.path.normpath(os.path.join(top, os.path.dirname(path), os.readlink(os.path.join(laid.folder, path))))
        if not target.startswith(("/", "../")) and "\n" not in target:
            targets[path] = target
    asked = "".join(f"{commit}:{it}\n" for it in targets.values())
    status, said, _ = git("cat-file", "--batch-check=%(objecttype)", input=os.fsencode(asked)) if targets else (0, b"", "")
    return {path for path, kind in zip(targets, said.split(b"\n")) if kind == b"blob"}


def no_folder(revision, commit, folder):
    folders = lines_of("ls-tree", "-rd", "-z", "--name-only", commit)
    return Stop(4, f"{plain(revision)} has no folder {plain(folder)}{did_you_mean(folder, folders)}")


# The new side.


def indexed(top="", at=()):
    """Returns what git's index lists of a folder, whose path from the top is given: of each path the letter of its state and its mode."""
    words = ("ls-files", "--full-name", "-s", "-t", "-z", "--", top[:-1] or ".")
    listed = {}
    for line in lines_of(*words, at=at, must_work=True, GIT_LITERAL_PATHSPECS="1"):
        state, _, path = line.partition("\t")
        if path == top[:-1] and state.split()[1] == SUBMODULE:
            raise Stop(4, f"{plain(path)} is a submodule that isn't checked out: git submodule update --init {plain(path)}")
        if path.startswith(top):
            listed[path[len(top):]] = state.split()[:2]
    return listed


def of_work_tree(place):
    """Returns a folder of the work tree, as one that is laid out, with what git's index lists of it."""
    folder = place.folder
    laid = Laid(folder)
    is_submodule = place.top and os.path.lexists(f"{folder}/.git")
    pending = [("", indexed(at=("-C", folder)) if is_submodule else indexed(place.top))]
    for around, listed in pending:
        for path, (state, mode) in listed.items():
            path = os.path.join(around, path)
            here = os.path.normpath(os.path.join(folder, path))
            laid.listed[path] = mode
            if state == "S" and not os.path.lexists(here):
                if not is_text(path) and mode not in (LINK, SUBMODULE):
                    continue
                laid.unread[path] = ("unseen", f"{plain(here)} isn't in this sparse checkout: add it to that")
            elif mode == SUBMODULE and os.path.lexists(f"{here}/.git"):
                pending.append((path, indexed(at=("-C", here))))
            elif mode == SUBMODULE:
                laid.unread[path] = ("submodule", f"{plain(here)} is a submodule that isn't checked out: git submodule update --init {plain(here)}")
    return laid

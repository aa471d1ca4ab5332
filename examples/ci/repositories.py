"""How git is called: at the top of a work tree alone, so that nothing below it is taken for a repository, and so that it runs nothing of it."""

import functools
import os
import re
import subprocess

from calls import Stop, plain, run

# The first git whose rev-parse takes --end-of-options.
OLDEST = (2, 30)
# A hook has the first three in its environment: they are compared with what git finds without them, and no more needed.
LEADING = ("GIT_DIR", "GIT_WORK_TREE", "GIT_COMMON_DIR", "GIT_PREFIX")
# These go on to git at the top alone. They must not lead it there where a submodule is meant.
OF_ONE_REPOSITORY = ("GIT_INDEX_FILE", "GIT_OBJECT_DIRECTORY")
# A folder with HEAD, objects and refs is no repository unless a `.git` leads to it. A user's settings may name a program of the work tree,
# which the change brings. (An empty fsmonitor is none for each git; before 2.36 `false` was a program.)
SAFELY = ("safe.bareRepository=explicit", "core.hooksPath=/dev/null", "core.fsmonitor=", "protocol.ext.allow=never")


def git(*words, at=(), **how):
    """Runs git at the top of the work tree, or in the repository that the arguments `at` name."""
    if at[:1] == ("-C",):
        check(at[1])
    return called(words, at or ("-C", top_of_work_tree()), LEADING + (OF_ONE_REPOSITORY if at else ()), **how)


def called(words, at, dropped, **how):
    environment = {"GIT_NO_REPLACE_OBJECTS": "1", **{name: it for name, it in os.environ.items() if name not in dropped}}
    environment.update({name: how.pop(name) for name in list(how) if name.startswith("GIT_")})
    safely = [word for it in SAFELY for word in ("-c", it)]
    try:
        return run(["git", *safely, *at, *words], stderr=subprocess.PIPE, env=environment, **how)
    except OSError as fault:
        raise Stop(127, f"git can't be run ({fault.strerror}): install it") from None


def look_for_git():
    """Stops where there is no git, or too old a one."""
    status, said, faults = called(("--version",), ("-C", "/"), LEADING)
    found = re.match(rb"git version (\d+)\.(\d+)", said)
    if status != 0 or not found:
        raise Stop(127, f"git --version failed: {faults.strip() or plain(os.fsdecode(said.strip()))}")
    if tuple(map(int, found.groups())) < OLDEST:
        raise Stop(127, f"{os.fsdecode(said.strip())} is too old: version {'.'.join(map(str, OLDEST))} or a later one is needed")


@functools.lru_cache(maxsize=None)
def top_of_work_tree():
    """Returns the nearest folder with a `.git`, the current one or one around it. Whatever else looks like a repository is none."""
    look_for_git()
    try:
        top = os.getcwd()
    except OSError as fault:
        raise Stop(4, f"there is no current folder ({fault.strerror})") from None
    while not os.path.lexists(os.path.join(top, ".git")):
        if top == os.path.dirname(top):
            more = ": unset GIT_DIR" if os.environ.get("GIT_DIR") else ""
            raise Stop(4, f"there is no repository here: neither the current folder nor one around it has a .git{more}")
        top = os.path.dirname(top)
    check(top)
    check_environment(top)
    check_current(top)
    return top


def is_in(path, top):
    """Returns whether a path leads to a folder, or into it."""
    return os.path.join(os.path.realpath(path), "").startswith(os.path.join(os.path.realpath(top), ""))


def asked(top, option):
    """Returns the real path that git tells of a work tree, or nothing."""
    status, said, faults = called(("rev-parse", option), ("-C", top), LEADING + OF_ONE_REPOSITORY)
    if status != 0:
        raise Stop(4, f"git takes {plain(top)} for no work tree: {faults.strip()}")
    return os.path.realpath(os.path.join(top, os.fsdecode(said)[:-1]))


def led_to(path):
    """Returns the real path of the folder that a `.git` is, or that it names."""
    if os.path.isfile(path):
        with open(path, "rb") as file:
            words = os.fsdecode(file.read(1 << 16)).rstrip("\r\n")
        path = os.path.join(os.path.dirname(path), words[len("gitdir: "):]) if words.startswith("gitdir: ") else path
    return os.path.realpath(path)


@functools.lru_cache(maxsize=None)
def check(top):
    """Stops where git takes another folder than the `.git` of a work tree for its repository, or another work tree."""
    told, wanted = asked(top, "--absolute-git-dir"), led_to(os.path.join(top, ".git"))
    if told != wanted:
        raise Stop(4, f"git takes {plain(told)} for the repository, and not {plain(wanted)}, where {plain(os.path.join(top, '.git'))} leads")
    told = asked(top, "--show-toplevel")
    if told != os.path.realpath(top):
        raise Stop(4, f"git takes {plain(told)} for the top of the work tree, which is {plain(top)}")
    check_settings(top)


def check_settings(top):
    """Stops where git may ask another repository for what it lacks, and goes by settings of a file in the work tree: these name the program that
    it asks by, and the change may bring the file."""
    _, said, _ = called(("config", "--list", "--show-origin", "--name-only", "-z"), ("-C", top), LEADING + OF_ONE_REPOSITORY)
    words = os.fsdecode(said).split("\0")
    if not any(it.startswith("remote.") and it.endswith(".promisor") or it == "extensions.partialclone" for it in words[1::2]):
        return
    for kind, _, path in (it.partition(":") for it in dict.fromkeys(words[::2])):
        path = os.path.realpath(os.path.join(top, path))
        if kind == "file" and is_in(path, top) and not is_in(path, os.path.join(top, ".git")):
            raise Stop(4, f"git's settings are also those of {plain(path)}, which a change may bring: take that out of them")


def check_current(top):
    """Stops where a change may have led to the current folder: by a link of the work tree, or as a submodule in place of a folder."""
    said = os.environ.get("PWD", "")
    around = said if said.startswith("/") and os.path.isdir(said) and os.path.samefile(said, ".") else os.getcwd()
    while os.path.realpath(around) != top and around != "/":
        if os.path.islink(around) and is_in(os.path.dirname(around), top):
            raise Stop(4, f"{plain(around)} is a link in the work tree: call this in the folder where it leads")
        around = os.path.dirname(around)
    outer = os.path.dirname(top)
    while outer != "/" and not os.path.lexists(os.path.join(outer, ".git")):
        outer = os.path.dirname(outer)
    if outer != "/":
        check(outer)
        words = ("ls-files", "-s", "-z", "--", os.path.relpath(top, outer))
        _, said, _ = called(words, ("-C", outer), LEADING + OF_ONE_REPOSITORY, GIT_LITERAL_PATHSPECS="1")
        if said.startswith(b"160000 "):
            raise Stop(4, f"{plain(top)} is a submodule of {plain(outer)}: call this there, and name the folder")


def check_environment(top):
    """Stops where the environment names another repository or work tree. A hook's names the one that it is called for."""
    here = os.getcwd()
    wanted = {"GIT_DIR": asked(top, "--absolute-git-dir"), "GIT_COMMON_DIR": asked(top, "--git-common-dir"), "GIT_WORK_TREE": os.path.realpath(top)}
    for name, it in wanted.items():
        said = os.environ.get(name)
        found = led_to(os.path.join(here, said)) if said else it
        if found != it:
            raise Stop(4, f"{name} names {plain(found)}, and not {plain(it)}, which is the one here: unset {name}")
    # Without the other one git takes the current folder for the top.
    if os.environ.get("GIT_DIR") and not os.environ.get("GIT_WORK_TREE") and here != os.path.realpath(top):
        raise Stop(4, f"with GIT_DIR git takes {plain(here)} for the top of the work tree, which is {plain(top)}: unset GIT_DIR")


def without_filters(at):
    """Returns the options by which no filter of a user's settings runs: its program may be a file of the change. So what git has is compared
    as it has it."""
    _, said, _ = git("config", "--name-only", "-z", "--get-regexp", r"^(filter|hook)\..*\.", at=at)
    keys = {it.rpartition(".")[0] for it in os.fsdecode(said).split("\0") if it}
    if any("=" in it for it in keys):
        raise Stop(4, f"git's settings have a filter whose name has =, which can't be turned off: {plain(', '.join(sorted(keys)))}")
    alone = {"filter": ("smudge=", "clean=", "process=", "required=false"), "hook": ("enabled=false",)}
    return [word for key in sorted(keys) for it in alone[key.partition(".")[0]] for word in ("-c", f"{key}.{it}")]

"""What `protogate.ini` says of a call, and of what is left out or accepted, why and how long. docs/CI.md has its keys.

A change doesn't decide about itself: the file counts as it was at the top of the base revision, unless a call names another one.
"""

import codecs
import datetime
import fnmatch
import json
import os
import re
import stat
from typing import NamedTuple, Optional

from .git import did_you_mean
from .running import Stop, plain
from .snapshot import FILES
from .sources import read_file

FILE = "protogate.ini"
COMPATIBILITIES = tuple(it + more for it in ("backward", "forward", "full") for more in ("", "-transitive"))
CASES = ("unlike", "value", "name", "list-to-one", "map", "map-key", "map-value", "oneof")
# As many bytes the file has at most, days a skip goes on, seconds a program has, and as much of what is wrong is shown.
MOST_BYTES, MOST_DAYS, MOST_SECONDS, MOST_SHOWN = 1_000_000, 366, 86_400, 200
# A mark of what a name is: `type:shop.Draft`, `path:drafts`.
KINDS = ("type", "path")
WAYS = "--base REVISION, --settings FILE and --no-settings name others"
BASELINE = {"format": "protogate-ci-baseline", "version": 1}


# What a key says. Each of these returns it, or says what it may be.


def lines(said):
    return [it.strip() for it in said.split("\n") if it.strip()]


def words(said):
    return " ".join(said.split())


def one_of(*known):
    def read(said):
        if said not in known:
            raise ValueError(f"{', '.join(known[:-1])} or {known[-1]}")
        return said
    return read


def seconds(said):
    if not re.fullmatch("[0-9]{1,5}", said) or not 1 <= int(said) <= MOST_SECONDS:
        raise ValueError(f"a number of seconds from 1 to {MOST_SECONDS}")
    return int(said)


def day(said):
    if not re.fullmatch(r"\d{4}-\d\d-\d\d", said, re.A):
        raise ValueError("a day such as 2026-12-31")
    return datetime.date.fromisoformat(said)


# By the kind of a section, its keys, and whether all of them are needed.
KEYS = {
    "gate": {"folder": lines, "include": lines, "releases": lines, "strict": lines, "compatibility": one_of(*COMPATIBILITIES), "time-limit": seconds,
             "view": one_of("numbers", "names"), "with-protoc": one_of("yes", "no")},
    "for": {"compatibility": one_of(*COMPATIBILITIES)}, "skip": {"reason": words, "until": day},
    "accept": {"case": one_of(*CASES), "old": words, "new": words, "reason": words, "until": day},
}


class Skip(NamedTuple):
    """A type or a path that is left out: its name as it is said, its last day where that is said, and how messages call it."""

    said: str
    shown: str
    until: Optional[datetime.date] = None
    reason: str = ""

    @property
    def kind(self):
        kind, mark, _ = self.said.partition(":")
        return kind if mark and kind in KINDS else None

    @property
    def name(self):
        return (self.said.partition(":")[2] if self.kind else self.said).rstrip("/")


class Accepted(NamedTuple):
    """A cause that is accepted: the field's name, the case, the types of both sides, and as for a skip."""

    field: str
    case: str
    old: str
    new: str
    shown: str
    until: Optional[datetime.date]
    reason: str


class Settings:
    """The settings in a file's bytes: none where there are none. `name` is what messages call the file, `whence` where it is from."""

    def __init__(self, data=b"", name=FILE, whence="", today=None):
        self.name, self.whence, self.today = name, whence, today or datetime.date.today()
        # What [gate] says by its keys, the compatibility by types or paths, and what is skipped or accepted, also where its last day is over.
        self.said, self.by_name, self.skips, self.accepted = {}, {}, [], []
        self.read(data)

    def stop(self, line, why):
        return Stop(4, f"{self.name}:{line}: {plain(why)}{self.whence}")

    def read(self, data):
        """Reads sections with keys: as configparser does, but in a time that grows with the file's length alone, and up to the first fault."""
        sections, section, key, depth = {}, None, None, 0
        for number, line in enumerate(self.text_of(data).split("\n"), 1):
            said, indent = line.strip(), len(line) - len(line.lstrip())
            if not said or said[0] in "#;":
                continue
            if key and indent > depth:
                sections[section][1][key][1].append(said)
                continue
            is_section = said[0] == "[" and "]" in said
            name, mark, value = (said[1:].rpartition("]")[0], "]", "") if is_section else (it.strip() for it in said.partition("="))
            there = sections if is_section else sections[section][1] if section is not None else None
            if there is None or not (mark and name) or name in there:
                why = "there is no section yet" if there is None else "it is there already" if mark and name else "there is no `=`, and no section"
                raise self.stop(number, f"this is no setting: {why}")
            there[name] = (number, {}) if is_section else (number, [value])
            section, key, depth = (name, None, indent) if is_section else (section, name, indent)
        for name, (number, values) in sections.items():
            self.take(name, number, {key: (line, "\n".join(it).strip()) for key, (line, it) in values.items()})

    def text_of(self, data):
        """Returns the lines of the file. A mark of UTF-8 at its beginning says nothing."""
        if len(data) > MOST_BYTES:
            raise self.stop(1, f"the file has over {MOST_BYTES:,} bytes")
        text = unmarked(data)
        if b"\0" in text:
            raise self.stop(text.count(b"\n", 0, text.index(b"\0")) + 1, "there is a zero byte")
        try:
            return text.decode()
        except UnicodeDecodeError as fault:
            raise self.stop(text.count(b"\n", 0, fault.start) + 1, "the file isn't UTF-8") from None

    def take(self, section, number, values):
        kind, _, name = section.partition(" ")
        name, shown = name.strip(), section[:MOST_SHOWN]
        if kind not in KEYS or bool(name) == (kind == "gate"):
            raise self.stop(number, f"there is no section [{shown}]; there are [gate] and [skip|accept|for NAME]")
        if kind == "for" and name.partition(":")[0] not in KINDS:
            raise self.stop(number, "[for NAME] is [for type:PATTERN] or [for path:FOLDER]")
        said = {key: self.value(kind, shown, key, *it) for key, it in values.items()}
        lacking = [it for it in KEYS[kind] if it not in said] if kind != "gate" else []
        if lacking:
            raise self.stop(number, f"[{shown}] has no {lacking[0]}")
        more = {"shown": f"{self.name}:{number}: the {kind} of {name}", **said}
        if kind == "gate":
            self.said = said
        elif kind == "for":
            self.by_name[name] = said["compatibility"]
        elif kind == "skip":
            self.skips.append(Skip(name, **more))
        else:
            self.accepted.append(Accepted(name, **more))

    def value(self, kind, shown, key, line, said):
        if key not in KEYS[kind]:
            raise self.stop(line, f"there is no key {key[:MOST_SHOWN]} in [{shown}]{did_you_mean(key, KEYS[kind])}")
        if not said:
            raise self.stop(line, f"{key} says nothing")
        try:
            found = KEYS[kind][key](said)
            if key == "until" and (found - self.today).days > MOST_DAYS:
                raise ValueError(f"at most {MOST_DAYS} days ahead")
            return found
        except ValueError as fault:
            raise self.stop(line, f"{key} is {fault}, not {said[:MOST_SHOWN]}") from None

    def is_over(self, told):
        """Returns whether a skip, or what is accepted, has ended: its last day counts."""
        return told.until is not None and self.today > told.until


def unmarked(data):
    """Returns bytes as they are compared and read: with line feeds alone, and without a mark of UTF-8 at their beginning."""
    return data.removeprefix(codecs.BOM_UTF8).replace(b"\r\n", b"\n").replace(b"\r", b"\n")


def releases_of(said, tags):
    """Returns the revisions that words name, oldest first where they are patterns: `v*` is each such tag, and `last 10` after it leaves the last
    ten of them. `tags` has all tags, the oldest first. What is no pattern is a revision as it is."""
    found = []
    for it in said:
        last = re.fullmatch(r"last ([1-9][0-9]{0,5})", it)
        if last:
            found = found[-int(last[1]):]
            continue
        is_pattern = any(mark in it for mark in "*?[")
        named = [tag for tag in tags if fnmatch.fnmatchcase(tag, it)] if is_pattern else [it]
        if not named:
            raise Stop(4, f"no tag is like {plain(it)}")
        found += [tag for tag in named if tag not in found]
    return found


# Which file counts.


class Base(NamedTuple):
    """The settings that count for a call: the file's bytes, or nothing; its name, or what stands for it; and the revision that it is of."""

    data: Optional[bytes]
    name: str
    revision: Optional[str] = None

    def settings(self):
        whence = f" (as it was at {plain(self.revision)}; {WAYS})" if self.revision else ""
        return Settings(self.data or b"", self.name, whence)


def file_of(repository, revision, path=FILE):
    """Returns the bytes of a file as it was at a revision, or nothing where there is none. A link isn't followed."""
    listed = repository.tree(repository.commit_of(revision), [path])
    if not listed:
        return None
    _, mode, name = listed[0]
    size = repository.sizes([name])[name] if mode in FILES else 0
    if mode not in FILES or size is None or size > MOST_BYTES:
        why = "is no file" if mode not in FILES else f"has over {MOST_BYTES:,} bytes, or isn't here,"
        raise Stop(4, f"{plain(path)} {why} at {plain(revision)}: {WAYS}")
    return dict(repository.blobs({name: size}))[name]


def read_named(option, path):
    try:
        return read_file(path, MOST_BYTES)
    except OSError as fault:
        raise Stop(4, f"{option}: {plain(path)} can't be read ({fault.strerror})") from None


def difference(base, repository):
    """Returns what is said where the work tree's own settings aren't those that count, or nothing."""
    path, mine = os.path.join(repository.top, FILE), None
    if os.path.lexists(path):
        # (no settings that count have a zero byte)
        mine = read_file(path, MOST_BYTES) if stat.S_ISREG(os.lstat(path).st_mode) else b"\0"
    elif any(state == "S" for _, state, _ in repository.index(FILE)):
        mine = repository.must("cat-file", "blob", f":{FILE}")
    if base.revision is None:
        return f"{FILE} of the work tree isn't read: {plain(base.name)} counts" if mine is not None and mine != base.data else None
    at = plain(base.revision)
    if mine is None or base.data is None:
        why = f"is missing in the work tree, and that of {at} counts" if mine is None else f"of the work tree isn't read: {at} has none"
        return f"{FILE} {why} ({WAYS})" if mine != base.data else None
    differs = unmarked(mine) != unmarked(base.data)
    return f"{FILE} of the work tree isn't read: it differs from that of {at}, which counts ({WAYS})" if differs else None


# What is left out, and what is accepted.


class Skips:
    """All skips of a call: the types and the paths that they leave out."""

    def __init__(self, skips):
        for skip in skips:
            if not skip.name:
                raise Stop(4, f"{plain(skip.shown)} names no type and no path")
        self.skips = skips
        self.types = {it.name for it in skips if it.kind != "path"}
        self.paths = {it.name for it in skips if it.kind != "type"}

    def told(self, types, paths):
        """Returns the skips that name one of these types or paths, and those that name nothing. The paths are as they are, or as they are printed. A
        name that is both says neither."""
        there, found = {"type": types, "path": paths}, ([], [])
        for skip in self.skips:
            kinds = [it for it in KINDS if skip.kind in (None, it) and skip.name in there[it]]
            if len(kinds) > 1:
                raise Stop(4, f"{plain(skip.shown)} is the name of a type and of a path: write type:{plain(skip.name)} or path:{plain(skip.name)}")
            found[not kinds].append(skip)
        return found


def keys_of(cause):
    """Returns what accepts each field of a cause: a cause of several fields is accepted where each of them is."""
    return [(old.name, cause.why, old.element, new.element) for _, old, new in cause.fields]


class Acceptance:
    """What is accepted, and which of it was found."""

    def __init__(self, settings, baseline):
        self.over = [it for it in settings.accepted if settings.is_over(it)]
        # (a reason goes before a baseline)
        self.known = {it[:4]: it for it in (*baseline, *settings.accepted) if it not in self.over}
        self.taken = set()

    def of(self, cause):
        keys = keys_of(cause)
        if any(it not in self.known for it in keys):
            return []
        self.taken.update(keys)
        return list(dict.fromkeys(self.known[it] for it in keys))

    def idle(self):
        return [it for key, it in self.known.items() if key not in self.taken]


def read_baseline(data, shown):
    try:
        found = json.loads(data.decode()) if len(data) <= MOST_BYTES else {}
        rows = [tuple(it[key] for key in Accepted._fields[:4]) for it in found["accepted"]]
        if any(found[key] != it for key, it in BASELINE.items()) or not all(isinstance(word, str) for row in rows for word in row):
            raise ValueError
    except (ValueError, TypeError, KeyError, RecursionError):
        raise Stop(4, f"{plain(shown)} is no baseline: --write-baseline makes one") from None
    return [Accepted(*row, shown=shown, until=None, reason=f"It is in {plain(shown)}.") for row in rows]


def baseline_of(causes):
    rows = sorted({row for cause in causes for row in keys_of(cause)})
    return (json.dumps({**BASELINE, "accepted": [dict(zip(Accepted._fields, row)) for row in rows]}, indent=1) + "\n").encode()

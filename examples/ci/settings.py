"""What `protogate.ini` says of a call: folder, releases, options, and what is skipped, why and how long.

  [gate]                          all keys may be left out
  folder = proto                  paths count from the top of the repository
  include = third_party           a list has a line for each
  releases = v1.4
      v1.5
  view = names
  both = yes
  with-protoc = no
  time-limit = 600                seconds for each program that is run

  [skip type:shop.Draft]          a section for each type or path; a path counts from the folder
  reason = Nobody stores drafts.
  until = 2026-12-31              the last day, at most 366 days ahead; later the skip is refused

Which file counts is said in bases.py: that at the top of the base revision, unless a call says otherwise.
"""

import codecs
import datetime
import os
import re

from calls import Stop, did_you_mean
from skips import Skip, Skips

FILE = "protogate.ini"
GATE_KEYS = ("folder", "include", "releases", "view", "both", "with-protoc", "time-limit")
SKIP_KEYS = ("reason", "until")
VIEWS = ("numbers", "names")
YES, NO = ("yes", "true", "on", "1"), ("no", "false", "off", "0")
# As many bytes the file has at most, days a skip goes on, and seconds a program.
MOST_BYTES, MOST_DAYS, MOST_SECONDS = 1_000_000, 366, 86_400
# As much of a name that is wrong is shown.
MOST_SHOWN = 200
# How many seconds a program has where nothing is said.
TIME_LIMIT = 600


class Settings:
    """The settings in a file's bytes: none where there are none. `name` is what messages call the file, `whence` where it is from."""

    def __init__(self, data=b"", name=FILE, whence="", today=None):
        self.name, self.whence, self.today = name, whence, today or datetime.date.today()
        self.lines, self.said, self.skips = {}, {}, []
        self.read(data)

    def stop(self, line, why):
        return Stop(4, f"{self.name}:{line}: {why}{self.whence}")

    def at(self, section, key=None):
        """The line at which a section or a key begins."""
        return self.lines.get((section, key), 1)

    def read(self, data):
        """Reads sections with keys: as configparser does, but in a time that grows with the file's length alone, and up to the first fault."""
        sections, section, key, depth = {}, None, None, 0
        for number, line in enumerate(self.text_of(data).split("\n"), 1):
            words, indent = line.strip(), len(line) - len(line.lstrip())
            if not words or words[0] in "#;":
                continue
            if key and indent > depth:
                sections[section][key].append(words)
                continue
            section, key, depth = *self.begun(words, number, section, sections), indent
        for name, values in sections.items():
            self.take(name, {key: "\n".join(it) for key, it in values.items()})

    def begun(self, words, number, section, sections):
        """Notes the section or the key that a line begins. Returns the section, and the key if there is one."""
        is_section = words[0] == "[" and "]" in words
        name, mark, value = (words[1:].rpartition("]")[0], "]", "") if is_section else (it.strip() for it in words.partition("="))
        there = sections if is_section else sections.get(section)
        if there is None or not (mark and name) or name in there:
            why = "there is no section yet" if there is None else "it is there already" if mark and name else "there is no `=`, and no section"
            raise self.stop(number, f"this is no setting: {why}")
        there[name] = {} if is_section else [value]
        self.lines[(name, None) if is_section else (section, name)] = number
        return (name, None) if is_section else (section, name)

    def text_of(self, data):
        """Returns the lines of the file. A mark of UTF-8 at its beginning says nothing."""
        if len(data) > MOST_BYTES:
            raise self.stop(1, f"the file has over {MOST_BYTES:,} bytes")
        text = unmarked(data)
        if b"\0" in text:
            raise self.stop(text.count(b"\n", 0, text.index(b"\0")) + 1, "there is a zero byte")
        try:
            return text.decode()
        except UnicodeDecodeError as fault:
            raise self.stop(text.count(b"\n", 0, fault.start) + 1, "the file isn't UTF-8") from None

    def take(self, section, values):
        line, name = self.at(section), section[5:].strip()
        if section != "gate" and not (section.startswith("skip ") and name):
            raise self.stop(line, f"there is no section [{section}]; there are [gate] and [skip NAME]")
        keys = GATE_KEYS if section == "gate" else SKIP_KEYS
        for key, value in values.items():
            at = self.at(section, key)
            if key not in keys:
                raise self.stop(at, f"there is no key {key[:MOST_SHOWN]} in [{section[:MOST_SHOWN]}]{did_you_mean(key[:MOST_SHOWN], keys)}")
            if not value.strip():
                raise self.stop(at, f"{key} says nothing")
        if section == "gate":
            self.said = {key: self.value(key, it.strip()) for key, it in values.items()}
        else:
            self.skips.append(self.skip(section, name, values))

    def value(self, key, said):
        """Returns what a key says: a truth, a list, or a word."""
        if key in ("both", "with-protoc"):
            if said.lower() not in (*YES, *NO):
                raise self.stop(self.at("gate", key), f"{key} is yes or no, not {said}")
            return said.lower() in YES
        if key == "view" and said not in VIEWS:
            raise self.stop(self.at("gate", key), f"view is {' or '.join(VIEWS)}, not {said}")
        if key == "time-limit":
            try:
                return seconds(said)
            except ValueError as fault:
                raise self.stop(self.at("gate", key), f"time-limit is {fault}") from None
        return [it.strip() for it in said.split("\n") if it.strip()] if key in ("include", "releases") else said

    def skip(self, section, name, values):
        """Returns a skip, which says why and how long."""
        for key in SKIP_KEYS:
            if key not in values:
                raise self.stop(self.at(section), f"the skip of {name} has no {key}")
        until = self.until(section, values)
        return {"name": name, "reason": " ".join(values["reason"].split()), "until": until.isoformat(), "line": self.at(section),
                "is_over": is_over(until, self.today)}

    def until(self, section, values):
        """Returns the last day of a skip."""
        said, at = values["until"].strip(), self.at(section, "until")
        try:
            until = datetime.datetime.strptime(said, "%Y-%m-%d").date()
        except ValueError:
            raise self.stop(at, f"until is a day such as 2026-12-31, not {said}") from None
        if (until - self.today).days > MOST_DAYS:
            raise self.stop(at, f"until is at most {MOST_DAYS} days ahead, and {said} is later")
        return until


def unmarked(data):
    """Returns bytes as they are compared and read: with line feeds alone, and without a mark of UTF-8 at their beginning."""
    return data.removeprefix(codecs.BOM_UTF8).replace(b"\r\n", b"\n").replace(b"\r", b"\n")


def seconds(said):
    """Returns the seconds that a word says."""
    if not re.fullmatch("[0-9]{1,5}", said) or not 1 <= int(said) <= MOST_SECONDS:
        raise ValueError(f"a number of seconds from 1 to {MOST_SECONDS}, not {said}")
    return int(said)


def skip_of(told, settings):
    """Returns a skip of the settings."""
    return Skip(told["name"], told["until"], f"{settings.name}:{told['line']}: the skip of {told['name']}")


def is_over(until, today):
    """Returns whether a skip has ended: its last day counts."""
    return today > until


def completed(call, settings, top):
    """Completes what a call says by the settings; its words go before them. Returns why it can't, or nothing."""
    said = settings.said
    here = [os.path.relpath(os.path.join(top, it)) for it in said.get("include", ())]
    if here and not hasattr(call, "include"):
        raise settings.stop(settings.at("gate", "include"), "this script takes no include")
    if here and not call.include:
        call.include = here
    call.releases = said.get("releases", []) if call.revision is None else [call.revision]
    if call.folder is None and "folder" in said:
        call.folder = os.path.relpath(os.path.join(top, said["folder"]))
    call.view = call.view or said.get("view")
    call.both = said.get("both", False) if call.both is None else call.both
    call.with_protoc = said.get("with-protoc") if call.with_protoc is None else call.with_protoc
    call.time_limit = call.time_limit or said.get("time-limit", TIME_LIMIT)
    call.skips = settings.skips
    call.skip = Skips([Skip(it) for it in call.skip] + [skip_of(it, settings) for it in call.skips if not it["is_over"]])
    missing = ["REVISION"] * (not call.releases) + ["FOLDER"] * (call.folder is None)
    return f"the following arguments are required: {', '.join(missing)}" if missing else None

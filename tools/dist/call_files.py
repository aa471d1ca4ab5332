"""What files a call of protogate reads, and a folder that has copies of them under names that can be handed to `rt try`.

`rt try` runs a program in a new folder, with copies of the files that it is given. It takes no absolute name for them, none with `..`, and
not every first word. So the copies of each side lie below a folder of its own, and the call names that folder in the place of the user's.
The program prints no folder that a call names, only paths below it, so its output stays the same.

Of a source file its imports are followed, and nothing else is copied: the folder that a call names may be a large checkout. The reader of
imports takes too much rather than too little. It takes `import` wherever the word comes, and a file is copied whether or not the program
will ask for it. Each path is given the same outcome that it has for the user: these bytes, no file, or a file that can't be read.
"""

import os
import re

OPTIONS = {
    "compile": ("dir", "include", "files-from"),
    "gate": ("old-dir", "new-dir", "old-include", "new-include", "old", "new", "type", "view"),
    "gate-all": ("old-dir", "new-dir", "old-include", "new-include", "old", "new", "old-files-from", "new-files-from", "view"),
    "show": ("dir", "include", "file", "type"),
    "types": ("dir", "include", "files-from"),
    "verify": ("old-dir", "new-dir", "old-include", "new-include", "old", "new"),
}
REQUIRED = {"compile": (), "gate": ("old", "new", "type"), "gate-all": (), "show": ("file", "type"), "types": (), "verify": ("old", "new")}
# The options that may come several times, or not at all.
SEVERAL = {"gate-all": ("old", "new")}
INCLUDES = ("include", "old-include", "new-include")
FLAGS = {"gate": ("cert", "both", "explain", "json"), "gate-all": ("explain", "json", "notes"), "verify": ("json",), "show": ("json",), "types": ("json",)}
# How many words without a name a subcommand takes, at least and at most.
PLAIN = {"compile": (0, None), "gate": (0, 0), "gate-all": (0, 0), "show": (1, 1), "types": (0, None), "verify": (1, 1)}
VIEWS = ("numbers", "names")
# What reading a path comes to, where it isn't bytes.
MISSING, FAILED = "missing", "failed"
# A file of this many bytes is not read.
MOST_BYTES = 2_147_483_647
# The program links at most 1,024 files of a side. This reader may take other words for imports, so there may be more here.
MOST_FILES = 4096
# The file that keeps a folder in the copy, since only files are handed over.
KEPT = "kept.folder"

# A comment or a string that nothing ends goes to the end of the file or line: the program reads no further either.
TOKEN = re.compile(rb"""//[^\n]*|/\*.*?(?:\*/|\Z)|"(?:[^"\\\n]|\\[^\n])*"?|'(?:[^'\\\n]|\\[^\n])*'?|[A-Za-z_][A-Za-z0-9_]*|[^\s]""", re.S)
ESCAPE = re.compile(rb"\\(?:([0-7]{1,3})|[xX]([0-9a-fA-F]{1,2})|u([0-9a-fA-F]{4})|U([0-9a-fA-F]{8})|(.))", re.S)
SIMPLE = {b"a": b"\a", b"b": b"\b", b"f": b"\f", b"n": b"\n", b"r": b"\r", b"t": b"\t", b"v": b"\v"}


class Unanswerable(Exception):
    """The files of a call can't be handed over, and why."""


class Call:
    """A command line that the program takes: its subcommand, the values of its options, and of those that may come several times, its flags
    and its other words."""

    def __init__(self, name, values, several, flags, plain):
        self.name, self.values, self.several, self.flags, self.plain = name, values, several, flags, plain

    def sides(self):
        """Returns for each folder of the call its option, and the paths of words that are asked for below it."""
        if self.name == "gate-all":
            return [("old-dir", self.several["old"]), ("new-dir", self.several["new"])]
        if self.name in ("gate", "verify"):
            return [("old-dir", [self.values["old"]]), ("new-dir", [self.values["new"]])]
        file = [self.values["file"]] if "file" in self.values else []
        return [("dir", file + (self.plain if self.name != "show" else []))]

    def reads_sources(self, paths):
        """Returns whether the files at these paths are read as source files, and not as a descriptor set."""
        return self.name == "compile" or len(paths) != 1 or paths[0].endswith(".proto")

    def words(self):
        """Returns words that call for the same."""
        return [
            self.name,
            *[f"--{option}={value}" for option, value in self.values.items()],
            *[f"--{option}={value}" for option, values in self.several.items() for value in values],
            *[f"--{flag}" for flag in self.flags],
            *(["--", *self.plain] if self.plain else []),
        ]


def is_value(word):
    """Returns whether an option takes the next word as its value."""
    return word == "-" or not word.startswith("-")


def sorted_out(name, words):
    """Returns the values of each option, the flags and the other words after a subcommand, or None where one fits nowhere."""
    values, flags, plain = [], [], []
    left = list(words)
    while left:
        word = left.pop(0)
        option, _, value = word[2:].partition("=")
        if word == "--":
            plain, left = plain + left, []
        elif is_value(word):
            plain.append(word)
        elif word[2:] in FLAGS.get(name, ()) and word.startswith("--"):
            flags.append(option)
        elif word.startswith("--") and option in OPTIONS[name] and ("=" in word or left and is_value(left[0])):
            values.append((option, value if "=" in word else left.pop(0)))
        else:
            return None
    return values, flags, plain


def call_of(words):
    """Returns the call that a command line makes, or None where the program prints help, its version or a usage error and reads no file."""
    if not all(map(is_utf8, words)):
        raise Unanswerable("a word that isn't UTF-8 can't be handed over")
    name = words[0] if words else None
    found = sorted_out(name, words[1:]) if name in OPTIONS else None
    if not found:
        return None
    repeated = (*SEVERAL.get(name, ()), *INCLUDES)
    values = {option: value for option, value in found[0] if option not in repeated}
    several = {it: [value for option, value in found[0] if option == it] for it in repeated}
    flags, plain = found[1], found[2]
    least, most = PLAIN[name]
    is_whole = (
        len(values) + sum(map(len, several.values())) == len(found[0])
        and len(set(flags)) == len(flags)
        and all(it in values for it in REQUIRED[name])
        and values.get("view", VIEWS[0]) in VIEWS
        and least <= len(plain) <= (len(plain) if most is None else most)
    )
    return Call(name, values, several, flags, plain) if is_whole else None


def read(path):
    """Returns the bytes of the file at a path, or what comes of reading it."""
    try:
        with open(path, "rb") as file:
            found = file.read(MOST_BYTES)
    except (FileNotFoundError, NotADirectoryError, ValueError):
        return MISSING
    except OSError:
        return FAILED
    return found if len(found) < MOST_BYTES else FAILED


def names_in(listed):
    """Returns the files that a list names: none where it isn't UTF-8."""
    try:
        listed.decode("utf-8")
    except UnicodeDecodeError:
        return []
    *ended, last = listed.split(b"\n")
    return [os.fsdecode(it) for it in (*(line.removesuffix(b"\r") for line in ended), last) if it]


def below(folder, path):
    """Returns the path that the program opens for a path below a folder."""
    return path if folder == "." else f"{folder}/{path}"


def unescaped(found):
    """Returns the bytes that an escape in a string is read as."""
    octal, short, four, eight, other = found.groups()
    if octal or short:
        return bytes([int(octal, 8) & 255 if octal else int(short, 16)])
    if four or eight:
        return chr(min(int(four or eight, 16), 0x10FFFF)).encode("utf-8", "replace")
    return SIMPLE.get(other, other)


def imports_in(source):
    """Returns the paths that the import statements of a source file name, and perhaps more."""
    found, state, parts = [], None, []
    for token in TOKEN.findall(source):
        if token[:2] in (b"//", b"/*") and len(token) > 1:
            continue
        if state and token[:1] in (b'"', b"'") and token[1:].endswith(token[:1]):
            parts.append(ESCAPE.sub(unescaped, token[1:-1]))
            continue
        if parts:
            found.append(b"".join(parts))
        state, parts = token == b"import" or bool(state) and not parts and token in (b"public", b"weak"), []
    return [os.fsdecode(it) for it in ([*found, b"".join(parts)] if parts else found)]


def is_utf8(word):
    """Returns whether a word is UTF-8. One that isn't comes to the program as another word."""
    try:
        os.fsencode(word).decode("utf-8")
    except UnicodeDecodeError:
        return False
    return True


def read_in_turn(folders, path):
    """Returns what reading a path comes to below the first of the folders that has it."""
    for folder in folders:
        found = read(below(folder, path))
        if found is not MISSING:
            return found
    return MISSING


def asked_for(folders, paths, follows_imports):
    """Returns what reading comes to for each path in folders that the program may ask for: these, and what they import."""
    outcomes, left = {}, list(reversed(paths))
    while left:
        path = left.pop()
        if path in outcomes:
            continue
        if len(outcomes) == MOST_FILES:
            raise Unanswerable(f"more than {MOST_FILES:,} files are named or imported")
        outcomes[path] = read_in_turn(folders, path)
        if follows_imports and isinstance(outcomes[path], bytes):
            left += reversed(imports_in(outcomes[path]))
    return outcomes


def levels_up(path):
    """Returns how far a path leads above the folder that it starts in."""
    level, least = 0, 0
    for part in path.split("/"):
        level += -1 if part == ".." else int(part not in ("", "."))
        least = min(least, level)
    return -least


class Copies:
    """A folder that is filled with copies of what a call reads."""

    def __init__(self, top):
        self.top, self.outcomes, self.unread = top, [], None

    def keep(self, folder):
        """Makes a folder that is handed over."""
        os.makedirs(folder, exist_ok=True)
        if not os.listdir(folder):
            with open(f"{folder}/{KEPT}", "wb"):
                pass

    def place_of(self, base, path):
        """Returns where a path below a folder of the copy leads. Folders that it leaves again are made."""
        at = f"{self.top}/{base}"
        for part in path.split("/"):
            if part == "..":
                self.keep(at)
                at = os.path.dirname(at)
            elif part not in ("", "."):
                at = f"{at}/{part}"
        return at

    def put(self, base, path, outcome):
        """Gives a path below a folder of the copy its outcome. A name that is too long can't be read anywhere."""
        if outcome is MISSING:
            return
        try:
            at = self.place_of(base, path)
            os.makedirs(os.path.dirname(at), exist_ok=True)
            if outcome is FAILED:
                self.keep(os.path.dirname(at))
            if outcome is FAILED and read(at) is not FAILED:
                self.keep(at)
            elif outcome is not FAILED and not os.path.lexists(at):
                with open(at, "wb") as file:
                    file.write(outcome)
        except (OSError, ValueError) as fault:
            raise Unanswerable(f"a file can't be copied as it is ({fault})") from None

    def add(self, name, outcomes):
        """Copies a side's files, and returns the folder to name for them."""
        base = "/".join([name] + ["in"] * max(map(levels_up, outcomes), default=0))
        for path, outcome in outcomes.items():
            self.put(base, path, outcome)
        for path, outcome in outcomes.items():
            if read(f"{self.top}/{base}/{path}") != outcome:
                raise Unanswerable(f"{path!r} can't be handed over by that name")
        self.outcomes.append(outcomes)
        return base

    def leave(self, path, outcome):
        """Has a path that is printed come to the same in the folder where the program runs. Only one that can't be read may lead out of it."""
        self.outcomes.append({path: outcome})
        is_read, is_inside = isinstance(outcome, bytes), path and not path.startswith("/") and not levels_up(path)
        self.unread = None if is_read else path
        if is_inside:
            self.put(".", path, outcome)
        if read(f"{self.top}/{path}") != outcome if is_inside else is_read:
            raise Unanswerable(f"{path!r} can't be handed over by that name")

    def handed(self):
        """Returns the name of each file of the copy, and where it is."""
        found = []
        for at, _, files in os.walk(self.top):
            found += [(os.path.relpath(f"{at}/{it}", self.top), f"{at}/{it}") for it in files]
        for name, _ in found:
            if "=" in name:
                raise Unanswerable(f"a name with `=` can't be handed over: {name!r}")
        return sorted(found)

    def can_say(self, printed):
        """Returns whether the files that the program says are missing, or can't be read, are so for the user too."""
        if self.unread is not None and not re.match(rb"refused (old |new |E001|E30[19]\b)", printed):
            return False
        said = re.match(r"refused (?:(?:old|new) )?E3(01|09) (.*)", os.fsdecode(printed))
        if not said:
            return True
        wanted, file = MISSING if said[1] == "01" else FAILED, re.sub(r":\d+:\d+$", "", said[2])
        return any(it.get(said[2]) is wanted or file in it and wanted in it.values() for it in self.outcomes)


def listed_files(call, copies):
    """Copies the lists of a call. Returns the files that they name, by the option of their side's folder; or nothing where a list is at fault, so
    that the program reads nothing after it. The list's path is printed only then."""
    named = {}
    for option, _ in call.sides():
        of_list = option.replace("dir", "files-from")
        path = call.values.get(of_list)
        outcome = read(path) if path is not None else b""
        named[option] = names_in(outcome) if isinstance(outcome, bytes) else []
        if named[option]:
            call.values[of_list] = below(copies.add(option.replace("dir", "list"), {"file": outcome}), "file")
        elif path is not None:
            copies.leave(path, outcome)
            return None
    return named


def copied(call, top):
    """Copies what a call reads into a folder. Returns the copies, and the words that call for the same there."""
    copies = Copies(top)
    listed = listed_files(call, copies)
    if listed is None:
        return copies, call.words()
    for option, paths in call.sides():
        paths = [*paths, *listed[option]]
        include = option.replace("dir", "include")
        folders, call.several[include] = [call.values.get(option, "."), *call.several[include]], []
        outcomes = asked_for(folders, paths, call.reads_sources(paths))
        call.values[option] = copies.add(option.replace("-dir", ""), outcomes)
    if call.name == "verify":
        path = call.plain[0]
        outcome = read(path)
        # Its path is printed only where it can't be read.
        if isinstance(outcome, bytes):
            call.plain = [below(copies.add("certificate", {"file": outcome}), "file")]
        else:
            copies.leave(path, outcome)
    return copies, call.words()

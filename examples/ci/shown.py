"""What a terminal shows of a call that the program refused: the sentence of the error, with the line of the source file and a caret below the
column, and what to do. The program is asked once more for what it printed."""

import os
import re
import subprocess

from calls import nearest
from excerpts import block, lines_of
from refusals import mend_of, sentence_of

# How long that may take, in seconds.
PATIENCE = 5
# The output of a call that is refused: one line. Lines of readings are beside others.
REFUSAL = re.compile(r"refused (?:(old|new) )?(E\d{3})(?: (.*))?\n")
# The options that a value follows.
VALUED = ("--old-dir", "--new-dir", "--dir", "--old-include", "--new-include", "--include", "--old", "--new", "--type", "--view", "--file")
VALUED += ("--old-files-from", "--new-files-from", "--files-from")
# The error at a position in a list of files, which is found from the current folder.
IN_LIST = "E906"


class Call:
    """The words of a call: its values by option, and what comes without one."""

    def __init__(self, words):
        self.values, self.others, rest = {}, [], iter(words[1:])
        for word in rest:
            name, is_joined, value = word.partition("=")
            if word == "--":
                self.others += rest
            elif name in VALUED:
                self.values.setdefault(name, []).append(value if is_joined else next(rest, ""))
            elif not word.startswith("-") or word == "-":
                self.others.append(word)

    def folder(self, side):
        return self.values.get(f"--{side}-dir" if side else "--dir", ["."])[-1]

    def includes(self, side):
        return self.values.get(f"--{side}-include" if side else "--include", [])

    def path(self, side, file):
        """Returns where a file of a side is, from the current folder: in the first of its folders that has it. They are asked as the program
        joins their paths: `nowhere/..` isn't there, nor is a link that leads nowhere."""
        paths = [file if it == "." else f"{it}/{file}" for it in (self.folder(side), *self.includes(side))]
        return next(filter(os.path.exists, paths), paths[0])

    def types_call(self, side):
        """Returns the words that ask for the message types of a side."""
        files = self.values.get(f"--{side}", []) if side else self.values.get("--file", [])
        return ["types", f"--dir={self.folder(side)}", *[f"--include={it}" for it in self.includes(side)], "--", *files]


def printed(program, words, statuses):
    """Returns what a call prints, or nothing where it takes long or ends otherwise."""
    how = {"stdin": subprocess.DEVNULL, "stdout": subprocess.PIPE, "stderr": subprocess.DEVNULL, "check": False, "close_fds": False}
    try:
        done = subprocess.run([program, *words], timeout=PATIENCE, **how)
    except (OSError, subprocess.TimeoutExpired):
        return ""
    return os.fsdecode(done.stdout) if done.returncode in statuses else ""


def line_at(path, number):
    try:
        return lines_of(path)[number - 1]
    except IndexError:
        return None


def position_of(call, side, code, rest):
    """Returns the position of a refusal as it is shown, and the line of the file there, or nothing."""
    found = re.fullmatch(r"(.+):(\d+):(\d+)", rest)
    if found:
        path = found[1] if code == IN_LIST else call.path(side, found[1])
        return f"{os.path.normpath(path)}:{found[2]}:{found[3]}", line_at(path, int(found[2]))
    return rest.replace("at ", "byte ", 1) if rest.startswith("at ") else rest, None


def sentence_on(code, rest):
    """Returns the sentence of an error, with the number and the case that a line of E804 has."""
    sentence, parts = sentence_of(code), rest.split()
    if code == "E804" and len(parts) == 4:
        sentence = sentence.replace("NUMBER", parts[2]).replace("CASE", parts[3])
    return sentence


def likely_name(program, call, code):
    """Returns what may help with a message type that isn't there: a name that is spelled much like it."""
    name = call.values.get("--type", [""])[-1]
    side = "" if "--file" in call.values else {"E901": "old", "E902": "new"}[code]
    near = nearest(name, printed(program, call.types_call(side), (0,)).splitlines())
    return f"there is no {name}" + (f"; did you mean {near}?" if near else "")


def shown(output, words, name, program=None):
    """Returns the refusal that a call with these words printed, as a terminal shows it, or nothing. With the program, a name that is likely
    meant is looked for too."""
    found, call = REFUSAL.fullmatch(output), Call(words)
    if not found or not sentence_of(found[2]):
        return ""
    side, code, rest = found[1] or "", found[2], found[3] or ""
    place, line = position_of(call, side, code, rest)
    helps = [likely_name(program, call, code)] if program and code in ("E901", "E902") else []
    return block(code, sentence_on(code, rest), place, line, [*helps, mend_of(code, name)]) + "\n"

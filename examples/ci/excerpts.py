"""An error as it is shown on a terminal: its sentence, the line of the source file with a caret below the column, and what to do."""

import functools
import io
import itertools
import re
import unicodedata
from array import array

import tokens
from calls import plain

# So much of a long line is shown before the caret, and after it.
BEFORE, AFTER = 70, 40
# A line of more bytes isn't shown, nor kept for each position in it.
MOST_IN_LINE = 1000
# Where the lines of each source file end that was looked at.
ENDS = {}


class Lines:
    """The lines of a source file, by their index. One that isn't shown is None."""

    def __init__(self, text, ends):
        self.text, self.ends = text, ends

    def __getitem__(self, index):
        if index < 0:
            raise IndexError("lines count from 1")
        start, end = self.ends[index - 1] if index else 0, self.ends[index]
        if end - start > MOST_IN_LINE:
            return None
        return self.text[start:end].rstrip(b"\r\n").decode("utf-8", "surrogateescape")


@functools.lru_cache(maxsize=16)
def lines_of(path):
    """Returns the lines of a source file. Those of one file are looked at together."""
    text = tokens.read(path)
    if path not in ENDS:
        ENDS[path] = array("I", itertools.accumulate(map(len, io.BytesIO(text or b""))))
    return Lines(text, ENDS[path])


def width(words):
    """Returns how many columns of a terminal words take."""
    return sum(0 if unicodedata.combining(it) else 1 + (unicodedata.east_asian_width(it) in "WF") for it in words)


def shown(words):
    """Returns a part of a line as one may print it: a tab is four spaces."""
    return plain(words.replace("\t", "    "))


def marked(line, column):
    """Returns a line of a source file, cut where it is long, and the line with the caret below that column, which counts bytes from 1."""
    read = line.encode("utf-8", "surrogateescape")
    before, after = (it.decode("utf-8", "surrogateescape") for it in (read[: column - 1], read[column - 1 :]))
    before = ".." * (len(before) > BEFORE) + shown(before[-BEFORE:])
    after = shown(after[:AFTER]) + ".." * (len(after) > AFTER)
    return (before + after).rstrip(), " " * width(before) + "^"


def excerpt(place, line):
    """Returns the lines that show a position of a source file: where it is, and the line with a caret, if there is one."""
    found = re.search(r":(\d+):(\d+)$", place)
    if not found or line is None:
        return [f" --> {plain(place)}"]
    indent = " " * len(found[1])
    words, caret = marked(line, int(found[2]))
    return [f"{indent}--> {plain(place)}", f"{indent} |", f"{found[1]} | {words}".rstrip(), f"{indent} | {caret}"]


def block(code, sentence, place, line, helps):
    """Returns an error as it is shown: its sentence, its position where it has one, and what may help."""
    lines = [f"error[{code}]: {plain(sentence)}", *(excerpt(place, line) if place else [])]
    return "\n".join([*lines, *(f"  = help: {plain(it)}" for it in helps if it)])

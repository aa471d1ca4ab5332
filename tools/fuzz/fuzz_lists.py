"""Lists of files, for tools/fuzz/fuzz.py: what the lines of a list name, and what is wrong with it, by docs/USAGE.md alone.

A call with lists has to print what the same call prints with the names as words, to the byte; or that a list isn't UTF-8, or names no file.
"""

import os

from fuzz_changes import changed_bytes

# How many files of a side are named, and how many empty lines come before one in a list.
COUNTS, EMPTY = (1, 1, 2, 2, 3), (0, 0, 0, 1, 2)
ENDS = (b"\n", b"\n", b"\r\n")
# Of so many lists one has bytes changed.
CHANGED_SHARE = 3


class Listed:
    """The files of a side, the last of them in a list: the words that name the others, and the list."""

    def __init__(self, random, files):
        names = [random.choice(files) for _ in range(random.choice(COUNTS))]
        count = random.randrange(len(names))
        self.words, self.data = names[:count], list_of(random, names[count:])
        if random.randrange(CHANGED_SHARE) == 0:
            self.data = changed_bytes(random, self.data, self.data)


def list_of(random, names):
    """Returns a list of these names, with empty lines, and line ends of both kinds but perhaps at its end."""
    lines = [line for name in names for line in (*[b""] * random.choice(EMPTY), os.fsencode(name))]
    data = b"".join(line + random.choice(ENDS) for line in lines[:-1]) + lines[-1]
    return data + random.choice((b"", *ENDS))


def names_in(data):
    """Returns the files that a list names: its lines that aren't empty."""
    *ended, last = data.split(b"\n")
    return [os.fsdecode(it) for it in (*(line.removesuffix(b"\r") for line in ended), last) if it]


def fault_of(path, data):
    """Returns the status of a call whose list is at fault, and the code and the position that it prints, or nothing."""
    try:
        data.decode("utf-8")
    except UnicodeDecodeError as fault:
        line = data.count(b"\n", 0, fault.start) + 1
        column = fault.start - data.rfind(b"\n", 0, fault.start)
        return 2, f"E906 {path}:{line}:{column}"
    return None if names_in(data) else (4, f"E907 {path}")


def can_be_words(names):
    """Returns whether a command line can have these names: no argument holds a zero byte, and one with a dash in front is an option."""
    return not any("\0" in it or it.startswith("-") for it in names)

"""How a line of the program is cut where it names fields: each by its full name and its position on either side. A path may hold what
looks like a position, or like other words of the line, so it is cut by the paths that are known."""

import re

NAME = re.compile(r" ([^\s:]+) ")
POSITION = re.compile(r":\d+:\d+(?= |\Z)")
# What is told of a field.
KEYS = ("old", "old_place", "new", "new_place")
# As many letters has a line and a column, with what is around them.
MOST_IN_NUMBERS = 24
# Words that can be cut in more ways, as far as they go, aren't clear.
MOST_CUTS = 64


def ends_in(words, at, paths, longest):
    """Yields the end of each position with which words may go on from there: one in a known path, or `-`, which is that of a descriptor set."""
    if words[at : at + 2] in ("-", "- "):
        yield at + 1
    yield from (it.end() for it in POSITION.finditer(words, at, at + longest) if words[at : it.start()] in paths)


def longest_of(paths):
    """Returns how many letters a position in one of these paths has at most."""
    return max(map(len, paths), default=0) + MOST_IN_NUMBERS


def further_cuts(words, reached, paths, longest):
    """Returns where words may go on from each end that is reached: by a name, and a position in one of the paths. With each end is a cut that
    leads to it, the last part of which comes first, and whether there is no other."""
    further = {}
    for at, (cut, is_only) in reached.items():
        found = NAME.match(words, at)
        for end in ends_in(words, found.end(), paths, longest) if found else ():
            further[end] = (words[found.end() : end], (found[1], cut)), is_only and end not in further
    return further


def fields_in(words, old, new, count, or_more=False):
    """Returns so many fields, or at least so many, or nothing where the words can't be cut so, or can in two ways. The paths are those of the
    old side and the new one."""
    words, reached, whole, many = f" {words}", {0: ((), True)}, [], 0
    sides = [(it, longest_of(it)) for it in (old, new)]
    while reached and (or_more or many < count):
        for paths, longest in sides:
            reached = further_cuts(words, reached, paths, longest)
            if len(reached) > MOST_CUTS:
                return None
        many += 1
        if len(words) in reached and many >= count:
            whole.append(reached.pop(len(words)))
    if len(whole) != 1 or not whole[0][1]:
        return None
    parts, cut = [], whole[0][0]
    while cut:
        parts.append(cut[0])
        cut = cut[1]
    parts.reverse()
    return [dict(zip(KEYS, parts[at : at + 4])) for at in range(0, len(parts), 4)]

#!/usr/bin/env python3
"""Checks the links of the documents, and lists the pages that they name without a link.

usage: tools/docs/links.py            the pages that are named without a link, by document and line, but for those below `crates`
       tools/docs/links.py --write    links them
       tools/docs/links.py --compare  status 1 where a link leads to no file, or to no heading of a page

A link's target counts from its document's folder; links to the net are passed over. A page is named by its path from
the top, as in `docs/USAGE.md`.
"""

import os
import re
import sys

TOP = os.path.dirname(os.path.dirname(os.path.dirname(os.path.realpath(__file__))))
LINK = re.compile(r"\[(?:[^\[\]]|\[[^\]]*\])*\]\(([^()\s]+)\)")
# A page's path in backticks, with no link around it.
PAGE = re.compile(r"(?<!\[)`([\w./-]+\.md)`(?!\])")


def read(path):
    with open(f"{TOP}/{path}", encoding="utf-8") as file:
        return file.read()


def documents():
    """Returns the repository's pages, by their paths from the top."""
    found = []
    for folder, inside, files in os.walk(TOP):
        inside[:] = [it for it in inside if it != "out" and not it.startswith(".")]
        found += [os.path.relpath(f"{folder}/{it}", TOP) for it in files if it.endswith(".md")]
    return sorted(found)


def prose_of(path):
    """Returns the lines of a document with their numbers, without blocks of commands."""
    found, in_block = [], False
    for number, line in enumerate(read(path).split("\n"), 1):
        in_block ^= line.startswith("```")
        if not in_block and not line.startswith(("```", "    ")):
            found.append((number, line))
    return found


def headings(path):
    """Returns the names by which a link leads to the headings of a page."""
    said = [line.lstrip("#").strip().lower() for _, line in prose_of(path) if line.startswith("#")]
    return [re.sub(r"[^\w\- ]", "", it).replace(" ", "-") for it in said]


def fault_of(path, target):
    """Returns what is wrong with a link of a document, or nothing."""
    file, _, heading = target.partition("#")
    found = os.path.normpath(os.path.join(os.path.dirname(path), file)) if file else path
    if not os.path.exists(f"{TOP}/{found}"):
        return "there is no such file"
    if heading and (not found.endswith(".md") or heading not in headings(found)):
        return "the page has no such heading"
    return ""


def broken():
    """Returns a line for each link that leads nowhere."""
    found = [(path, number, it) for path in documents() for number, line in prose_of(path) for it in LINK.findall(line)]
    faults = [(path, number, it, fault_of(path, it)) for path, number, it in found if not re.match(r"\w+:", it)]
    return [f"{path}:{number}: {it}: {fault}" for path, number, it, fault in faults if fault]


def linked(path, line):
    """Returns a line of a document with each other page that it names linked."""

    def link(it):
        page = it[1]
        if page == path or not os.path.isfile(f"{TOP}/{page}"):
            return it[0]
        return f"[`{page}`]({os.path.relpath(page, os.path.dirname(path) or '.')})"

    return PAGE.sub(link, line)


def unlinked(path):
    """Returns the lines of a document that name a page without a link, by number, as they are with it."""
    return {number: linked(path, line) for number, line in prose_of(path) if linked(path, line) != line}


def write(path):
    lines = read(path).split("\n")
    for number, line in unlinked(path).items():
        lines[number - 1] = line
    with open(f"{TOP}/{path}", "w", encoding="utf-8") as file:
        file.write("\n".join(lines))


def main(words):
    if words == ["--compare"]:
        found = broken()
        print("\n".join(found) or "each link of the documents leads to a file and a heading that are there")
        return 1 if found else 0
    for path in (it for it in documents() if not it.startswith("crates/")):
        if words == ["--write"]:
            write(path)
        else:
            print("".join(f"{path}:{number}: {line}\n" for number, line in unlinked(path).items()), end="")
    return 0


if __name__ == "__main__":
    sys.exit(main(sys.argv[1:]))

#!/usr/bin/env python3
"""Counts the words that docs/GLOSSARY.md rules out, in pages, man pages, help and comments, and says where they are.

usage: tools/docs/plain_words.py [--limit N] [--brief] [PATH..]
                                              each such word below these files and folders, by default below all, as PATH:LINE: WORD: the line;
                                              then how many there are of each in a thousand words. With --brief these counts alone.
                                              Status 1 where a word is more often there than N times in a thousand, by default 0.5
       tools/docs/plain_words.py --compare    status 1 where pages and help, or the comments, are above that, without what tools/docs/plain_words.txt
                                              lists; or where a path is listed there that is within that limit or is gone
       tools/docs/plain_words.py --write      takes such paths out of the list

What is in backticks, in a block of commands or in the code itself is a name, and isn't counted. `part` and `word` have too many rightful
senses to be counted: a reader has to judge them.
"""

import ast
import io
import os
import re
import sys
import tokenize

TOP = os.path.dirname(os.path.dirname(os.path.dirname(os.path.realpath(__file__))))
# What isn't held yet, a path in a line. It only gets shorter.
LISTED = "tools/docs/plain_words.txt"
LIMIT = 0.5
# Each word that is ruled out, with the words to write, and what is let through since it is plain English there.
RULED_OUT = {
    # 'is', or a verb that says more. X stands for Y, and what stands alone needs nothing else.
    "stands": (r"stands?|stood|standing", r"(?:stands?|stood|standing) (?:for|alone|by itself)"),
    # 'after'.
    "behind": (r"behind", None),
    # 'source file', 'string' or 'output'. Plain text files are known by that name.
    "text": (r"texts?", r"plain texts?|texts? (?:files?|formats?|editors?|protos?)|text/plain"),
    # 'offset', 'position', 'index', 'line and column', 'where'. What comes in place of another replaces it, and what takes place happens.
    "place": (
        r"places?",
        r"in(?:to)? place|in (?:the |its |their )?place of|(?:takes?|took|taken|taking) (?:the |its |their )?place|in the first place",
    ),
    # 'nested', 'inside'.
    "in one another": (r"(?:in|inside|into) (?:one another|each other)", None),
    # 'space'. A blank line is one without characters.
    "blank": (r"blanks?", r"blank lines?"),
    # 'reads back'. A home folder is the user's.
    "home": (r"home", r"home (?:folder|directory|page)s?"),
    # 'reads', 'takes as', 'misreads'.
    "sees": (r"sees(?: so)?|see so", None),
    # A sentence with a subject of its own: each comment is read by itself.
    "the same of": (r"(?<=\n\n)(?-i:The same of|Those of)", None),
}
PAGES, COMMENTS = "pages and help", "comments"
# Where help is written: what is in quotes there is printed.
HELP = "crates/pg_call/src/help.rt"
# How comments begin, and what a quoted word is, in which none does, by the file's suffix. A file without a suffix is the shell's.
QUOTED = r"\"(?:\\.|[^\"\\])*\"|'(?:\\.|[^'\\\n])'"
C_LIKE = re.compile(QUOTED + r"|(?P<comment>//[^\n]*|/\*.*?\*/)", re.S)
SHELL = re.compile(r"(?:^|(?<=\s))(?P<comment>#(?!!)[^\n]*)", re.M)
KINDS = {
    **dict.fromkeys(("rt", "c", "cc", "proto"), C_LIKE),
    "antt": re.compile(r"\"(?:\\.|[^\"\\\n])*\"|(?:^|(?<=\s))(?P<comment>--[^\n]*)", re.M),
    **dict.fromkeys(("sh", "bash", "fish", "zsh", "yml", "yaml", "mk", "txt", ""), SHELL),
}
# Suffixes of which only these files have comments: others are data.
CODE_ONLY = {"txt": ("crates.txt",), "": ("protogate", ".ci/run", "tools/gate/other_kit/rt")}
MARK = re.compile(r"^(?:///?|//!|--+|#+|/?\*+/?)\s?|\s*\*/$")
WORD = re.compile(r"[^\W\d_][\w'’-]*")


def on_its_lines(text, pieces):
    """Returns these pieces of a file, each on the line where it begins, with nothing else between them."""
    lines = [""] * (text.count("\n") + 1)
    for start, piece in pieces:
        first = text.count("\n", 0, start)
        for number, line in enumerate(piece.split("\n"), first):
            lines[number] = f"{lines[number]} {line.strip()}".strip()
    return "\n".join(lines)


def page(text):
    """Returns the prose of a page: without blocks of commands, and without where its links lead."""
    lines, in_block = [], False
    for line in text.split("\n"):
        in_block ^= line.startswith("```")
        lines.append("" if in_block or line.startswith(("```", "    ")) else re.sub(r"\]\([^()\s]*\)", "]", line))
    return "\n".join(lines)


def manual(text):
    """Returns the prose of a man page: without its macros, and without its blocks of commands."""
    lines, in_block = [], False
    for line in text.split("\n"):
        in_block = line.startswith(".nf") or in_block and not line.startswith(".fi")
        words = re.sub(r'^[.\'](?:\\"|[A-Za-z]+)\s*', "", line)
        lines.append("" if in_block or line.startswith((".B ", ".BI ", ".BR ", ".I ", ".IR ")) else re.sub(r"\\f[BIRP]|\\", "", words))
    return "\n".join(lines)


def python(text):
    """Returns the prose of a script of Python: comments, what its functions say of themselves, and the help of its words."""
    starts = [0, *(it.end() for it in re.finditer("\n", text))]
    found = [(starts[it.start[0] - 1] + it.start[1], MARK.sub("", it.string)) for it in tokenize.generate_tokens(io.StringIO(text).readline)
             if it.type == tokenize.COMMENT and not it.string.startswith("#!")]
    for node in ast.walk(ast.parse(text)):
        said = []
        if isinstance(node, (ast.Module, ast.ClassDef, ast.FunctionDef)) and ast.get_docstring(node):
            said = [node.body[0].value]
        elif isinstance(node, ast.Call):
            said = [it.value for it in node.keywords if it.arg in ("help", "description", "epilog") and isinstance(it.value, ast.Constant)]
        found += [(starts[it.lineno - 1] + it.col_offset, it.value) for it in said if isinstance(it.value, str)]
    return on_its_lines(text, found)


def comments(kind, text):
    """Returns the comments of a source, without the marks that begin them."""
    found = [(it.start("comment"), it["comment"]) for it in kind.finditer(text) if it["comment"]]
    return on_its_lines(text, [(at, "\n".join(MARK.sub("", line.strip()) for line in said.split("\n"))) for at, said in found])


def help_of(text):
    """Returns the comments of the source of help, with what is in quotes there."""
    return on_its_lines(text, [(it.start(), it[0].strip('"/! ')) for it in C_LIKE.finditer(text)])


def suffix_of(path):
    return os.path.basename(path).rpartition(".")[2] if "." in os.path.basename(path) else ""


def prose_of(path):
    """Returns the prose of a file, each word on the line where the file has it, without names of the code."""
    with open(f"{TOP}/{path}", encoding="utf-8") as file:
        text = file.read()
    suffix = suffix_of(path)
    if suffix in ("md", "1"):
        prose = (page if suffix == "md" else manual)(text)
    elif suffix == "py":
        prose = python(text)
    else:
        prose = help_of(text) if path == HELP else comments(KINDS[suffix], text)
    return re.sub(r"`[^`\n]*(?:\n[^`\n]*)?`", lambda it: "`" + "\n" * it[0].count("\n"), prose)


def is_prose(path):
    """Returns whether a file has prose to hold."""
    suffix = suffix_of(path)
    return path in CODE_ONLY[suffix] if suffix in CODE_ONLY else suffix in ("md", "1", "py", *KINDS)


def files_below(path):
    """Returns the files with prose at a path from the top, without what is built or hidden."""
    if os.path.isfile(f"{TOP}/{path}"):
        return [path]
    found = []
    for folder, inside, names in os.walk(f"{TOP}/{path}"):
        inside[:] = [it for it in inside if it != "out" and (not it.startswith(".") or it == ".ci")]
        found += [os.path.relpath(f"{folder}/{it}", TOP) for it in names]
    return sorted(it for it in found if is_prose(it))


class Count:
    """How many words there are in some files, and where each of those is that are ruled out."""

    def __init__(self, paths):
        self.words, self.found = 0, {it: [] for it in RULED_OUT}
        for path in paths:
            self.add(path, prose_of(path))

    def add(self, path, prose):
        self.words += len(WORD.findall(prose))
        prose, lines = f"\n\n{prose}", prose.split("\n")
        for name, (ruled_out, let_through) in RULED_OUT.items():
            spans = [it.span() for it in spelled(let_through).finditer(prose)] if let_through else []
            for it in spelled(ruled_out).finditer(prose):
                if not any(start <= it.start() < end for start, end in spans):
                    number = prose.count("\n", 0, it.start()) - 1
                    self.found[name].append((path, number, lines[number - 1].strip()))

    def rate(self, name):
        return 1000 * len(self.found[name]) / max(1, self.words)

    def above(self, limit):
        """Returns the words that are more often there than the limit."""
        return [it for it in self.found if self.rate(it) > limit]

    def told(self):
        """Yields a line for each word that is ruled out, in order of files, and of lines in these."""
        for path, number, name, line in sorted((path, number, name, line) for name, found in self.found.items() for path, number, line in found):
            yield f"{path}:{number}: {name}: {line}"

    def rates(self):
        return ", ".join(f"'{it}' {self.rate(it):.1f}" for it in self.found)


def spelled(words):
    """Returns what finds words, also where they go on in the next line."""
    gap = r"(?: +|\n)"
    return re.compile(rf"(?<![\w'/-])(?:{words.replace(' ', gap)})(?![\w-]|[./]\w)", re.I)


def kind_of(path):
    return PAGES if suffix_of(path) in ("md", "1") or path == HELP else COMMENTS


def listed():
    """Returns the lines of the list of what isn't held yet, each with its path or nothing."""
    with open(f"{TOP}/{LISTED}", encoding="utf-8") as file:
        return {line: "" if line.startswith("#") else line for line in file.read().split("\n") if line}


def is_needed(path, limit):
    return os.path.exists(f"{TOP}/{path}") and bool(Count(files_below(path)).above(limit))


def faults(limit):
    """Returns what is wrong with what is held, and with the list of what isn't."""
    open_paths = [it for it in listed().values() if it]
    passed_over = {path for it in open_paths if os.path.exists(f"{TOP}/{it}") for path in files_below(it)}
    found = []
    for kind in (PAGES, COMMENTS):
        count = Count([it for it in files_below(".") if it not in passed_over and kind_of(it) == kind])
        above = count.above(limit)
        found += [it for it in count.told() if it.split(": ")[1] in above]
        found += [f"{kind}: '{it}' {count.rate(it):.2f} times in a thousand words, where {limit} is the most" for it in above]
    needless = [it for it in open_paths if not is_needed(it, limit)]
    return found + [f"{LISTED}: {it} needn't be listed any longer: tools/docs/plain_words.py --write" for it in needless]


def write(limit):
    """Takes the paths that needn't be listed out of the list."""
    lines = [line for line, path in listed().items() if not path or is_needed(path, limit)]
    with open(f"{TOP}/{LISTED}", "w", encoding="utf-8") as file:
        file.write("".join(f"{it}\n" for it in lines))


def tell(paths, limit, is_brief):
    """Prints the words that are ruled out below these paths, and returns the status."""
    count = Count(dict.fromkeys(it for path in paths for it in files_below(path)))
    for line in () if is_brief else count.told():
        print(line)
    print(f"{count.words} words; in a thousand: {count.rates()}")
    return 1 if count.above(limit) else 0


def main(words):
    limit, is_brief, paths = LIMIT, False, []
    words = iter(words)
    for word in words:
        if word == "--compare":
            found = faults(limit)
            print("\n".join(found) or "pages, help and comments have plain words")
            return 1 if found else 0
        if word == "--write":
            write(limit)
            return 0
        if word == "--limit":
            limit = float(next(words))
        elif word == "--brief":
            is_brief = True
        elif word.startswith("-"):
            print(__doc__, file=sys.stderr)
            return 4
        else:
            paths.append(os.path.relpath(os.path.realpath(word), TOP))
    return tell(paths or ["."], limit, is_brief)


if __name__ == "__main__":
    sys.exit(main(sys.argv[1:]))

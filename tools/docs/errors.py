#!/usr/bin/env python3
"""Copies the sentence of each error from the crates' error types to where users read it, so that each error has one wording.

usage: tools/docs/errors.py --write      writes the sentences into the tables of docs/ERRORS.md; and of these tables the list of errors in
                                         docs/protogate.1, the table that examples/ci goes by (codes.py), and what pg_lines says with --json: the
                                         definition (Sentences.antt) and the code (sentences.rt)
       tools/docs/errors.py --compare    status 1 where one of these files isn't so

The sentences are those of `#[error("..")]`, each of the code that `code()` gives its variant. Codes, positions and what to do are
written by hand, in docs/ERRORS.md: each code has a row there, and one with a position where its variant has one.
"""

import glob
import os
import re
import sys

TOP = os.path.dirname(os.path.dirname(os.path.dirname(os.path.realpath(__file__))))
PAGE, MANUAL, TABLE = "docs/ERRORS.md", "docs/protogate.1", "examples/ci/codes.py"
SPEC, CODE = "crates/pg_lines/specs/Sentences.antt", "crates/pg_lines/src/sentences.rt"
# What the list of the man page is between.
BEGIN, END = '.\\" The list of errors is made by tools/docs/errors.py --write.\n', '.\\" The list of errors ends here.\n'
HEAD = '''"""What each code means and what to do about it: made by `tools/docs/errors.py --write`, which says where to change it."""

# By code the sentence of the error, and what to do.
ERRORS = {
'''
SPEC_HEAD = """-- The sentence of a code: made by tools/docs/errors.py --write of what the error types say.
use Rattle.std.specs.Prelude.{ℕ, [], ◌==◌, ◌/◌, if◌then◌else◌, codes}
use Rattle.pg_link.specs.names.Names.{Text}

"""
CODE_HEAD = """//! The sentence of a code: made by tools/docs/errors.py --write of what the error types say.
ghost use Rattle.std.specs.Prelude.{◌≡◌};
ghost use Rattle.pg_lines.specs.Sentences as spec;

"""
# What the codes of each hundred are of.
PARTS = {1: "token", 2: "grammar", 3: "file", 4: "rule", 5: "record", 6: "message", 7: "set", 8: "certificate", 9: "gate"}
# The most columns of a line of code, as the kit lays it out.
COLUMNS = 100
# The heading of errors that the program never prints: the man page and the scripts leave them out.
UNPRINTED = "The library alone"
ENUM = re.compile(r"^pub enum (\w+) \{\n(.*?)^\}", re.M | re.S)
VARIANT = re.compile(r'#\[error\("((?:\\.|[^"\\])*)"\)\]\s*(\w+)(\([^)]*\)|\s*\{[^}]*\})?')
CODES = re.compile(r"^    pub fn code\(.*?^    \}", re.M | re.S)
ARM = re.compile(r"(\w+)::(\w+)(?:\([^)]*\)|\s*\{[^}]*\})?\s*=>\s*(\d+),")
# Crates whose errors are at a byte of what they read. Those of the others are in source files, at a line and a column.
OF_BYTES = ("pg_wire", "pg_dyn", "pg_set", "pg_fds")
# Of what a descriptor set declares: its variant has a position that is always empty.
WITHOUT_POSITION = (415,)


def read(path):
    with open(f"{TOP}/{path}", encoding="utf-8") as file:
        return file.read()


class Error:
    """An error of the sources: its sentence, and how its position is told."""

    def __init__(self, crate, code, sentence, payload):
        self.code, self.sentence = code, spoken(sentence)
        has_position = re.search(r"\bPlace\b|\bat:", payload) and code not in WITHOUT_POSITION
        self.position = "none" if not has_position else "byte" if crate in OF_BYTES else "line"


def spoken(sentence):
    """Returns a sentence as it is without the position, which the line of the error has, and with the names of its other parts as the
    line has them."""
    sentence = re.sub(r",? at byte \{at\},?", "", sentence.replace('\\"', '"'))
    return re.sub(r"\{(\w+)\}", lambda it: it[1].upper(), sentence)


def errors_of(crate, source):
    """Yields the errors that a source file declares, each with a code."""
    sentences = {(name, variant): (words, payload) for name, body in ENUM.findall(source) for words, variant, payload in VARIANT.findall(body)}
    for body in CODES.findall(source):
        for name, variant, code in ARM.findall(body):
            if (name, variant) in sentences:
                yield Error(crate, int(code), *sentences[name, variant])


def errors():
    """Returns the errors of all crates by code, and what is wrong with them."""
    found, faults = {}, []
    for path in sorted(glob.glob(f"{TOP}/crates/pg_*/src/**/*.rt", recursive=True)):
        path = os.path.relpath(path, TOP)
        for error in errors_of(path.split("/")[1], read(path)):
            other = found.setdefault(error.code, error)
            if other.sentence != error.sentence:
                faults.append(f"{path}: E{error.code:03} says '{error.sentence}', and elsewhere '{other.sentence}'")
    return found, faults


def cells_of(line):
    """Returns the cells of a row of codes, or nothing."""
    cells = [it.strip() for it in re.split(r"(?<!\\)\|", line)[1:-1]]
    return cells if len(cells) > 3 and re.match(r"E\d{3}\b", cells[0]) else []


def rows_in(page):
    """Yields each row of codes: the heading above it, the code and what comes after it, and the other cells."""
    heading, before = "", ""
    for line in page.split("\n"):
        heading = line.lstrip("# ") if line.startswith("#") else heading
        if cells := cells_of(line):
            code, _, rest = cells[0].partition(" ")
            before = before if cells[-1] == "The same." else cells[-1]
            yield heading, code, rest, cells[1], cells[2], plain(before)


def plain(words):
    """Words of a page without links, and without what leads elsewhere on it."""
    words = re.sub(r" \(see (below|\[below\]\([^)]*\))\)", "", words)
    return re.sub(r"\[([^]]*)\]\([^)]*\)", r"\1", words)


def page_with(page, found):
    """Returns the page with the sentences of these errors."""
    lines = page.split("\n")
    for number, line in enumerate(lines):
        cells = cells_of(line)
        if cells and int(cells[0][1:4]) in found:
            cells[1] = found[int(cells[0][1:4])].sentence
            lines[number] = f"| {' | '.join(cells)} |"
    return "\n".join(lines)


def faults_of(page, found):
    """Returns what the page lacks, or has and the sources haven't."""
    positions, faults = {}, []
    for _, code, _, _, position, _ in rows_in(page):
        if code in positions:
            faults.append(f"{PAGE} has {code} twice")
        positions[code] = "none" if position == "none" else "byte" if position.startswith("at BYTE") else "line"
    wanted = {f"E{code:03}": it.position for code, it in found.items()}
    faults += [f"{PAGE} lacks {it}" for it in wanted if it not in positions]
    faults += [f"{PAGE} has {it}, which no crate has" for it in positions if it not in wanted]
    return faults + [f"{PAGE} says another position of {it} than its variant: {wanted[it]}" for it in positions if wanted.get(it, positions[it]) != positions[it]]


def roff(words):
    """Words as a line of a man page has them."""
    words = words.replace("\\", "\\e").replace("-", "\\-")
    words = re.sub(r"`([^`]*)`", r"\\fB\1\\fR", words)
    return f"\\&{words}" if words.startswith((".", "'")) else words


def manual_with(manual, page):
    """Returns the man page with the list of the errors of the page."""
    lines, before = [], ""
    for heading, code, rest, sentence, _, _ in rows_in(page):
        if heading == UNPRINTED:
            continue
        if heading != before:
            lines.append(f".SS {heading}")
        before = heading
        lines += [".TP", f'.BI {code} " {rest}"' if rest else f".B {code}", roff(sentence)]
    head, begin, rest = manual.partition(BEGIN)
    _, end, tail = rest.partition(END)
    if not begin or not end:
        raise SystemExit(f"{MANUAL} lacks the lines between which its list of errors is")
    return head + begin + "".join(f"{it}\n" for it in lines) + end + tail


def table_of(page):
    """Returns the lines of codes.py."""
    rows = {code: (sentence, mend) for heading, code, _, sentence, _, mend in rows_in(page) if heading != UNPRINTED}
    return HEAD + "".join(f"    {code!r}: (\n        {says!r},\n        {mend!r},\n    ),\n" for code, (says, mend) in sorted(rows.items())) + "}\n"


def string(words):
    """Words as a literal of the sources."""
    return '"' + words.replace("\\", "\\\\").replace('"', '\\"') + '"'


def refusals_of(page):
    """Returns the sentences that a refusal has, by the hundred of their codes and then by these."""
    found = {part: {} for part in PARTS}
    for heading, code, _, sentence, _, _ in rows_in(page):
        if heading != UNPRINTED and int(code[1:]) >= 100:
            found[int(code[1:]) // 100][int(code[1:])] = sentence
    return {part: dict(sorted(them.items())) for part, them in found.items() if them}


def spec_of(found):
    """Returns the definition of these sentences."""
    text = SPEC_HEAD
    for part, them in found.items():
        tests = "    else ".join(f"if code == {code} then codes {string(says)}\n" for code, says in them.items())
        text += f"unfoldable pub {PARTS[part]}_sentence : ℕ → Text\n{PARTS[part]}_sentence code =\n    {tests}    else []\n\n"
    tests = "    else ".join(f"if hundred == {part} then {PARTS[part]}_sentence code\n" for part in found)
    text += f"abbrev pub sentence_in : (hundred : ℕ) → ℕ → Text\nsentence_in hundred code =\n    {tests}    else []\n\n"
    return text + "-- codes of a hundred are of one subject\nunfoldable pub sentence_of : ℕ → Text\nsentence_of code = sentence_in (code / 100) code\n"


def arm(pattern, value):
    """An arm of a match, as the kit lays it out."""
    line = f"        {pattern} => {value},\n"
    return line if len(line) <= COLUMNS + 1 else f"        {pattern} => {{\n            {value}\n        }}\n"


def code_of(found):
    """Returns the code of these sentences."""
    text = CODE_HEAD
    for part, them in found.items():
        arms = "".join(arm(code, string(says)) for code, says in them.items())
        text += f"#[tactic(auto, unfolding(crate::specs::Sentences::{PARTS[part]}_sentence))]\n"
        text += f"fn {PARTS[part]}_sentence(code: u16) -> &'static str\n    ensures {{ result.now ≡ spec.{PARTS[part]}_sentence code }}\n{{\n"
        text += f"    match code {{\n{arms}        _ => \"\",\n    }}\n}}\n\n"
    arms = "".join(arm(part, f"{PARTS[part]}_sentence(code)") for part in found)
    text += "/// The sentence of a code that a refusal has.\n#[tactic(auto, unfolding(crate::specs::Sentences::sentence_of))]\npub(crate) fn sentence_of(code: u16) -> &'static str\n"
    text += "    ensures { result.now ≡ spec.sentence_of code }\n{\n"
    return text + f"    match code / 100 {{\n{arms}        _ => \"\",\n    }}\n}}\n"


def wanted():
    """Returns the contents of each file, and what is wrong with the sources and the page."""
    found, faults = errors()
    page = page_with(read(PAGE), found)
    said = refusals_of(page)
    files = {PAGE: page, MANUAL: manual_with(read(MANUAL), page), TABLE: table_of(page), SPEC: spec_of(said), CODE: code_of(said)}
    return files, faults + faults_of(page, found)


def main(words):
    if words not in (["--write"], ["--compare"]):
        print(__doc__, file=sys.stderr)
        return 4
    files, faults = wanted()
    if words == ["--write"]:
        for path, content in files.items():
            with open(f"{TOP}/{path}", "w", encoding="utf-8") as file:
                file.write(content)
    else:
        faults += [f"{path} isn't what the error types say: tools/docs/errors.py --write" for path, content in files.items() if content != read(path)]
    print("\n".join(faults) or "each error has one wording, with a row in docs/ERRORS.md", file=sys.stderr if faults else sys.stdout)
    return 1 if faults else 0


if __name__ == "__main__":
    sys.exit(main(sys.argv[1:]))

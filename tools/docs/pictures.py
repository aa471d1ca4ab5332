#!/usr/bin/env python3
"""Draws the pictures of docs/pictures: each NAME.txt says what NAME.svg shows.

usage: tools/docs/pictures.py            draws them all
       tools/docs/pictures.py --compare  status 1 where a picture isn't what its source says
       tools/docs/pictures.py --report [PROGRAM]    takes report.png anew: run it after a change of tools/report.py. It needs git and Chromium;
                                                    what it shows depends on the fonts, so nothing compares it

A source begins with a line 'title ..' and a line that says how the rest is read: 'flow' (a row a line, boxes with calls between them,
as 'a -> call -> b'), 'table' (a row a line, cells with '|' between them, the first row is the head), 'graph' ('node NAME PLACE TEXT',
'edge FROM TO TEXT', nodes from left to right; an edge may go to a neighbour on either side, or back to its own node), or 'plan' (a crate
a row, with what it does: the crates by layer, each above all that it uses, with the lines that code_lines.py counts).
"""

import os
import shutil
import subprocess
import sys
import tempfile
from html import escape

sys.dont_write_bytecode = True
sys.path.append(f"{os.path.dirname(os.path.realpath(__file__))}/../gate")
from code_lines import counts_of  # noqa: E402
from crates import crates_of  # noqa: E402

TOP = os.path.dirname(os.path.dirname(os.path.dirname(os.path.realpath(__file__))))
FOLDER = f"{TOP}/docs/pictures"
INK, CALL, FILL, HEAD, LAST = "#1f2933", "#0b6bcb", "#eef4fb", "#d9e7f7", "#fdecea"
# The width of a letter, in the fonts that are asked for.
LETTER = 7.6
# The picture of a report, in pixels.
WIDTH, HEIGHT = 860, 740


def text(x, y, words, color=INK, anchor="middle", weight="normal", size=14):
    font = "font-family='DejaVu Sans, Verdana, sans-serif'"
    return f"<text x='{x:.0f}' y='{y:.0f}' {font} font-size='{size}' font-weight='{weight}' fill='{color}' text-anchor='{anchor}'>{escape(words)}</text>"


def box(x, y, width, height, fill=FILL, rounding=6):
    return f"<rect x='{x:.0f}' y='{y:.0f}' width='{width:.0f}' height='{height:.0f}' rx='{rounding}' fill='{fill}' stroke='{INK}'/>"


def arrow(path):
    return f"<path d='{path}' fill='none' stroke='{CALL}' stroke-width='1.5' marker-end='url(#tip)'/>"


def width_of(words):
    return LETTER * len(words) + 24


def flow(lines):
    """Rows of boxes, with the name of the call over each arrow."""
    parts, widest = [], 0
    for at, line in enumerate(lines):
        x, y = 20, 60 + 80 * at
        for number, words in enumerate(it.strip() for it in line.split("->")):
            wide = width_of(words)
            if number % 2:
                parts += [text(x + wide / 2, y + 14, words, CALL, size=13), arrow(f"M {x + 2:.0f} {y + 22} H {x + wide - 4:.0f}")]
            else:
                parts += [box(x, y, wide, 44), text(x + wide / 2, y + 27, words)]
            x += wide
        widest = max(widest, x)
    return parts, widest + 20, 60 + 80 * len(lines)


def table(lines):
    """Rows of cells, the head in bold, and the last row marked, since it is where the readers differ."""
    rows = [[it.strip() for it in line.split("|")] for line in lines]
    widths = [max(width_of(row[at]) for row in rows) for at in range(len(rows[0]))]
    parts = []
    for at, row in enumerate(rows):
        x, y = 20, 56 + 40 * at
        fill = HEAD if at == 0 else LAST if at == len(rows) - 1 else "#ffffff"
        for cell, wide in zip(row, widths):
            parts += [box(x, y, wide, 40, fill, 0), text(x + wide / 2, y + 25, cell, weight="bold" if at == 0 else "normal")]
            x += wide
    return parts, sum(widths) + 40, 76 + 40 * len(rows)


def graph(lines):
    """Nodes from left to right, with arrows between neighbours, below them from right to left, and above a node to itself."""
    said = [line.split(" ", 3) for line in lines]
    nodes = {name: (int(place), words) for kind, name, place, words in said if kind == "node"}
    middle = {name: 150 + 400 * place for name, (place, _) in nodes.items()}
    parts = []
    for name, (_, words) in nodes.items():
        wide = width_of(words)
        parts += [box(middle[name] - wide / 2, 150, wide, 44), text(middle[name], 177, words)]
    for _, start, end, words in (it for it in said if it[0] == "edge"):
        x, middles = middle[start], (middle[start] + middle[end]) / 2
        if start == end:
            parts += [arrow(f"M {x - 30} 150 C {x - 80} 70, {x + 80} 70, {x + 30} 148"), text(x + 20, 78, words, CALL, size=13)]
        elif middle[start] < middle[end]:
            left, right = x + width_of(nodes[start][1]) / 2, middle[end] - width_of(nodes[end][1]) / 2
            parts += [arrow(f"M {left:.0f} 172 H {right - 4:.0f}"), text((left + right) / 2, 162, words, CALL, size=13)]
        else:
            parts += [arrow(f"M {x} 194 C {x} 250, {middle[end]} 250, {middle[end]} 198"), text(middles, 258, words, CALL, size=13)]
    return parts, 300 + 400 * max(place for place, _ in nodes.values()), 280


def layers_of(names):
    """Returns these crates by layer, the lowest first: each crate is one above the highest that it uses."""
    found = {}
    for name, crate in crates_of(TOP).items():
        if name in names:
            found[name] = 1 + max((found[it.name] for it in crate.deps), default=-1)
        elif name.startswith("pg_"):
            raise SystemExit(f"the plan lacks {name}")
    return [[it for it in found if found[it] == layer] for layer in range(max(found.values()) + 1)]


def plan(lines):
    """A row of boxes for each layer, the program at the top: each crate, what it does, and its lines."""
    said = {name: words.strip() for name, _, words in (it.partition(" ") for it in lines)}
    known, layers = crates_of(TOP), layers_of(said)
    counts = {name: counts_of(known[name]) for name in said}
    wide, high, widest = 340, 80, 20 + 360 * max(map(len, layers))
    parts = []
    for at, names in enumerate(reversed(layers)):
        y, left = 56 + 100 * at, (widest - 360 * len(names) + 20) / 2
        for x, name in ((left + 360 * number, name) for number, name in enumerate(names)):
            row, middle = counts[name], x + wide / 2
            lines_of = f"code {row['code']:,} · definitions {row['definitions']:,} · proofs {row['proofs']:,}"
            parts += [box(x, y, wide, high), text(middle, y + 22, name, weight="bold"), text(middle, y + 43, said[name], size=13)]
            parts.append(text(middle, y + 65, lines_of, CALL, size=12))
    sums = {kind: sum(row[kind] for row in counts.values()) for kind in ("code", "contracts", "definitions", "proofs")}
    whole = " · ".join(f"{kind} {lines:,}" for kind, lines in sums.items())
    y = 56 + 100 * len(layers)
    return [*parts, text(widest / 2, y + 8, f"all lines: {whole}", CALL)], widest, y + 30


def drawn(source):
    title, kind, *lines = source.strip().split("\n")
    title = title.removeprefix("title ")
    parts, width, height = {"flow": flow, "table": table, "graph": graph, "plan": plan}[kind](lines)
    width = max(width, width_of(title) + 60)
    tip = f"<defs><marker id='tip' markerWidth='8' markerHeight='8' refX='6' refY='4' orient='auto'><path d='M0,0 L8,4 L0,8 z' fill='{CALL}'/></marker></defs>"
    head = f"<svg xmlns='http://www.w3.org/2000/svg' width='{width:.0f}' height='{height:.0f}' viewBox='0 0 {width:.0f} {height:.0f}'>"
    page = f"<rect width='{width:.0f}' height='{height:.0f}' fill='#ffffff'/>"
    return "\n".join([head, f"<title>{escape(title)}</title>", tip, page, text(20, 34, title, anchor="start", weight="bold", size=16), *parts, "</svg>", ""])


def write_report(room, program):
    """Writes the page of a run: `examples/old` at the tag v1.4 against `examples/new`, in a repository that is the same each time."""
    when = "2026-01-01T00:00:00Z"
    env = {**os.environ, "PROTOGATE": program, "GIT_CONFIG_GLOBAL": "/dev/null", "GIT_CONFIG_NOSYSTEM": "1",
           "GIT_AUTHOR_DATE": when, "GIT_COMMITTER_DATE": when}
    git = ["git", "-c", "user.name=nobody", "-c", "user.email=nobody@example.org", "-c", "init.defaultBranch=main"]
    shutil.copytree(f"{TOP}/examples/old", f"{room}/proto")
    for words in (["init", "-q"], ["add", "."], ["commit", "-q", "-m", "v1.4"], ["tag", "v1.4"]):
        subprocess.run([*git, *words], cwd=room, env=env, check=True)
    shutil.copytree(f"{TOP}/examples/new", f"{room}/proto", dirs_exist_ok=True)
    subprocess.run([f"{TOP}/examples/ci/gate.sh", "v1.4", "proto", "--record", "run.json"], cwd=room, env=env, stdout=subprocess.DEVNULL)
    link = "https://example.org/{path}#L{line}"
    words = [f"{TOP}/tools/report.py", "run.json", "--old-link", link, "--new-link", link]
    with open(f"{room}/report.html", "wb") as page:
        subprocess.run(words, cwd=room, check=True, stdout=page)


def photograph_report(program):
    """Takes report.png, as Chromium shows the page."""
    browser = next(filter(None, map(shutil.which, ("chromium", "chromium-browser", "chromium-headless-shell", "google-chrome"))), None)
    if not browser:
        print("pictures: there is no Chromium", file=sys.stderr)
        return 3
    with tempfile.TemporaryDirectory() as room:
        write_report(room, program)
        words = ["--headless", "--no-sandbox", "--disable-gpu", "--hide-scrollbars", f"--user-data-dir={room}/profile",
                 f"--window-size={WIDTH},{HEIGHT}", f"--screenshot={FOLDER}/report.png", f"file://{room}/report.html"]
        return subprocess.run([browser, *words], stderr=subprocess.DEVNULL).returncode


def main(words):
    if words[:1] == ["--report"]:
        return photograph_report(os.path.realpath(words[1]) if words[1:] else f"{TOP}/crates/protogate/out/protogate")
    status = 0
    for name in sorted(it[:-4] for it in os.listdir(FOLDER) if it.endswith(".txt")):
        with open(f"{FOLDER}/{name}.txt", encoding="utf-8") as file:
            made = drawn(file.read())
        path = f"{FOLDER}/{name}.svg"
        if words == ["--compare"]:
            with open(path, encoding="utf-8") as file:
                if file.read() != made:
                    print(f"{name}.svg isn't what {name}.txt says")
                    status = 1
        else:
            with open(path, "w", encoding="utf-8") as file:
                file.write(made)
    return status


if __name__ == "__main__":
    sys.exit(main(sys.argv[1:]))

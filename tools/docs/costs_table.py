#!/usr/bin/env python3
"""Sums up tools/gate/costs.txt: what the gate takes of each layer of crates, in processor seconds by kind, as a table in docs/LIMITS.md. And what
`tools/test.py --list` has, in a sentence there.

usage: tools/docs/costs_table.py --write      writes the table and the sentence
       tools/docs/costs_table.py --compare    status 1 where they aren't so

Either prints what a whole gate and a build of the program take, beside what is allowed and what is wanted. `tools/prove.py --costs` measures
costs.txt again, and then writes the table too.
"""

import os
import re
import sys

sys.dont_write_bytecode = True
sys.path.append(f"{os.path.dirname(os.path.realpath(__file__))}/../gate")
import times  # noqa: E402
from crates import crates_of  # noqa: E402
from parts import Build, all_parts  # noqa: E402
from pictures import layers_of  # noqa: E402
from stamp import PROGRAM  # noqa: E402

TOP = os.path.dirname(os.path.dirname(os.path.dirname(os.path.realpath(__file__))))
PAGE = "docs/LIMITS.md"
# The first line of the table.
HEAD = f"| Processor seconds | {' | '.join(times.KINDS)} | all |"
# What the page says of tools/test.py: the crates that it compiles, and the processor seconds of its parts.
SENTENCE = "compiles {} crates without proof and runs all tests on them. By what `tools/test.py --list` has, this takes some {:,} processor seconds"
SAID = re.compile(re.escape(SENTENCE).replace(r"\{\}", r"\d+").replace(r"\{:,\}", r"[\d,]+"))
# What has a row of its own beside the layers of the product, by the beginning of its crates' names.
BY_PREFIX = (("`promises_*`", "promises_"), ("`rows_*`", "rows_"), ("`tests_*`, `kit_*`, `examples_*`", ("tests_", "kit_", "examples_")))
# So many times the seconds of the machine for which the budget is were taken where costs.txt was measured, by crates that hadn't changed.
SLOWER = 1.76
# What a whole gate may take there, what it should take, and what a build of the program should take, in processor seconds.
BUDGET, GOAL, GOAL_OF_BUILD = 15_000, 10_000, 3_300


def groups():
    """Returns the name of each row, and what its row sums up: the layers of the product from the lowest on, then what tests it."""
    names = [*crates_of(TOP)]
    layers = layers_of([it for it in names if it.startswith("pg_") or it == PROGRAM])
    found = [(", ".join(f"`{it}`" for it in layer), layer) for layer in layers]
    found += [(said, [it for it in names if it.startswith(begin)]) for said, begin in BY_PREFIX]
    return [*found, ("what tries the built program", [times.TESTERS]), ("`rt` itself, linking, runs of programs", [times.OTHERS])]


def row(said, seconds):
    return f"| {said} | " + " | ".join(f"{it:,}" for it in (*seconds, sum(seconds))) + " |"


def table(costs, rows):
    """Returns the lines of the table. What costs.txt doesn't have counts for nothing."""
    sums = [[sum(costs.get(it, {}).get(kind, 0) for it in names) for kind in times.KINDS] for _, names in rows]
    lines = [row(said, seconds) for (said, _), seconds in zip(rows, sums)]
    return [HEAD, "|" + "---|" * (len(times.KINDS) + 2), *lines, row("**all**", [sum(it) for it in zip(*sums)])]


def beside_budget(costs, rows):
    """Returns a line for a whole gate and one for a build of the program, which proves the product: their seconds, beside what is wanted."""
    whole = sum(costs.get(it, {}).get(kind, 0) for _, names in rows for it in names for kind in times.KINDS)
    build = sum(seconds["proof"] for name, seconds in costs.items() if name.startswith("pg_") or name == PROGRAM)
    gate = f"a whole gate takes {whole:,} processor seconds, some {whole / SLOWER:,.0f} where the budget is {BUDGET:,} and the goal {GOAL:,}"
    return [gate, f"a build of the program takes {build:,}, some {build / SLOWER:,.0f} where the goal is {GOAL_OF_BUILD:,}"]


def said_of_tests():
    """Returns what the page has to say of tools/test.py. A part that another one makes needless takes no time."""
    parts = all_parts(TOP)
    for it in parts:
        it.join({other.name for other in parts})
    return SENTENCE.format(sum(isinstance(it, Build) and it.seconds > 0 for it in parts), round(sum(it.seconds for it in parts), -1))


def page_with(page, lines, said):
    """Returns a page with these lines in the place of the table that begins like them, and what is said of the tests."""
    page, count = SAID.subn(lambda _: said, page)
    if count != 1:
        raise SystemExit(f"{PAGE} has to say once what tools/test.py compiles")
    before, head, after = page.partition(f"{HEAD}\n")
    if not head:
        raise SystemExit(f"{PAGE} has no table that begins '{HEAD}'")
    rest = after.split("\n")
    end = next(at for at, line in enumerate(rest) if not line.startswith("|"))
    return before + "\n".join([*lines, *rest[end:]])


def main(words):
    if words not in (["--write"], ["--compare"]):
        print(__doc__, file=sys.stderr)
        return 4
    with open(f"{TOP}/{PAGE}", encoding="utf-8") as file:
        page = file.read()
    costs, rows = times.read(), groups()
    wanted = page_with(page, table(costs, rows), said_of_tests())
    print("\n".join(beside_budget(costs, rows)))
    if words == ["--write"]:
        with open(f"{TOP}/{PAGE}", "w", encoding="utf-8") as file:
            file.write(wanted)
    elif page != wanted:
        print(f"{PAGE} doesn't say what tools/gate/costs.txt and tools/test.py --list do: tools/docs/costs_table.py --write", file=sys.stderr)
        return 1
    print(f"{PAGE} has the sums of tools/gate/costs.txt and of tools/test.py --list")
    return 0


if __name__ == "__main__":
    sys.exit(main(sys.argv[1:]))

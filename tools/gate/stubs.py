"""Stubs of a crate's functions, so that its wrong copies (wrong_copies.py) are tried over contracts alone: for try_edits.py.

A proof of a function cites what the functions that it calls are proved to do, and never their bodies. So a check of copies needs no second
proof of these. In the crate that it is given each of them has the body `unreachable!()`, and in the place of its proof files one that leaves its
whole theorem open (`?`). With `--allow-holes` the prover takes the theorem as it is stated, and says of each function that rests on it that it
depends on this hole (read_goals.py). That the real bodies keep the same contracts is what `rt ci` proves of the same sources.

A stub keeps the function's head and clauses, so that what a caller knows is the same; and the number of lines, so that positions are too. Some
functions get none, and are proved, where a copy calls them:

- a method of a trait, which a caller may know by the trait alone;
- a `const fn`, whose value the compiler may want;
- one whose body is on one line;
- what is in a `#[cycle(..)]` with one of these.
"""

import collections
import contextlib
import os
import re
import shutil

from wrong_copies import Left, cycle_folders, cycle_named, files_below, functions_in, is_free, owner_of, place_of, text_of

BODY = "unreachable!()"
# The whole proof of a function, left open. The prover prints the goal of a hole, and a theorem's takes it seconds. So the hole is of the empty type, of
# which the theorem follows, and has a name that no other file can cite.
PROOF = """use Rattle.{crate}.proofs.{module}.Statement.{{statement}}

left_open : ⊥
left_open = ?

pub {name}_spec : {{M : Type 1}} → statement M
{name}_spec = absurd left_open
"""
# What such a hole is called in the prover's words.
HOLE = "Rattle.{crate}.proofs.{module}.Proof.left_open"
# A function that gets a stub: its file, the type whose method it is, its name, the folder of its proof files, and the cycle of calls that
# it is in, which is its own name where it calls itself, or nothing.
Stub = collections.namedtuple("Stub", "path owner name place cycle")
# What can be a module's name only in quotes.
WORDS = frozenset(
    "data record deriving module where use mod pub package open as unfoldable abbrev axiom unfold unfolding ruleset mutual infix infixl"
    " infixr elim let in do Type coe fcoe tcoe hcom com".split()
)
CONST = re.compile(r" *(?:pub(?:\([^)]*\))? )?const ")


def own_functions(text):
    """Returns the functions of a file that stand at its top or in an impl of their type, each with that type or nothing before it."""
    lines, found = text.split("\n"), []
    for it in functions_in(text):
        with contextlib.suppress(Left):
            found.append((owner_of(lines, it), it))
    return found


def stubs_in(folder, path):
    """Returns the stubs of a file's functions, but of what is in a cycle with one that has no stub."""
    text, found = text_of(f"{folder}/{path}"), {}
    lines = text.split("\n")
    for owner, it in own_functions(text):
        with contextlib.suppress(Left):
            place, cycle = place_of(folder, path, lines, it), cycle_named(lines, it)
            if not CONST.match(lines[it.head]):
                found[it] = Stub(path, owner, it.name, place, cycle or it.name * (not is_free(text, it)))
    staying = {cycle_named(lines, it) for it in functions_in(text) if it not in found}
    return [stub for it, stub in found.items() if not cycle_named(lines, it) or cycle_named(lines, it) not in staying]


def stubs_of(folder):
    """Returns the stubs for a crate: of all functions that can have one."""
    sources = (os.path.relpath(it, folder) for it in files_below(folder, "src") if it.endswith(".rt"))
    return [stub for path in sources for stub in stubs_in(folder, path)]


def above_stub(lines):
    """Returns these lines above a function with what they say of tactics and cycles turned into empty comments: a tactic may name lemmas, which
    would be proved, and a stub calls nothing."""
    found, inside = [], False
    for line in lines:
        inside = inside or line.lstrip().startswith(("#[tactic(", "#[cycle("))
        found.append("//" if inside else line)
        inside = inside and not line.endswith("]")
    return found


def stubbed(lines, function):
    """Returns the lines of a file with a stub for the function, as many as they were."""
    above = above_stub(lines[function.first : function.head])
    head = lines[function.head : function.opens + 1]
    body = [f"{function.indent}    {BODY}"] + [""] * (function.last - function.opens - 2)
    return [*lines[: function.first], *above, *head, *body, *lines[function.last :]]


def write_bodies(room, stubs):
    """Writes the stubs' bodies into the room, which has the crate with these functions."""
    wanted = {it[:3] for it in stubs}
    for path in {it.path for it in stubs}:
        text = text_of(f"{room}/{path}")
        lines = text.split("\n")
        for owner, it in own_functions(text):
            if (path, owner, it.name) in wanted:
                lines = stubbed(lines, it)
        with open(f"{room}/{path}", "w", encoding="utf-8") as file:
            file.write("\n".join(lines))


def module_of(stub):
    """Returns the module of the stub's proof files, with the prover's own words quoted."""
    return ".".join(f"«{it}»" if it in WORDS else it for it in stub.place.split("/"))


def make_stubs(room, crate, stubs):
    """Makes these stubs of the functions of the crate in the room, and leaves the theorem of each open in the place of its proof."""
    write_bodies(room, stubs)
    for at in (at for it in stubs for at in (it.place, *cycle_folders(it.place, it.cycle))):
        shutil.rmtree(f"{room}/proofs/{at}", ignore_errors=True)
    for it in stubs:
        os.makedirs(f"{room}/proofs/{it.place}", exist_ok=True)
        with open(f"{room}/proofs/{it.place}/Proof.antt", "w", encoding="utf-8") as file:
            file.write(PROOF.format(crate=crate, module=module_of(it), name=it.name))


def holes(crate, stubs):
    """Returns the names of the holes that these stubs leave, without quotes, by the functions' names as the prover has them."""
    return {"::".join([crate, *it.place.split("/")]): HOLE.format(crate=crate, module=it.place.replace("/", ".")) for it in stubs}

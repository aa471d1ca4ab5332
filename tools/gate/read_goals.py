"""Reads what a check says of copies of functions, or of functions that an edit turns in place (wrong_copies.py): for try_edits.py.

A wrong body is refused where the prover leaves a goal of it open: a clause of its own, or what a call in it requires. It is open where the
prover's search, which proves the body without the edit, finds no proof of it.

- An answer that its proof file gives to a goal, and that is no proof of it any more, is told (`by hand`) but refuses nothing alone: another
  form of the same code can do that.
- A wrong body may rename its goals and steps, as a `match` round a call does, and its proof files then name some that it doesn't have. That
  refuses nothing. Where a goal is lost so that has an answer by hand, what is open may be that goal under another name, which wants its
  answer: then only a goal counts for which the prover found values at which it is false.
- Any other complaint, of a name, a type or a source that can't be read, is none of the contract, and then the body counts as not refused. So
  does one of which nothing is said, and one whose check the system ends, as for memory.

What that rests on. `rt check` is asked for these functions alone (`--only`), by their whole paths. It proves them and what they call in the
crate, and so on down to stubs. It runs in a repository of its own, in which nothing is kept of earlier checks but libraries, and, for an
edit in place, what the check of the same crate's copies proved just before. A function is said to be proved only where a proof of its own
statement was admitted, and a proof cites what the functions that it calls are proved to do, so it is admitted only where theirs are: no
contract of theirs can be left out. A stub's theorem is admitted as it is stated, and left open (`--allow-holes`): of each function whose
proof rests on it the prover says that it depends on a hole, and names it. Such a function counts as proved where all that is named are
theorems of stubs; and what is open in the whole check has to be as many as the stubs that it reached, so nothing else passes as proved. A
caller knows just the contract of what it calls, and the code of that is shut to its proof: so what is refused over a stub, in a function
that is proved without the edit over the same stub, would be refused over the body too, and what is proved would be proved. A copy of a
function that calls itself has the goals of the function but those of the measure by which the calls end, and knows the same of what it
calls: so what is refused there would be refused in the cycle too. Left out are the other functions, the stubs' bodies, and lemmas that none
of these proofs cites. No edit changes those, and the gate proves them with the crate. So a check counts only where each function that was
asked for is among those of which something is said, its last line counts just these, and each of them is proved but the wrong bodies and
what is proved together with one; among them each function without the edit, by the same proof files.
"""

import re
from types import MappingProxyType

from why_refused import OPEN, clause_of
from wrong_copies import CONTROL

# What a wrong body comes to: a goal of its own stays open, it is still proved, or neither is shown.
REFUSED, PROVED, OTHER = "refused", "proved", "other"
FUNCTION = re.compile(r"fn (.+?): (proved|not proved|no proof|could not tell|assumed|not assumed|no holes|depends on a hole)\b(.*)")
# What is said where stubs leave something open: of a function that rests on none of them, and of one that does.
OVER_STUBS = ("no holes", "depends on a hole")
# What the name of a closure, or of another part of a function that the last line doesn't count, has before the function's own name.
INSIDE = "::fn::"
# A line that complains of a position: an error, or a note of a goal that stays open.
PLACED = re.compile(r"(note: )?(?:\./)?((?:src|specs|proofs)/\S+?):(\d+):\d+: (.*)")
COMPILER = re.compile(r"error\[[\w-]+\]")
# An answer that is no proof of its goal.
UNFIT = re.compile(r"proofs/\S*/Answers\.antt:\S+ error: `[^`]*`: (.*(expected type .*, but this has type|the two types (first )?differ) |`omega`: )")
# A goal or a step that a proof file names and that the body doesn't have, and what cites such a proof; and a goal alone.
LOST = re.compile(r"proofs/\S*: error: .*(: (module|record) `|has no field|is not in scope|was not admitted)")
LOST_GOAL = re.compile(r"proofs/\S*: error: .*: module `")
# What is said of an open goal where the prover found values at which it is false.
SHOWN_FALSE = "allow values at which this goal is false"
LIMIT = "gave up at one of its limits"
# What shows that a goal is open, as it is told after its name: values at which it is false, a search that finds no proof, one that ends at a limit
# (a count of steps, the same on each machine), or an answer by hand that is none.
FALSE, SOUGHT, LIMITED, BY_HAND = " shown false", "", " at a limit", " by hand"
# What is said after that of a goal whose like, of the same clause or loop, has an answer by hand in the body without the edit: the search may
# find none of it either where it holds.
WEAK = " (its like is proved by hand)"
KIND = re.compile(r"clause-\w+|loop-\w+(?=-preserved|-init)|returns(?!.*clause-)")
# A name in what the prover says, and what takes the quotes away that it gives to words of its own.
PLAIN = str.maketrans("", "", "«»")
SAME = re.compile(r" in the same \d+ declarations as `([^`]*)`$")
QUOTED = re.compile(r"`([^`]*)`")
GOAL = re.compile(r"error: `([^`]*)`: |\(`([^`]*)`\)|was not checked: (\S+)")


def goal_of(line):
    """Returns the goal that the line is of, or nothing."""
    named = GOAL.search(line)
    return next(filter(None, named.groups()), "") if named else ""


def is_of(path, line, text, it, spot):
    """Returns whether what is said of this line of a file is said of the copy or turned function: it is among its lines, in its proof files, or in
    those of its cycle under a goal of its own, whose name begins with the function's where there are more of them."""
    if path == it.path and line in spot.lines or path.startswith(f"proofs/{spot.place}/"):
        return True
    folder, plus, inside = path.removeprefix("proofs/").rpartition("+")
    if not plus or not spot.cycle or not inside.startswith(f"{spot.cycle}/") or not spot.place.startswith(folder):
        return False
    name = spot.place.removeprefix(folder).replace("/", "::")
    return len(spot.members) == 1 or goal_of(text).split("-")[0] == name


def complaints(told, made):
    """Returns what is complained of, by copy or turned function; by nothing what is of none."""
    found = {}
    for line in told.split("\n"):
        placed = PLACED.match(line)
        if placed and (OPEN.search(line) or not placed[1] and placed[4].startswith("error")):
            of = (it for it, spot in made.items() if is_of(placed[2], int(placed[3]), placed[4], it, spot))
            found.setdefault(next(of, None), []).append(line.removeprefix("note: ").removeprefix("./"))
        elif line.startswith(("error", "rattle:")):
            found.setdefault(None, []).append(line)
    return found


def not_compiled(told, made):
    """Returns the copies and turned functions that the compiler refuses, each with what it says. What is of none is given under nothing."""
    found = {}
    for at, lines in complaints(told, made).items():
        found.update({at: it for it in reversed(lines) if COMPILER.search(it)})
    return found


def goals_of(lines):
    """Returns the goals that these lines say stay open, each with what shows it."""
    found = {}
    for line in filter(OPEN.search, lines):
        how = FALSE if SHOWN_FALSE in line else LIMITED if LIMIT in line else SOUGHT
        found[goal_of(line)] = FALSE if found.get(goal_of(line)) == FALSE else how
    for line in filter(UNFIT.match, lines):
        found.setdefault(goal_of(line), BY_HAND)
    found.pop("", None)
    return found


def unanswered(lines, searched):
    """Returns the goals that a proof file answers by more than a search, and that the body doesn't have: it may have them under other names, and these then
    want their answers."""
    return [goal for goal in map(goal_of, filter(LOST_GOAL.match, lines)) if goal not in searched]


def kind_of(goal, function):
    """Returns the clause or loop of this function that a goal is of, or the goal itself where it is of none."""
    named = KIND.search(goal.removeprefix(f"{function}-"))
    return named[0] if named else goal


def as_told(goal, how, function, by_hand):
    """Returns what is told of an open goal."""
    is_weak = how in (SOUGHT, LIMITED) and kind_of(goal, function) in {kind_of(it, function) for it in by_hand}
    return clause_of(goal) + how + WEAK * is_weak


def states_of(told):
    """Returns what is said of each function, by its name: past what stubs leave open, `proved` of one that is proved over what they state."""
    found = {it[1]: it[2] for it in map(FUNCTION.match, told.split("\n")) if it}
    return {name: "proved" if state in OVER_STUBS else state for name, state in found.items()}


def verdict(it, state, lines, searched=frozenset(), by_hand=frozenset()):
    """Returns what the copy or turned function comes to, and what is to be said of it."""
    others = [line for line in lines if not OPEN.search(line) and not UNFIT.match(line) and not LOST.match(line)]
    goals, lost = goals_of(lines), unanswered(lines, searched)
    if state is None:
        return OTHER, "NOT TRIED: the prover says nothing of it"
    if state == "proved":
        return PROVED, "NOT REFUSED: it is still proved"
    if state not in ("not proved", "no proof") or others or not goals:
        return OTHER, f"REFUSED FOR NO GOAL ({state}): {([*others, *lines] or ['nothing is said of a goal'])[0][:300]}"
    told = ", ".join(as_told(goal, how, it.function.name, by_hand) for goal, how in goals.items())
    if {*goals.values()} == {BY_HAND}:
        return OTHER, f"REFUSED BY HAND ALONE: {told}: an answer that no longer fits may still be one of form"
    if lost and FALSE not in goals.values():
        return OTHER, f"REFUSED FOR NO GOAL: what is open ({told}) may only want the answer to {lost[0]}, which has another name or is gone"
    return REFUSED, f"{it.path} {it.function.name}: {told}"


def name_of(crate, place):
    return "::".join([crate, *place.split("/")])


def may_fail(name, crate, made):
    """Returns whether the function is a wrong body, a part of one, as a closure is, or proved together with one."""
    plain = name.replace(INSIDE, "::", 1)
    for spot in (spot for it, spot in made.items() if it.edit != CONTROL):
        own = name_of(crate, spot.place)
        if plain == own or plain.startswith(f"{own}::") or name in [name_of(crate, it) for it in spot.members]:
            return True
    return False


def named_holes(told):
    """Returns of each function that rests on holes which these are. Of many the prover may say that they are the same as those of another function."""
    found = [it for it in map(FUNCTION.match, told.split("\n")) if it and it[2] == "depends on a hole"]
    said = {it[1]: it[3].translate(PLAIN) for it in found}
    named = {name: {*QUOTED.findall(text)} for name, text in said.items() if not SAME.match(text)}
    return {name: named.get(SAME.match(text)[1], set()) if SAME.match(text) else named[name] for name, text in said.items()}


def faults_of_stubs(told, stubs_holes):
    """Returns what shows that something rests on more than stubs: a hole that is none of theirs."""
    holes = named_holes(told)
    others = {name: those - {*stubs_holes.values()} for name, those in holes.items()}
    wrong = [f"{name} rests on {min(those)}" for name, those in others.items() if those]
    return wrong + [f"{name} rests on a hole of which nothing is said" for name, those in holes.items() if not those]


def ended(status, told, states, stubs_holes):
    """Returns how the check has to end, and how it did: its status, and its last line. This counts the functions of which something is said, and
    those that are proved, or, where there are stubs, what these leave open."""
    counted = {name: state for name, state in states.items() if INSIDE not in name}
    proved, left = [*counted.values()].count("proved"), len({*counted} & {*stubs_holes})
    last = told.rstrip("\n").rpartition("\n")[2]
    if not stubs_holes:
        return (int(proved < len(counted)), f"only={len(counted)} proved={proved}"), (status, last)
    return (int(left > 0 or proved < len(counted)), f"only={len(counted)} holes={left}"), (status, last)


def faults(crate, status, told, made, stubs_holes=MappingProxyType({})):
    """Returns what shows that the check says nothing of the wrong bodies: a function that isn't proved and may not fail, one of which nothing is said, a
    complaint of something else, or another end than the count of what was said. Of stubs the theorems are given that they leave open, by functions."""
    states = states_of(told)
    found = [f"{name} is {state}" for name, state in states.items() if state != "proved" and not may_fail(name, crate, made)]
    asked = [name_of(crate, it) for spot in made.values() for it in (spot.place, *spot.members)]
    found += [f"{name} is not there" for name in dict.fromkeys(asked) if name not in states]
    found += [it for at, lines in complaints(told, made).items() if at is None or at.edit == CONTROL for it in lines]
    found += faults_of_stubs(told, stubs_holes)
    wanted, was = ended(status, told, states, stubs_holes)
    if wanted != was:
        found.append(f"the check ended with status {was[0]} and {was[1][:200]}, and not with {wanted[0]} and {wanted[1]}")
    return found


def verdicts(crate, status, told, made, stubs_holes=MappingProxyType({})):
    """Returns what each copy or turned function comes to and what is to be said of it, and what is wrong with the check as a whole: then nothing of it
    counts."""
    states, said, wrong = states_of(told), complaints(told, made), faults(crate, status, told, made, stubs_holes)
    found = {it: verdict(it, states.get(name_of(crate, at.place)), said.get(it, []), at.searched, at.by_hand) for it, at in made.items()}
    if wrong:
        found = {it: (OTHER, f"NOT TRIED: {wrong[0][:300]}") for it in found}
    return found, wrong


def of_edits(found):
    """Returns for each edit whether it was refused, and what is to be said of it: one of its copies has to be, and the others refused or proved."""
    said = {}
    for it, (kind, text) in found.items():
        said.setdefault(it.edit, {}).setdefault(kind, []).append(text)
    said.pop(CONTROL, None)
    first = {edit: next(of[it] for it in (OTHER, REFUSED, PROVED) if it in of) for edit, of in said.items()}
    return {edit: (OTHER not in said[edit] and REFUSED in said[edit], "; ".join(texts)) for edit, texts in first.items()}

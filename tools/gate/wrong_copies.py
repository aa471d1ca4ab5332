"""Copies of a crate in which each edit of must-fail is a function of its own, beside the original: for try_edits.py.

An edit that turns bodies of functions gets a copy of each of these, called NAME_as_EDIT, right after the original, with a copy of the
original's proof files. Nothing of the originals is changed. For each function with an edit there is one more copy that is not turned,
NAME_as_it_stands: it has to be proved, so that no wrong copy is refused for its name alone. Copies of a method have its type in their names,
NAME_of_TYPE_as_EDIT, since a file may have methods of one name for several types.

A copy of a function that calls itself, or that is proved together with others (`#[cycle(..)]`), calls the originals, and is in no cycle. So
its proof files are those answers of the cycle's that are its own (alone), and it need not fall by the cycle's measure: a body that breaks just
this is refused where it is written in place (spots_of), in a copy of the crate of its own.
"""

import collections
import os
import re
import shutil

PARTS = ("src", "specs", "proofs")
# The edit that changes nothing.
CONTROL = "it_stands"
HEAD = re.compile(r"( *)(?:pub(?:\([^)]*\))? )?(?:const )?fn (\w+)")
# What is above a function and belongs to it.
ABOVE = re.compile(r" *(?:///|//|#\[)")
CYCLE = re.compile(r" *#\[cycle\((\w+)\)\]")
TYPE = re.compile(r"^(?:pub(?:\([^)]*\))? )?(?:struct|enum) (\w+)", re.M)

# A function by its lines, counted from 0: its comments and attributes, its head, the brace that opens its body, and its last.
Function = collections.namedtuple("Function", "name indent first head opens last")
# A copy: its edit, the file that it is in, the original, its own name, and its lines.
Copy = collections.namedtuple("Copy", "edit path function name lines")
# A function that an edit turns in place.
Turned = collections.namedtuple("Turned", "edit path function")
# Where a copy or a turned function is: its path in the crate, as the folder of its proof files; its lines, counted from 1; and for a
# turned one the name of its cycle of calls, which is its own where it is in none, and the paths of all functions in that; and the goals
# that its proof file answers by a plain search, which the prover makes anyway, and those that it answers by hand.
Spot = collections.namedtuple("Spot", "place lines cycle members searched by_hand", defaults=[frozenset(), frozenset()])
# An answer in a proof file, and one that is a plain search.
ANSWERED = re.compile(r"^pub (\S+) : goal\.\1$", re.M)
# An answer in the proof file of a cycle: its goal, after a word for the kind of those that are no theorems.
OF_CYCLE = re.compile(r"^(?:abbrev )?pub (decreases-|invariant-|)(\S+) : goal\.\1\2$", re.M)
SEARCHED = re.compile(r"^pub (\S+) : goal\.\1\n\1(?: \w+)* = search rules$", re.M)
# A line that takes places from a cycle's goals, and an answer whose first part is a measure's.
PLACES = re.compile(r"^(use \S*\+\S*\.Goals\.\{)([^}]*)\}\n", re.M)
MEASURED = re.compile(r" c = \(omega ")
# What a function with a type parameter requires, in a cycle: it is last there.
LAST_REQUIRED = re.compile(r"\bc\.requires(?:\.1)+(?![\w.])")


class Left(Exception):
    """An edit that turns more than bodies of functions: it is left to `rt must-fail`."""


class Bad(Exception):
    """An edit that shows nothing, and fails."""


def end_of(lines, head, indent):
    """Returns the line that ends the function, or nothing where none of its own does: it has no body, or one on a single line."""
    for at in range(head, len(lines)):
        if lines[at] == indent + "}":
            return at
        if at > head and (found := HEAD.match(lines[at])) and len(found[1]) <= len(indent):
            return None
    return None


def opening_of(lines, head, last, indent):
    """Returns the line with the brace that opens the function's body: clauses are further in than the function."""
    for at in range(head, last):
        if lines[at] == indent + "{" or lines[at].endswith(" {") and lines[at][len(indent)] != " ":
            return at
    return None


def functions_in(text):
    """Returns the functions of a file that `rt fmt` laid out, but those whose body is on one line."""
    lines, found = text.split("\n"), []
    for head, line in enumerate(lines):
        named = HEAD.match(line)
        last = end_of(lines, head, named[1]) if named else None
        opens = opening_of(lines, head, last, named[1]) if last else None
        if opens is None:
            continue
        first = head
        while first and ABOVE.match(lines[first - 1]):
            first -= 1
        found.append(Function(named[2], named[1], first, head, opens, last))
    return found


def owner_of(lines, function):
    """Returns the type whose method the function is, or nothing at a file's top."""
    if not function.indent:
        return ""
    above = next((it for it in reversed(lines[: function.head]) if it and it[0] not in " }/#"), "")
    named = re.fullmatch(r"impl(?:<.*?>)? (\w+)(?:<.*>)? \{", above)
    if function.indent != "    " or not named or " for " in above:
        raise Left("its function stands in an impl of a trait, or in an item")
    return named[1]


def turned(old, new):
    """Returns the functions whose bodies alone differ."""
    before, after = old.split("\n"), new.split("\n")
    changed = [at for at, pair in enumerate(zip(before, after)) if pair[0] != pair[1]]
    if len(before) != len(after) or not changed:
        raise Bad("it changes nothing, or the number of lines")
    functions = functions_in(old)
    found = [[it for it in functions if it.opens < at < it.last] for at in changed]
    if any(len(it) != 1 for it in found):
        raise Left("it turns more than bodies of functions")
    return [*dict.fromkeys(it for (it,) in found)]


def calls_itself(name, lines):
    called = rf"(?:(?<![\w:.])|\b(?:Self::|self\.|self::|crate::)){name}(?:\(|::)"
    return re.search(called, "\n".join(lines)) is not None


def cycle_named(lines, function):
    """Returns the name of the cycle that the function is said to be in, or nothing."""
    named = filter(None, map(CYCLE.match, lines[function.first : function.head]))
    return next((it[1] for it in named), "")


def is_free(text, function):
    """Returns whether the function calls neither itself nor others that call it."""
    lines = text.split("\n")
    return not cycle_named(lines, function) and not calls_itself(function.name, lines[function.opens + 1 : function.last])


def snake(name):
    """Returns the name of a type as one of a function has it: `PairBound` as `pair_bound`."""
    return re.sub(r"(?<!^)(?=[A-Z])", "_", name).lower()


def copy_of(text, path, function, edit):
    """Returns a copy of this function as this file has it, for this edit. It is in no cycle."""
    lines = text.split("\n")
    owner = owner_of(lines, function)
    name = f"{function.name}_of_{snake(owner)}_as_{edit}" if owner else f"{function.name}_as_{edit}"
    above = [it for it in lines[function.first : function.head] if not CYCLE.match(it)]
    head = lines[function.head].replace(f"fn {function.name}", f"fn {name}", 1)
    return Copy(edit, path, function, name, (*above, head, *lines[function.head + 1 : function.last + 1]))


def text_of(path):
    with open(path, encoding="utf-8") as file:
        return file.read()


def functions_of(texts, folder, edit):
    """Returns the functions that the edit turns which makes these contents of the crate's files, each with its file."""
    if not re.fullmatch(r"\w+", edit) or edit == CONTROL:
        raise Bad("its name is none for a function")
    found = []
    for path, text in texts.items():
        if not path.startswith("src/"):
            raise Left("it turns a file of specs or proofs")
        old = text_of(f"{folder}/{path}")
        for function in turned(old, text):
            owner_of(old.split("\n"), function)
            found.append((path, function))
    return found


def copies_for(texts, folder, edit):
    """Returns the wrong copies of the edit that makes these contents of the crate's files, one of each function that it turns, and whether one of
    these calls itself, or others that call it."""
    found = functions_of(texts, folder, edit)
    are_free = [is_free(text, it) for path, it in found for text in (text_of(f"{folder}/{path}"), texts[path])]
    return [copy_of(texts[path], path, it, edit) for path, it in found], not all(are_free)


def controls(folder, copies):
    """Returns for each function that has a wrong copy one without an edit."""
    found = {(it.path, it.function): text_of(f"{folder}/{it.path}") for it in copies}
    return [copy_of(text, *at, CONTROL) for at, text in found.items()]


def files_below(folder, *parts):
    walked = (found for part in parts for found in os.walk(f"{folder}/{part}"))
    return sorted(f"{at}/{name}" for at, _, names in walked for name in names)


def file_of_type(folder, path, name):
    """Returns the file that declares the type whose methods are in this one: this one, where it does."""
    sources = [it for it in files_below(folder, "src") if it.endswith(".rt")]
    found = [os.path.relpath(it, folder) for it in sources if name in TYPE.findall(text_of(it))]
    if path not in found and len(found) != 1:
        raise Left(f"it isn't known which file declares {name}")
    return path if path in found else found[0]


def place_of(folder, path, lines, function):
    """Returns the function's path in the crate, as folder of its proof files: of `get` of `Parts`, which src/a.rt declares, it is a/Parts/get."""
    owner = owner_of(lines, function)
    path = file_of_type(folder, path, owner) if owner else path
    module = "" if path in ("src/lib.rt", "src/main.rt") else path.removeprefix("src/").removesuffix(".rt")
    return "/".join(it for it in (module, owner, function.name) if it)


def answers_in(folder, *names):
    """Returns the goals that the proof files in these folders of proofs answer by a plain search, and those that they answer by hand."""
    texts = [text_of(it) for it in (f"{folder}/proofs/{it}/Answers.antt" for it in names) if os.path.isfile(it)]
    searched = frozenset(goal for text in texts for goal in SEARCHED.findall(text))
    return searched, frozenset(goal for text in texts for goal in ANSWERED.findall(text)) - searched


def places(room, path, copies):
    """Returns where each copy in this file of the room is."""
    text = text_of(f"{room}/{path}")
    lines, found = text.split("\n"), collections.defaultdict(list)
    for it in functions_in(text):
        found[it.name].append(it)
    if any(len(found[it.name]) != 1 for it in copies):
        raise Bad(f"a copy in {path} is not found, or its name is taken")
    made = {it: found[it.name][0] for it in copies}
    return {it: Spot(place_of(room, path, lines, at), range(at.first + 1, at.last + 2), "", ()) for it, at in made.items()}


def cycle_folders(place, cycle):
    """Returns the folders of proof files that a cycle may have, nearest first: beside those of a function that is in it, or further up."""
    above = place.split("/")[:-1]
    return ["/".join([*above[:count], f"+{cycle}"]) for count in range(len(above), -1, -1)] if cycle else []


def cycle_of(text, function):
    """Returns the name of the cycle that the function is in, which is its own where it just calls itself, and the functions that are."""
    lines = text.split("\n")
    cycle = cycle_named(lines, function)
    return cycle or function.name, [it for it in functions_in(text) if cycle_named(lines, it) == cycle] if cycle else [function]


def spots_of(texts, folder, edit):
    """Returns where the functions are that the edit turns which makes these contents of the crate's files: it changes no number of a line."""
    found = {}
    for path, function in functions_of(texts, folder, edit):
        text = text_of(f"{folder}/{path}")
        cycle, together = cycle_of(text, function)
        members = tuple(place_of(folder, path, text.split("\n"), it) for it in together)
        own = range(function.first + 1, function.last + 2)
        place = place_of(folder, path, text.split("\n"), function)
        found[Turned(edit, path, function)] = Spot(place, own, cycle, members, *answers_in(folder, place, *cycle_folders(place, cycle)))
    return found


def controls_in_place(spots):
    """Returns where these functions are in a room that doesn't turn them: of all that is said there, none may be of them, so they have no lines."""
    return {it._replace(edit=CONTROL): spot._replace(lines=range(0)) for it, spot in spots.items()}


def own_places(line, name):
    """Returns a line that takes places from a cycle's goals with those of the function of this name, as they are where that is in no cycle; nothing where
    it has none."""
    places = [it.removeprefix(f"{name}-") for it in line[2].split(", ") if it.startswith(f"{name}-")]
    return f"{line[1]}{', '.join(places)}}}\n" if places else ""


def is_measured(goal, item, members):
    """Returns whether an answer is one to what a call of one of these requires, with a measure by which it falls."""
    return goal.endswith("-requires") and goal.split("-")[0] in members and bool(MEASURED.search(item))


def alone(text, name, is_only, members=()):
    """Returns what a cycle's proof file has for the function of this name, as it is where that is in no cycle with these: its goals have no such name,
    which they don't have in a cycle of one either, and its answers aren't given that all fall by a measure. Those of the measure go, also what a
    call of one of these requires: beside the measure it is left to the search. What it requires itself is all that it does there."""
    found = []
    for item in (text if is_only else PLACES.sub(lambda line: own_places(line, name), text)).split("\n\n"):
        of = OF_CYCLE.search(item)
        own = of and (of[2] if is_only else of[2].removeprefix(f"{name}-"))
        if not of:
            found.append(item)
        elif "c.decreases" not in item and of[1] + of[2] != f"decreases-{name}" and (is_only or own != of[2]) and not is_measured(own, item, members):
            item = LAST_REQUIRED.sub("c.requires", item)
            found.append(re.sub(rf"(?<!\S)(goal\.)?{re.escape(of[1] + of[2])}((?: g)?)(?: t(?= c =))?(?!\S)", rf"\g<1>{of[1]}{own}\g<2>", item))
    return "\n\n".join(found)


def copy_proof(room, crate, original, place, turn=lambda text: text):
    """Copies what is in the original's folder of proof files, renamed. A name of the original's own modules becomes one of the copy's."""
    old, new = (it.replace("/", ".") for it in (original, place))
    named = re.compile(rf"(Rattle\.{crate}\.(?:proofs|specs\.contracts)\.){re.escape(old)}(?=[.\s])")
    for at, _, names in os.walk(f"{room}/proofs/{original}"):
        to = f"{room}/proofs/{place}{at.removeprefix(f'{room}/proofs/{original}')}"
        os.makedirs(to, exist_ok=True)
        for name in names:
            text = turn(text_of(f"{at}/{name}"))
            with open(f"{to}/{name}", "w", encoding="utf-8") as file:
                file.write(named.sub(rf"\g<1>{new}", text))


def copy_proofs(room, crate, folder, it, place):
    """Copies the proof files of a copy's original, and of those of its cycle what is its own."""
    text = text_of(f"{folder}/{it.path}")
    original = place_of(folder, it.path, text.split("\n"), it.function)
    copy_proof(room, crate, original, place)
    cycle, together = cycle_of(text, it.function)
    at = next((at for at in cycle_folders(original, cycle) if os.path.isdir(f"{room}/proofs/{at}")), "")
    if at and not is_free(text, it.function):
        name = original.removeprefix(at.rpartition("+")[0]).replace("/", "::")
        copy_proof(room, crate, at, place, lambda text: alone(text, name, len(together) == 1, {it.name for it in together}))


def write_copies(room, path, copies):
    """Writes the copies of a file's functions into it, each after its original."""
    with open(f"{room}/{path}", encoding="utf-8") as file:
        lines = file.read().split("\n")
    for it in sorted(copies, key=lambda it: -it.function.last):
        at = it.function.last + 1
        lines[at:at] = ["", *it.lines]
    with open(f"{room}/{path}", "w", encoding="utf-8") as file:
        file.write("\n".join(lines))


def copy_crate(room, folder):
    for part in PARTS:
        if os.path.isdir(f"{folder}/{part}"):
            shutil.copytree(f"{folder}/{part}", f"{room}/{part}")


def make_room(room, crate, folder, copies):
    """Writes the crate with its copies into the room. Returns where each copy is."""
    copy_crate(room, folder)
    found = {}
    for path in {it.path for it in copies}:
        inside = [it for it in copies if it.path == path]
        write_copies(room, path, inside)
        found.update(places(room, path, inside))
    for it, spot in found.items():
        copy_proofs(room, crate, folder, it, spot.place)
        found[it] = Spot(spot.place, spot.lines, spot.cycle, spot.members, *answers_in(room, spot.place))
    return found


def make_edited_room(room, folder, texts):
    """Writes the crate with these contents of its files into the room."""
    copy_crate(room, folder)
    for path, text in texts.items():
        with open(f"{room}/{path}", "w", encoding="utf-8") as file:
            file.write(text)

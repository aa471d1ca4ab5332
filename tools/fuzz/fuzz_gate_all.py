"""What tools/fuzz/fuzz.py asks of an answer of `gate-all`: what it says agrees with `gate`, `types` and `show` of the same two sides."""

import re

# A cause with its readings: the case, the length, the message, both types, and the readings, together and each.
CAUSE = re.compile(
    rb"cause (\S+) (\d+) (\S+) \d+ (\S+)\.\w+ (?:-|\S+) (\S+)\.\w+ .*\n"
    rb"(old\n((?:.+\n)*?)new\n((?:.+\n)*?))(?=cause |compatible |breaks |removed |added |\Z)")


class Answer:
    """The lines of `gate-all --explain`: its causes, the line of each type of both sides, and what only one side has."""

    def __init__(self, said):
        self.causes = [it.groups() for it in CAUSE.finditer(said)]
        self.types = re.findall(rb"^((?:compatible|breaks) (\S+)(?: (\d+))?)\n", said, re.M)
        self.removed, self.added = (re.findall(rb"^%s (\S+)\n" % word, said, re.M) for word in (b"removed", b"added"))
        self.plain = CAUSE.sub(lambda it: it[0][: -len(it[6])], said)

    def status(self):
        return 2 if self.removed else 1 if self.causes else 0


def faults(answer, status, old_types, new_types):
    """Yields what is wrong with an answer, by the types of both sides."""
    if status != answer.status():
        yield f"status {status}, and not {answer.status()}"
    names = [name for _, name, _ in answer.types]
    if names != [it for it in old_types if it in new_types]:
        yield "the types of both sides"
    if answer.removed != [it for it in old_types if it not in new_types]:
        yield "what was removed"
    if answer.added != [it for it in new_types if it not in old_types]:
        yield "what was added"
    lengths = {name: int(length) for _, name, length in answer.types if length}
    if bool(lengths) != bool(answer.causes):
        yield "causes, and what breaks"
    for _, length, witness, old, new, *_ in answer.causes:
        if len(witness) != 2 * int(length):
            yield "the length of a cause"
        if old == new and old in names and lengths.get(old, int(length) + 1) > int(length):
            yield "a cause that is shorter than what breaks in its type"


def faults_beside_gate(answer, said, type_):
    """Yields what is wrong beside what `gate` says of a type: a verdict, or that a side lacks it."""
    lines = [line for line, _, _ in answer.types] + [b"removed " + it for it in answer.removed]
    verdict = said.partition(b"\n")[0]
    if verdict == b"refused E902":
        verdict = b"removed " + type_
    if verdict == b"refused E901":
        if any(line.split()[1] == type_ for line in lines):
            yield "a type that the old side lacks"
    elif verdict not in lines:
        yield f"no line {verdict.decode()}"

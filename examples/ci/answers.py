"""What protogate answers for each type of both sides, the causes of what breaks, and what is refused."""

import os
import re
import shlex
from bisect import bisect_left

from calls import Stop, nearest, plain, side_by_side
from runs import overviews_of
from sides import MENDED_BY_PROTOC
from walks import is_skipped
from ways import MOST_TYPES, pair_of
from witnesses import add_witness, settle_field, settle_readings

WAYS = ("forward", "backward")
# With as many names the name of a removed type is compared.
MOST_NEAR = 64


def last_part(name):
    return name.rpartition(".")[2]


class Added:
    """The types that only the new side has, by their last parts, to guess how a removed one is called now."""

    def __init__(self, old, new):
        self.names = sorted((last_part(it), it) for it in new.declared if it not in old.declared)

    def nearest(self, name):
        """Returns the type that a removed one probably is, or nothing: one with the same last part, or one that is spelled much like it. Of
        many types only its neighbours in alphabetical order are looked at."""
        last = last_part(name)
        at = bisect_left(self.names, (last,))
        beside = self.names[max(0, at - MOST_NEAR // 2) : at + MOST_NEAR // 2]
        return nearest(name, [it for part, it in beside if part == last]) or nearest(name, [it for _, it in beside])


def pairs_of(name, old, new):
    """Yields the two source files of a type: each old one that declares it with the new one of the same path, of several paths with each, and
    with each new one that didn't declare it before. Where that leaves none, the old one comes with each new one, or with nothing."""
    there = new.declared.get(name, [])
    fresh = [it for it in there if it not in old.declared[name]]
    for file in old.declared[name]:
        found = {}
        for path in old.counterparts.get(file, (file,)):
            mine = [it for it in there if it == path or it in fresh]
            found.update(dict.fromkeys(mine or ([] if new.hides(path) else there or [None])))
        yield from ((file, it) for it in found)


def judge(name, old, new, ways, added):
    """Yields the answers for a type that either side has, or that is named; those of two source files have no verdict yet. There is none
    where the other side's file is refused."""
    base = {"type": name, "direction": "forward", "steps": [], "old_file": None, "new_file": None}
    if name not in old.declared and name not in new.declared:
        known = sorted({*old.declared, *new.declared})
        yield {**base, "verdict": "refused", "said": "E901", "status": 2, "nearest": nearest(name, known)}
    elif name not in old.declared:
        known = [it for it in new.declared[name] if not old.hides(it)]
        if known:
            yield {**base, "verdict": "added", "status": 0, "new_file": known[0]}
    else:
        for old_file, new_file in pairs_of(name, old, new):
            if new_file:
                yield from ({**base, "direction": way, "old_file": old_file, "new_file": new_file, "verdict": None} for way in ways)
            else:
                yield {**base, "verdict": "removed", "status": 2, "old_file": old_file, "nearest": added.nearest(name)}


class Findings:
    """What the runs say: the length of each type's shortest message that breaks, or None, by direction, type and both source files; what is
    refused, by both source files; and the causes that the wanted types lead to, each once."""

    def __init__(self, old, new, wanted, is_recorded):
        self.old, self.new, self.is_recorded = old, new, is_recorded
        self.wanted = dict.fromkeys((it["type"], it["old_file"], it["new_file"]) for it in wanted)
        self.lengths, self.refused, self.causes = {}, {}, {}

    def gate(self, way, options):
        """Gates the source files of the wanted types in one direction."""
        pairs = dict.fromkeys(it[1:] for it in self.wanted)
        pairs = [it for it in pairs if it not in self.refused]
        for run, overview in overviews_of(pairs, self.old, self.new, way, options):
            if overview.refused:
                for pair in run.pairs:
                    self.refused.setdefault(pair, (overview.refused, overview.status))
            else:
                self.take(run, overview, way)

    def take(self, run, overview, way):
        breaking = []
        for name, length in overview.types.items():
            key = (name, run.old.names[name], run.new.names[name])
            if self.lengths.setdefault((way, *key), length) != length:
                raise Stop(3, f"protogate has two answers for {name}: {length} and {self.lengths[(way, *key)]}")
            if length is not None and key in self.wanted:
                breaking.append(name)
        if overview.causes:
            self.take_causes(run, overview, way, breaking)

    def take_causes(self, run, overview, way, breaking):
        """Takes the causes that the breaking types lead to. Where another type breaks than those that lead to a cause, or a cause is one that
        none leads to, it isn't an answer, and the run stops."""
        pairs = [pair_of(it) for it in overview.causes]
        leading = overview.ways.leading_to(pairs)
        odd = [name for name, length in overview.types.items() if (length is not None) != ((name, name) in leading)]
        odd += [it["fields"][0]["old"] for it, pair in zip(overview.causes, pairs) if pair not in overview.ways.held]
        if odd:
            raise Stop(3, f"what protogate says of {odd[0]} and of the causes doesn't agree")
        types = overview.ways.types_of(breaking, MOST_TYPES if self.is_recorded else 1)
        for cause, pair in zip(overview.causes, pairs):
            if pair in types:
                cause["types"] = [*types[pair]] * self.is_recorded
                self.note(cause, run, way, pair if way == "forward" else pair[::-1])

    def note(self, cause, run, way, pair):
        files = (run.old.names.get(pair[0]), run.new.names.get(pair[1]))
        names = (it[side] for it in cause["fields"] for side in ("old", "new"))
        key = (way, cause["case"], cause["number"], cause["witness"], *files, *names)
        if key in self.causes:
            types = self.causes[key]["types"]
            types += [it for it in cause["types"] if it not in types][: MOST_TYPES - len(types)]
            return
        for field in cause["fields"]:
            settle_field(field, self.old, self.new, way, (run.old.names, run.new.names))
        shown = [file and side.shown(file) for side, file in zip((self.old, self.new), files)]
        cause.update(direction=way, readings=settle_readings(cause["readings"], way), old_file=shown[0], new_file=shown[1])
        cause["is_by_names"] = cause["case"] == "name" or differs_by_names(cause)
        self.causes[key] = cause

    def settle(self, answer):
        """Completes an answer for two source files, and returns whether there is one: a refusal is told once."""
        pair = (answer["old_file"], answer["new_file"])
        key = (answer["direction"], answer["type"], *pair)
        if pair in self.refused:
            said, status = self.refused[pair]
            answer.update(verdict="refused", said=said, status=status)
            return answer["direction"] == "forward"
        if key not in self.lengths:
            raise Stop(3, f"protogate wasn't asked for {answer['type']} of {plain(answer['old_file'])}")
        length = self.lengths[key]
        if length is None:
            answer.update(verdict="compatible", said=answer["type"], status=0)
        else:
            answer.update(verdict="breaks", said=f"{answer['type']} {length}", status=1, length=length)
        return True


def gated(judged, old, new, call):
    """Gates what was judged and has no verdict, and returns the answers for each type, and the causes of what breaks."""
    wanted = [it for of_one in judged for it in of_one if it["verdict"] is None]
    findings = Findings(old, new, wanted, bool(call.record))
    options = ["--view", call.view] if call.view else []
    for way in WAYS[: 1 + call.both] if wanted else ():
        findings.gate(way, options)
    answers = [[it for it in of_one if it["verdict"] or findings.settle(it)] for of_one in judged]
    # A type that is named has its own shortest message too.
    breaking = [it for of_one in answers for it in of_one if call.types and it["verdict"] == "breaks"]
    side_by_side(lambda it: add_witness(it, old, new, options), breaking)
    for it in breaking:
        it["is_by_names"] = differs_by_names(it)
    return answers, list(findings.causes.values())


def refusals_of(side):
    """Yields what a side's files are refused for, each fault once."""
    for (said, status), files in side.refusals.items():
        code, _, place = said.partition(" ")
        parts = re.fullmatch(r"(.+):(\d+):(\d+)", place)
        file = parts[1] if parts else place or files[0]
        line = side.line_at(place) if parts else None
        text = (line or "").encode("utf-8", "surrogateescape").decode("utf-8", "replace").strip()
        side.excerpts[side.shown(place or files[0])] = line
        imported = re.search(r"""["'](.+)["']""", text) if code == "E301" else None
        says = [side.protoc_says[it] for it in files if it in side.protoc_says]
        # Of imports that are missing, protoc may bring those of the library.
        may_help = code in MENDED_BY_PROTOC and not side.made and (code != "E301" or imported and imported[1].startswith("google/protobuf/"))
        yield {"side": side.name, "code": code, "place": side.shown(place or files[0]), "file": side.shown(file), "text": text, "status": status,
               "texts": files, "nearest": nearest(imported[1], side.files) if imported else None, "protoc": bool(may_help),
               "protoc_says": says[0] if says else None, "advice": None}
    for file, why in side.needing.items():
        more = side.protoc_says.get(file) or ("" if side.made else "protoc may make a set without that file")
        yield unread_refusal(side, file, "import", f"{why} ({more})" if more else why)


def told_once(old, new):
    """Yields the refusals of both sides. A file that isn't proto3 on either side, or needs what is left out on both, is told of the new side
    alone."""
    there = {it["file"]: it for it in new if it["code"] in ("E201", "import")}
    for it in old:
        again = there.get(it["file"]) if it["code"] in ("E201", "import") else None
        if again and again["code"] == it["code"]:
            again["texts"] = list(dict.fromkeys([*again["texts"], *it["texts"]]))
        else:
            yield it
    yield from new


def gate_all(old, new, call):
    """Returns the answers, by old file and order of declaration, the causes of what breaks, and the refusals: with names, those that may hide
    a named type."""
    wanted = call.types or [*old.declared, *(it for it in new.declared if it not in old.declared)]
    wanted = [it for it in wanted if it not in call.skip.types]
    added = Added(old, new)
    found, causes = gated([list(judge(it, old, new, WAYS[: 1 + call.both], added)) for it in wanted], old, new, call)
    answers = [it for of_one in found for it in of_one]
    is_hidden = not all(found) or any(it["verdict"] in ("removed", "refused", "added") for it in answers)
    is_hidden = is_hidden or any(new.hides(file) for it in wanted for file in old.declared.get(it, []))
    is_hidden = is_hidden or any(old.hides(file) for it in wanted for file in new.declared.get(it, []))
    is_hidden = is_hidden or call.types and any(side.may_declare(it) for side in (old, new) for it in wanted)
    refusals = list(told_once(list(refusals_of(old)), list(refusals_of(new)))) if not call.types or is_hidden else []
    unread = [it for side in (old, new) for it in unread_of(side, call.skip.paths)]
    return answers, causes, refusals + unread + list(passed_by(old, new, answers, wanted, call.skip.paths))


def unread_refusal(side, path, kind, why):
    """Returns a refusal that isn't the program's: its kind comes in place of the code, and its advice says what to do."""
    return {"side": side.name, "code": kind, "place": path, "file": path, "text": "", "status": 2, "texts": [path], "nearest": None,
            "protoc": False, "protoc_says": None, "advice": f"{why}, or leave it out: --skip {shlex.quote(plain(path))}"}


def unread_of(side, skipped):
    """Yields a refusal for each path of a side that couldn't be walked or laid out."""
    for path, (kind, why) in side.unread.items():
        if not is_skipped(path, skipped):
            yield unread_refusal(side, path, kind, why)


def passed_by(old, new, answers, wanted, skipped):
    """Ends each run: yields a refusal for whatever was neither gated nor skipped nor refused, so that nothing goes unseen. It compares with
    the paths that git lists, with those that were found, and with the declarations of the wanted types. A path that the work tree no longer
    has is gated on the old side."""
    for side in (old, new):
        for path in side.all_texts():
            is_gone = side is new and old.looked_at(path) and not os.path.lexists(os.path.join(new.laid.folder, path))
            if not side.looked_at(path) and not is_gone and not is_skipped(path, skipped):
                yield unread_refusal(side, path, "unseen", f"{plain(path)} is in git's list, and wasn't found where the {side.name} side is read")
    for side, other, key in ((old, new, "old_file"), (new, old, "new_file")):
        answered = {(it["type"], it[key]) for it in answers}
        settled = {it["type"] for it in answers if it["verdict"] in ("added", "refused")}
        for name in wanted:
            for file in side.declared.get(name, []):
                if (name, file) not in answered and name not in settled and not other.hides(file):
                    yield unread_refusal(side, file, "unseen", f"{name} of {plain(file)} wasn't gated")


def differs_by_names(answer):
    """Returns whether both sides show the same numbers in a witness, however their fields are called: then an enum's names differ."""
    shown = [re.sub(r"^( *\d+) \S+", r"\1", lines, flags=re.M) for lines in answer.get("readings", {}).values()]
    return len(shown) == 2 and shown[0] == shown[1] and re.search("^again ", shown[0], re.M) is not None

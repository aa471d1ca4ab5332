"""All that a run found, of each release and in each direction, put together: each thing once, with the releases that have it."""

from . import settings, words
from .asking import FORWARD, Place
from .git import did_you_mean
from .running import plain
from .words import Finding, listed

PASSED_OVER = {"hidden": "what is in a hidden folder isn't gated", "other": "a file is gated only if its name ends in .proto, in small letters"}


class Findings:
    def __init__(self, call, new):
        self.call, self.new, self.olds, self.ways, self.passed_over = call, new, [], call.directions(), {}
        # By what makes each the same: the thing itself, and the releases that have it. Verdicts are by their word, the direction and the type.
        self.causes, self.verdicts, self.faults, self.notes = {}, {}, {}, {}
        # By the code and the path of a fault, the roots that aren't gated for it, with their paths; and by its name the types of a method's pair.
        self.roots, self.pairs = {}, {}
        self.types, self.paths, self.stops, self.by_protoc = set(), set(), [], set()
        self.see(new)

    def see(self, side):
        if side.snapshot:
            self.paths.update(side.snapshot.entries, side.snapshot.folders, side.snapshot.closed)
        self.passed_over.update(side.told)

    def note(self, known, key, it, release):
        releases = known.setdefault(key, (it, []))[1]
        if release not in releases:
            releases.append(release)

    def stopped(self, release, stop):
        self.olds.append(release)
        self.stops.append((release, stop))

    def take(self, release, is_last, old, results, by_path):
        self.olds.append(release)
        self.see(old)
        for fault in (*self.new.faults, *old.faults, *(it for found in results.values() for it in found.faults)):
            key = (fault.side, fault.code, fault.place and fault.place.path, fault.says)
            self.note(self.faults, key, fault, release)
            self.roots.setdefault(key[1:3], {})[fault.root] = (self.new if fault.side == "new" else old).roots.get(fault.root)
        for direction, found in results.items():
            self.types.update(found.types)
            self.pairs.update(found.pairs)
            breaks = False
            for name, (verdict, length) in found.types.items():
                is_asked = self.call.wants(found.pairs.get(name, (name,)), direction, is_last, by_path)
                if self.is_wanted(name) and (is_last if verdict == "added" else verdict == "removed" or is_asked):
                    self.note(self.verdicts, (verdict, direction if verdict in ("breaks", "compatible") else None, name), length, release)
                    breaks |= verdict == "breaks"
            for it in found.causes.values() if breaks else ():
                self.note(self.causes, it.key, it, release)
            for it in found.notes:
                key = (it["what"], it["number"], *(it[side] and it[side].name for side in ("old", "new")))
                if not any(key_of(it[side]) & self.call.skips.types for side in ("old", "new")):
                    self.note(self.notes, key, it, release)

    def is_wanted(self, name):
        """Returns whether a type is named or all are, and isn't skipped. A method's pair has its own name and that of the new type."""
        names, named = {name, *self.pairs.get(name, ())[1:]}, self.call.said.type
        return self.call.skips.types.isdisjoint(names) and (not named or not names.isdisjoint(named))

    def of(self, verdict):
        """Yields the direction and the name of each type with a verdict, the length of a message that breaks, and the releases that have it."""
        live = {(cause.direction, it) for cause, releases in self.causes.values() if not self.call.acceptance.of(cause) for it in releases}
        for (told, direction, name), (length, releases) in self.verdicts.items():
            releases = [it for it in releases if verdict != "breaks" or (direction, it) in live]
            if told == verdict and releases:
                yield direction, name, length, releases

    # What is said of all this.

    def since(self, releases, direction=None):
        """Returns in which direction something is, where there are two, and in which releases, where these are several."""
        said = [direction] if direction and FORWARD in self.ways else []
        if len(self.olds) > 1:
            said.append(f"since {releases[0]}" if releases == self.olds[-len(releases):] else f"in {listed(releases)}")
        return " ".join(said)

    def all(self):
        skipped, idle = self.call.skips.told(self.types, self.paths)
        says = {it: f"{it.shown} leaves it out{until_of(it.until)}{f': {it.reason}' if it.reason else '.'}" for it in skipped}
        skips = [Finding("skipped", "", it.said, says=says[it]) for it in skipped]
        return [*self.told_causes(), *self.told_faults(), *self.told_types(), *skips, *self.told_notes(), *self.told(idle)]

    def moved(self, what=None):
        """Returns by type and number where the field is now that has had this number, as notes say."""
        notes = [it for it, _ in self.notes.values() if it["now"] is not None and it["old"] and what in (None, it["what"])]
        return {(it["old"].name.rpartition(".")[0], it["number"]): it["now"] for it in notes}

    def told_causes(self):
        moved, accepted = self.moved(), []
        for cause, releases in self.causes.values():
            number, old, _ = cause.fields[0]
            details = {"direction": cause.direction, "message": cause.message, "number": cause.number, "releases": releases,
                       "readings": cause.readings, "fields": [field_of(*it) for it in cause.fields]}
            about = {"subject": ", ".join(it.name for _, it, _ in cause.fields), "place": cause.fields[-1][2].place,
                     "since": self.since(releases, cause.direction), "details": details}
            by = self.call.acceptance.of(cause)
            if by:
                until = min((it.until for it in by if it.until), default=None)
                says = f"{words.why(cause)} Accepted{until_of(until)}: {' '.join(dict.fromkeys(it.reason for it in by))}"
                accepted.append(Finding("accepted", cause.why, says=says, **about))
            else:
                mend = words.mend(cause, moved.get((old.name.rpartition(".")[0], number)))
                yield Finding("cause", cause.why, says=words.why(cause), mend=mend, status=1, page=words.WHY_PAGE, **about)
        yield from accepted

    def told_faults(self):
        over = [("accept", it.field, it) for it in self.call.acceptance.over]
        for kind, name, it in [*over, *(("skip", it.said, it) for it in self.call.settings.skips if self.call.settings.is_over(it))]:
            says = f"{it.shown} ended on {it.until}. Its reason was: {it.reason}"
            yield Finding("refused", kind, f"{name} {it.until}", None, says, "Take it out, or give it a later day if the reason still holds.", 2)
        for release, stop in self.stops:
            yield Finding("refused", "stopped", release, says=str(stop), status=stop.status)
        if not self.faults and not self.stops:
            for it in sorted(set(self.call.said.type) - self.types - {name for pair in self.pairs.values() for name in pair}):
                says = f"Neither side has such a type{did_you_mean(it, sorted(self.types))}"
                yield Finding("refused", "type", it, says=says, status=4)
        both = {key[1:3] for key in self.faults if key[0] == "new"}
        for key, (fault, releases) in self.faults.items():
            if fault.side == "new" or key[1:3] not in both:
                page = f"{words.ERRORS_PAGE}#{fault.code}" if fault.code[:1] == "E" else ""
                roots = [path for path in self.roots[key[1:3]].values() if path and path != key[2]]
                for_it = f" Not gated for it: {listed([plain(it) for it in roots], 3)}." if roots else ""
                yield Finding("refused", fault.code, fault.side, fault.place, f"{fault.says}{for_it}", status=fault.status,
                              since=self.since(releases) if fault.side == "old" else "", page=page, side=fault.side)

    def told_types(self):
        for direction, name, length, releases in self.of("breaks"):
            pair = self.pairs.get(name)
            was = f"It was {words.code(pair[0])} and is {words.code(pair[1])} now. " if pair else ""
            yield Finding("breaks", "", name, says=f"{was}The shortest message that breaks has {length} bytes.", status=1,
                          since=self.since(releases, direction), details={"length": length, "direction": direction, "releases": releases})
        added = [name for _, name, *_ in self.of("added")]
        for _, name, _, releases in self.of("removed"):
            says = f"The new side has no such type{did_you_mean(name, [plain(it) for it in added])}"
            mend = f"If that is meant: --skip type:{plain(name)}. If it came to the branch after yours left it: --merge-base BRANCH."
            yield Finding("removed", "", name, None, says if says.endswith("?") else f"{says}.", mend, 2, self.since(releases))
        yield from (Finding("added", "", name, says="Only the new side has it.") for name in added)

    def told_notes(self):
        strict, others = self.call.strict, self.moved("field-renamed")
        for it, releases in self.notes.values():
            yield words.note(it, "all" in strict or it["what"] in strict, others)._replace(since=self.since(releases))

    def told(self, idle):
        """Yields what changes no status: what is left out for its name, and what of the settings says nothing here."""
        call = self.call
        for kind, why in PASSED_OVER.items():
            paths = sorted(path for path, it in self.passed_over.items() if it == kind)
            if paths:
                yield Finding("told", kind, f"{len(paths)} files", Place(paths[0]), f"{why}: {listed([plain(it) for it in paths], 3)}.")
        if call.differs:
            yield Finding("told", "settings", settings.FILE, Place(settings.FILE), call.differs)
        for it in idle:
            yield Finding("told", "skip", it.said, says=f"{it.shown} names nothing{did_you_mean(it.name, sorted(self.types | self.paths))}")
        for it in call.acceptance.idle():
            says = f"{it.shown} accepts nothing that is there ({it.case}, {it.old} to {it.new}): take it out."
            yield Finding("told", "accept", it.field, says=says)
        if self.by_protoc:
            says = f"Gated by the sets that protoc makes: {listed([plain(it) for it in sorted(self.by_protoc)], 3)}."
            yield Finding("told", "protoc", f"{len(self.by_protoc)} files", says=says)
        if call.left_out:
            yield Finding("told", "releases", listed(call.left_out), says=f"Not gated: {call.compatibility} is about the last release alone.")
        broken = {(direction, name) for direction, name, *_ in self.of("breaks")}
        compatible = [it[:2] for it in self.of("compatible") if it[:2] not in broken]
        if call.said.types:
            yield from (Finding("compatible", "", name, since=direction if FORWARD in self.ways else "") for direction, name in compatible)
        count = len({name for _, name in compatible} - {name for _, name in broken} - set(self.pairs))
        if count and not call.said.types:
            yield Finding("compatible", "", f"{count} type{'s' * (count > 1)}")
        if not self.types and not self.faults and not self.stops:
            yield Finding("told", "empty", "no message types")


def field_of(number, old, new):
    side = {name: {"name": it.name, "type": it.element, "place": list(it.place) if it.place else None} for name, it in (("old", old), ("new", new))}
    return {"number": number, **side}


def key_of(field):
    return {field.name.rpartition(".")[0], field.name} if field else set()


def until_of(day):
    return f" until {day}" if day else ""

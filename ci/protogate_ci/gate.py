"""Gates the message types of a repository: may the new side be released, where messages of the old one are about?

The old side is a revision, the new side the work tree, unless options say otherwise. The first words name the revision and the folders, from which
imports count. Each line begins with one of these words, and two more lines say what it means and what to do:

  cause CASE FIELD POSITION        the field breaks by itself
  breaks TYPE LENGTH               some message of this type breaks; the shortest has that many bytes
  refused SIDE CODE POSITION       what isn't gated
  removed TYPE, added TYPE         one side alone has it
  accepted .., skipped ..          what the settings or a baseline accept, or leave out
  warning KIND NAME POSITION       what breaks no message, and hurts elsewhere; with --strict it fails
  told ..                          what is left out for its name, and what is idle
  compatible COUNT types

backward: new programs read old messages. forward: old programs read new ones. full: both. With -transitive all releases are meant, and else the last.

`protogate-ci init [FOLDER..]` writes protogate.ini, and says which files can be gated. Where nothing names a folder, buf.yaml and buf.work.yaml do.

The status is the highest of these: 0 all may be released; 1 breaks; 2 removed, refused, or a warning that is strict; 3 out of memory, or a file or a
program failed; 4 a wrong call; 5 too old a protogate; 127 none, or too old a git or Python.
"""

import argparse
import contextlib
import fnmatch
import os
import sys

from . import buf, forms, methods, protoc, settings, sources
from .asking import BACKWARD, FORWARD, Asked, Fault, Place, Side, library_of, look_for_program, types_of
from .findings import Findings
from .git import Repository, did_you_mean
from .running import STATE, Ended, Stop, end_by_signal, on_signals, plain, room
from .settings import COMPATIBILITIES, Skip, Skips, file_of
from .snapshot import Snapshot, is_below, is_skipped, unseen
from .words import NOTES, Finding

NAME = "protogate-ci"
DIRECTIONS = {"backward": (BACKWARD,), "forward": (FORWARD,), "full": (BACKWARD, FORWARD)}
TRANSITIVE = "-transitive"
# Options that hold a word each, which a command or a variable may have left empty.
SIDES = (("merge-base", "BRANCH", "old", "the old side is the commit where this branch was left"),
         ("old-folder", "PATH", "old", "the old side is a folder, whatever git knows of it"),
         ("old-set", "FILE", "old", "the old side is a descriptor set or an image"),
         ("new", "REVISION", "new", "the new side is a revision"), ("new-folder", "PATH", "new", "the new side is a folder"),
         ("new-set", "FILE", "new", "the new side is a descriptor set or an image"),
         ("base", "REVISION", "whose", "take protogate.ini as it was there: in a pull request, at the target branch"),
         ("settings", "FILE", "whose", "take the settings of this file, for which you vouch"))


class Parser(argparse.ArgumentParser):
    def error(self, message):
        raise Stop(4, f"{message} ({NAME} --help says more)")


def parser_of():
    made = Parser(prog=NAME, description=__doc__, formatter_class=argparse.RawDescriptionHelpFormatter, allow_abbrev=False)
    made.add_argument("words", metavar="REVISION FOLDER", nargs="*", help="the old side, unless an option names it, and the folders to gate")
    groups = {name: made.add_mutually_exclusive_group() for name in ("old", "new", "whose")}
    for name, metavar, group, what in SIDES:
        groups[group].add_argument(f"--{name}", metavar=metavar, help=what)
    groups["new"].add_argument("--staged", action="store_true", help="the new side is what is staged")
    groups["whose"].add_argument("--no-settings", action="store_true", help="take none")
    made.add_argument("--include", metavar="FOLDER", action="append", help="look for imports in this folder too")
    made.add_argument("--type", metavar="NAME", action="append", default=[], help="gate this type alone, as often as needed")
    made.add_argument("--skip", metavar="NAME", action="append", default=[], help="leave out type:NAME or path:NAME")
    made.add_argument("--compatibility", choices=COMPATIBILITIES, help="who reads whose messages")
    made.add_argument("--view", choices=("numbers", "names"), help="compare enums by numbers alone, or by names too")
    made.add_argument("--strict", metavar="KIND", action="append", help="fail on warnings of this kind, or on `all`")
    made.add_argument("--with-protoc", action=argparse.BooleanOptionalAction, help="gate what is refused as the set that protoc makes of it")
    made.add_argument("--time-limit", metavar="SECONDS", help="end each program that runs longer")
    made.add_argument("--baseline", metavar="FILE", help="accept the causes of this file, as it was at the revision of the settings")
    made.add_argument("--types", action="store_true", help="name each compatible type")
    made.add_argument("--github", action="store_true", help="print annotations for GitHub, and write the step's summary")
    for name, what in (("write-baseline", "a baseline that accepts what breaks now"), *forms.FILES.items()):
        made.add_argument(f"--{name}", metavar="FILE", help=f"write {what}")
    made.add_argument("--version", action="store_true", help="print the program's version")
    return made


class Call:
    """What is asked: the words of the call, completed by the settings that count."""

    def __init__(self, said):
        self.said, self.left_out, self.laid = said, [], {}
        for name in (*(it[0] for it in SIDES), "baseline"):
            if getattr(said, name.replace("-", "_")) == "":
                raise Stop(4, f"--{name} is empty: the command or variable that it comes from gave nothing")
        names_old = said.merge_base or said.old_folder or said.old_set
        self.revision, self.folders = (None, said.words) if names_old else (said.words[0], said.words[1:]) if said.words else (None, [])
        is_outside = (said.old_folder or said.old_set) and (said.new_folder or said.new_set)
        self.repository = None if is_outside else Repository.here()
        self.base = self.base_of()
        self.settings = self.base.settings()
        self.complete(self.settings.said)
        skips = [*(Skip(it, f"--skip {it}") for it in said.skip), *(it for it in self.settings.skips if not self.settings.is_over(it))]
        self.skips = Skips([it for it in skips if not self.is_named(it)])
        self.acceptance = settings.Acceptance(self.settings, self.baseline())
        self.differs = settings.difference(self.base, self.repository) if self.repository else None

    def complete(self, known):
        said = self.said
        self.view, self.compatibility = said.view or known.get("view", "numbers"), said.compatibility or known.get("compatibility")
        self.by_name = {**({"": self.compatibility} if self.compatibility else {}), **self.settings.by_name}
        self.strict = set(said.strict or known.get("strict", ()))
        for it in self.strict.difference(NOTES, ["all"]):
            raise Stop(4, f"there is no kind of warning {plain(it)}{did_you_mean(it, list(NOTES))}; there are all, {', '.join(NOTES)}")
        self.with_protoc = known.get("with-protoc") == "yes" if said.with_protoc is None else said.with_protoc
        try:
            STATE.limit = settings.seconds(said.time_limit) if said.time_limit is not None else known.get("time-limit", STATE.limit)
        except ValueError as fault:
            raise Stop(4, f"--time-limit is {fault}") from None
        self.includes = [self.from_top(it) for it in said.include] if said.include is not None else known.get("include", [])
        self.folders = [self.from_top(it) for it in self.folders] or known.get("folder", [])
        if not self.folders and self.base.revision is not None:
            self.folders = buf.folders_of(lambda name: file_of(self.repository, self.base.revision, name))

    def is_named(self, skip):
        """Stops where the call names a type that is left out: there would be no answer for it."""
        if skip.kind != "path" and skip.name in self.said.type:
            raise Stop(4, f"{plain(skip.name)} is named, and left out too: {plain(skip.shown)}")

    def base_of(self):
        said = self.said
        if said.settings is not None:
            return settings.Base(settings.read_named("--settings", said.settings), os.path.normpath(said.settings))
        revision = said.base or self.revision or (self.repository.merge_base(said.merge_base) if said.merge_base else None)
        if revision is None and not (said.old_folder or said.old_set or said.no_settings):
            raise Stop(4, "name REVISION and FOLDER, or where the settings are from that name them: --base REVISION or --settings FILE")
        if said.no_settings or not (revision and self.repository):
            return settings.Base(None, "--no-settings")
        return settings.Base(file_of(self.repository, revision), settings.FILE, revision)

    def from_top(self, folder):
        return self.repository.from_top(folder) if self.repository else os.path.normpath(folder or ".")

    def baseline(self):
        """Returns what the baseline accepts. One that is in the work tree counts as it was at the revision of the settings: a change doesn't decide
        about itself."""
        path, revision = self.said.baseline, self.base.revision
        if path is None:
            return []
        inner = os.path.relpath(os.path.realpath(path), os.path.realpath(self.repository.top)) if self.repository else ".."
        if revision is None or inner.startswith(".."):
            return settings.read_baseline(settings.read_named("--baseline", path), path)
        data = file_of(self.repository, revision, inner)
        if data is None:
            raise Stop(4, f"--baseline: {plain(revision)} has no file {plain(inner)}: name with --base a revision that has it, or --settings FILE")
        return settings.read_baseline(data, f"{inner} of {revision}")

    # The sides.

    def olds(self):
        """Returns the old sides, each by its kind and its name: the releases, the oldest first."""
        said, repository = self.said, self.repository
        if said.old_set is not None or said.old_folder is not None:
            return [("set", said.old_set) if said.old_set is not None else ("folder", said.old_folder)]
        if said.merge_base is not None:
            return [("revision", repository.merge_base(said.merge_base))]
        found = [self.revision] if self.revision is not None else settings.releases_of(self.settings.said.get("releases", []), repository.tags())
        if not found:
            raise Stop(4, "name REVISION, or give the settings `releases`")
        if "" in self.by_name and not any(it.endswith(TRANSITIVE) for it in self.by_name.values()):
            self.left_out, found = found[:-1], found[-1:]
        return [("revision", it) for it in found]

    def new(self):
        said = self.said
        named = (("set", said.new_set), ("folder", said.new_folder), ("revision", said.new), ("staged", "what is staged" if said.staged else None))
        return next((it for it in named if it[1] is not None), ("now", ""))

    def side(self, which, side, room, library):
        kind, name = side
        if kind == "set":
            return Side(which, room, sources.descriptor_set(name, room))
        if not self.folders:
            raise Stop(4, "name a FOLDER, or give the settings `folder`")
        if kind in ("revision", "staged"):
            tree = self.repository.commit_of(name) if kind == "revision" else self.repository.staged(room)
            source = sources.Tree(self.repository, tree, plain(name), room)
        else:
            source = sources.Folder(name, plain(name)) if kind == "folder" else sources.WorkTree(self.repository)
        made = Side(which, room, snapshot=Snapshot(source, self.folders, self.includes))
        made.lay(self.skips.paths, library, self.laid)
        return made

    # Directions.

    def words_for(self, name, by_path):
        """Returns the words that count for a type: that of the last pattern that it is like, or else those of the folders that have it. The word of
        all counts where it is in none, or elsewhere too. Where nothing is said, each release that is named counts."""
        like = [word for it, word in self.by_name.items() if it.startswith("type:") and fnmatch.fnmatchcase(name, it[5:])]
        words = like[-1:] or [self.by_name[f"path:{it}"] for it, names in by_path.items() if it and name in names]
        return words if like or words and name not in by_path.get("", ()) else [*words, self.by_name.get("", BACKWARD + TRANSITIVE)]

    def directions(self):
        words = {it.replace(TRANSITIVE, "") for it in (self.by_name.get("", BACKWARD), *self.settings.by_name.values())}
        return [it for it in (BACKWARD, FORWARD) if any(it in DIRECTIONS[word] for word in words) or it == BACKWARD and self.strict]

    def wants(self, names, direction, is_last, by_path):
        words = [it for name in names for it in self.words_for(name, by_path) if is_last or it.endswith(TRANSITIVE)]
        return any(direction in DIRECTIONS[it.replace(TRANSITIVE, "")] for it in words)

    def by_path(self, sides, left, by_protoc):
        """Returns the types of each folder that has a compatibility of its own: those that its files declare or import. Those of all other files come
        under no name. `left` has the files that are refused."""
        folders = [it[5:] for it in self.settings.by_name if it.startswith("path:")]
        found = {it: set() for it in (*folders, "")} if folders else {}
        for folder in found:
            def is_meant(path, folder=folder):
                return is_below(path, (folder.rstrip("/"),)) if folder else not any(is_below(path, (it.rstrip("/"),)) for it in folders)
            asked = [(side, [name for name, path in side.roots.items() if name not in left and is_meant(path)]) for side in sides]
            for group, _, made in by_protoc:
                if any(is_meant(side.roots[it]) for side in sides for it in group if it in side.roots):
                    asked += [(it, list(it.roots)) for it in made.sides.values()]
            for told in (types_of(side, roots) for side, roots in asked):
                if told is None:
                    raise Stop(3, f"which types {plain(folder or 'each folder')} has isn't known, so that [for path:..] can't be heeded")
                found[folder] |= told
        return found


def gate_release(call, old, new, room):
    """Returns what is found of an old side and the new one, by direction, and what was gated by protoc's sets. A root that one side
    leaves out is left out on both."""
    asked, left, directions = Asked(old, new, call.view), refused_on_one_side(old, new), call.directions()
    first = asked.found(directions[0], left)
    by_protoc = list(protoc.gated(old, new, first.faults, directions, call.view, room)) if call.with_protoc else []
    mended = {it for group, *_ in by_protoc for it in group}
    faults = [it for it in first.faults if it.root not in mended]
    mine = {side: {it.root for it in first.faults if it.side == side and it.root is not None} for side in ("old", "new")}
    if mended or mine["old"].intersection(new.roots) != mine["new"].intersection(old.roots):
        left |= mine["old"] | mine["new"]
        first = asked.found(directions[0], left)
        faults += first.faults
    first.faults[:] = faults
    results = {directions[0]: first, **{it: asked.found(it, left) for it in directions[1:]}}
    methods.gate(asked, results, left | mine["old"] | mine["new"])
    for _, found, made in by_protoc:
        methods.gate(made, found)
        for direction, it in found.items():
            results[direction].take(it)
    return results, by_protoc


def refused_on_one_side(old, new):
    """Returns the roots of either side whose path, or a folder around it, the other side refuses."""
    refused = {side: {it.place.path for it in side.faults} for side in (old, new)}
    return {name for side, other in ((old, new), (new, old)) for name, path in side.roots.items() if is_below(path, refused[other])}


def gated(call, within):
    library = library_of(within)
    new = call.side("new", call.new(), within, library)
    olds = call.olds()
    findings = Findings(call, new)
    for release in olds:
        name = release[1]
        try:
            old = call.side("old", release, within, library)
            if not (old.roots or new.roots or old.faults or new.faults or call.skips.paths):
                raise Stop(4, f"{plain(', '.join(call.folders))} has no file whose name ends in .proto, at {plain(name)} or now")
            if new.snapshot and old.snapshot:
                gone = [Fault("new", kind, Place(path), why) for path, (kind, why) in unseen(old.snapshot, new.snapshot).items()]
                old.faults += [it for it in gone if not is_skipped(it.place.path, call.skips.paths)]
            results, by_protoc = gate_release(call, old, new, within)
            mended = {it for group, *_ in by_protoc for it in group}
            findings.by_protoc |= mended
            left = {it.root for found in results.values() for it in found.faults} | mended
            findings.take(name, release == olds[-1], old, results, call.by_path((old, new), left, by_protoc))
        except Stop as stop:
            if len(olds) == 1 or stop.status > 4:
                raise
            findings.stopped(name, stop)
    return findings


def main(words):
    on_signals()
    for stream in (sys.stdout, sys.stderr):
        getattr(stream, "reconfigure", dict)(encoding="utf-8", errors="backslashreplace")
    call = None
    try:
        if words[:1] == ["init"]:
            look_for_program()
            return buf.init(words[1:])
        said = parser_of().parse_intermixed_args(words)
        version = look_for_program()
        if said.version:
            print(version)
            return 0
        call = Call(said)
        with room() as within:
            findings = gated(call, within)
        return forms.printed(call, findings, version)
    except Stop as stop:
        print(f"{NAME}: {plain(str(stop))}", file=sys.stderr)
        with contextlib.suppress(Stop):
            forms.told(call, [Finding("refused", "stopped", "", says=str(stop), status=stop.status)], [], version) if call else None
        return stop.status
    except Ended:
        end_by_signal()

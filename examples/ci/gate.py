"""Gates the message types of a folder against a revision of git, with protogate: may the folder be released as it is?

The old side is FOLDER as it was at REVISION, the new side is FOLDER in the work tree. Each message type of the old side is gated,
or each that is named. One run reports all that breaks, each cause once:

  cause CASE LENGTH HEX NUMBER OLDFIELD OLDPOSITION NEWFIELD NEWPOSITION
                                   why something breaks, with a message of the type that has the field. For two fields that meet in a
                                   oneof the last four words come twice. The next line says it in a sentence, after two spaces
  refused SIDE CODE POSITION       a file of that side has an error; its types aren't gated
  refused SIDE KIND PATH           a path can't be gated: a submodule, link, file, folder or name, or one that was missed, or is there twice,
                                   or that needs a file which is skipped and refused, or isn't proto3
  refused E901 TYPE                neither side has the type that is named
  breaks TYPE LENGTH               the length of the shortest message of this type that breaks. If the type is named, the message follows,
                                   as 'witness HEX at OLDFIELD OLDPOSITION NEWFIELD NEWPOSITION'
  removed TYPE                     the new side has no such type
  added TYPE                       only the new side has it: nothing can break
  compatible COUNT types           with --types, and of types that are named, a line 'compatible TYPE' each
  no message types                 both sides were read, and neither declares one
  refused skip NAME DAY            a skip of the settings had that last day
  skipped NAME                     --skip leaves it out, or a skip of the settings, with 'until DAY' for its last day

With --both a line of what is gated begins with 'forward', or with 'backward' for what old programs read of new messages.

Each file whose name ends in .proto is read, also through links that stay in FOLDER and in submodules that are checked out. What can't be
read is a line and status 2, unless --skip names it. Imports are found below FOLDER, below each --include, and where the library is installed.
A name of --skip that is both a type and a path says which: type:NAME or path:NAME.
A file that is refused, as one with custom options, is gated as the set that protoc makes of it, where protoc is on the path.

The status is the highest of these: 0 compatible or added; 1 breaks; 2 removed or refused; 3 out of memory, or a file, the program or this
script failed; 4 a wrong call; 127 no protogate that is proved, or too old a git or Python. Advice and warnings go to standard error; where
that is a terminal, an error is shown with its line. protogate is the one that PROTOGATE names, else the one beside an installed
protogate-ci, else that of the path.

What a call leaves out is taken from protogate.ini at the top of the repository, as it was at REVISION or at the revision that --base names: a
change doesn't decide about itself. Several releases there are gated one after another.
"""

import argparse
import json
import os
import sys
import traceback

import calls
import outputs
from answers import gate_all
from bases import base_of, difference, has_settings
from calls import Stop, called, did_you_mean, look_for_program, plain, side_by_side
from cautions import cautions_of
from counterparts import counterparts
from endings import Ended, end_by_signal, on_signals, room as new_room
from records import VERSION
from repositories import top_of_work_tree
from roots import Root, Roots, library, may_import_library
from settings import MOST_SECONDS, TIME_LIMIT, VIEWS, completed, seconds
from sides import Side
from skips import paths_of
from trees import Place, advice_on_branch, commit_of, lay_out, no_folder, of_work_tree
from walks import Walk
from wording import advise, print_all, print_skips, say, warn_of_settings

# As users call this.
NAME = os.environ.get("PROTOGATE_CI_NAME") or "gate.sh"


class Parser(argparse.ArgumentParser):
    def error(self, message):
        self.print_usage(sys.stderr)
        raise Stop(4, message)


class Version(argparse.Action):
    """Prints the version of the records that are written, and that of the program."""

    def __call__(self, *_):
        print(f"{NAME}, which writes records of version {VERSION}")
        sys.stdout.flush()
        look_for_program()
        print(os.fsdecode(called("--version")[1]), end="")
        sys.exit(0)


def whole_seconds(said):
    """Returns the seconds that an option says."""
    try:
        return seconds(said)
    except ValueError as fault:
        raise argparse.ArgumentTypeError(f"it is {fault}") from None


def add_settings(parser):
    """Adds the options that say where the settings are from."""
    ways = parser.add_mutually_exclusive_group()
    ways.add_argument("--base", metavar="REVISION", help="take protogate.ini as it was there: in a pull request, at the target branch")
    ways.add_argument("--settings", metavar="FILE", help="take the settings of this file, for which the caller vouches")
    ways.add_argument("--no-settings", action="store_true", help="take none")


def parser_of():
    made = Parser(prog=NAME, description=__doc__, formatter_class=argparse.RawDescriptionHelpFormatter, allow_abbrev=False)
    made.add_argument("revision", metavar="REVISION", nargs="?", help="a tag, a branch or a commit")
    made.add_argument("folder", metavar="FOLDER", nargs="?", help="below the folder where it is called; imports count from it")
    made.add_argument("types", metavar="TYPE", nargs="*", default=[], help="the full name of a message type")
    made.add_argument("--include", metavar="FOLDER", action="append", default=[],
                      help="look for imports in this folder of the repository too, on the old side as it was at REVISION")
    made.add_argument("--skip", metavar="NAME", action="append", default=[],
                      help="leave out a type, or a file or a folder below FOLDER; type:NAME or path:NAME says which")
    add_settings(made)
    made.add_argument("--types", dest="names_types", action="store_true", help="name each compatible type, in the place of a count")
    made.add_argument("--both", action=argparse.BooleanOptionalAction, help="ask for both directions, or forward alone")
    made.add_argument("--view", choices=VIEWS, help="compare enums by numbers alone, or by names too")
    made.add_argument("--with-protoc", action=argparse.BooleanOptionalAction,
                      help="where a file is refused, gate the set that protoc makes of it, or don't; by default where protoc is on the path")
    made.add_argument("--time-limit", metavar="SECONDS", type=whole_seconds,
                      help=f"end each program that runs longer, with status 3: 1 to {MOST_SECONDS}, by default {TIME_LIMIT}")
    made.add_argument("--github", action="store_true", help="print annotations for GitHub, too")
    made.add_argument("--record", metavar="FILE", help="write all that was found as JSON, for a report")
    made.add_argument("--version", action=Version, nargs=0, help="print the version of records, and the program's")
    return made


def parsed(words):
    """Returns what the words call for, completed by the settings of the base revision."""
    parser = parser_of()
    call = parser.parse_intermixed_args(words)
    if call.revision is None and call.base is None and call.settings is None and not call.no_settings:
        parser.error("name REVISION and FOLDER, or where the settings are from that name them: --base REVISION (in a pull request: the target "
                     "branch) or --settings FILE")
    top, call.base_settings = top_of_work_tree(), base_of(call)
    missing = completed(call, call.base_settings.settings(), top)
    if missing:
        parser.error(missing)
    if call.record is not None:
        outputs.place_of(call.record)
    call.skip.refuse(call.types)
    calls.LIMIT.seconds = call.time_limit
    warn_of_settings(difference(call.base_settings, top), call.github)
    return call


def words_of(call, commit):
    """The words that call for the same answers, without what else is printed or written of them. They say what the settings said, so the
    revision's own settings have no say."""
    options = ["--both"] * call.both + (["--view", call.view] if call.view else [])
    options += {True: ["--with-protoc"], False: ["--no-with-protoc"], None: []}[call.with_protoc]
    options += ["--time-limit", str(call.time_limit)] * (call.time_limit != TIME_LIMIT)
    includes = [word for it in call.include for word in ("--include", it)]
    skipped = [word for it in call.skip.skips for word in ("--skip", it.said)]
    alone = ["--no-settings"] * has_settings(commit)
    return [NAME, *options, *includes, *skipped, *alone, call.revision, call.folder, *call.types]


def side_of(name, places, laid, library_root, room, skipped):
    """Returns a side: its folder, the first of these, with those where its imports are looked for too."""
    there = [(place, it) for place, it in zip(places, laid) if it]
    walks = [Walk(it.folder, place.folder, it.files_outside, skipped if it is laid[0] else ()) for place, it in there]
    roots = [Root(it.folder, walk, place.top, it.unread) for (place, it), walk in zip(there, walks)]
    if library_root and may_import_library(roots):
        roots.append(library_root)
    return Side(name, laid[0], Roots(roots, room))


def laid_out(call, commit, places, is_here, room):
    """Lays out the old side of a call. A folder for imports may be missing on one side: `is_here` says which folders are there now."""
    laid = [lay_out(commit, it, room) for it in places]
    if not laid[0]:
        raise no_folder(call.revision, commit, places[0].folder)
    for place, old_one, is_now in list(zip(places, laid, is_here))[1:]:
        if not old_one and not is_now:
            raise Stop(4, f"--include: there is no folder {plain(place.folder)}, at {plain(call.revision)} or now")
    return laid


def here(places, is_here):
    """Returns the new side of a call, the folders of the work tree."""
    folder = places[0].folder
    if not is_here[0]:
        folders = [it for it in os.listdir(".") if os.path.isdir(it)]
        raise Stop(4, f"there is no folder {plain(folder)}{did_you_mean(folder, folders)}")
    return [of_work_tree(place) if it else None for place, it in zip(places, is_here)]


def sides_of(call, commit, places, room):
    """Returns both sides of a call, once their source files are read. While git lays out the old side, the new one is read."""
    is_here = [os.path.isdir(it.folder) for it in places]
    library_root = library(room)

    def made(name):
        laid = laid_out(call, commit, places, is_here, room) if name == "old" else here(places, is_here)
        side = side_of(name, places, laid, library_root, room, call.skip.paths)
        side.read(call.skip.paths, room, call.with_protoc)
        return side

    return side_by_side(made, ["old", "new"])


def say_what_is_passed_over(sides, said):
    """Says what is left out for its name, unless it was said of another release."""
    whys = {"hidden": "what is in a hidden folder isn't gated", "other": "a file is only gated if its name ends in .proto, in small letters"}
    for kind, why in whys.items():
        paths = sorted({plain(path) for side in sides for path, it in side.walk.passed_over.items() if it == kind})
        words = f"{why}: {', '.join(paths[:3])}" + f", and {len(paths) - 3} more" * (len(paths) > 3)
        if paths and words not in said:
            said.add(words)
            advise(words)


def say_what_protoc_made(sides, said):
    """Says how many source files are gated by protoc's sets, unless it was said of another release."""
    count = len({path for it in sides for path in it.sets})
    words = f"{count} source file{'s are' if count > 1 else ' is'} gated by the set that protoc makes of {'them' if count > 1 else 'it'}"
    if count and words not in said:
        said.add(words)
        advise(words)


def recorded(call, room):
    """Gates what the call names, and returns the record of it."""
    commit = commit_of(call.revision)
    places = [Place(it) for it in (call.folder, *call.include)]
    look_for_program()
    old, new = sides = sides_of(call, commit, places, room)
    folder = places[0].folder
    if not any(it.files or it.unread for it in sides):
        raise Stop(4, f"{plain(folder)} has no file whose name ends in .proto, at {plain(call.revision)} or now")
    old.counterparts = counterparts(old.walk, new.walk)
    say_what_is_passed_over(sides, call.said)
    say_what_protoc_made(sides, call.said)
    call.known.update(paths_of(sides).union(*(it.declared for it in sides)))
    skipped = call.skip.settle(sides, call.types)
    answers, causes, refusals = gate_all(old, new, call)
    status = max([it["status"] for it in answers + refusals], default=0)
    if any(it["verdict"] in ("breaks", "removed") for it in answers):
        advice = advice_on_branch(call.revision, commit)
        for it in answers:
            it.update({"advice": advice} if advice and it["verdict"] in ("breaks", "removed") else {})
    call.excerpts = {(it.name, place): line for it in sides for place, line in it.excerpts.items()}
    cautions = cautions_of(old, new, answers, call.types)
    is_empty = not (old.declared or new.declared or refusals or call.skip.skips or call.types)
    return {"call": words_of(call, commit), "revision": call.revision, "commit": commit, "folder": folder, "prefix": places[0].top,
            "both": call.both, "view": call.view or "numbers", "status": status, "causes": causes, "answers": answers, "refusals": refusals,
            "is_empty": is_empty, "by_protoc": {it.name: sorted(it.sets) for it in sides}, "warnings": cautions,
            "outside": {**old.outside, **new.outside}, "skipped": skipped}


def advise_on_skips(call):
    """Says which names that are left out are no names, in no release."""
    for it in call.skip.skips:
        if it.said not in call.skip.taken:
            advise(f"{it.shown} names nothing{did_you_mean(it.name, sorted(call.known))}")


def gate_releases(call):
    """Gates against each release, prints what was found, and returns the record."""
    record = {"format": "protogate-ci", "version": VERSION, "status": 2 * any(it["is_over"] for it in call.skips),
              "base": call.base_settings.revision, "settings": call.base_settings.name, "skips": call.skips, "runs": []}
    call.known, call.said = set(), set()
    print_skips(call.skips, call.base_settings.name, call.github)
    for call.revision in call.releases:
        if len(call.releases) > 1:
            say(f"== {call.revision} ==")
        with new_room() as room:
            record["runs"].append(recorded(call, room))
        print_all(record["runs"][-1], call.github, call.names_types or bool(call.types), call.excerpts if sys.stderr.isatty() else None)
        sys.stdout.flush()
    advise_on_skips(call)
    record["status"] = max([record["status"], *(it["status"] for it in record["runs"])])
    return record


def main(words):
    sys.stdout.reconfigure(errors="surrogateescape")
    sys.stderr.reconfigure(errors="backslashreplace")
    try:
        on_signals()
        call = parsed(words)
        record = gate_releases(call)
        if call.record:
            outputs.write(call.record, json.dumps(record, indent=1).encode())
    except Ended:
        end_by_signal()
    except Stop as stop:
        advise(stop)
        return stop.status
    except OSError as fault:
        advise(fault)
        return 3
    except Exception:  # pylint: disable=broad-except
        # (Python itself would end with 1, which says that a type breaks)
        advise(traceback.format_exc().rstrip())
        advise("a fault of this script: nothing is said of what wasn't printed")
        return 3
    return record["status"]

#!/bin/sh
''':'
# (A shell reads these lines, as no first line of a script can say `python3 -I` everywhere. To Python they are a string.)
exec python3 -I -B -c '
import os, sys
here = os.path.dirname(os.path.realpath(sys.argv[1]))
sys.path[:0] = [here, here + "/../examples/ci"]
try:
    from start import start
except BaseException as fault:
    os.write(2, ("report: start.py cannot be read (" + str(fault) + ")" + os.linesep).encode("utf-8", "replace"))
    os._exit(3)
start("report", "report", sys.argv[2:])
' "$0" "$@"
'''
__doc__ = """Writes one page of what examples/ci/gate.sh found: each cause, with a message that shows it as each side reads it, the fields, and how to
mend it; the types that break; what was refused and how to mend it; and warnings.

usage: gate.sh --record run.json REVISION FOLDER; tools/report.py --output report.html run.json

The page needs nothing else: no script, no other file, no network. A position is a link into the repository where the record was made on
GitHub or GitLab, or where --old-link and --new-link say how it goes, with {path} and {line} in it.
"""

import argparse
import html
import json
import os
import re
import shlex
import string
import struct
import subprocess
import sys
from collections import Counter
from urllib.parse import quote

HERE = os.path.dirname(os.path.realpath(__file__))
# What it shares with gate.py is beside it where it is installed, where nothing is to be written.
sys.dont_write_bytecode = True
sys.path += [HERE, f"{HERE}/../examples/ci"]
import outputs  # noqa: E402
from calls import Stop, plain  # noqa: E402
from causes import mend, why  # noqa: E402
from records import VERSION, read  # noqa: E402
from refusals import code_in, mend_of, sentence_of  # noqa: E402
from wording import last_fields  # noqa: E402

NAME = os.environ.get("PROTOGATE_REPORT_NAME") or "report.py"
# As many bytes of a witness, and lines of a reading, are printed.
SHOWN = 2000
# As many fields are named at the head of a cause.
MOST_NAMED = 8
SAYS = {"breaks": "breaks", "refused": "refused", "removed": "removed", "added": "new", "compatible": "compatible"}
HEADS = {"forward": "breaks old messages", "backward": "writes messages that old programs misread"}
MEND_READING = "Leave the field's type as it was, or give the new one a number of its own."
BACKWARD = "This matters where an old program reads what a new one writes: where messages go back, or both run side by side."
# What `show` alone refuses: it prints no message that is nested deeper than it goes, or that would be too long.
NOT_SHOWN = ("E001", "E607", "E608")

STYLE = """
:root { --ink: #1f2933; --dim: #5f6b76; --page: #fff; --box: #f6f8fa; --rim: #d5dbe1; --link: #0b5cad;
  --breaks: #b3261e; --refused: #9a5b00; --good: #1b7a3d; --mark: #fdecea; }
@media (prefers-color-scheme: dark) { :root { --ink: #e4e8ec; --dim: #9aa5b1; --page: #14181c; --box: #1d2329; --rim: #36404a;
  --link: #78b7ff; --breaks: #ff8f85; --refused: #f2b457; --good: #6fd08f; --mark: #46211f; } }
* { box-sizing: border-box; }
body { margin: 0 auto; padding: 1.5rem 1rem 3rem; max-width: 64rem; background: var(--page); color: var(--ink);
  font: 16px/1.5 system-ui, 'DejaVu Sans', Verdana, sans-serif; }
h1 { font-size: 1.5rem; margin: 0 0 .25rem; } h2 { font-size: 1.15rem; margin: 2rem 0 .5rem; } h3 { font-size: 1rem; margin: 0; }
a { color: var(--link); } p { margin: .4rem 0; } .dim { color: var(--dim); }
code, pre { font: .875rem/1.5 ui-monospace, 'DejaVu Sans Mono', Menlo, monospace; overflow-wrap: anywhere; }
pre { margin: 0; white-space: pre-wrap; }
.counts { display: flex; flex-wrap: wrap; gap: .5rem; margin: 1rem 0; padding: 0; list-style: none; }
.counts li, .verdict { border: 1px solid currentColor; border-radius: 1rem; padding: 0 .7rem; white-space: nowrap; }
.breaks { color: var(--breaks); } .refused, .removed { color: var(--refused); } .compatible, .added { color: var(--good); }
article { border: 1px solid var(--rim); border-radius: .5rem; padding: .8rem 1rem; margin: .8rem 0; overflow-wrap: anywhere; }
.head { display: flex; flex-wrap: wrap; gap: .3rem .7rem; align-items: baseline; }
.sides { display: grid; grid-template-columns: minmax(0, 1fr) minmax(0, 1fr); gap: .8rem; margin: .6rem 0; }
.side { background: var(--box); border-radius: .4rem; padding: .5rem .7rem; }
.side h4 { margin: 0 0 .3rem; font-size: .875rem; color: var(--dim); font-weight: 600; }
.only { display: block; background: var(--mark); margin: 0 -.3rem; padding: 0 .3rem; border-radius: .2rem; } .same { display: block; }
ol { padding-left: 1.4rem; margin: .4rem 0; } .types { columns: 18rem; padding-left: 1.2rem; }
@media (max-width: 40rem) { .sides { grid-template-columns: minmax(0, 1fr); } body { padding-top: 1rem; } }
"""
PAGE = string.Template("""<!doctype html>
<html lang="en">
<meta charset="utf-8">
<meta name="viewport" content="width=device-width, initial-scale=1">
<title>$title</title>
<style>$style</style>
$body
</html>
""")


def text(words):
    """As a page spells the words. What isn't Unicode was read as such, and is shown so."""
    return html.escape(str(words).encode("utf-8", "backslashreplace").decode())


def tag(name, inside, kind=""):
    return f"<{name}{f' class={chr(34)}{kind}{chr(34)}' if kind else ''}>{inside}</{name}>"


def code(words):
    return tag("code", text(words))


# Positions.


def links(record, environment):
    """Returns how a link to a line goes on either side, as GitHub and GitLab have them, or nothing."""
    server, repository = environment.get("GITHUB_SERVER_URL"), environment.get("GITHUB_REPOSITORY")
    if server and repository:
        base, head, mark = f"{server}/{repository}/blob", environment.get("GITHUB_SHA", "HEAD"), "#L{line}"
    elif environment.get("CI_PROJECT_URL"):
        base, head, mark = f"{environment['CI_PROJECT_URL']}/-/blob", environment.get("CI_COMMIT_SHA", "HEAD"), "#L{line}"
    else:
        return {"old": None, "new": None}
    return {"old": f"{base}/{quote(record['commit'])}/{{path}}{mark}", "new": f"{base}/{head}/{{path}}{mark}"}


def path_of(file, record):
    """Returns where a file is, from the top of the repository, or nothing where it isn't in that."""
    return record.get("outside", {}).get(file, record["prefix"] + file)


def place_of(place, record, link):
    """A position, as a link where one is known. One that is '-' is none: the side was gated as a set."""
    found = re.fullmatch(r"(.+):(\d+):\d+", place)
    if not found:
        return tag("span", "in a descriptor set", "dim") if place == "-" else code(place)
    path = path_of(found[1], record)
    shown = code((path or found[1]) + place[len(found[1]):])
    if not link or not path:
        return shown
    # (a path that a record names leads to no other host: a `:` is quoted, and it begins with no `/`)
    target = link.replace("{path}", quote(path.lstrip("/"), errors="surrogateescape")).replace("{line}", quote(found[2]))
    return f'<a href="{text(target)}">{shown}</a>'


# Readings.


def readable(item):
    """An item of `show`, with what it spells where that isn't plain."""
    found = re.fullmatch(r"(.*)\b(text|f32|f64) ([0-9a-f]+)", item)
    if not found:
        return text(item)
    data = bytes.fromhex(found[3]) if len(found[3]) % 2 == 0 else b""
    if found[2] == "text":
        spelled = json.dumps(data.decode("utf-8", "replace"), ensure_ascii=False)
    else:
        spelled = str(struct.unpack(">f" if found[2] == "f32" else ">d", data)[0]) if len(data) in (4, 8) else ""
    return f"{text(item)} {tag('span', text(spelled), 'dim')}"


def unnamed(line):
    """A line of a reading without the field's name, which says nothing on the wire."""
    return re.sub(r"^( *\d+) \S+", r"\1", line)


def only_here(lines, others):
    """Returns of each line whether the other reading hasn't it. Of equal ones the other may have fewer: it has the last, as a field keeps
    the last of several items."""
    left, found = Counter(map(unnamed, others)), []
    for line in reversed(lines):
        found.append(left[unnamed(line)] == 0)
        left[unnamed(line)] -= not found[-1]
    return found[::-1]


def reading(lines, others):
    """The lines of one reading; those that the other reading hasn't are marked."""
    marks = only_here(lines, others)
    shown = [tag("span", readable(line), "only" if is_only else "same") for line, is_only in list(zip(lines, marks))[:SHOWN]]
    more = tag("span", f"and {len(lines) - SHOWN} more lines", "dim") if len(lines) > SHOWN else ""
    return tag("pre", "".join(shown) + more)


def head_of_reading(side, line):
    """What is said over a reading and below it, by its first line."""
    if not line.startswith("refused "):
        return f"The {side} side reads", ""
    refusal = line.split()[1]
    meaning = marked(sentence_of(refusal))
    if refusal in NOT_SHOWN:
        return f"The {side} side's reading isn't shown", tag("p", meaning, "dim")
    return f"The {side} side refuses it", tag("p", f"{meaning} {tag('b', 'What to do:')} {MEND_READING}", "dim")


def readings(answer):
    lines = {side: it.strip().split("\n") for side, it in answer["readings"].items()}
    boxes = []
    for side, other in (("old", "new"), ("new", "old")):
        head, why = head_of_reading(side, lines[side][0])
        boxes.append(tag("div", tag("h4", text(head)) + reading(lines[side], lines[other]) + why, "side"))
    return tag("div", "".join(boxes), "sides")


# Fields.


def field_of(field, record, link):
    """A field, as either side declares it."""
    name = code(field["old"])
    if "number" in field:
        name = f"field {text(field['number'])}, {name}"
    if field["new"] != field["old"]:
        name += tag("div", f"now {code(field['new'])}")
    sides = []
    for side in ("old", "new"):
        declared = tag("pre", text(field[f"{side}_text"])) if field[f"{side}_text"] else ""
        sides.append(tag("div", tag("h4", f"{side}: {place_of(field[side + '_place'], record, link[side])}") + declared, "side"))
    return tag("li", f"{name}{tag('div', ''.join(sides), 'sides')}")


def listed(fields, record, link):
    return tag("ol", "".join(field_of(it, record, link) for it in fields))


def message_of(found):
    """The bytes of a witness, as far as they are printed."""
    witness = found["witness"] or "-"
    return tag("pre", text(witness if len(witness) <= 2 * SHOWN else f"{witness[:2 * SHOWN]}.."))


# Causes.


def sides_of(found):
    """The side that writes, and the one that reads."""
    return ("old", "new") if found["direction"] == "forward" else ("new", "old")


def cause_of(cause, record, link):
    """A cause: why it breaks, a message that shows it, both readings, the fields, what to do, and the types that break by it."""
    writer, _ = sides_of(cause)
    fields = [{**cause["fields"][0], "number": cause["number"]}, *cause["fields"][1:]]
    more = len(fields) - MOST_NAMED
    named = [code(it["old"]) for it in fields[:MOST_NAMED]] + [f"{more} more"] * (more > 0)
    names = " and ".join(filter(None, (", ".join(named[:-1]), named[-1])))
    way = tag("span", text(cause["direction"]), "dim") if record["both"] else ""
    owner = code(fields[0][writer].rpartition(".")[0])
    types = tag("p", f"What breaks by it: {', '.join(map(code, cause['types']))}", "dim") if cause["types"] else ""
    backward = f" {BACKWARD}" if writer == "new" else ""
    parts = [
        tag("div", f"{tag('span', text(cause['case']), 'verdict breaks')} {tag('h3', names)} {way}", "head"),
        tag("p", text(why(cause))),
        tag("p", f"The {writer} side can write this message of {owner}, of {text(cause['length'])} bytes:"),
        message_of(cause),
        readings(cause),
        listed(fields, record, link),
        tag("p", f"{tag('b', 'What to do:')} {marked(mend(cause))}{backward}"),
        types,
    ]
    return tag("article", "".join(parts))


# Answers.


def way_of(answer, record):
    """The direction of an answer, where both are asked for."""
    return answer["direction"] if record["both"] and answer["old_file"] and answer["new_file"] else ""


def head_of(answer, record):
    way = way_of(answer, record)
    way = tag("span", text(way), "dim") if way else ""
    return tag("div", f"{tag('span', SAYS[answer['verdict']], 'verdict ' + answer['verdict'])} {tag('h3', code(answer['type']))} {way}", "head")


def way_to(answer, record, link):
    """The fields on the way to what breaks; of two that meet in a oneof it is said that they do."""
    fields = last_fields(answer)
    reader = sides_of(answer)[1]
    meet = f"{code(fields[0][reader])} and {code(fields[-1][reader])} are in one oneof on the {reader} side, which keeps the last of them alone."
    return [tag("p", "The way to what breaks in it:"), listed(answer["steps"], record, link), tag("p", meet) if len(fields) == 2 else ""]


def breaking(answer, record, link):
    """A type that was named, and breaks, with its own shortest message."""
    writer, reader = sides_of(answer)
    breaks = f"The {writer} side can write this message of {text(answer['length'])} bytes"
    if answer["is_by_names"]:
        breaks += ". Both sides read the same numbers in it, but their enums give one of them other names."
    else:
        breaks += f", and the {reader} side misreads it, refuses it, or loses a value."
    parts = [head_of(answer, record), tag("p", f"{breaks} None that breaks is shorter."), message_of(answer), readings(answer),
             *way_to(answer, record, link)]
    return tag("article", "".join(parts))


def breaks_of(answers, record, link):
    """The types that break: those that were named with their own shortest messages, each other one with the call that prints that."""
    others = [it for it in answers if "witness" not in it]
    lines = []
    for it in others:
        call = tag("pre", text(shlex.join([*record["call"], it["type"]])))
        lines.append(tag("li", f"{code(it['type'])} {tag('span', text(way_of(it, record)), 'dim')}: {text(it['length'])} bytes. {call}"))
    words = "The length is that of the shortest message that breaks. The call below a type prints this message, and the way to what breaks in it."
    shown = [tag("p", words, "dim"), tag("ul", "".join(lines))] if others else []
    return [tag("h2", "Types that break"), *(breaking(it, record, link) for it in answers if "witness" in it), *shown]


def missing(answer, record):
    """A type that has no answer: it was removed, or refused."""
    near = f" Did you mean {code(answer['nearest'])}?" if answer.get("nearest") else ""
    if answer["verdict"] == "removed":
        near = f" Was it renamed to {code(answer['nearest'])}?" if answer.get("nearest") else ""
        words = "The new side has no such type, so nothing reads what is stored or sent of it."
        words += near + f" If that is meant: {code('--skip ' + answer['type'])}."
    else:
        words = f"{code('refused ' + answer['said'])}{near} {explained(answer['said'])}"
    return tag("article", head_of(answer, record) + tag("p", words))


# Refusals.


def marked(words):
    """Words of the table of codes, with its code as such."""
    return re.sub(r"`([^`]*)`", lambda it: f"<code>{it[1]}</code>", text(words))


def explained(said):
    refusal = code_in(said)
    return f"{marked(sentence_of(refusal))} {tag('b', 'What to do:')} {marked(mend_of(refusal))}" if refusal and mend_of(refusal) else ""


def by_protoc(record):
    """The call that gates what protoc makes of the files that are refused. It is that of the run: no shorter one has the old side."""
    name, *words = (it for it in record["call"] if it != "--no-with-protoc")
    return tag("p", "This call gates what protoc makes of it:") + tag("div", tag("pre", text(shlex.join([name, "--with-protoc", *words]))), "side")


def refused(refusal, record, link):
    head = f"{tag('span', 'refused', 'verdict refused')} {tag('h3', text(refusal['side'] + ' ' + refusal['code']))} "
    head += place_of(refusal["place"], record, link[refusal["side"]])
    parts = [tag("div", head, "head")]
    if refusal["text"]:
        parts.append(tag("div", tag("pre", text(refusal["text"])), "side"))
    near = f" Did you mean {code(refusal['nearest'])}?" if refusal.get("nearest") else ""
    parts.append(tag("p", (text(refusal.get("advice") or "") or explained(refusal["code"])) + near))
    if refusal["protoc"]:
        parts.append(by_protoc(record))
    if refusal["protoc_says"]:
        parts.append(tag("p", "protoc refuses it, too:") + tag("div", tag("pre", text(refusal["protoc_says"])), "side"))
    parts.append(tag("p", f"Not gated for it: {', '.join(map(code, refusal['texts']))}", "dim"))
    return tag("article", "".join(parts))


# Warnings, and skips of the settings.


def caution_of(caution, record, link):
    """A warning: what it is on, where, and its words."""
    place = caution["place"]
    is_file = not re.search(r":\d+:\d+$", place)
    place = code(path_of(place, record) or place) if is_file else place_of(place, record, link[caution["side"]])
    return tag("li", f"{code(caution['subject'])}, {text(caution['side'])} {place}: {marked(caution['words'])}")


def skip_of(skip):
    """A skip of the settings, with its reason."""
    end = "ended on" if skip["is_over"] else "is skipped until"
    head = tag("span", "refused skip", "verdict refused") if skip["is_over"] else ""
    return tag("li", f"{head} {code(skip['name'])} {end} {text(skip['until'])}: {text(skip['reason'])}")


def skipped_of(skipped):
    """What one release has of what is skipped."""
    by = f"by the settings until {skipped['until']}" if skipped["until"] else "by the call"
    return tag("li", f"{code(skipped['name'])}, a {text(skipped['kind'])}, {text(by)}")


# The page.


def headline(record):
    """What the run says of the folder."""
    broken = {it["direction"] for it in record["answers"] if it["verdict"] == "breaks"}
    if broken:
        return ", and ".join(words for direction, words in HEADS.items() if direction in broken)
    return "has types without an answer" if record["status"] else "may be released"


def summary(record):
    counts = Counter((it["verdict"], way_of(it, record)) for it in record["answers"])
    counts["refused", ""] += len(record["refusals"])
    ways = [(it, way) for it in SAYS for way in ("", "forward", "backward")]
    shown = "".join(tag("li", f"{counts[it, way]} {SAYS[it]} {way}".strip(), it) for it, way in ways if counts[it, way])
    causes = len(record["causes"])
    shown = (tag("li", f"{causes} cause{'s' * (causes > 1)}", "breaks") if causes else "") + shown
    shown += tag("li", f"{len(record['warnings'])} warning{'s' * (len(record['warnings']) > 1)}", "refused") if record["warnings"] else ""
    skipped = len(record.get("skipped", ()))
    shown += tag("li", f"{skipped} skipped", "refused") if skipped else ""
    what = f"{code(record['folder'])} against {code(record['revision'])} ({code(record['commit'][:12])})"
    by = "numbers and names" if record["view"] == "names" else "numbers"
    return (tag("h1", f"{text(record['folder'])} {headline(record)}")
            + tag("p", f"{what}. Enums are compared by {by}. The run's status is {text(record['status'])}.", "dim") + tag("ul", shown, "counts"))


def part_of(record, link):
    """What the page says of one release."""
    answers = {it: [a for a in record["answers"] if a["verdict"] == it] for it in SAYS}
    parts = [summary(record)]
    if record["causes"]:
        parts += [tag("h2", "What breaks, and why"), *(cause_of(it, record, link) for it in record["causes"])]
    if answers["breaks"]:
        parts += breaks_of(answers["breaks"], record, link)
    if record["refusals"] or answers["refused"] or answers["removed"]:
        parts += [tag("h2", "What has no answer"), *(refused(it, record, link) for it in record["refusals"])]
        parts += [missing(it, record) for it in answers["refused"] + answers["removed"]]
    if record["warnings"]:
        parts += [tag("h2", "Warnings"), tag("ul", "".join(caution_of(it, record, link) for it in record["warnings"]))]
    if record.get("skipped"):
        parts += [tag("h2", "What isn't gated, since it is skipped"), tag("ul", "".join(map(skipped_of, record["skipped"])))]
    for verdict, head in (("compatible", "Compatible"), ("added", "New types, with nothing to break")):
        if answers[verdict]:
            names = "".join(tag("li", f"{code(it['type'])} {tag('span', text(way_of(it, record)), 'dim')}") for it in answers[verdict])
            parts += [tag("h2", head), tag("ul", names, "types")]
    return "\n".join(parts)


def page_of(record, linked):
    """The page of a record: a part for each release, and what is skipped. `linked` returns how links of a run go."""
    skips = tag("ul", "".join(map(skip_of, record["skips"])))
    parts = [part_of(run, linked(run)) for run in record["runs"]]
    parts += [tag("h2", "Skipped by the settings"), skips] if record["skips"] else []
    if record.get("settings"):
        base = f", as it was at {code(record['base'])}" if record.get("base") else ""
        parts.append(tag("p", f"The settings are those of {code(record['settings'])}{base}.", "dim"))
    title = f"protogate: {record['runs'][0]['folder']} against {', '.join(it['revision'] for it in record['runs'])}"
    return PAGE.substitute(title=text(title), style=STYLE, body="\n".join(parts))


class Version(argparse.Action):
    """Prints the version of the records that are read, and that of the program, where it is installed beside."""

    def __call__(self, *_):
        print(f"{NAME}, which reads records of version {VERSION}", flush=True)
        if os.environ.get("PROTOGATE"):
            subprocess.run([os.environ["PROTOGATE"], "--version"], stdin=subprocess.DEVNULL)
        sys.exit(0)


def parsed(words):
    parser = argparse.ArgumentParser(prog=NAME, description=__doc__, formatter_class=argparse.RawDescriptionHelpFormatter, allow_abbrev=False)
    parser.add_argument("record", metavar="FILE", help="what gate.sh --record wrote")
    parser.add_argument("--output", metavar="FILE", help="write the page to this file, and to no link, in the place of standard output")
    parser.add_argument("--old-link", metavar="URL", help="how a link to a line of the old side goes, with {path} and {line}")
    parser.add_argument("--new-link", metavar="URL", help="the same of the new side")
    parser.add_argument("--version", action=Version, nargs=0, help="print the version of records, and the program's")
    return parser.parse_args(words)


def put(page, path):
    """Writes a page to a file, or prints it."""
    if path is not None:
        outputs.write(path, page)
    elif sys.stdout is None:
        raise OSError("standard output is closed")
    else:
        sys.stdout.buffer.write(page)
        sys.stdout.buffer.flush()


def made(call):
    """Returns the page of a record, and why there is none."""
    record, fault = read(call.record)
    if fault:
        return None, fault

    def linked(run):
        known = links(run, os.environ)
        return {"old": call.old_link or known["old"], "new": call.new_link or known["new"]}
    try:
        return page_of(record, linked).encode(), None
    except (LookupError, TypeError, AttributeError, ValueError) as wrong:
        return None, f"{call.record} is no whole record of version {VERSION} ({type(wrong).__name__}: {wrong}): write it anew"


def main(words):
    call, status = parsed(words), 3
    page, fault = made(call)
    if not fault:
        try:
            put(page, call.output)
        except Stop as stop:
            status, fault = 2, str(stop)
        except OSError as wrong:
            fault = str(wrong)
    if fault and sys.stderr:
        print(f"report: {plain(fault)}", file=sys.stderr)
    return status if fault else 0


if __name__ == "__main__":
    sys.exit(main(sys.argv[1:]))

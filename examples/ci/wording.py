"""What is printed of a run: its lines, advice, and annotations."""

import re
import sys

from calls import plain
from causes import mend, why
from excerpts import block
from refusals import code_in, mend_of, sentence_of, sentences_on
from settings import FILE

# As many hexadecimal digits of a witness are printed; the record has them all.
SHOWN_DIGITS = 400
# As many fields of a oneof are named in a sentence.
MOST_NAMED = 8
# What to do where protoc may help: it wasn't on the path, or the call or the settings said no.
WITH_PROTOC = "gate with protoc on the path, and without --no-with-protoc"


def advise(words):
    """Says words on standard error. Each line begins so, since GitHub takes a line that begins otherwise for a command."""
    print("\n".join(f"gate: {plain(it)}" for it in str(words).split("\n")), file=sys.stderr)


def shortened(digits):
    return digits if len(digits) <= SHOWN_DIGITS else f"{digits[:SHOWN_DIGITS]}.."


def last_fields(answer):
    """Returns the steps of what breaks: the last one, or the last two where these fields meet in a oneof. Those are of one pair of types,
    which no way to a shortest message passes twice."""
    owners = [(step["old"].rpartition(".")[0], step["new"].rpartition(".")[0]) for step in answer["steps"]]
    return answer["steps"][-2:] if owners[-2:-1] == owners[-1:] else answer["steps"][-1:]


def words_of(field):
    return " ".join(field[it] for it in ("old", "old_place", "new", "new_place"))


def line_of_cause(cause, both):
    """The line of a cause, as the program prints it, but for a long message."""
    words = ["cause", cause["case"], str(cause["length"]), shortened(cause["witness"]), cause["number"], *map(words_of, cause["fields"])]
    return " ".join([cause["direction"]] * both + words)


def line_of(answer, both):
    """The line of an answer. A type that is named has its own shortest message in it."""
    verdict, name = answer["verdict"], answer["type"]
    words = [verdict, name]
    if verdict == "breaks":
        words.append(str(answer["length"]))
        if answer["steps"]:
            words += ["witness", shortened(answer["witness"]) or "-", "at", " and ".join(map(words_of, last_fields(answer)))]
    elif verdict == "refused":
        words = [verdict, answer["said"], name]
    is_gated = both and answer["new_file"] and answer["old_file"]
    return " ".join([answer["direction"]] * bool(is_gated) + words)


def counts_of(run):
    """Yields a line of each direction that has compatible types: how many there are."""
    for way in ("forward", "backward"):
        count = sum(it["verdict"] == "compatible" and it["direction"] == way for it in run["answers"])
        if count:
            yield f"{way} " * run["both"] + f"compatible {count} type" + "s" * (count > 1)


def code_of(it):
    """Returns the code of a line that is a refusal, or nothing."""
    return code_in(it.get("code") or it.get("said") or "") if it.get("verdict", "refused") == "refused" else None


def explanation_of(it, name):
    """Returns what the refusal of a line means and what to do about it, or nothing."""
    code = code_of(it)
    if code == "E901":
        return f"E901: Neither side has a message type {it['type']}. What to do: {mend_of(code, name)}"
    return f"{code}: {sentences_on(code, name)}" if code and sentences_on(code, name) else ""


def shown_on_terminal(it, run, excerpts):
    """Returns what a terminal shows of a refusal with a code: its sentence, the line of the source file, and what to do. The old side's file
    is shown with the revision, as git names it."""
    code, name, place = code_of(it), run["call"][0], it.get("place", "")
    sentence = f"Neither side has a message type {it['type']}." if code == "E901" else sentence_of(code)
    line = excerpts.get((it.get("side"), place))
    if place and it["file"] not in run["outside"]:
        place = f"{run['revision']}:" * (it["side"] == "old") + f"{run['folder']}/{place}"
    return block(code, sentence, place, line, (advice_on(it), mend_of(code, name)))


def advice_on(it):
    """Returns what may help with a line, or nothing."""
    near = it.get("nearest")
    if it.get("advice"):
        return it["advice"]
    if it.get("verdict") == "removed":
        return f"{it['type']} was removed" + (f"; was it renamed to {near}?" if near else ".") + f" If that is meant: --skip {it['type']}"
    words = [f"did you mean {near}?"] if near else []
    if it.get("protoc") and it["code"] == "E301":
        words.append(f"{it['place']} imports a file of the library that isn't below the folder, an --include, protoc's folder or the "
                     f"system's; protoc may bring it: {WITH_PROTOC}")
    elif it.get("protoc"):
        words.append(f"{it['place']} isn't taken as a source file; protoc may make a set of it: {WITH_PROTOC}")
    if it.get("protoc_says"):
        lacks = any("google/protobuf/" in line and ": File not found" in line for line in it["protoc_says"].split("\n"))
        words.append(f"protoc refuses it on the {it['side']} side, too: {it['protoc_says']}"
                     + " (Debian has the library's files in libprotobuf-dev)" * lacks)
    return " ".join(words)


def escaped(words, more=""):
    """As GitHub wants the words of an annotation."""
    for mark in "%\r\n" + more:
        words = words.replace(mark, f"%{ord(mark):02X}")
    return words


def annotation(title, message, path=None, place=None, kind="error"):
    properties = {"file": path, "title": plain(title)}
    found = path and re.fullmatch(r".+:(\d+):(\d+)", place or "")
    if found:
        properties.update(line=found[1], col=found[2])
    words = ",".join(f"{name}={escaped(value, ':,')}" for name, value in properties.items() if value)
    return f"::{kind} {words}::{escaped(message)}"


def reading(side, lines):
    """A side's reading of a witness, for an annotation. `show` refuses messages that are too deep or too long, which programs read."""
    refused, _, why = lines.strip().partition("refused ")
    if refused or not why:
        return f"The {side} side reads:\n{lines.strip()}"
    if why.split()[0] in ("E001", "E607", "E608"):
        return f"The {side} side's reading isn't shown: {why}"
    return f"The {side} side refuses it: {why}. {sentence_of(why.split()[0])}".rstrip()


def listed(names):
    """Returns the names as words of a sentence: the first few, and how many more there are."""
    more = len(names) - MOST_NAMED
    *first, last = [*names[:MOST_NAMED], f"{more} more"] if more > 0 else names
    return f"{', '.join(first)} and {last}"


def what_breaks(cause):
    """What is said of a cause, for an annotation: why, the message that shows it, and what to do."""
    writer, article = ("old", "an") if cause["direction"] == "forward" else ("new", "a")
    owner = cause["fields"][0][writer].rpartition(".")[0]
    message = f"{why(cause)}\nA message of {owner} that {article} {writer} program writes: {shortened(cause['witness'])}"
    if len(cause["fields"]) > 1:
        reader = "new" if cause["direction"] == "forward" else "old"
        named = listed([f"{it[reader]} ({it[reader + '_place']})" for it in cause["fields"]])
        message += f"\nThe fields are {named}."
    return message


def path_of(file, run):
    """Returns where a file is, from the top of the repository, or nothing where it isn't in that."""
    return run["outside"].get(file, run["prefix"] + file)


def told(it, run):
    """Returns what an annotation says of a refusal, or of a type that has no answer: what it means, what to do, and what may help."""
    return " ".join(filter(None, (explanation_of(it, run["call"][0]), advice_on(it))))


def annotation_of_cause(cause, run):
    """The annotation of a cause, at the new side's field where that has a position, of several at the last one."""
    field = cause["fields"][-1]
    place = field["new_place"]
    file = cause["new_file"] if place == "-" else place.rpartition(":")[0].rpartition(":")[0]
    reads = "\n".join(reading(side, lines) for side, lines in cause["readings"].items())
    message = f"{what_breaks(cause)}\n{reads}\nWhat to do: {mend(cause)}"
    return annotation(f"protogate: {cause['case']} {field['new']}", message, file and path_of(file, run), place)


def annotation_of(answer, run):
    """The annotation of a type that has no answer."""
    path = answer["new_file"] or answer["old_file"]
    title = f"protogate: {answer['verdict']} {answer['type']}"
    return annotation(title, told(answer, run) or title, path and path_of(path, run))


def annotation_of_refusal(refusal, run):
    title = f"protogate: refused {refusal['side']} {refusal['code']} {refusal['place']}"
    is_here = refusal["side"] == "new"
    path, place = (path_of(refusal["file"], run), refusal["place"]) if is_here else (None, None)
    return annotation(title, told(refusal, run) or title, path, place)


def annotation_of_caution(caution, run):
    place = caution["new_place"]
    file = place and re.sub(r":\d+:\d+$", "", place)
    return annotation(f"protogate: {caution['subject']}", caution["words"], file and path_of(file, run), place, "warning")


def hints_of(run, is_shown):
    """Returns what goes to standard error beside the lines: what each code means, unless that is shown already, how to mend a cause, what may
    help, and warnings, each once."""
    name, lines = run["call"][0], [it for it in (*run["refusals"], *run["answers"]) if not (is_shown and sentence_of(code_of(it)))]
    mends = [f"{it['case']}: What to do: {mend(it)}" for it in run["causes"]]
    warnings = [f"warning: {it['subject']}, {it['side']} {it['place']}: {it['words']}" for it in run["warnings"]]
    hints = mends + [explanation_of(it, name) for it in lines] + [advice_on(it) for it in lines] + warnings
    return list(dict.fromkeys(filter(None, hints)))


def annotations_of(run):
    """Returns the annotations of a run: each cause and refusal, each type without an answer, and warnings."""
    missing = [it for it in run["answers"] if it["verdict"] in ("removed", "refused")]
    return [*(annotation_of_cause(it, run) for it in run["causes"]), *(annotation_of_refusal(it, run) for it in run["refusals"]),
            *(annotation_of(it, run) for it in missing), *(annotation_of_caution(it, run) for it in run["warnings"])]


def print_skips(skips, name, github):
    """Prints the skips of the settings whose last day is over. `name` is that of the file."""
    for it in skips:
        if it["is_over"]:
            place = f"{name}:{it['line']}"
            why = (f"the skip of {it['name']} ended on {it['until']}. Its reason was: {it['reason']} Take it out, or give it a later day if the "
                   "reason still holds.")
            say(f"refused skip {it['name']} {it['until']}")
            advise(f"{place}: {why}")
            if github:
                say(annotation(f"protogate: refused skip {it['name']}", why, name, f"{place}:1"))


def warn_of_settings(words, github):
    """Says that the change's own settings aren't those that count."""
    if words:
        advise(words)
        if github:
            say(annotation("protogate: settings", words, FILE, kind="warning"))


def line_of_skip(skipped):
    """The line of a skip that names something."""
    return f"skipped {skipped['name']}" + (f" until {skipped['until']}" if skipped["until"] else "")


def say(*lines):
    """Prints lines, whatever is in a file's name."""
    print("".join(f"{plain(it)}\n" for it in lines), end="", flush=True)


def lines_of(run, names_types):
    """Yields the lines of a run, each with what is refused, or with nothing: the causes, each with why it breaks, then what is refused and what
    is skipped, the types that break, were removed or came, and how many are compatible, or which."""
    for cause in run["causes"]:
        yield line_of_cause(cause, run["both"]), None
        yield f"  {why(cause)}", None
    for it in run["refusals"]:
        yield f"refused {it['side']} {it['code']} {it['place']}", it
    yield from ((line_of_skip(it), None) for it in run["skipped"])
    for verdict in ("refused", "breaks", "removed", "added", *["compatible"] * names_types):
        yield from ((line_of(it, run["both"]), it if verdict == "refused" else None) for it in run["answers"] if it["verdict"] == verdict)
    if not names_types:
        yield from ((it, None) for it in counts_of(run))
    if run["is_empty"]:
        yield "no message types", None


def print_all(run, github, names_types, excerpts=None):
    """Prints a run. With the lines of source files, by side and position, what is refused is shown on standard error after its line."""
    is_shown, lines = excerpts is not None, list(lines_of(run, names_types))
    if not is_shown:
        say(*(line for line, _ in lines))
    for line, refusal in lines if is_shown else ():
        say(line)
        if refusal and sentence_of(code_of(refusal)):
            print(shown_on_terminal(refusal, run, excerpts), file=sys.stderr, flush=True)
    for hint in hints_of(run, is_shown):
        advise(hint)
    if github:
        say(*annotations_of(run))

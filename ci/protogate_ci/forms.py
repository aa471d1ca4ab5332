"""The forms in which a run is told: lines of text, annotations, SARIF, JUnit, GitLab's code quality, a record as JSON, and a page. What a change
brings into them is escaped by the standard of each."""

import hashlib
import html
import json
import os
import re
import secrets
import stat
import sys
from urllib.parse import quote
from xml.sax.saxutils import quoteattr

from .asking import Place
from .git import is_in, top_around
from .running import Stop, plain
from .settings import baseline_of

FORMAT, VERSION, MOST_ANNOTATIONS, MOST_SUMMARY = "protogate-ci", 3, 10, 900_000
# What a status says.
VERDICTS = {0: "All types may be released", 1: "Some messages break", 2: "Something is removed or refused", 3: "Something failed"}
FILES = {"record": "all that was found as JSON", "sarif": "findings as SARIF 2.1.0", "junit": "findings as JUnit XML",
         "code-quality": "findings for GitLab's code quality", "page": "a page of what was found"}


def printed(call, findings, version):
    found = findings.all()
    if call.said.write_baseline is not None:
        causes = [cause for cause, _ in findings.causes.values() if all(it.until is None for it in call.acceptance.of(cause))]
        write(call.said.write_baseline, baseline_of(causes))
    written = told(call, found, findings.olds, version)
    sys.stdout.write(text(found) + (annotations(found) if call.said.github else ""))
    return written


def told(call, found, releases, version):
    status = max([it.status for it in found], default=0)
    run = {"status": status, "version": version, "base": call.base.revision, "settings": call.base.name if call.base.data is not None else None,
           "releases": releases, "folders": call.folders, "view": call.view, "compatibility": call.compatibility}
    writers = {"record": record, "sarif": sarif, "junit": junit, "code_quality": code_quality, "page": page}
    for name, make in writers.items():
        if getattr(call.said, name) is not None:
            write(getattr(call.said, name), make(run, found))
    if call.said.github:
        summarize(run, found)
    return status


def at(found):
    of = "old " if found.side == "old" and found.kind == "warning" else ""
    return of + ":".join(plain(str(it)) for it in found.place if it is not None) if found.place else ""


def title(it):
    return " ".join(plain(word) for word in (it.kind, it.rule, it.subject) if word)


def text(found):
    lines = []
    for it in found:
        lines.append(" ".join(word for word in (title(it), at(it), plain(it.since) and f"({plain(it.since)})") if word))
        lines += [f"  {plain(it.says)}"] * bool(it.says)
        lines += [f"  What to do: {plain(it.mend)}" + (f" ({it.page})" if it.page else "")] * bool(it.mend)
    return "".join(f"{it}\n" for it in lines)


# GitHub: https://docs.github.com/actions/reference/workflow-commands-for-github-actions


def escaped(words, more=""):
    for mark in f"%\r\n{more}":
        words = words.replace(mark, f"%{ord(mark):02X}")
    return words


def annotations(found):
    """Returns an annotation for each of the first findings, those that fail first. GitHub shows ten of each kind in a step."""
    told = sorted((it for it in found if it.level != "note" and it.kind != "breaks"), key=lambda it: it.level != "error")
    lines = []
    for it in told[:MOST_ANNOTATIONS]:
        where = {"file": plain(it.spot.path), "line": it.spot.line, "col": it.spot.column} if it.spot else {}
        named = {**where, "title": f"protogate: {title(it)}"}
        properties = ",".join(f"{name}={escaped(str(value), ':,')}" for name, value in named.items() if value is not None)
        lines.append(f"::{it.level} {properties}::{escaped(plain(it.words or title(it)))}\n")
    return "".join(lines)


def summarize(run, found):
    """Adds a summary to the file that GitHub shows of a step. The runner makes it, and no change can."""
    path = os.environ.get("GITHUB_STEP_SUMMARY")
    if path:
        data = markdown(run, found).encode("utf-8", "replace")
        with open(os.open(path, os.O_WRONLY | os.O_APPEND | os.O_CLOEXEC | os.O_NOFOLLOW), "ab") as file:
            file.write(data if len(data) <= MOST_SUMMARY else data[:MOST_SUMMARY].rpartition(b"\n")[0] + b"\n\nMore is in the log.\n")


def marked(words):
    """Returns words as Markdown shows them as they are: https://spec.commonmark.org/0.31.2/#backslash-escapes. What GitHub makes a link or a mention
    of without a mark is broken up."""
    words = re.sub(r"([!-/:-@\[-`{-~])", r"\\\1", plain(words))
    return re.sub(r"(?i)(?<=\\@)|(?<=\\#)|(?<=www)(?=\\\.)|(?<=:\\/)", "\u2060", words)


def markdown(run, found):
    rows = [(" ".join([title(it), it.since]).strip(), at(it), it.words) for it in found if it.level != "note"]
    head = ["| What | Where | Why, and what to do |", "|---|---|---|"] if rows else []
    lines = [f"### protogate: {verdict(run).lower()}", "", *head, *("| " + " | ".join(map(marked, row)) + " |" for row in rows), "",
             *(f"- {marked(' '.join([title(it), it.since, it.says]))}" for it in found if it.level == "note")]
    return "\n".join(lines) + "\n"


def verdict(run):
    return VERDICTS.get(run["status"], VERDICTS[3])


# SARIF: https://docs.oasis-open.org/sarif/sarif/v2.1.0/os/sarif-v2.1.0-os.html


def fingerprint(it):
    """Returns what tells that a finding is the same one in another run, wherever its line is now."""
    key = (it.kind, it.rule, it.subject, it.spot.path if it.spot else "")
    return hashlib.sha256("\0".join(key).encode("utf-8", "surrogateescape")).hexdigest()


def filled(**keys):
    return {key: it for key, it in keys.items() if it}


def result(it):
    region = filled(startLine=it.spot.line, startColumn=it.spot.column if it.spot.line else None) if it.spot else None
    physical = {"artifactLocation": {"uri": quote(os.fsencode(it.spot.path)), "uriBaseId": "%SRCROOT%"}, **filled(region=region)} if it.spot else None
    suppressions = [{"kind": "external", "justification": plain(it.says)}] if is_left_out(it) else None
    return {"ruleId": plain(rule_of(it)), "level": it.level, "message": {"text": plain(it.words) or title(it)},
            "locations": [filled(physicalLocation=physical, logicalLocations=[{"fullyQualifiedName": plain(it.subject)}])],
            "partialFingerprints": {"protogate/v1": fingerprint(it)}, **filled(suppressions=suppressions)}


def sarif(run, found):
    rules = [{"id": plain(name), "shortDescription": {"text": plain(name)}, "help": {"text": plain(it.page or it.words or name)}}
             for name, it in {rule_of(it): it for it in found}.items()]
    driver = {"name": "protogate", "version": run["version"].partition(" ")[2] or run["version"], "rules": rules}
    done = {"executionSuccessful": run["status"] < 3, "exitCode": run["status"]}
    return jsonified({"$schema": "https://json.schemastore.org/sarif-2.1.0.json", "version": "2.1.0",
                      "runs": [{"tool": {"driver": driver}, "invocations": [done], "results": [result(it) for it in found]}]})


def rule_of(it):
    return f"{it.kind}/{it.rule}" if it.rule else it.kind


def is_left_out(it):
    return it.kind in ("accepted", "skipped")


def jsonified(made):
    """Returns JSON in ASCII, with what isn't UTF-8 by number."""
    return (json.dumps(made, indent=1) + "\n").encode("ascii")


# JUnit: https://github.com/testmoapp/junitxml


def junit(run, found):
    """Returns a case for each finding. Those that fail are failures, and what is left out is skipped."""
    def attributes(**said):
        # (what is printable is a letter of XML too, by its section 2.2)
        return "".join(f" {name}={quoteattr(plain(str(it)))}" for name, it in said.items() if it is not None)
    cases, counts = [], {"tests": len(found), "failures": 0, "errors": 0, "skipped": 0}
    for it in found:
        kind = "error" if it.status > 2 else "failure" if it.status else "skipped" if is_left_out(it) else ""
        counts[kind + "s" * bool(it.status)] = counts.get(kind + "s" * bool(it.status), 0) + 1
        inner = f"<{kind}{attributes(type=rule_of(it) if it.status else None, message=it.words or title(it))}/>" if kind else ""
        where = {"file": it.spot.path, "line": it.spot.line} if it.spot else {}
        cases.append(f"<testcase{attributes(classname=rule_of(it), name=it.subject, time=0, **where)}>{inner}</testcase>")
    counts.pop("", None)
    return "\n".join(['<?xml version="1.0" encoding="UTF-8"?>', f"<testsuites{attributes(**counts)}>",
                      f"<testsuite{attributes(name='protogate', **counts, time=0)}>", *cases, "</testsuite>", "</testsuites>", ""]).encode("utf-8")


# GitLab: https://docs.gitlab.com/ci/testing/code_quality/#code-quality-report-format


def code_quality(run, found):
    """Returns an issue for each finding that fails or warns. GitLab wants a place of each."""
    some = Place((run["folders"] or ["."])[0])
    return jsonified([{
        "description": f"{title(it)}: {plain(it.words)}".rstrip(": "), "check_name": plain(rule_of(it)), "fingerprint": fingerprint(it),
        "severity": "blocker" if it.status > 2 else "major" if it.level == "error" else "minor",
        "location": {"path": (it.spot or some).path.encode("utf-8", "surrogateescape").decode("utf-8", "replace"),
                     "lines": {"begin": (it.spot or some).line or 1}}} for it in found if it.level != "note" and it.kind != "breaks"])


# The record and the page.


def record(run, found):
    return jsonified({"format": FORMAT, "version": VERSION, **{("program" if key == "version" else key): it for key, it in run.items()},
                      "findings": [{**it._asdict(), "level": it.level, "place": it.place and it.place._asdict(), "fingerprint": fingerprint(it)}
                                   for it in found]})


STYLE = ("body{font:16px/1.5 sans-serif;max-width:60em;margin:2em auto;padding:0 1em}li{margin:1em 0}pre{background:#8882;padding:.5em;overflow:auto}"
         ".error{border-left:4px solid #c33;padding-left:1em}.warning{border-left:4px solid #c93;padding-left:1em}.note{padding-left:1em}")
# (the policy says too that the page loads nothing, runs nothing and links nowhere, whatever gets into it)
HEAD = (f'<!doctype html><html lang="en"><meta charset="utf-8"><meta http-equiv="Content-Security-Policy" content="default-src \'none\'; '
        f'style-src \'unsafe-inline\'"><title>protogate</title><style>{STYLE}</style>')


def page(run, found):
    def shown(words):
        return html.escape(plain(words))
    lines = [HEAD, f"<h1>{verdict(run)}</h1>", f"<p>{shown(run['version'])}, against {shown(', '.join(run['releases']))}</p>", "<ul>"]
    for it in found:
        lines.append(f'<li class="{it.level}"><b>{shown(title(it))}</b> {shown(at(it))} {shown(it.since)}<br>{shown(it.says)}')
        lines += [f"<br>What to do: {shown(it.mend)}"] * bool(it.mend)
        for side, reading in ((it.details or {}).get("readings") or {}).items():
            read = "\n".join(map(shown, reading.rstrip("\n").split("\n")))
            lines.append(f"<p>The {side} side reads <code>{shown(it.details['message'])}</code> as:</p><pre>{read}</pre>")
        lines.append("</li>")
    return "\n".join([*lines, "</ul></html>", ""]).encode("utf-8", "replace")


# Files.


def write(path, data):
    """Writes a file whole, or leaves what was there. A link on the way that a change may have isn't followed, and nothing but a file is replaced."""
    folder = os.sep
    for part in os.path.dirname(os.path.abspath(path)).split(os.sep)[1:]:
        there = os.path.join(folder, part)
        if os.path.islink(there) and is_of_a_change(folder):
            raise Stop(4, f"{plain(path)} isn't written: {plain(there)} is a link, which a change may lead anywhere")
        folder = os.path.realpath(there)
    found = os.path.join(folder, os.path.basename(path))
    if not os.path.basename(path) or os.path.lexists(found) and not stat.S_ISREG(os.lstat(found).st_mode):
        raise Stop(4, f"{plain(path)} isn't written: it names no regular file")
    made = f"{found}.{secrets.token_hex(8)}"
    try:
        with open(os.open(made, os.O_WRONLY | os.O_CREAT | os.O_EXCL | os.O_CLOEXEC, 0o666), "wb") as file:
            file.write(data)
        os.replace(made, found)
    except OSError as fault:
        if os.path.lexists(made):
            os.unlink(made)
        raise Stop(3, f"{plain(path)} can't be written ({fault.strerror})") from None


def is_of_a_change(folder):
    """Returns whether a change may have what is in a folder: it is in a work tree, or in the current folder."""
    return top_around(folder) is not None or is_in(folder, ".")

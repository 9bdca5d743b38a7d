"""Pictures as SARIF 2.1.0 (OASIS), for code scanning. Columns are characters."""
from __future__ import annotations

import hashlib
import json
import urllib.parse
from typing import Dict, List, Sequence

from ..paths import TOP
from ..picture import Cure, Label, Picture, Way
from ..rules import all_rules
from ..source import Source
from ..sources import version

SCHEMA = "https://json.schemastore.org/sarif-2.1.0.json"
LEVELS = {"error": "error", "warning": "warning", "note": "note"}
VERDICTS = (0, 5, 6, 7, 8)
TITLES = {
    "protocol": "a rule on keys is broken",
    "text-token": "a token that the grammar doesn't take",
    "text-end": "the text ends too early",
    "text-byte": "a character that begins no token",
}


def uri(name: str) -> str:
    """The name of a file as a URI; a relative one stays relative."""
    quoted = urllib.parse.quote(name)
    return f"file://{quoted}" if name.startswith("/") else quoted


def document_uri(name: str) -> str:
    """A part of a document that is installed with this tool, as a URI: a name in docs/ and perhaps an anchor."""
    path, _, anchor = name.partition("#")
    return (TOP / path).as_uri() + (f"#{anchor}" if anchor else "")


def region(source: Source, label: Label) -> Dict:
    first = source.characters(label.place) + 1
    return {"startLine": label.place.line, "startColumn": first, "endColumn": first + label.length}


def location(label: Label) -> Dict:
    found: Dict = {"physicalLocation": {"artifactLocation": {"uri": uri(label.source.name)}, "region": region(label.source, label)}}
    if label.text:
        found["message"] = {"text": label.text}
    return found


def rule_of(picture: Picture) -> Dict:
    """The description of a kind of error."""
    name, number = picture.rule, picture.rule.partition("rule-")[2]
    rule = all_rules().get(int(number)) if number.isdigit() else None
    title = rule.title if rule else TITLES.get(name, name.replace("-", " "))
    described: Dict = {"id": name, "name": name, "shortDescription": {"text": title}}
    if rule and rule.cause:
        described["fullDescription"] = {"text": rule.cause}
        described["help"] = {"text": " ".join([rule.cause, *(f"Cure: {cure}" for cure in rule.cures)])}
    if picture.link:
        described["helpUri"] = document_uri(picture.link)
    return described


def fixes(picture: Picture, cure: Cure) -> Dict:
    """A cure with its changes of the text."""
    replacements = []
    for edit in cure.edits:
        start, end = picture.source.place(edit.span.start), picture.source.place(edit.span.end)
        deleted = {
            "startLine": start.line, "startColumn": picture.source.characters(start) + 1,
            "endLine": end.line, "endColumn": picture.source.characters(end) + 1,
        }  # fmt: skip
        replacements.append({"deletedRegion": deleted, "insertedContent": {"text": edit.text}})
    change = {"artifactLocation": {"uri": uri(picture.source.name)}, "replacements": replacements}
    return {"description": {"text": cure.text}, "artifactChanges": [change]}


def flow(way: Way, picture: Picture) -> Dict:
    steps = [*way.labels, *([picture.fault] if picture.fault else [])]
    return {"threadFlows": [{"locations": [{"location": location(label)} for label in steps]}]}


def fingerprint(picture: Picture) -> str:
    """What stays the same of an error if lines are put in above it."""
    line = picture.source.line(picture.fault.place.line).strip() if picture.fault else ""
    return hashlib.sha256(f"{picture.rule}\n{picture.message}\n{line}".encode()).hexdigest()[:32]


def result(picture: Picture, index: int) -> Dict:
    """An error with its places."""
    words = [f"{picture.message}.", *picture.notes, *(f"Cure: {cure.text}." for cure in picture.cures[:1])]
    found: Dict = {
        "ruleId": picture.rule,
        "ruleIndex": index,
        "level": LEVELS[picture.severity],
        "message": {"text": " ".join(words)},
        "partialFingerprints": {"vaultError/v1": fingerprint(picture)},
        "properties": {"report": picture.report},
    }
    where = {"physicalLocation": {"artifactLocation": {"uri": uri(picture.source.name)}}}
    found["locations"] = [location(picture.fault) if picture.fault else where]
    related = [label for way in picture.ways for label in way.labels]
    if related:
        found["relatedLocations"] = [{"id": number, **location(label)} for number, label in enumerate(related)]
    paths = [way for way in picture.ways if way.is_path and way.labels]
    if paths:
        found["codeFlows"] = [flow(way, picture) for way in paths]
    cures = [cure for cure in picture.cures if cure.edits]
    if cures:
        found["fixes"] = [fixes(picture, cure) for cure in cures]
    return found


def write(files: Sequence) -> str:
    """The document for what was judged."""
    shown = [picture for one in files if one.status in VERDICTS for picture in one.pictures if picture.severity != "ok"]
    names: List[str] = list(dict.fromkeys(picture.rule for picture in shown))
    rules = [rule_of(next(picture for picture in shown if picture.rule == name)) for name in names]
    status = max((one.status for one in files), default=0)
    invocation: Dict = {"executionSuccessful": all(one.status in VERDICTS for one in files), "exitCode": status}
    failed = [picture for one in files if one.status not in VERDICTS for picture in one.pictures]
    if failed:
        invocation["toolExecutionNotifications"] = [
            {"level": "error", "message": {"text": f"{picture.source.name}: {picture.message}"}} for picture in failed
        ]
    driver = {"name": "vault", "version": version(), "informationUri": document_uri("README.md"), "rules": rules}
    run = {
        "tool": {"driver": driver},
        "columnKind": "unicodeCodePoints",
        "artifacts": [{"location": {"uri": uri(one.source.name)}, "sourceLanguage": "vault"} for one in files],
        "invocations": [invocation],
        "results": [result(picture, names.index(picture.rule)) for picture in shown],
    }
    return json.dumps({"$schema": SCHEMA, "version": "2.1.0", "runs": [run]}, indent=2, ensure_ascii=False) + "\n"

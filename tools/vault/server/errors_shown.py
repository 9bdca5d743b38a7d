"""Pictures as the protocol has errors: diagnostics with related places, and cures as code actions."""
from __future__ import annotations

import json
from pathlib import Path
from typing import Any, Dict, List

from .. import paths
from .. import syntax as s
from ..picture import Cure, Label, Picture, title
from ..records import replace
from .documents import Document

SEVERITY = {"error": 1, "warning": 2, "note": 3, "ok": 4}
PAGES = "https://telltalefig.example/"
"""Where links lead if the pages aren't on this machine."""


def span_of(document: Document, label: Label) -> s.Span:
    """The characters that a label marks."""
    start = label.source.offset(label.place)
    return s.Span(start, start + label.length)


def related(document: Document, label: Label) -> Dict[str, Any]:
    """A place that an error has to do with."""
    here = label.source.name == document.view.source.name
    uri = document.uri if here else Path(label.source.name).resolve().as_uri()
    target = document if here else Document(uri, label.source.text)
    return {"location": {"uri": uri, "range": target.range(span_of(target, label))}, "message": label.text}


def link_of(picture: Picture) -> str:
    """The address of the page that explains an error."""
    page, _, anchor = picture.link.partition("#")
    file = paths.TOP / page
    address = file.as_uri() if file.is_file() else PAGES + page
    return f"{address}#{anchor}" if anchor else address


def place_of(document: Document, picture: Picture) -> s.Span:
    """The characters that an error marks; of one in another file, as a module's interface, the document's first."""
    here = picture.fault is not None and picture.fault.source.name == document.view.source.name
    return span_of(document, picture.fault) if here and picture.fault else s.Span(0, 0)


def diagnostic(document: Document, picture: Picture) -> Dict[str, Any]:
    """An error as a diagnostic."""
    labels = [label for way in picture.ways for label in way.labels]
    message = picture.message
    if picture.fault and picture.fault.source.name != document.view.source.name:
        name = Path(picture.fault.source.name).name
        labels.insert(0, replace(picture.fault, text=picture.fault.text or picture.message))
        message = f"in {name}: {message}"
    said = {
        "range": document.range(place_of(document, picture)),
        "severity": SEVERITY.get(picture.severity, 1),
        "source": "vault",
        "code": picture.rule,
        "message": "\n".join([message, *picture.notes]),
        "relatedInformation": [related(document, label) for label in labels],
    }
    if picture.link:
        said["codeDescription"] = {"href": link_of(picture)}
    return said


def diagnostics(document: Document, pictures: List[Picture]) -> List[Dict[str, Any]]:
    """All errors and warnings of a text."""
    return [diagnostic(document, it) for it in pictures if it.severity in ("error", "warning")]


def action(document: Document, picture: Picture, cure: Cure, is_first: bool) -> Dict[str, Any]:
    """A cure as a code action."""
    edits = [{"range": document.range(edit.span), "newText": edit.text} for edit in cure.edits]
    return {
        "title": title(cure.text),
        "kind": "quickfix",
        "diagnostics": [diagnostic(document, picture)],
        "isPreferred": is_first and cure.tested,
        "edit": {"changes": {document.uri: edits}},
    }


def actions(document: Document, pictures: List[Picture], wanted: Dict[str, Any]) -> List[Dict[str, Any]]:
    """The changes that cure the errors whose line is in a range. Each was tried: the program no longer has the error of the changed text."""
    found = []
    for picture in pictures:
        at = document.range(place_of(document, picture))
        if at["start"]["line"] <= wanted["end"]["line"] and wanted["start"]["line"] <= at["end"]["line"]:
            found += [action(document, picture, cure, not number) for number, cure in enumerate(picture.changes())]
    return [json.loads(text) for text in dict.fromkeys(json.dumps(it) for it in found)]

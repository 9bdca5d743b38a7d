"""Pictures as JSON. docs/COMMANDS.md has the names and what they mean."""
from __future__ import annotations

import json
from typing import Dict, List, Optional, Sequence

from ..picture import Cure, Edit, Label, Picture, Way
from ..source import Place, Source

VERSION = 1


def place(source: Source, where: Place, length: int) -> Dict:
    """A place: lines and columns from 1; a `column` counts bytes, a `character` counts characters. The end is that after the last
    character."""
    first = source.characters(where)
    line = source.lines[where.line - 1] if where.line <= len(source.lines) else ""
    end = len(line[: first + length].encode("utf-8", "replace")) + 1
    return {
        "file": source.name,
        "line": where.line,
        "column": where.column,
        "endColumn": max(end, where.column),
        "character": first + 1,
        "endCharacter": first + length + 1,
    }


def of_label(label: Label) -> Dict:
    return {**place(label.source, label.place, label.length), "role": label.role, "text": label.text}


def of_way(way: Way) -> Dict:
    return {"title": way.title, "isPath": way.is_path, "places": [of_label(label) for label in way.labels]}


def of_edit(source: Source, edit: Edit) -> Dict:
    start, end = source.place(edit.span.start), source.place(edit.span.end)
    return {
        "line": start.line, "character": source.characters(start) + 1, "endLine": end.line, "endCharacter": source.characters(end) + 1,
        "text": edit.text,
    }  # fmt: skip


def of_cure(source: Source, cure: Cure) -> Dict:
    return {"text": cure.text, "tested": cure.tested, "edits": [of_edit(source, edit) for edit in cure.edits]}


def of_picture(picture: Picture) -> Dict:
    fault: Optional[Label] = picture.fault
    return {
        "severity": picture.severity,
        "rule": picture.rule,
        "report": picture.report,
        "message": picture.message,
        "place": of_label(fault) if fault else None,
        "related": [of_way(way) for way in picture.ways],
        "notes": list(picture.notes),
        "cures": [of_cure(picture.source, cure) for cure in picture.cures],
        "link": picture.link,
    }


def write(files: Sequence) -> str:
    """The document for what was judged."""
    judged: List[Dict] = [
        {
            "file": one.source.name,
            "status": one.status,
            "functions": one.functions,
            "errors": [of_picture(picture) for picture in one.pictures if picture.severity != "ok"],
        }
        for one in files
    ]
    status = max((one.status for one in files), default=0)
    return json.dumps({"version": VERSION, "status": status, "files": judged}, indent=2, ensure_ascii=False) + "\n"

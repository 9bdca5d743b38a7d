"""Diagnostics, and how those are read that have the form of the GNU tools: `FILE:LINE:COLUMN: warning: TEXT [KIND]`."""

from __future__ import annotations

import re
from dataclasses import dataclass, replace
from typing import List, Optional, Pattern, Tuple


@dataclass(frozen=True)
class Edit:
    """A change of a text: what stands from one place up to another is replaced. Lines count from 1, and so do columns, in bytes."""

    start: Tuple[int, int]
    end: Tuple[int, int]
    text: str


@dataclass(frozen=True)
class Diagnostic:
    """What a tool says of a text: its kind of diagnostic, its words, and the line of the text, if it is about one."""

    kind: str
    text: str
    line: Optional[int]
    notes: Tuple[int, ...] = ()
    """The lines of the further places in the text that it shows, in their order."""
    cure: Tuple[Edit, ...] = ()
    """The edits that it offers to be made together; none if it offers none."""


class ToolError(Exception):
    """A tool couldn't read a text, or ended otherwise than by its verdict."""


MESSAGE = re.compile(r"([^\s:][^:\n]*):(\d+):(?:\d+:)? (?:fatal )?(warning|error|note): (.*?)(?: \[([\w.,=+-]+)\])?")


FIXIT = re.compile(r'fix-it:"[^"]*":\{(\d+):(\d+)-(\d+):(\d+)\}:"(.*)"')


def read_gnu(output: str, name: str, relevant: Pattern[str]) -> List[Diagnostic]:
    """The warnings of the file `name` whose kind is relevant, each with its notes and fix-its. One that is placed in another file has
    the line of its last note in the file. An error is a ToolError."""
    found: List[Diagnostic] = []
    is_open = False
    for line in output.splitlines():
        met, fixit = MESSAGE.fullmatch(line), FIXIT.fullmatch(line)
        if fixit and is_open:
            found[-1] = replace(found[-1], cure=(*found[-1].cure, read_fixit(*fixit.groups())))
        if not met:
            continue
        file, number, severity, text, kind = met.groups()
        place = int(number) if file.endswith(name) else None
        if severity == "error":
            raise ToolError(line)
        if severity == "warning":
            is_open = bool(relevant.search(kind or text))
            if is_open:
                found.append(Diagnostic(kind or "", text, place))
                is_placed = place is not None
        elif is_open and place:
            found[-1] = replace(found[-1], line=found[-1].line if is_placed else place, notes=(*found[-1].notes, place))
    return found


def read_fixit(line: str, column: str, last_line: str, last_column: str, text: str) -> Edit:
    """The edit of a line that `-fdiagnostics-parseable-fixits` writes."""
    return Edit((int(line), int(column)), (int(last_line), int(last_column)), text.encode().decode("unicode_escape"))


def apply(edits: Tuple[Edit, ...], text: bytes) -> bytes:
    """The text with these edits made. They don't overlap."""
    starts = [0]
    for line in text.splitlines(keepends=True):
        starts.append(starts[-1] + len(line))
    for edit in sorted(edits, key=lambda it: it.start, reverse=True):
        start, end = (starts[line - 1] + column - 1 for line, column in (edit.start, edit.end))
        text = text[:start] + edit.text.encode() + text[end:]
    return text

"""Pictures as lines of a C compiler, `FILE:LINE:COLUMN: error: ..` and `note: ..`, for editors and other tools that read these."""
from __future__ import annotations

from typing import List, Sequence

from ..picture import Label, Picture
from ..rules import one_line
from .text import HARD, bracket


def line(label: Label, severity: str, text: str) -> str:
    """A line for a place. Columns are bytes, as gcc counts them."""
    return f"{label.source.name}:{label.place.line}:{label.place.column}: {severity}: {one_line(text)}"


def whole_file(picture: Picture, severity: str, text: str) -> str:
    return f"{picture.source.name}: {severity}: {one_line(text)}"


def picture_lines(picture: Picture) -> List[str]:
    """The error, then a note for each place and for each cure. An accepted file has no line."""
    if picture.severity == "ok":
        return []
    words = bracket(picture).replace(HARD, " ")
    message = f"{picture.message} {words}"
    first = line(picture.fault, picture.severity, message) if picture.fault else whole_file(picture, picture.severity, message)
    out = [first]
    for number, way in enumerate(picture.ways, 1):
        name = f"path {number}: " if way.title else ""
        out += [line(label, "note", name + label.text) for label in way.labels]
    notes = [*picture.notes, *(f"cure: {cure.text}" for cure in picture.cures)]
    out += [line(picture.fault, "note", note) if picture.fault else whole_file(picture, "note", note) for note in notes]
    return out


def write(pictures: Sequence[Picture]) -> str:
    return "".join(one + "\n" for picture in pictures for one in picture_lines(picture))

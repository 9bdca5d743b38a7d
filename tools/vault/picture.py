"""What a person is shown of an error: the words, the places, the steps that lead there, and the cures."""
from __future__ import annotations

from functools import cached_property
from typing import Iterator, Optional, Tuple

from .declarations import Declarations
from .parser import parse
from .records import dataclass
from .report import Report
from .source import Place, Source
from .syntax import Program, Span


@dataclass(frozen=True)
class Label:
    """A place of a file, with what is said of it. `length` counts characters. The role is `fault`, `step` for what a path comes by,
    or `note` for a place that the error has to do with."""

    source: Source
    place: Place
    length: int
    text: str
    role: str = "note"


@dataclass(frozen=True)
class Way:
    """Labels in the order in which they are read, under a title; a path if `is_path`."""

    title: str
    labels: Tuple[Label, ...]
    is_path: bool = True


@dataclass(frozen=True)
class Edit:
    """A change of the text: the characters of `span` become `text`."""

    span: Span
    text: str


@dataclass(frozen=True)
class Cure:
    """What to do, in words. `tested` says that the program was asked of the changed text, and no longer has the error."""

    text: str
    edits: Tuple[Edit, ...] = ()
    tested: bool = False


def title(text: str) -> str:
    """The words of a cure that changes the text, as what is done: `insert unlock(l);`."""
    return ("insert " if text.startswith("`") else "") + text.replace("`", "")


@dataclass(frozen=True)
class Picture:
    """An error, a warning or another message of a file.

    `rule` names the kind of error, `report` are the program's own words, `link` is the part of docs/ that explains it. `repairs` are changes
    of the text that were tried, for editors; they may be less than what is meant."""

    source: Source
    severity: str
    rule: str
    report: str
    message: str
    fault: Optional[Label] = None
    ways: Tuple[Way, ...] = ()
    notes: Tuple[str, ...] = ()
    cures: Tuple[Cure, ...] = ()
    link: str = ""
    repairs: Tuple[Cure, ...] = ()

    def changes(self) -> Tuple[Cure, ...]:
        """The cures that change the text, or else other changes of it; all were tried."""
        return tuple(cure for cure in self.cures if cure.edits) or self.repairs

    def labels(self) -> Iterator[Label]:
        """All labels, those of the ways and the fault's."""
        for way in self.ways:
            yield from way.labels
        if self.fault:
            yield self.fault


@dataclass(frozen=True)
class View:
    """A text that the program is asked of, and what it declares, which is read once it is wanted; a text that is too long isn't read.
    A view of several files says where its characters come from."""

    source: Source
    is_read: bool = True

    @cached_property
    def program(self) -> Optional[Program]:
        return parse(self.source.text) if self.is_read else None

    @cached_property
    def declarations(self) -> Optional[Declarations]:
        return Declarations(self.program) if self.program else None

    def origin(self, offset: int) -> Tuple[Source, int]:
        """The file and its character that a character of the view comes from."""
        return self.source, offset

    def label(self, span: Span, text: str, role: str = "note") -> Label:
        """A label at some characters, of which those on the first line are marked."""
        source, start = self.origin(span.start)
        end = start + (span.end - span.start)
        place = source.place(start)
        line_end = source.starts[place.line - 1] + len(source.lines[place.line - 1].rstrip())
        return Label(source, place, max(min(end, line_end) - start, 1), text, role)

    def offset(self, place: Place) -> int:
        return self.source.offset(place)

    def text_of(self, span: Span) -> str:
        return self.source.text[span.start : span.end]


def accepted(source: Source, report: Report, message: str) -> Picture:
    """The picture of a file without errors."""
    return Picture(source, "ok", "accepted", report.line, message)

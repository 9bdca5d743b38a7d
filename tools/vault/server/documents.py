"""Open texts: their places as editors count them, and what the programs say of them."""
from __future__ import annotations

import urllib.parse
from pathlib import Path
from typing import Any, Dict, List, Optional

from .. import modules
from .. import syntax as s
from ..ask import Asker, Reply
from ..declarations import Declarations
from ..held import Table
from ..judge import Wishes, pictures_of
from ..picture import Picture, View
from ..records import dataclass, field
from ..report import KeyFault, Report, RuleFault, TextFault
from ..source import Source
from ..texts import other_picture

MOST_BYTES = 200_000
"""A longer text gets its errors alone."""


def units(text: str) -> int:
    """How many UTF-16 code units a text has, as the protocol counts characters."""
    return len(text) + sum(character > "\uffff" for character in text)


@dataclass
class Document:
    """An open text, and the interface that it is judged beside, if it has one. What is found of it is found once for each version."""

    uri: str
    text: str
    version: int = 0
    interface: Optional[Source] = None
    _data: Optional[bytes] = field(default=None, repr=False)
    _source: Optional[Source] = field(default=None, repr=False)
    _view: Optional[View] = field(default=None, repr=False)
    _errors: Optional[List[Picture]] = field(default=None, repr=False)
    _pictures: Optional[List[Picture]] = field(default=None, repr=False)
    _tables: Optional[List[Table]] = field(default=None, repr=False)
    _outer: Optional[View] = field(default=None, repr=False)

    @property
    def path(self) -> Path:
        """Its file; of a text that isn't in a file a name alone."""
        parts = urllib.parse.urlparse(self.uri)
        return Path(urllib.parse.unquote(parts.path)) if parts.scheme == "file" else Path("untitled.v")

    @property
    def data(self) -> bytes:
        if self._data is None:
            self._data = self.text.encode("utf-8", "replace")
        return self._data

    @property
    def is_large(self) -> bool:
        return len(self.data) > MOST_BYTES

    @property
    def is_module(self) -> bool:
        """Whether it is judged beside an interface, and isn't the interface itself."""
        return self.interface is not None and self.interface.name != str(self.path)

    @property
    def source(self) -> Source:
        """The text with its lines."""
        if self._source is None:
            self._source = Source(str(self.path), self.data)
        return self._source

    @property
    def view(self) -> View:
        """The text with what it declares; of a large one the text alone."""
        if self._view is None:
            self._view = View(self.source, not self.is_large)
        return self._view

    def last_good(self) -> Optional["Document"]:
        """The text as it is now, if it was judged since the last change and is of the grammar."""
        if self._errors is None or any(it.rule.startswith(("text-", "limit-", "read")) for it in self._errors):
            return None
        return Document(self.uri, self.text, self.version, _view=self._view)

    @property
    def outer(self) -> Optional[View]:
        """The interface of a module with what it declares."""
        if self._outer is None and self.is_module and self.interface is not None:
            self._outer = View(self.interface)
        return self._outer

    def known(self) -> List[Declarations]:
        """What the text declares, and the interface after it."""
        return [view.declarations for view in (self.view, self.outer) if view is not None and view.declarations is not None]

    def change(self, text: str, version: int) -> None:
        """Puts another text in its place."""
        self.text, self.version = text, version
        self._data = self._source = self._view = None
        self.forget()

    def put_beside(self, interface: Optional[Source]) -> None:
        """Says which interface it is judged beside."""
        if interface != self.interface:
            self.interface = interface
            self._outer = None
            self.forget()

    def forget(self) -> None:
        """Drops what was found of it."""
        self._errors = self._pictures = self._tables = None

    # ---- what the programs say

    def errors(self, asker: Asker) -> List[Picture]:
        """The errors of the text with what led to them, without cures."""
        if self._errors is None:
            self._errors = self.large_errors(asker) if self.is_large else self.judge(asker, Wishes(cures=False))
        return self._errors

    def pictures(self, asker: Asker) -> List[Picture]:
        """The errors of the text with cures, which are tried: that takes longer."""
        if self.is_large:
            return self.errors(asker)
        if self._pictures is None:
            self._pictures = self.judge(asker, Wishes(repairs=True)) if self.errors(asker) else []
        return self._pictures

    def judge(self, asker: Asker, wishes: Wishes) -> List[Picture]:
        # what is asked may not be empty: a blank says nothing more
        data = self.data or b"\n"
        if self.interface is not None:
            return modules.judge_texts(asker, self.interface, self.view.source, wishes).pictures
        return pictures_of(self.view, asker.faults(str(self.path), data), asker, wishes, data)

    def large_errors(self, asker: Asker) -> List[Picture]:
        """The first error of a large text in the program's own words."""
        return [bare_picture(self.view, it, reply.status) for reply in [self.check(asker, self.data)] for it in reply.reports[:1]]

    def check(self, asker: Asker, data: bytes) -> Reply:
        """What the program says of another text in this one's place."""
        if self.interface is None:
            return asker.first(str(self.path), data or b"\n")
        source = Source(str(self.path), data)
        return modules.ask_texts(asker, self.interface if self.is_module else source, source)

    def tables(self, asker: Asker) -> List[Table]:
        """What is held at each point of the text."""
        if self._tables is None:
            self._tables = self.module_tables(asker) if self.is_module else asker.tables(str(self.path), self.data or b"\n") or []
        return self._tables

    def module_tables(self, asker: Asker) -> List[Table]:
        source = self.view.source
        view = modules.join(self.interface, source) if self.interface is not None else None
        found = asker.tables(source.name, view.source.data) if view is not None else None
        return view.tables_at_home(found, source) if view is not None and found else []

    # ---- places

    def offset(self, position: Dict[str, int]) -> int:
        """The number of the character at a position of the protocol."""
        source = self.source
        number = min(max(position["line"], 0), len(source.lines) - 1)
        line, at = source.lines[number], 0
        left = position["character"]
        while at < len(line) and left > 0:
            left -= units(line[at])
            at += 1
        return source.starts[number] + at

    def position(self, offset: int) -> Dict[str, int]:
        """The position of a character."""
        source = self.source
        place = source.place(min(offset, len(self.text)))
        start = source.starts[place.line - 1]
        return {"line": place.line - 1, "character": units(source.lines[place.line - 1][: offset - start])}

    def range(self, span: s.Span) -> Dict[str, Any]:
        """The range of some characters."""
        return {"start": self.position(span.start), "end": self.position(span.end)}

    def whole(self) -> Dict[str, Any]:
        """The range of the whole text."""
        return self.range(s.Span(0, len(self.text)))


def bare_picture(view: View, report: Report, status: int) -> Picture:
    """The picture of a report in the program's own words, at its place."""
    if status == 0 or not isinstance(report, (KeyFault, RuleFault, TextFault)) or report.place is None:
        found = other_picture(view, report, status)
        return found if status else Picture(view.source, "ok", "accepted", report.line, report.line)
    offset = view.offset(report.place)
    return Picture(view.source, "error", "large", report.line, report.line, view.label(s.Span(offset, offset + 1), "", "fault"))

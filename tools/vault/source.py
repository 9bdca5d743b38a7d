"""A text with its lines: places in bytes, as `vaultc` tells them, and in characters, as editors count them."""
from __future__ import annotations

import unicodedata
from bisect import bisect_right
from pathlib import Path
from typing import List

from .records import dataclass, field

# a text may have 1,048,576 bytes, so this is more than is ever looked at
MOST_BYTES = 1 << 21


@dataclass(frozen=True, order=True)
class Place:
    """A place of a text: the line and the byte in it, both from 1."""

    line: int
    column: int

    def __str__(self) -> str:
        return f"{self.line}:{self.column}"


@dataclass(frozen=True)
class Source:
    """The text of a file. Bytes that aren't UTF-8 are shown as replacement characters."""

    name: str
    data: bytes
    text: str = field(init=False, repr=False, compare=False)
    lines: List[str] = field(init=False, repr=False, compare=False)
    starts: List[int] = field(init=False, repr=False, compare=False)

    def __post_init__(self) -> None:
        text = self.data.decode("utf-8", "replace")
        lines = text.split("\n")
        starts, at = [], 0
        for line in lines:
            starts.append(at)
            at += len(line) + 1
        object.__setattr__(self, "text", text)
        object.__setattr__(self, "lines", lines)
        object.__setattr__(self, "starts", starts)

    @staticmethod
    def read(name: str) -> "Source":
        """The text of a file; an empty one if it can't be read, since `vaultc` has said so then."""
        try:
            with open(name, "rb") as file:
                return Source(name, file.read(MOST_BYTES))
        except OSError:
            return Source(name, b"")

    def line(self, number: int) -> str:
        """The line of this number as it is shown, without its end; empty if there is none."""
        return printable(self.lines[number - 1].rstrip("\r")) if 0 < number <= len(self.lines) else ""

    def characters(self, place: Place) -> int:
        """How many characters stand before a place in its line."""
        if not 0 < place.line <= len(self.lines):
            return max(place.column - 1, 0)
        line = self.lines[place.line - 1]
        if line.isascii():
            return min(place.column - 1, len(line))
        return len(line.encode("utf-8", "replace")[: place.column - 1].decode("utf-8", "ignore"))

    def offset(self, place: Place) -> int:
        """The number of the character at a place, from 0."""
        number = min(max(place.line, 1), len(self.starts))
        return self.starts[number - 1] + self.characters(Place(number, place.column))

    def place(self, offset: int) -> Place:
        """The place of the character of this number."""
        line = bisect_right(self.starts, offset)
        before = self.lines[line - 1][: offset - self.starts[line - 1]]
        return Place(line, len(before.encode("utf-8", "replace")) + 1)

    def pad(self, place: Place) -> str:
        """Blanks as wide as what stands before a place; a tab stays one."""
        before = printable(self.lines[place.line - 1][: self.characters(place)]) if place.line <= len(self.lines) else ""
        return "".join(c if c == "\t" else " " * width(c) for c in before)

    def end(self) -> Place:
        """The place after the last character that isn't a blank."""
        for number in range(len(self.lines), 0, -1):
            text = self.lines[number - 1].rstrip()
            if text:
                return Place(number, len(text.encode("utf-8", "replace")) + 1)
        return Place(1, 1)


def printable(text: str) -> str:
    """The text with a sign in place of each character that a terminal would obey or not show."""
    return "".join(c if c.isprintable() or c == "\t" else "\ufffd" for c in text)


def width(character: str) -> int:
    """How many columns of a terminal a character takes."""
    if unicodedata.combining(character):
        return 0
    return 2 if unicodedata.east_asian_width(character) in "WF" else 1


def columns(text: str) -> int:
    """How many columns of a terminal a text without tabs takes."""
    return sum(width(c) for c in text)


def is_regular(name: str) -> bool:
    """Whether a name is that of a file that can be read twice."""
    return Path(name).is_file()

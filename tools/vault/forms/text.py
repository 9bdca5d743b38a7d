"""Pictures as text: for terminals in colour and wrapped to the window, for pipes without colour."""
from __future__ import annotations

import os
import re
import shutil
import sys
import textwrap
from typing import List, Optional, Sequence, Tuple

from ..picture import Cure, Label, Picture, Way
from ..records import dataclass
from ..source import Source

# what is written into a pipe is wrapped to this
PIPE_WIDTH = 120
LEAST_WIDTH = 40
# a blank at which no line ends
HARD = "\x1f"
COLOURS = {
    "error": "1;31",
    "warning": "1;35",
    "ok": "1;32",
    "fault": "1;31",
    "step": "36",
    "note": "32",
    "bold": "1",
    "dim": "2",
    "cure": "1;32",
}


@dataclass(frozen=True)
class Style:
    """How text is written: in how many columns, and in colour or not."""

    width: int = PIPE_WIDTH
    colour: bool = False

    def paint(self, text: str, kind: str) -> str:
        return f"\x1b[{COLOURS[kind]}m{text}\x1b[0m" if self.colour and text else text

    def wrap(self, text: str, first: str, rest: str) -> List[str]:
        """The lines of a text, with what stands before the first one and before the others."""
        room = max(max(self.width, LEAST_WIDTH) - len(rest), 20)
        lines = textwrap.wrap(text, room, break_long_words=False, break_on_hyphens=False) or [""]
        return [(first if not number else rest) + line.replace(HARD, " ") for number, line in enumerate(lines)]


def style_of(choice: str = "auto") -> Style:
    """The style of standard output: `choice` is `always`, `never`, or `auto` for colour on terminals unless NO_COLOR is set."""
    is_terminal = sys.stdout.isatty()
    plain = bool(os.environ.get("NO_COLOR")) or os.environ.get("TERM") == "dumb"
    colour = choice == "always" or choice == "auto" and is_terminal and not plain
    columns = shutil.get_terminal_size((PIPE_WIDTH, 24)).columns if is_terminal or os.environ.get("COLUMNS") else PIPE_WIDTH
    return Style(columns, colour)


def bracket(picture: Picture) -> str:
    """The program's own words, as they stand at the end of a message: the kind of the line and its place."""
    if not picture.report:
        return f"[{picture.rule}]"
    met = re.match(r"(?:protocol|kind \d+|text \w+)(?: \d+:\d+)?|\S.*", picture.report)
    return f"[{met.group()}]".replace(" ", HARD) if met else ""


def place_of(picture: Picture) -> str:
    label = picture.fault
    if label is None:
        return picture.source.name
    return f"{label.source.name}:{label.place.line}:{label.place.column}"


class Lines:
    """Lines of sources with labels below them. A line that was shown last isn't shown again."""

    def __init__(self, style: Style, main: Source) -> None:
        self.style = style
        self.main = main
        self.out: List[str] = []
        self.shown: Optional[Tuple[str, int]] = None

    def show(self, label: Label) -> None:
        here = (label.source.name, label.place.line)
        if here != self.shown:
            self.shown = here
            if label.source.name != self.main.name:
                self.out.append(self.style.paint(f"      : {label.source.name}", "dim"))
            self.out.append(f"{label.place.line:5} | {label.source.line(label.place.line)}")
        pad = "      | " + label.source.pad(label.place)
        sign = "^" if label.role == "fault" else "~"
        marks = self.style.paint(sign * label.length, label.role)
        self.out += self.said(label, pad, marks)

    def said(self, label: Label, pad: str, marks: str) -> List[str]:
        """The marks and the text, beside them if there is room, else below them."""
        if not label.text:
            return [pad + marks]
        used = len(pad) + label.length + 1
        if used + len(label.text) <= self.style.width:
            return [f"{pad}{marks} {self.style.paint(label.text, label.role)}"]
        indent = pad if len(pad) < self.style.width // 2 else "      | "
        lines = self.style.wrap(label.text, indent, indent)
        return [pad + marks, *(indent + self.style.paint(line[len(indent) :], label.role) for line in lines)]

    def ways(self, ways: Sequence[Way]) -> None:
        for way in ways:
            if way.title:
                self.out += self.style.wrap(way.title, "  ", "  ")
                self.shown = None
            for label in way.labels:
                self.show(label)


def headline(picture: Picture, style: Style) -> List[str]:
    """The place, the severity, the message and the program's own words."""
    first = f"{place_of(picture)}: {picture.severity}: "
    lines = style.wrap(f"{picture.message} {bracket(picture)}".rstrip(), "", "  ")
    plain = f"{first}{lines[0]}"
    if len(plain) > style.width:
        lines = style.wrap(f"{first}{picture.message} {bracket(picture)}".rstrip(), "", "  ")
        plain, lines = lines[0], lines
    painted = plain.replace(
        first, style.paint(place_of(picture) + ":", "bold") + " " + style.paint(picture.severity + ":", picture.severity) + " ", 1
    )
    return [painted, *lines[1:]]


def cure_lines(cures: Sequence[Cure], style: Style) -> List[str]:
    out: List[str] = []
    for number, cure in enumerate(cures):
        name = "cure: " if number == 0 else "  or: "
        tested = " (tested)" if cure.tested else ""
        lines = style.wrap(cure.text + tested, "  " + name, "        ")
        out += [lines[0].replace(name, style.paint(name, "cure"), 1), *lines[1:]]
    return out


def picture_lines(picture: Picture, style: Style) -> List[str]:
    """The lines of a picture."""
    if picture.severity == "ok":
        return [f"{picture.source.name}: {style.paint(picture.message, 'ok')}"]
    lines = Lines(style, picture.source)
    before = [way for way in picture.ways if way.is_path]
    lines.ways(before)
    if any(way.title for way in before):
        lines.out.append("  and here:")
        lines.shown = None
    if picture.fault:
        lines.show(picture.fault)
    lines.ways([way for way in picture.ways if not way.is_path])
    notes = [line for note in picture.notes for line in style.wrap(note, "  note: ", "        ")]
    return [*headline(picture, style), *lines.out, *notes, *cure_lines(picture.cures, style)]


def write(pictures: Sequence[Picture], style: Style) -> str:
    """All pictures, with an empty line between those that take more than one."""
    parts = ["\n".join(picture_lines(picture, style)) + "\n" for picture in pictures]
    return "".join(
        ("\n" if number and "\n" in (part.rstrip("\n") + parts[number - 1].rstrip("\n")) else "") + part
        for number, part in enumerate(parts)
    )

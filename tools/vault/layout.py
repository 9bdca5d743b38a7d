"""A program's layout with its comments: what `vaultc fmt` writes, and in it each comment of the text, and single blank lines.

A comment stays at its token. One that stands on lines of its own stays above the line of the token that follows it; one that follows a
token stays behind that token, or goes above the line if something follows there and it can't stand inside a line."""
from __future__ import annotations

import re
from bisect import bisect_right
from typing import Dict, Iterator, List, Tuple

from .programs import Answer, Program
from .records import dataclass, field, replace
from .tokens import Token, scan

LINE_END = re.compile(r"[ \t\r]*(\n|\Z)")
GAP = "  "
INDENT = "    "
# signs after which a comment follows without a blank, and before which none follows it
OPENERS = ("(", "[", ".", "@", "!")
CLOSERS = (")", "]", ",", ";", ".", ":", "@")


@dataclass(frozen=True)
class Comment:
    """A comment of the text: what it is attached to, and how it stood.

    `token` is the number of the token that it follows, or, if it begins a line, of the one that follows it. `column` counts the
    characters before it on its line."""

    piece: Token
    token: int
    begins_line: bool
    blank_before: bool
    column: int

    @property
    def fits_inside(self) -> bool:
        """Whether a token may follow it on its line."""
        return not self.is_line_comment and "\n" not in self.piece.text

    @property
    def is_line_comment(self) -> bool:
        """Whether it goes on to the end of its line."""
        return self.piece.text.startswith("//")


@dataclass
class Line:
    """A line of the layout, with what goes onto it: `above` are comments on lines of their own, `inside` those behind a token, by the
    number of that token."""

    text: str
    first: int
    starts: List[int]
    blank_before: bool = False
    above: List[Comment] = field(default_factory=list)
    inside: List[Comment] = field(default_factory=list)

    @property
    def indent(self) -> str:
        """The blanks before comments above it: those of the block that they stand in."""
        blanks = self.text[: len(self.text) - len(self.text.lstrip(" "))]
        return blanks + INDENT if self.text.lstrip(" ").startswith("}") else blanks

    @property
    def last(self) -> int:
        """The number of its last token."""
        return self.first + len(self.starts) - 1

    def settle(self) -> None:
        """Moves comments that can't stand inside it above it, with those before them, so that the order of comments stays."""
        stuck = [number for number, comment in enumerate(self.inside) if not self._holds(number, comment)]
        if not stuck:
            return
        moved, self.inside = self.inside[: stuck[-1] + 1], self.inside[stuck[-1] + 1 :]
        moved[0] = replace(moved[0], blank_before=self.blank_before)
        self.blank_before = False
        self.above += moved

    def _holds(self, number: int, comment: Comment) -> bool:
        """Whether a comment can stand behind its token: it ends before its line does, or nothing follows it."""
        if comment.fits_inside:
            return True
        is_last = number == len(self.inside) - 1 and comment.token == self.last
        return is_last and comment.is_line_comment

    @property
    def tail(self) -> List[Comment]:
        """The comments behind its last token."""
        return [comment for comment in self.inside if comment.token == self.last]

    def body(self) -> str:
        """The line's tokens with the comments between them."""
        body, end = "", 0
        for comment in self.inside[: len(self.inside) - len(self.tail)]:
            at = self.starts[comment.token - self.first + 1]
            body = (body + self.text[end:at]).rstrip(" ")
            body += ("" if body.endswith(OPENERS) else " ") + comment.piece.text
            body += "" if self.text.startswith(CLOSERS, at) else " "
            end = at
        return body + self.text[end:]


class NotKept(Exception):
    """The layout can't be given the text's comments; the message says why."""


def comments(text: str) -> List[str]:
    """The comments of a text in their order, without the blanks at their ends."""
    return [piece.text.rstrip() for piece in scan(text) if piece.kind == "comment"]


def tokens(text: str) -> List[Token]:
    """The tokens of a text in their order."""
    return [piece for piece in scan(text) if piece.kind != "comment"]


def attach(text: str) -> Tuple[List[Comment], List[int]]:
    """The comments of a text, and the numbers of the tokens before which a blank line stands."""
    found, gaps = [], []
    count, end, begins_line = 0, 0, True
    for piece in scan(text):
        feeds = text.count("\n", end, piece.start)
        begins_line = begins_line or feeds > 0
        blank = begins_line and feeds > 1
        end = piece.end
        if piece.kind != "comment":
            gaps += [count] * blank
            count, begins_line = count + 1, False
            continue
        token = count if begins_line else count - 1
        column = piece.start - (text.rfind("\n", 0, piece.start) + 1)
        found.append(Comment(piece, token, begins_line, blank, column))
        begins_line = begins_line and LINE_END.match(text, end) is not None
    return found, gaps


def lines_of(layout: str) -> List[Line]:
    """The lines of a layout, and a last one that is empty, for what stands behind its last token."""
    starts, lines, number = [piece.start for piece in tokens(layout)], [], 0
    offset = 0
    for text in layout.split("\n"):
        end = bisect_right(starts, offset + len(text))
        lines.append(Line(text, number, [start - offset for start in starts[number:end]]))
        number, offset = end, offset + len(text) + 1
    return lines


def keep_comments(text: str, layout: str) -> str:
    """The layout of a text with the text's comments and single blank lines."""
    if len(tokens(text)) != len(tokens(layout)):
        raise NotKept("its tokens and those of its layout can't be matched")
    lines = lines_of(layout)
    firsts = [line.first for line in lines]
    found, gaps = attach(text)
    for comment in found:
        place = lines[max(bisect_right(firsts, comment.token) - 1, 0)]
        is_above = comment.begins_line and comment.token == place.first
        (place.above if is_above else place.inside).append(comment)
    for gap in gaps:
        place = lines[bisect_right(firsts, gap) - 1]
        place.blank_before = place.blank_before or gap == place.first
    for line in lines:
        line.settle()
    return "".join(f"{written}\n" for written in written_lines(lines))


def written_lines(lines: List[Line]) -> Iterator[str]:
    """The lines of the result: comments, blank lines, and the layout's own lines with the comments on them."""
    columns = tail_columns(lines)
    before = ""
    for number, line in enumerate(lines):
        for comment in line.above:
            if comment.blank_before and is_gap(before, comment.piece.text):
                yield ""
            before = line.indent + comment.piece.text.rstrip()
            yield before
        body = line.body()
        if number == len(lines) - 1 and not body:
            return
        if line.blank_before and is_gap(before, body):
            yield ""
        before = body
        if line.tail:
            before = body.ljust(columns[number]) + " ".join(comment.piece.text.rstrip() for comment in line.tail)
        yield before


def is_gap(before: str, after: str) -> bool:
    """Whether a blank line may stand between two lines: not at the text's beginning, and not just inside braces."""
    return bool(before) and not before.rstrip().endswith("{") and not after.lstrip().startswith("}")


def tail_columns(lines: List[Line]) -> Dict[int, int]:
    """For each line with a comment at its end the column of that comment: lines after each other whose comments stood in one column
    have them in one column again."""
    columns: Dict[int, int] = {}
    run: List[Tuple[int, int]] = []
    column = -1
    for number, line in enumerate(lines):
        if not line.tail:
            run = []
            continue
        if column != line.tail[0].column or line.above:
            run = []
        column = line.tail[0].column
        run.append((number, len(line.body()) + len(GAP)))
        widest = max(width for _, width in run)
        columns.update((at, widest) for at, _ in run)
    return columns


def lay_out(program: Program, text: str) -> Answer:
    """What `vaultc fmt` answers to a text."""
    return program.ask(["fmt", "/dev/stdin"], input=text)


def lay_out_with_comments(program: Program, text: str) -> Answer:
    """The answer of `vaultc fmt` to a text, with the text's comments in the layout.

    It is tested before it is given: its own layout is the text's, its comments are the text's, and laid out again it is the same.
    Otherwise NotKept is raised."""
    plain = lay_out(program, text)
    if plain.status != 0:
        return plain
    kept = keep_comments(text, plain.output)
    if comments(kept) != comments(text):
        raise NotKept("its comments would not be the same")
    again = lay_out(program, kept)
    if (again.status, again.output) != (0, plain.output):
        raise NotKept("its layout would not be the same")
    if keep_comments(kept, plain.output) != kept:
        raise NotKept("laid out again it would not be the same")
    return Answer(0, kept, "")

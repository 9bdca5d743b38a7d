"""Changes of a text: how they are written so that the text stays laid out, and where a character is after them."""
from __future__ import annotations

from typing import List, Optional, Sequence

from .picture import Edit
from .syntax import Span


def indent(text: str, offset: int) -> str:
    """The blanks at the beginning of the line of a character."""
    start = text.rfind("\n", 0, offset) + 1
    end = start
    while end < len(text) and text[end] in " \t":
        end += 1
    return text[start:end]


def begins_line(text: str, offset: int) -> bool:
    return not text[text.rfind("\n", 0, offset) + 1 : offset].strip()


def put_before(text: str, offset: int, statements: Sequence[str], deeper: bool = False) -> Edit:
    """Statements in lines of their own before the statement or the brace at a character; on the same line if it begins none."""
    if not begins_line(text, offset):
        return Edit(Span(offset, offset), " ".join(statements) + " ")
    start = text.rfind("\n", 0, offset) + 1
    blanks = indent(text, offset) + ("    " if deeper else "")
    return Edit(Span(start, start), "".join(f"{blanks}{one}\n" for one in statements))


def put_after(text: str, span: Span, statements: Sequence[str]) -> Edit:
    """Statements in lines of their own after a statement."""
    blanks = indent(text, span.start)
    return Edit(Span(span.end, span.end), "".join(f"\n{blanks}{one}" for one in statements))


def drop(text: str, span: Span) -> Edit:
    """Takes a statement out, with its line if it has one of its own."""
    start = text.rfind("\n", 0, span.start) + 1
    end = text.find("\n", span.end)
    end = len(text) if end < 0 else end + 1
    if text[start : span.start].strip() or text[span.end : end].strip():
        return Edit(span, "")
    return Edit(Span(start, end), "")


def apply(text: str, edits: Sequence[Edit]) -> str:
    """The text with these changes, which don't overlap."""
    for edit in sorted(edits, key=lambda one: one.span.start, reverse=True):
        text = text[: edit.span.start] + edit.text + text[edit.span.end :]
    return text


def moved(offset: int, edits: Sequence[Edit]) -> Optional[int]:
    """Where a character is after changes; None if it is taken out."""
    shift = 0
    for edit in edits:
        if edit.span.start <= offset < edit.span.end:
            return None
        if edit.span.end <= offset:
            shift += len(edit.text) - (edit.span.end - edit.span.start)
    return offset + shift


def changed_parts(edits: Sequence[Edit]) -> List[Span]:
    """Where what was put in stands after the changes; of what was only taken out the place where it was."""
    found, shift = [], 0
    for edit in sorted(edits, key=lambda one: one.span.start):
        start = edit.span.start + shift
        found.append(Span(start, start + len(edit.text)))
        shift += len(edit.text) - (edit.span.end - edit.span.start)
    return found

"""Pictures of texts that are refused before any rule is tested, of limits, and of lines without a place."""
from __future__ import annotations

from pathlib import Path
from typing import Optional, Sequence

from .expected import Ask, Place, expected, in_words, joined, place_of
from .habits import byte_cure, cure_of
from .picture import Cure, Edit, Picture, View, Way
from .report import Limit, ListFault, Report, TextFault, Unread
from .rules import limit_words
from .syntax import Span
from .tokens import Token, tokens

GRAMMAR = "docs/LANGUAGE.md#grammar"
LIMITS = "docs/LANGUAGE.md#limits"
BYTE_ORDER_MARK = "\ufeff"
MODULES = "divide the program into modules beside an interface, and ask `vault module INTERFACE FILE` of each"
LIMIT_CURES = {
    1: MODULES, 3: MODULES, 4: MODULES,
    5: "declare two state sets, and a type for each",
    6: "put some of the fields into a struct of their own, which this one owns: `tracked PART part;`",
    7: "put some of the cases into a variant of their own, which one case carries",
    8: "let the case own an object that has what it carries: `'A(tracked PART)`",
    9: "pass an object that has what these parameters pass",
    10: "divide the function", 11: "divide the function",
    12: "put what is inside into a function, and call it; give a part of a long expression a variable",
    13: "ask for smaller budgets: --depth, --heap",
}  # fmt: skip
STATUSES = {3: "the reply could not be written", 4: "out of memory"}


def text_picture(view: View, fault: TextFault) -> Picture:
    """The picture of a text that isn't of the grammar, without what was expected."""
    source = view.source
    place = fault.place or source.end()
    offset = source.offset(place)
    character = source.text[offset : offset + 1]
    message, here, cure = words_of(fault.what, character)
    length = 2 if fault.what == "comment" else 1
    mark = view.label(Span(offset, offset + length), here, "fault")
    cures = (Cure(cure),) if cure else ()
    return Picture(mark.source, "error", f"text-{fault.what}", fault.line, message, mark, (), (), cures, GRAMMAR)


def words_of(what: str, character: str) -> tuple:
    """The message, what is said at the place, and the cure."""
    if what == "utf8":
        return "the file isn't UTF-8 from here on", "these bytes are no UTF-8", "save the file as UTF-8"
    if what == "byte" and character == BYTE_ORDER_MARK:
        return "the file begins with a byte order mark", "the mark", "save the file as UTF-8 without a byte order mark"
    if what == "byte":
        shown = character if character.isprintable() else f"U+{ord(character):04X}" if character else "this"
        return f"`{shown}` is no character of the language", "no token begins with this", byte_cure(character)
    if what == "number":
        cure = "write a smaller one: a number has 64 bits with a sign; the parts of a greater one stand in two variables"
        return "the number is too large", "this is above 9223372036854775807, the greatest number of 64 bits", cure
    if what == "comment":
        return "the comment is never closed", "it begins here", "close it by `*/`"
    if what == "end":
        return "the text ends too early", "something is missing here", ""
    return "the grammar doesn't take this here", "this can't stand here", ""


OF_GRAMMAR = (4, 5, 6, 7, 8, 9, 12)


def limit_place(view: View, fault: Limit, ask: Ask) -> Span:
    """The token that demands more than a limit of the grammar allows, by halves: the text up to it is refused so, one that ends before isn't."""
    text = view.source.text
    found = tokens(text)[:-1]
    first, last = 0, len(found) - 1
    while first < last:
        middle = (first + last) // 2
        reports = ask(text[: found[middle].end].encode("utf-8", "replace"))
        is_beyond = bool(reports) and isinstance(reports[0], Limit) and reports[0].number == fault.number
        first, last = (first, middle) if is_beyond else (middle + 1, last)
    return Span(found[last].start, found[last].end)


def limit_picture(view: View, fault: Limit, ask: Optional[Ask] = None) -> Picture:
    """The picture of a limit. The program tells no place of it; one of the grammar's is found by asking of shorter texts."""
    what = limit_words(fault.number)
    message = f"too many {what}: at most {fault.most:,}"
    cures = (Cure(LIMIT_CURES[fault.number]),) if fault.number in LIMIT_CURES else ()
    mark = None
    if ask is not None and view.is_read and fault.number in OF_GRAMMAR:
        mark = view.label(limit_place(view, fault, ask), "this goes too deep" if fault.number == 12 else "here is one too many", "fault")
    source = mark.source if mark else view.source
    return Picture(source, "error", f"limit-{fault.number}", fault.line, message, mark, cures=cures, link=LIMITS)


def list_picture(view: View, fault: ListFault) -> Picture:
    """A line of a file of calls, input or answers that isn't of its form; `view` is that file."""
    forms = {
        "calls": "a call is a name and its arguments, which are numbers and objects as `#1`",
        "input": "input is decimal numbers of 64 bits",
        "answers": "an answer is decimal numbers of 64 bits, one answer a line",
    }
    start = view.source.starts[min(fault.number, len(view.source.starts)) - 1]
    line = view.source.line(fault.number)
    mark = view.label(Span(start, start + max(len(line), 1)), "this line", "fault")
    return Picture(view.source, "error", f"text-{fault.what}", fault.line, forms.get(fault.what, "this line can't be read"), mark)


def other_picture(view: View, report: Report, status: int) -> Picture:
    """The picture of a line without a place."""
    message = report.line or STATUSES.get(status, f"status {status}")
    if isinstance(report, Unread):
        message = f"the file can't be read: {unread_words(report.name)}"
    return Picture(view.source, "error", "read" if status == 2 else "none", report.line, message)


def unread_words(name: str) -> str:
    """Why a file can't be read, as far as the system tells it now."""
    path = Path(name)
    if not path.exists():
        return "there is no file of this name"
    return "it is a folder" if path.is_dir() else "it may not be read"


# ---- what was expected


def token_picture(view: View, fault: TextFault, ask: Ask, jobs: int) -> Picture:
    """The picture of a token that the grammar doesn't take, or of a text that ends too early, with what was expected."""
    offset = view.offset(fault.place) if fault.place else len(view.source.text.rstrip())
    place = place_of(view.source.text, offset)
    names = expected(view, place, ask, jobs)
    if not names:
        return text_picture(view, fault)
    cure = cure_of(place, names)
    last = place.before()
    if cure is None and last is not None and is_missing(view, place, names):
        return missing_picture(view, fault, place, missing_word(place, names))
    said, found = in_words(names), found_words(place.found)
    # a long list tells nothing
    message = f"{found} can't stand here" if len(said) > 3 and fault.place else f"expected {joined(said)}, found {found}"
    span = Span(place.found.start, max(place.found.end, place.found.start + 1)) if fault.place else Span(offset, offset + 1)
    mark = view.label(span, "", "fault")
    cures = (Cure(cure or what_fits(said, found)),)
    return Picture(mark.source, "error", f"text-{fault.what}", fault.line, message, mark, opened(view, place), (), cures, GRAMMAR)


def what_fits(said: Sequence[str], found: str) -> str:
    """What may stand where something else was found."""
    if "an expression" in said or "a value" in said:
        return f"a value is missing before {found}: write one, as `0` or a variable"
    return f"write {joined(said, 6)} before {found}, or in its place"


def missing_picture(view: View, fault: TextFault, place: Place, missing: str) -> Picture:
    """The picture of a sign that is missing before the token."""
    last = place.before()
    mark = view.label(Span(last.end, last.end + 1), f"`{missing}` is missing here", "fault")
    message = f"expected `{missing}`, found {found_words(place.found)}"
    edit = Edit(Span(last.end, last.end), missing)
    where = "here, or where the block should end" if missing == "}" else f"after `{last.text}`"
    cures = (Cure(f"write `{missing}` {where}", (edit,)),)
    return Picture(mark.source, "error", f"text-{fault.what}", fault.line, message, mark, opened(view, place), (), cures, GRAMMAR)


def found_words(token: Token) -> str:
    """A token in words."""
    if token.kind == "end":
        return "the end of the text"
    return f"{'the keyword ' if token.kind == 'keyword' else ''}`{token.text}`"


CLOSING = (";", ")", "}", "]", "{")


def missing_word(place: Place, names: Sequence[str]) -> str:
    return next((sign for sign in CLOSING if sign in names), names[0])


def is_missing(view: View, place: Place, names: Sequence[str]) -> bool:
    """Whether a sign is missing before the token rather than the token wrong: it is the only one that is taken, or a `;` or a closing
    sign before the end of the line."""
    last = place.before()
    if not any(sign in names for sign in CLOSING) or last is None:
        return False
    if len(names) == 1:
        return True
    is_next_line = "\n" in view.source.text[last.end : place.found.start]
    ends = place.found.text in (";", "}", "{") or place.found.kind in ("end", "keyword")
    return is_next_line and ";" in names or ends and any(sign in names for sign in (";", ")", "]", "}"))


def opened(view: View, place: Place) -> tuple:
    """The brace that is still open where the text ends."""
    if place.found.kind != "end":
        return ()
    braces = []
    for token in place.tokens[place.first : place.number]:
        if token.is_sign("{"):
            braces.append(token)
        elif token.is_sign("}") and braces:
            braces.pop()
    if not braces:
        return ()
    label = view.label(Span(braces[-1].start, braces[-1].end), "this `{` is never closed")
    return (Way("", (label,)),)

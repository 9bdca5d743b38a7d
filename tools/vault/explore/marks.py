"""A driver's text with marks: a number is printed before each statement, and functions show the fields of what the host holds.

The run of a text with marks does what that of the text does, and prints more: so it shows which statements were reached, and at which one it ended."""
from __future__ import annotations

from typing import Dict, List, Optional, Tuple

from .. import syntax as s
from ..declarations import Declarations
from ..records import dataclass
from ..source import Source

FIRST_MARK = 9_223_372_036_854_000_000
"""The number of the first mark; numbers as large as it are no driver's own."""

SHOW = "vault_shows"


@dataclass(frozen=True)
class Shown:
    """A function that shows a field: its name, its type, and the states in which it may be called; none if in any."""

    function: str
    type: str
    states: Tuple[str, ...]


@dataclass(frozen=True)
class Marked:
    """A text with marks. Marks are numbered from 0, in the order of `statements`; `opaque` are types with fields that no number shows."""

    text: str
    statements: List[Tuple[s.Function, s.Statement]]
    shown: List[Shown]
    opaque: frozenset

    def mark_of(self, line: str) -> Optional[int]:
        """The number of the mark that a line of a run is."""
        if not line.isdigit() or int(line) < FIRST_MARK:
            return None
        return int(line) - FIRST_MARK


def mark(source: Source, declarations: Declarations) -> Marked:
    """Puts marks into a driver's text."""
    marked = [(function, it) for function in declarations.functions() if function.body for it in s.all_statements(function.body)]
    text = with_marks(source.text, [it for _, it in marked])
    shown, opaque = showing(declarations)
    functions = "".join(function_text(it, field, states) for it, field, states in shown.values())
    return Marked(f"{text}\n{functions}", marked, [it for it, _, _ in shown.values()], opaque)


def with_marks(text: str, statements: List[s.Statement]) -> str:
    """The text with a mark before each statement. An `if` after `else` gets a block of its own, which has room for one."""
    after_else = {it.else_part.span.start for it in statements if isinstance(it, s.If) and isinstance(it.else_part, s.If)}
    edits: List[Tuple[int, str]] = []
    for number, statement in enumerate(statements):
        opens = statement.span.start in after_else
        edits.append((statement.span.start, f"{'{ ' * opens}print({FIRST_MARK + number}); "))
        if opens:
            edits.append((statement.span.end, " }"))
    for at, piece in sorted(edits, key=lambda it: it[0], reverse=True):
        text = text[:at] + piece + text[at:]
    return text


def showing(declarations: Declarations) -> Tuple[Dict[str, Tuple[Shown, s.Field, str]], frozenset]:
    """The functions that show fields, by their names, and the types with other fields."""
    found: Dict[str, Tuple[Shown, s.Field, str]] = {}
    opaque = set()
    for struct in declarations.all(s.Struct):
        if struct.header or any(field.type.form not in ("int", "bool") for field in struct.fields):
            opaque.add(struct.name.text)
            continue
        for number, field in enumerate(struct.fields):
            name = f"{SHOW}_{struct.name.text}_{number}"
            found[name] = (Shown(name, struct.name.text, field.states), field, s.at_states(field.states))
    return found, frozenset(opaque)


def function_text(shown: Shown, field: s.Field, states: str) -> str:
    """The text of a function that shows a field."""
    head = f"{field.type} {shown.function}(tracked(K) {shown.type} x) [K{states}]"
    return f"{head} {{ {field.type} v = x.{field.name.text}; return v; }}\n"

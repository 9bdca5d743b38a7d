"""What is said of a broken rule on names and types, and what is known at its place."""
from __future__ import annotations

from typing import Callable, Optional, Tuple

from . import syntax as s
from .picture import Cure, Label, View
from .records import dataclass
from .report import RuleFault
from .scope import Scope, scope_at
from .tokens import read_token


@dataclass(frozen=True)
class Told:
    """What is said of a broken rule: the message, what stands at the place, other places, and cures. None of a part means the rule's
    own words."""

    message: Optional[str] = None
    here: str = ""
    others: Tuple[Label, ...] = ()
    cures: Tuple[Cure, ...] = ()
    span: Optional[s.Span] = None


class Context:
    """A broken rule with its place: the declaration and the scope there."""

    def __init__(self, view: View, fault: RuleFault) -> None:
        self.view = view
        self.fault = fault
        self.declarations = view.declarations
        self.offset = view.offset(fault.place)
        self.declaration = self.declarations.at(self.offset) if self.declarations else None
        self.scope: Optional[Scope] = scope_at(self.declarations, self.offset) if self.declarations else None

    @property
    def statement(self) -> Optional[s.Statement]:
        return self.scope.statement if self.scope else None

    @property
    def word(self) -> str:
        """The token at the place."""
        text = self.view.source.text
        return read_token(text, self.offset).text if self.offset < len(text) else ""

    def label(self, span: s.Span, text: str) -> Label:
        return self.view.label(span, text)

    def token_span(self) -> s.Span:
        return s.Span(self.offset, self.offset + max(len(self.word), 1))


Teller = Callable[[Context], Optional[Told]]


def cure(text: str) -> Tuple[Cure, ...]:
    return (Cure(text),)

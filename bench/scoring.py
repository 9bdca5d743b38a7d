"""The rules of scoring: what a tool's diagnostics on the two texts of a case are worth."""

from __future__ import annotations

from collections import Counter
from dataclasses import dataclass
from typing import List, Optional, Tuple

from messages import Diagnostic, Edit

NEAR = 1
"""A place is right if it is at most so many lines from the line that is marked."""


@dataclass(frozen=True)
class Score:
    """What one tool is worth on one case."""

    is_found: bool = False
    is_false_alarm: bool = False
    is_place_right: bool = False
    has_second_place: bool = False
    """A place on another line than the diagnostic's own is shown."""
    has_path: bool = False
    """At least two such places are shown."""
    cure: Tuple[Edit, ...] = ()
    """The first cure that is offered; none if there is none."""
    is_cure_right: bool = False
    """The text with that cure made has no relevant diagnostic."""
    outside: str = ""
    """Why the case isn't scored: `n/a`, `d` (by design) or `error`."""

    @property
    def mark(self) -> str:
        """The score in a cell of the table."""
        return self.outside or ("F" if self.is_found else "-") + ("!" if self.is_false_alarm else "")


def score(wrong: List[Diagnostic], right: List[Diagnostic], fault: int) -> Score:
    """The score of relevant diagnostics on the wrong text, whose fault is on the line `fault`, and on the right one. Diagnostics
    are compared by kind and words; their places don't count."""
    known = Counter((it.kind, it.text) for it in right)
    new = []
    for diagnostic in wrong:
        if known[diagnostic.kind, diagnostic.text] > 0:
            known[diagnostic.kind, diagnostic.text] -= 1
        else:
            new.append(diagnostic)
    others = [{line for line in it.notes if line != it.line} for it in new]
    cure = next((it.cure for it in new if it.cure), ())
    return Score(bool(new), bool(right), any(is_near(it.line, fault) for it in new), any(others), any(len(it) > 1 for it in others), cure)


def is_near(line: Optional[int], fault: int) -> bool:
    return line is not None and abs(line - fault) <= NEAR

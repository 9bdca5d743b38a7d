"""Cures are tried before they are shown: the program is asked of the changed text, and a change is good only if the error is gone and none
has come.

The program stops at the first error of a text, or on names and types, so that others come to light once that one is gone. They aren't new if
they have nothing to do with the change: they are in a declaration that it doesn't touch, or about names that it doesn't have."""
from __future__ import annotations

from functools import cached_property
from typing import Callable, List, Sequence, Set, Tuple

from .ask import Reply
from .edits import apply, changed_parts, moved
from .parser import NotGrammar, Parser, parse
from .picture import Cure, Edit, View
from .records import dataclass, replace
from .report import Accepted, KeyFault, Report, RuleFault, TextFault
from .scope import scope_at, statement_starting
from .side_by_side import mapped
from .source import Place, Source
from .syntax import Span
from .tokens import tokens

# what the program says of a text
Try = Callable[[bytes], Reply]
READ_BEHIND = 4000
"""How many characters behind a change of a text that isn't of the grammar are read before it is tried."""
LONGEST_TOKEN = 200
# tokens that change which statements belong to which block, or how far a function goes
STRUCTURE = {"{", "}", "(", ")", "else", "if", "while", "switch", "case", "focus", "return", "break", "continue"}


def group_of(rule: int) -> int:
    """Rules are tested by groups: those on declarations, on heads, on bodies."""
    if rule < 18 or rule == 45:
        return 0
    return 1 if rule < 27 or rule == 46 else 2


@dataclass(frozen=True)
class Trial:
    """A text, what the program says of it, and how it is asked of another; `jobs` is how many are tried at one time."""

    view: View
    reports: Sequence[Report]
    tries: Try
    jobs: int

    @cached_property
    def ends(self) -> List[int]:
        """Where the declarations end that the parser of this package takes, up to the first one that it doesn't."""
        parser = Parser(self.view.source.text)
        found: List[int] = []
        try:
            while parser.token.kind != "end":
                parser.declaration()
                found.append(parser.tokens[parser.at - 1].end)
        except (NotGrammar, RecursionError):
            pass
        return found

    def tested(self, fault: Report, cures: Sequence[Cure], most: int) -> List[Cure]:
        """The first cures that are good, at most so many."""
        found: List[Cure] = []
        for start in range(0, len(cures), self.jobs):
            some = cures[start : start + self.jobs]
            good = mapped(lambda cure: self.is_cured(fault, cure.edits), some, self.jobs)
            found += [replace(cure, tested=True) for cure, is_good in zip(some, good) if is_good]
            if len(found) >= most:
                break
        return found[:most]

    def with_words(self, fault: Report, cures: Sequence[Cure]) -> Tuple[Cure, ...]:
        """Cures in their order. Changes that aren't good are left out, and the words stay."""
        good = mapped(lambda cure: bool(cure.edits) and self.is_cured(fault, cure.edits), cures, self.jobs)
        return tuple(
            replace(cure, tested=True) if is_good else replace(cure, edits=()) for cure, is_good in zip(cures, good)
        )

    def is_grammar(self, edits: Sequence[Edit]) -> bool:
        """Whether the parser of this package takes the changed text. Of one that it took before it reads the declarations that are changed,
        since those beside them are as they were."""
        text = self.view.source.text
        declarations = self.view.program.declarations if self.view.program else ()
        first, last = min((edit.span.start for edit in edits), default=0), max((edit.span.end for edit in edits), default=0)
        start = max((one.span.end for one in declarations if one.span.end < first), default=0)
        rest = len(text) - min((one.span.start for one in declarations if one.span.start > last), default=len(text))
        changed = apply(text, edits)
        return parse(changed[start : len(changed) - rest]) is not None

    def is_cured(self, fault: Report, edits: Sequence[Edit]) -> bool:
        """Whether the program no longer has this fault of the changed text, and no other that comes of the change."""
        text = apply(self.view.source.text, edits)
        if text == self.view.source.text:
            return False
        changed = Changed(self, fault, edits, text)
        if not changed.is_worth_asking():
            return False
        reply = self.tries(text.encode("utf-8", "replace"))
        return bool(reply.reports) and changed.is_good(reply.reports)


class Changed:
    """A changed text, and which of its errors don't come of the change. It is read only if the program finds errors in it."""

    def __init__(self, trial: Trial, fault: Report, edits: Sequence[Edit], text: str) -> None:
        self.trial = trial
        self.fault = fault
        self.edits = edits
        self.text = text
        self.parts = changed_parts(edits)

    @cached_property
    def source(self) -> Source:
        return Source(self.trial.view.source.name, self.text.encode("utf-8", "replace"))

    @cached_property
    def view(self) -> View:
        return View(self.source)

    @cached_property
    def words(self) -> Set[str]:
        return self.words_of_edits()

    def words_of_edits(self) -> Set[str]:
        """The tokens that are put in or taken out; of a change of blocks all of them. A declaration that isn't changed in its body alone is one
        of them."""
        old = self.trial.view.source.text
        found: Set[str] = set()
        for edit in self.edits:
            taken = [token.text for token in tokens(old[edit.span.start : edit.span.end])]
            given = [token.text for token in tokens(edit.text)]
            same_blocks = [word for word in taken if word in STRUCTURE] == [word for word in given if word in STRUCTURE]
            found |= set(taken) ^ set(given) if same_blocks else {*taken, *given}
        for part in self.parts:
            declarations = self.view.declarations
            outer = declarations.at(part.start) if declarations and not self.body_around(part) else None
            found |= {outer.name.text} if outer else set()
        return found - {""}

    def is_of_doubles(self, anywhere: bool = False) -> bool:
        """Whether nothing but lines are taken out that stand twice, one after the other: outside of bodies the others say the same."""
        old = self.trial.view.source.text
        for edit in self.edits:
            taken = old[edit.span.start : edit.span.end]
            before, after = old[: edit.span.start].endswith(taken), old.startswith(taken, edit.span.end)
            if edit.text or not taken.endswith("\n") or not (before or after):
                return False
        return anywhere or not any(self.body_around(part) for part in self.parts)

    def is_worth_asking(self) -> bool:
        """Whether the parser of this package takes the text, or at least more of it than before. It reads from the declaration that is changed
        up to a whole one behind the change: what follows is as it was."""
        if not isinstance(self.fault, TextFault):
            return self.trial.is_grammar(self.edits)
        first, last = min(edit.span.start for edit in self.edits), max(part.end for part in self.parts)
        start = max((end for end in self.trial.ends if end < first), default=0)
        cut = last + READ_BEHIND
        parser = Parser(self.text[start:cut])
        try:
            while parser.token.kind != "end":
                begins = parser.token.start + start
                parser.declaration()
                if begins > last:
                    return True
        except NotGrammar as error:
            at = error.at + start
            is_cut_off = cut < len(self.text) and at >= cut - LONGEST_TOKEN
            return is_cut_off or self.is_later_text(TextFault("", "token", self.source.place(at)))
        except RecursionError:
            return False
        return True

    def is_good(self, reports: Sequence[Report]) -> bool:
        first = reports[0]
        if isinstance(first, Accepted):
            return True
        if isinstance(first, TextFault):
            return isinstance(self.fault, TextFault) and self.is_later_text(first)
        if isinstance(first, RuleFault):
            return isinstance(self.fault, (TextFault, RuleFault)) and self.is_behind(first) and self.is_unrelated(first.place)
        if not all(isinstance(one, KeyFault) for one in reports):
            return False
        return all(self.is_known(one) or self.is_unrelated(one.place, one.key) for one in reports if isinstance(one, KeyFault))

    # ---- texts

    def is_later_text(self, fault: TextFault) -> bool:
        """Whether a text is refused only behind the change: where the change is of signs alone, or a whole declaration lies between."""
        offset = len(self.text) if fault.place is None else self.source.offset(fault.place)
        last = max(part.end for part in self.parts)
        if offset <= last:
            return False
        if self.is_of_doubles(anywhere=True):
            return True
        if self.is_of_signs():
            return self.text.count("\n", last, offset) > 0
        return self.has_whole_declaration(last, offset)

    def has_whole_declaration(self, start: int, end: int) -> bool:
        parser = Parser(self.text)
        try:
            while parser.token.start < end:
                first = parser.token
                parser.declaration()
                if first.start >= start:
                    return True
        except (NotGrammar, RecursionError):
            pass
        return False

    # ---- rules

    def is_behind(self, fault: RuleFault) -> bool:
        """Whether the program tests this after the fault that is cured."""
        old = self.fault
        if not isinstance(old, RuleFault):
            return True
        before = moved(self.trial.view.offset(old.place), self.edits)
        here = self.view.offset(fault.place)
        if group_of(old.rule) != group_of(fault.rule):
            return group_of(old.rule) < group_of(fault.rule)
        return here > (before if before is not None else min(part.start for part in self.parts))

    # ---- keys

    def is_known(self, fault: KeyFault) -> bool:
        """Whether the text had this fault before."""
        offset = self.view.offset(fault.place)
        for old in self.trial.reports:
            if old is self.fault or not isinstance(old, KeyFault):
                continue
            same = (old.key, old.found, old.wanted) == (fault.key, fault.found, fault.wanted)
            if same and moved(self.trial.view.offset(old.place), self.edits) == offset:
                return True
        return False

    # ---- what a change can't bring about

    def is_unrelated(self, place: Place, key: str = "") -> bool:
        """Whether a fault at a place doesn't come of the change: it is in a function that the change doesn't touch, or about names that the
        change doesn't have. Faults on keys hide no others of the same function, so one that comes there is new."""
        declarations = self.view.declarations
        if declarations is None:
            return False
        if isinstance(self.fault, TextFault) and self.is_of_signs() or self.is_of_doubles():
            return True
        offset = self.view.offset(place)
        found = declarations.at(offset)
        in_bodies = all(self.body_around(part) for part in self.parts)
        touched = found is None or any(found.span.start <= part.end and part.start <= found.span.end for part in self.parts)
        if in_bodies and not touched:
            return True
        if isinstance(self.fault, KeyFault) or in_bodies and self.words & STRUCTURE:
            return False
        return not self.words & self.names_at(offset, key)

    def is_of_signs(self) -> bool:
        """Whether the change is of signs that end or part statements."""
        return not self.words & STRUCTURE and not any(word.isidentifier() for word in self.words)

    def body_around(self, part: Span) -> bool:
        """Whether a part lies in a function's body."""
        declarations = self.view.declarations
        found = declarations.function_at(part.start) if declarations else None
        body = found.body if found else None
        return body is not None and body.span.start < part.start and part.end < body.span.end

    def names_at(self, offset: int, key: str) -> Set[str]:
        """The names that a fault is about: those of the statement at its place, its key, the variables of that, and the types of all of them."""
        declarations = self.view.declarations
        scope = scope_at(declarations, offset) if declarations else None
        one = statement_starting(declarations, offset) if declarations else None
        one = one or (scope.statement if scope else None) or (declarations.at(offset) if declarations else None)
        found = {token.text for token in tokens(self.view.text_of(one.span)) if token.kind in ("name", "tick")} if one else set()
        of_key = scope.of_key(key) if scope and key else []
        found |= {variable.name.text for variable in of_key} | ({key} if key else set())
        variables = [scope.find(name) for name in found] if scope else []
        types = {variable.type.name for variable in variables if variable is not None and variable.type is not None}
        sets = [declarations.state_set_of(name) for name in types] if declarations else []
        return found | types | {one.name.text for one in sets if one is not None}

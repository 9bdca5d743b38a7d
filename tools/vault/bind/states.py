"""A C text that keeps the states of its objects: that of `vaultc emit` with a line after each `become`, and with lines for what answers of the host say of states.

Without these lines it is the text of `vaultc emit`. So a library of it knows in which state an object is if a clause leaves more than one."""
from __future__ import annotations

import itertools
import re
from typing import Dict, Iterator, List, Optional

from ..errors import Problem
from ..programs import Program
from ..records import dataclass, field
from .becomes import Places
from .certificate import BOUND, NEW, TAKEN, Certificate, FunctionRow, bits
from .slots import slots

MOST_CHOSEN = 64
HEAD = re.compile(r"(?:void|long long|vr_ref) (e|f)(\d+) \(.*\) \{")
CASE = re.compile(r"if \( \( n\d+ == (\d+) \) \) \{")
CHOICE = re.compile(r"vr_pick \( \d+ \) ;")
BACK = re.compile(r"vr_back \( (p\d+) \) ;")
MADE = re.compile(r"(p\d+) = vr_new \( \d+ , \d+ \) ;")


def set_line(reference: str, state: str) -> str:
    return f"vault_set_state ( {reference} , {state} ) ;"


def with_states(program: Program, text: str, certificate: Certificate) -> str:
    """The text of a program with lines that keep states."""
    places = Places(program, text)
    bodies = [it for it in certificate.functions if not it.is_external]
    wanted = []
    for become in places.becomes:
        function = bodies[become.function]
        wanted.append(set_line(slots(certificate, function)[become.variable][0], str(become.state)))
    externals = {it.number: Answers(certificate, it) for it in certificate.externals}
    found: List[str] = []
    answers: Optional[Answers] = None
    for line in places.with_lines(wanted):
        met = HEAD.fullmatch(line)
        if met:
            answers = externals[int(met.group(2))] if met.group(1) == "e" else None
        found += [line, *(answers.lines_after(line) if answers else [])]
    for it in externals.values():
        it.expect_end()
    return "\n".join(found) + "\n"


@dataclass
class CaseStates:
    """Where the states of a case's objects come from: of its keys, and of what it makes."""

    keys: Iterator[str]
    made: Iterator[str]


@dataclass
class Answers:
    """What an answer of an external says of states. A state is one that the clause names alone, or one that the answer chooses; those are numbered in the order of the
    answer's numbers, which is the order of the C text."""

    certificate: Certificate
    external: FunctionRow
    chosen: Iterator[int] = field(default_factory=itertools.count)
    chosen_count: int = 0
    told_count: int = 0
    case: Optional[int] = None

    def __post_init__(self) -> None:
        external = self.external
        places = slots(self.certificate, external)
        references: Dict[int, str] = {shape.key: places[number][0] for number, (_, shape) in enumerate(external.parameters) if shape.kind == "key"}
        self.entries: Dict[str, str] = {}
        self.result: Optional[str] = None
        for entry in external.clause:
            if entry.mode in (TAKEN, BOUND):
                continue
            state = self.state(external.keys[entry.key][1], entry.after)
            if entry.mode == NEW:
                self.result = state
            elif entry.key in references:
                self.entries[references[entry.key]] = state
        if external.result.kind == "own":
            self.result = self.state(external.result.type, external.result.states)
        self.cases: List[CaseStates] = self.case_states() if external.result.kind in ("var", "ownvar") else []

    def case_states(self) -> List[CaseStates]:
        kind = self.certificate.types[self.external.result.type]
        found = []
        for case in kind.cases:
            keys = [self.state(kind.header[key], states) for key, states in case.keys]
            made = [self.state(shape.type, shape.states) for shape in case.payload if shape.kind == "own"]
            found.append(CaseStates(iter(keys), iter(made)))
        return found

    def state(self, type_number: int, mask: int) -> str:
        """The state of an object of a type that is in one of these."""
        states = bits(self.certificate.mask(type_number, mask))
        if len(states) == 1:
            return str(states[0])
        self.chosen_count += 1
        return f"vault_chosen [ {next(self.chosen)} ]"

    def lines_after(self, line: str) -> List[str]:
        """The lines that follow a line of the function between the program and its host."""
        case = CASE.fullmatch(line)
        if case:
            self.case = int(case.group(1))
        elif line == "}":
            self.case = None
        if CHOICE.fullmatch(line):
            self.told_count += 1
            return [f"vault_chosen [ {self.told_count - 1} ] = vault_picked ( ) ;"]
        if line == "vr_end ( ) ;":
            return [set_line(reference, state) for reference, state in self.entries.items()]
        back, made = BACK.fullmatch(line), MADE.fullmatch(line)
        if back and self.case is not None:
            return [set_line(back.group(1), next(self.cases[self.case].keys))]
        if made and self.case is not None:
            return [set_line(made.group(1), next(self.cases[self.case].made))]
        return [set_line(made.group(1), self.result)] if made and self.result else []

    def expect_end(self) -> None:
        """All that the clause says has been met in the C text."""
        left = [it for case in self.cases for it in (*case.keys, *case.made)]
        if left or self.told_count != self.chosen_count or self.chosen_count > MOST_CHOSEN:
            raise Problem(f"the C text of {self.external.name} doesn't have the states of its clause")

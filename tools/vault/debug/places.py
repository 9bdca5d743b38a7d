"""Which line of a program's C text stands for which statement of its text, asked of the program itself.

Two questions make the map. `vaultc verify` of the C text with one more call before a line names the core statement that this line belongs to. And the certificate of
the text with a mark before each statement has the marks among its rows: so it tells at which number each statement's core statements begin."""
from __future__ import annotations

import json
import re
from concurrent.futures import ThreadPoolExecutor
from typing import Any, Dict, List, Optional

from .. import syntax as s
from ..bind.certificate import END, MARK
from ..declarations import Declarations
from ..errors import Problem
from ..explore.marks import FIRST_MARK, with_marks
from ..programs import Program
from ..records import dataclass
from ..source import Source

FUNCTION = re.compile(r"(?:void|long long|vr_ref) f(\d+) \(.*\) \{")
REFUSED = re.compile(r"refused 5 statement (\d+)")
EXTRA = "vr_print ( 0 ) ;"


@dataclass(frozen=True)
class Rows:
    """The statements of a certificate: for each function with a body its first number, and all rows of statements in their order."""

    first: List[int]
    rows: List[List[Any]]


def statement_rows(text: str) -> Rows:
    """The statements of the certificate of a C text."""
    at = text.index(MARK) + len(MARK)
    first: List[int] = []
    rows: List[List[Any]] = []
    is_inside = False
    for row in json.loads(text[at : text.index(END, at)]):
        if row[0] == "fn":
            first.append(len(rows))
            is_inside = True
        elif row[0] == "extern":
            is_inside = False
        elif is_inside:
            rows.append(row)
    return Rows(first, rows)


def emitted(program: Program, text: str) -> str:
    """The C text of an accepted text."""
    answer = program.ask(["emit", "/dev/stdin"], input=text)
    if answer.status != 0:
        raise Problem(answer.output.strip(), answer.status)
    return answer.output


class Places:
    """The lines of Vault for the lines of C."""

    def __init__(self, program: Program, source: Source, declarations: Declarations) -> None:
        self.program = program
        self.source = source
        self.functions = [it for it in declarations.functions() if it.body]
        self.statements = [(it, one) for it in self.functions for one in s.all_statements(it.body)]  # type: ignore[arg-type]
        self.text = emitted(program, source.text)
        self.rows = statement_rows(self.text)

    def statement_lines(self) -> List[int]:
        """For each core statement the line of the text that it stands for."""
        marked = statement_rows(emitted(self.program, with_marks(self.source.text, [one for _, one in self.statements])))
        lines: List[int] = []
        line = 0
        for row in marked.rows:
            number = mark_of(row)
            if number is None:
                lines.append(line)
            else:
                line = self.source.place(self.statements[number][1].span.start).line
        if len(lines) != len(self.rows.rows):
            raise Problem(f"{self.source.name}: its statements can't be matched with those of its C text")
        for number, function in enumerate(self.functions):
            end = (self.rows.first + [len(lines)])[number + 1] - 1
            if ends_by_itself(function):
                lines[end] = self.source.place(function.body.close).line  # type: ignore[union-attr]
        return lines

    def owner(self, lines: List[str], number: int) -> Optional[int]:
        """The core statement that a line of the C text belongs to."""
        text = "\n".join([*lines[:number], EXTRA, *lines[number:]])
        met = REFUSED.match(self.program.ask(["verify", "/dev/stdin"], input=text).output)
        return int(met.group(1)) if met else None

    def of_text(self, jobs: int) -> Dict[int, int]:
        """For lines of the C text, from 0, the lines of the Vault text; declarations and the C text of externals have none."""
        lines = self.text.split("\n")
        heads = {number: self.source.place(self.functions[int(met.group(1))].name.span.start).line for number, met in function_heads(lines)}
        wanted = [number for number in range(min(heads, default=0), lines.index(MARK.strip())) if is_code(lines[number]) and number not in heads]
        statements = self.statement_lines()
        with ThreadPoolExecutor(max(jobs, 1)) as pool:
            owners = list(pool.map(lambda number: self.owner(lines, number), wanted))
        found = {number: statements[owner] for number, owner in zip(wanted, owners) if owner is not None}
        return {**found, **heads}


def function_heads(lines: List[str]) -> List[Any]:
    """The lines on which bodies of functions begin, with what they match."""
    found = ((number, FUNCTION.fullmatch(line)) for number, line in enumerate(lines))
    return [(number, met) for number, met in found if met]


def is_code(line: str) -> bool:
    """Whether a line is a statement, and no declaration and no brace alone."""
    return bool(line) and not re.match(r"(long long|vr_ref) \w+ ;|\}|void |long long \w+ \(|vr_ref \w+ \(", line)


def mark_of(row: List[Any]) -> Optional[int]:
    """The number of the mark that a row prints; None if it prints none."""
    is_print = row[0] == "print" and len(row[1]) == 1 and row[1][0][0] == "n"
    return row[1][0][1] - FIRST_MARK if is_print and row[1][0][1] >= FIRST_MARK else None


def ends_by_itself(function: s.Function) -> bool:
    """Whether a function's last core statement is a return that its text hasn't: it gives nothing, and its last statement isn't a return."""
    statements = function.body.statements if function.body else ()
    return function.result.form == "void" and not (statements and isinstance(statements[-1], s.Return))

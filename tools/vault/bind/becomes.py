"""Where the C text of a program would say that an object changes its state.

A `become` has no C. Its place is found by asking: the certificate gets a row that prints a number after the `become`, and the C text the line of that print. `vaultc verify`
accepts the two where the line is at the right place, and else names the statement at which they part, which says whether the line came too early."""
from __future__ import annotations

import copy
import json
import re
from typing import Any, List, Tuple

from ..errors import Problem
from ..explore.marks import FIRST_MARK
from ..programs import Program
from ..records import dataclass
from .certificate import END, MARK

REFUSED = re.compile(r"refused 5 statement (\d+)")
DECLARATION = re.compile(r"(long long|vr_ref) \w+ ;")


@dataclass(frozen=True)
class Become:
    """A `become`: its statement's number over the whole program, the number of its function, and the variable and the state that it names."""

    statement: int
    function: int
    variable: int
    state: int


def split_text(text: str) -> Tuple[List[str], List[List[Any]]]:
    """The lines before the certificate, and the rows of the certificate."""
    at = text.index(MARK)
    rows = json.loads(text[at + len(MARK) : text.index(END, at)])
    return text[:at].splitlines(), rows


def becomes(rows: List[List[Any]]) -> List[Become]:
    """The `become`s of a program, in the order of the text."""
    found, statement, function = [], 0, -1
    is_inside = False
    for row in rows:
        if row[0] in ("fn", "extern"):
            is_inside = row[0] == "fn"
            function += is_inside
        elif is_inside:
            if row[0] == "become":
                found.append(Become(statement, function, row[1], row[2]))
            statement += 1
    return found


def heads(row: List[Any]) -> List[Tuple[List[Any], int]]:
    """For each block of a row the list that has the number of its statements, and where."""
    if row[0] == "fn":
        return [(row, 7)]
    if row[0] == "if":
        return [(row[2], 0), (row[3], 0)]
    if row[0] == "switch":
        return [(arm, 2) for arm in row[2]]
    place = {"while": 2, "focus": 3, "scope": 1}.get(row[0])
    return [(row[place], 0)] if place is not None else []


class Marker:
    """Makes the rows with a print after each of the first `count` becomes."""

    def __init__(self, rows: List[List[Any]], count: int) -> None:
        self.rows = rows
        self.count = count
        self.position = 0
        self.made: List[List[Any]] = []
        self.marks = 0

    def marked(self) -> List[List[Any]]:
        while self.position < len(self.rows):
            self.row()
        return self.made

    def row(self) -> int:
        """Takes a row with its blocks; gives by how many rows its own block grows."""
        row = copy.deepcopy(self.rows[self.position])
        self.position += 1
        self.made.append(row)
        for head, place in heads(row):
            head[place] += sum(self.row() for _ in range(head[place]))
        if row[0] != "become" or self.marks == self.count:
            return 0
        self.made.append(["print", [["n", FIRST_MARK + self.marks]]])
        self.marks += 1
        return 1


class Places:
    """Puts lines into a C text where its `become`s are."""

    def __init__(self, program: Program, text: str) -> None:
        self.program = program
        self.lines, self.rows = split_text(text)
        self.becomes = becomes(self.rows)

    def with_lines(self, wanted: List[str]) -> List[str]:
        """The lines of the text with one for each `become`."""
        at = {}
        start = 0
        for number, become in enumerate(self.becomes):
            start = self.place(number, become, max(start, self.body(become.function)))
            self.lines.insert(start, mark_line(number))
            at[start] = wanted[number]
            start += 1
        return [at.get(number, line) for number, line in enumerate(self.lines)]

    def body(self, function: int) -> int:
        """The first line of a function's statements."""
        head = re.compile(rf"(void|long long|vr_ref) f{function} \(.*\) \{{")
        place = next(number for number, line in enumerate(self.lines) if head.fullmatch(line)) + 1
        while DECLARATION.fullmatch(self.lines[place]):
            place += 1
        return place

    def place(self, number: int, become: Become, low: int) -> int:
        """The line before which a `become` stands, from this line on; those before it have theirs already."""
        certificate = MARK + json.dumps(Marker(self.rows, number + 1).marked(), ensure_ascii=False, separators=(",", ":")) + END + "\n"
        high = next((at for at in range(low, len(self.lines)) if self.lines[at].endswith(") {") and re.match(r"\w[\w ]* f\d", self.lines[at])), len(self.lines))
        while low < high:
            middle = (low + high) // 2
            text = "\n".join([*self.lines[:middle], mark_line(number), *self.lines[middle:], certificate])
            answer = self.program.ask(["verify", "/dev/stdin"], input=text)
            if answer.status == 0:
                return middle
            met = REFUSED.match(answer.output)
            if met is None:
                break
            is_early = int(met.group(1)) <= become.statement + number
            low, high = (middle + 1, high) if is_early else (low, middle)
        raise Problem(f"the place of statement {become.statement} in the C text wasn't found: {answer.output.strip()}")


def mark_line(number: int) -> str:
    return f"vr_print ( {FIRST_MARK + number} ) ;"

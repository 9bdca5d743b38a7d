"""Questions to the programs: what `vaultc explain` or `vaultq paths` reports of a text, and what is held at each of its points."""
from __future__ import annotations

import os
import re
from typing import FrozenSet, List, Optional

from . import crates, programs
from .errors import NoProgram, Problem
from .held import Table, read_tables
from .records import dataclass
from .report import KeyFault, Report, read_reports

STANDARD_INPUT = "/dev/stdin"


@dataclass(frozen=True)
class Reply:
    """What came of a question: the status, the lines, and what they report."""

    status: int
    lines: List[str]
    reports: List[Report]


QUESTIONS = frozenset(["faults", "paths", "keys", "where"])
"""What a `vaultq` may answer; its usage line names what it does answer."""


@dataclass(frozen=True)
class Asker:
    """The programs that are asked: `vaultc`, and `vaultq` if there is one, of which `questions` says what it answers."""

    vaultc: programs.Program
    vaultq: Optional[programs.Program]
    questions: FrozenSet[str] = QUESTIONS

    def answers(self, question: str) -> bool:
        """Whether there is a `vaultq` that answers a question."""
        return self.vaultq is not None and question in self.questions

    def faults(self, name: str, text: Optional[bytes] = None) -> Reply:
        """All faults of a file with their paths if there is a `vaultq`, else the first one. A text that is given is asked of in the
        place of the file."""
        if self.vaultq:
            return ask(self.vaultq, "paths", name, text)
        return ask(self.vaultc, "explain", name, text)

    def places(self, name: str, text: Optional[bytes] = None) -> Reply:
        """The same faults without their paths."""
        if self.vaultq:
            return ask(self.vaultq, "faults", name, text)
        return ask(self.vaultc, "check", name, text)

    def first(self, name: str, text: Optional[bytes] = None) -> Reply:
        """The first fault of a file, without its paths."""
        return ask(self.vaultc, "check", name, text)

    def tables(self, name: str, text: Optional[bytes] = None) -> Optional[List[Table]]:
        """What is held at each point of a file; None if no `vaultq` can say it."""
        return read_tables(ask(self.vaultq, "keys", name, text).lines) if self.vaultq and self.answers("keys") else None


def ask_words(program: programs.Program, words: List[str], text: Optional[bytes] = None) -> Reply:
    """What a program says to these words."""
    answer = program.ask(words, input=text)
    return Reply(answer.status, answer.lines, read_reports(answer.lines))


def ask(program: programs.Program, command: str, name: str, text: Optional[bytes] = None) -> Reply:
    """What a program says of a file, or of a text in the place of the file."""
    return ask_words(program, [command, name if text is None else STANDARD_INPUT], text)


NAMES = ["vaultc", "vaultq"]
USAGE_SECONDS = 2.0
"""How long a program may take for its usage line."""


def has_questions() -> bool:
    """Whether a `vaultq` that isn't there is compiled; not beside the variable VAULTC, since that is for tests."""
    return not os.environ.get("VAULTC") and "vaultq" in crates.read()


def answered(program: Optional[programs.Program]) -> FrozenSet[str]:
    """The questions that the usage line of a program names. One that gives none is asked all, so that who asks it is told why."""
    if program is None:
        return frozenset()
    try:
        lines = program.ask([], timeout=USAGE_SECONDS).lines
    except Problem:
        return QUESTIONS
    usage = next((line for line in lines if line.startswith("usage: ")), None)
    return QUESTIONS if usage is None else frozenset(re.findall(r"\w+", usage)) & QUESTIONS


def asker_of(vaultc: programs.Program, vaultq: Optional[programs.Program]) -> Asker:
    return Asker(vaultc, vaultq, answered(vaultq))


def find() -> Asker:
    """The programs that are there; NoProgram if there is no `vaultc`."""
    found = programs.known(NAMES)
    if "vaultc" not in found:
        raise NoProgram("there is no vaultc of these sources")
    return asker_of(found["vaultc"], found.get("vaultq"))


def take() -> Asker:
    """The programs that vault takes."""
    found = programs.known(NAMES)
    wanted = NAMES if "vaultq" not in found and has_questions() else NAMES[:1]
    found.update(programs.take_all([name for name in wanted if name not in found]))
    return asker_of(found["vaultc"], found.get("vaultq"))


def key_faults(reply: Reply) -> List[KeyFault]:
    return [report for report in reply.reports if isinstance(report, KeyFault)]

"""The lines that `vaultc` and `vaultq` write, as values."""
from __future__ import annotations

import re
from typing import List, Optional, Sequence, Tuple

from .records import dataclass, field, replace
from .source import Place


@dataclass(frozen=True)
class Status:
    """What is found of a key or an owning variable: `absent`, `held`, `lent` or `full`, and the states that its object may be in."""

    how: str
    states: Tuple[str, ...] = ()

    def __str__(self) -> str:
        if not self.states:
            return self.how
        return f"{self.how}@{self.states[0]}" if len(self.states) == 1 else f"{self.how}@{{{','.join(self.states)}}}"


@dataclass(frozen=True)
class Choice:
    """A choice of a path: the place of its statement, and `then`, `else`, `turn`, `exit` or a case."""

    place: Place
    word: str


@dataclass(frozen=True)
class Path:
    """A way from a function's start to a fault, and the state in which its bound entry's object is, if it has one."""

    choices: Tuple[Choice, ...] = ()
    variable: str = ""
    state: str = ""


@dataclass(frozen=True)
class Report:
    """What a line says; `line` is the line itself, and `file` the file that it names with `in NAME`."""

    line: str
    file: Optional[str] = field(default=None, init=False)


@dataclass(frozen=True)
class Accepted(Report):
    """The program, or the module, follows all rules; it has so many functions with a body."""

    count: int


@dataclass(frozen=True)
class TextFault(Report):
    """No text of the grammar: `utf8`, `byte`, `number`, `comment`, `token` or `end`. Only `end` has no place."""

    what: str
    place: Optional[Place]


@dataclass(frozen=True)
class ListFault(Report):
    """A line of a file of `calls`, `input` or `answers` that isn't of its form."""

    what: str
    number: int


@dataclass(frozen=True)
class Limit(Report):
    """More of something than a limit allows."""

    number: int
    most: int


@dataclass(frozen=True)
class RuleFault(Report):
    """A rule on names and types is broken."""

    rule: int
    place: Place


@dataclass(frozen=True)
class KeyFault(Report):
    """A rule on keys is broken: at a step that finds another status than it asks for, or where paths meet (then `wanted` is
    None, and `found` is the status of the path that comes with the key). The key's name is empty if the text has none."""

    place: Place
    key: str
    found: Status
    wanted: Optional[Status]
    paths: Tuple[Path, ...] = ()

    @property
    def is_join(self) -> bool:
        return self.wanted is None


@dataclass(frozen=True)
class Clash(Report):
    """Two modules declare the same name."""

    name: str


@dataclass(frozen=True)
class Unread(Report):
    """A file that could not be read."""

    name: str


@dataclass(frozen=True)
class Bad(Report):
    """A `call` or an `answer`, counted from 1, that isn't permitted."""

    what: str
    number: int


@dataclass(frozen=True)
class Stop(Report):
    """The end of a run that didn't come to the end of `main`: `trap 1`, `budget fuel`, `input ended`, .."""

    what: str
    detail: str


@dataclass(frozen=True)
class Refused(Report):
    """A C file that isn't verified: which part, and the rule or the statement."""

    part: int
    detail: str


@dataclass(frozen=True)
class Other(Report):
    """Any other line."""


# lines that name a file at their end if a command takes several texts
OF_TEXTS = ("text", "limit", "kind", "protocol")
REPORTS = (
    (r"(?:accepted|module|verified) (\d+)", lambda line, met: Accepted(line, int(met[1]))),
    (r"text (calls|input|answers) (\d+)", lambda line, met: ListFault(line, met[1], int(met[2]))),
    (r"text (\w+)(?: (\d+):(\d+))?", lambda line, met: TextFault(line, met[1], read_place(met[2], met[3]))),
    (r"limit (\d+) (\d+)", lambda line, met: Limit(line, int(met[1]), int(met[2]))),
    (r"kind (\d+) (\d+):(\d+)", lambda line, met: RuleFault(line, int(met[1]), Place(int(met[2]), int(met[3])))),
    (
        r"protocol (\d+):(\d+) (\S*) found (\S+) wanted (\S+)",
        lambda line, met: KeyFault(line, Place(int(met[1]), int(met[2])), met[3], read_status(met[4]), read_status(met[5])),
    ),
    (
        r"protocol (\d+):(\d+) (\S*) joins absent and (\S+)",
        lambda line, met: KeyFault(line, Place(int(met[1]), int(met[2])), met[3], read_status(met[4]), None),
    ),
    (r"clash (\S+)", lambda line, met: Clash(line, met[1])),
    (r"read (.*)", lambda line, met: Unread(line, met[1])),
    (r"(call|answer) (\d+) bad", lambda line, met: Bad(line, met[1], int(met[2]))),
    (r"(trap|budget) (\w+)", lambda line, met: Stop(line, met[1], met[2])),
    (r"(input|answers) ended", lambda line, met: Stop(line, met[1], "ended")),
    (r"(undefined) (.*)", lambda line, met: Stop(line, met[1], met[2])),
    (r"refused (\d+)(?: (.*))?", lambda line, met: Refused(line, int(met[1]), met[2] or "")),
)


def read_place(line: Optional[str], column: Optional[str]) -> Optional[Place]:
    return Place(int(line), int(column)) if line and column else None


def read_status(text: str) -> Status:
    how, _, states = text.partition("@")
    return Status(how, tuple(states.strip("{}").split(",")) if states else ())


def read_path(line: str) -> Path:
    """The path of a line `path ..`."""
    choices = re.findall(r" (\d+):(\d+)=(\S+)", line)
    met = re.match(r"path ([^\s:=]+)=(\S+)", line)
    variable, state = (met[1], met[2]) if met else ("", "")
    return Path(tuple(Choice(Place(int(a), int(b)), word) for a, b, word in choices), variable, state)


def read_line(line: str) -> Report:
    """What one line says, `path` lines aside."""
    for form, make in REPORTS:
        met = re.fullmatch(form, line)
        if met:
            return make(line, met)
        met = re.fullmatch(form + " in (?P<file>.+)", line) if line.startswith(OF_TEXTS) else None
        if met:
            report = make(line, met)
            object.__setattr__(report, "file", met["file"])
            return report
    return Other(line)


def read_reports(lines: Sequence[str]) -> List[Report]:
    """What the lines of a reply say. The lines `path ..` go to the fault above them; the count `faults N` is left out."""
    reports: List[Report] = []
    for line in lines:
        if re.match(r"path( |$)", line) and reports and isinstance(reports[-1], KeyFault):
            fault = reports[-1]
            named = replace(fault, paths=(*fault.paths, read_path(line)))
            object.__setattr__(named, "file", fault.file)
            reports[-1] = named
        elif line and not re.fullmatch(r"faults \d+", line):
            reports.append(read_line(line))
    return reports

"""The tests of examples/: the table of its README, and layouts."""

from __future__ import annotations

import re
from functools import partial
from pathlib import Path
from typing import List

from .programs import Program
from .records import dataclass
from .suite import Part, first_difference

UNFINISHED = "unfinished.v"
"""The example that isn't a program, and so has no layout."""

ROW = re.compile(r"\| `([^|]*)` \| (.*?) \| (\d+) \| [^|]* \|")


@dataclass(frozen=True)
class Row:
    """A row of the table: a command, the lines that it writes, and its status."""

    line: int
    words: List[str]
    written: List[str]
    status: int


def read_rows(text: str) -> List[Row]:
    """The rows of the table of examples/README.md."""
    rows = []
    for number, line in enumerate(text.split("\n"), 1):
        met = ROW.fullmatch(line)
        if met:
            command, written, status = met.groups()
            rows.append(Row(number, command.split(), re.findall(r"`([^`]*)`", written), int(status)))
    return rows


def check_table(top: Path, program: Program) -> str:
    """The first row of the table of which the program writes something else."""
    page = top / "examples" / "README.md"
    for row in read_rows(page.read_text(encoding="utf-8")):
        answer = program.ask(row.words, folder=top)
        place = f"examples/README.md:{row.line}: vaultc {' '.join(row.words)}"
        said = first_difference(
            place, row.written + [f"status {row.status}"], answer.output.splitlines() + [f"status {answer.status}"]
        )
        if said:
            return said
    return ""


def check_layouts(top: Path, program: Program) -> str:
    """The first example that isn't in its layout."""
    for file in sorted([*top.glob("examples/*.v"), *top.glob("examples/modules/*.v")]):
        if file.name == UNFINISHED:
            continue
        name = str(file.relative_to(top))
        answer = program.ask(["fmt", name], folder=top)
        said = first_difference(f"{name}: vaultc fmt", file.read_bytes().decode("utf-8").split("\n"), answer.output.split("\n"))
        if said:
            return said
    return ""


def example_parts(top: Path) -> List[Part]:
    """The parts that examples/ has."""
    checks = {"the table": check_table, "layouts": check_layouts}
    return [Part(f"examples: {name}", partial(check, top), "vaultc", 3.0) for name, check in checks.items()]

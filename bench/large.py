"""What tools take over large texts: the right text of a case, with its function so many times."""

from __future__ import annotations

import re
import tempfile
from dataclasses import dataclass
from pathlib import Path
from types import ModuleType
from typing import Optional

from vault.measure import Cost, count_instructions, each, run_once

MODEL = "32-released-in-a-loop"
"""The case whose right text is made large: a function makes an object, reads it in a loop, and releases it."""

COUNTED = 64
"""Instructions are counted over one function and over so many. A tool takes some fifty times as long while they are."""

LARGE = 4000
"""Time and memory are measured over so many functions."""

LAST = re.compile(r"^(?:int|void|fn) (main|work)\((?:void)?\)", re.MULTILINE)


@dataclass(frozen=True)
class Size:
    """What a tool takes: the instructions of one function more, None if they can't be counted; time and memory of the large text."""

    instructions: Optional[float]
    cost: Cost


def repeat(text: str, count: int) -> str:
    """A text with its last function so many times, under other names."""
    *_, last = LAST.finditer(text)
    name, function = last.group(1), text[last.start() :]
    functions = "".join(re.sub(rf"\b{name}\b", f"work_{number}", function, 1) for number in range(1, count + 1))
    return text[: last.start()] + functions + (f"{last.group(0)} {{}}\n" if name == "main" else "")


def measure(adapter: ModuleType, cases: Path, include: Path) -> Size:
    """What a tool takes."""
    model = (cases / MODEL / f"right.{adapter.ENDING}").read_text(encoding="utf-8")
    with tempfile.TemporaryDirectory(prefix="vault-bench-") as room:
        folder = Path(room)
        words = {}
        for count in (1, COUNTED, LARGE):
            text = folder / f"large_{count}.{adapter.ENDING}"
            text.write_text(repeat(model, count), encoding="utf-8")
            words[count] = adapter.command(text, include)
        one, more = (Cost(0, 0.0, 0, count_instructions(words[count], folder)) for count in (1, COUNTED))
        return Size(each(one, more, COUNTED - 1), run_once(words[LARGE], folder))

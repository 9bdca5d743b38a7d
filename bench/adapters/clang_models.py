"""clang --analyze, with bodies for the functions of a protocol that write to null where a contract is broken."""
from __future__ import annotations

from pathlib import Path
from typing import List

from . import clang
from .clang import ENDING, PROGRAM, VERSION, diagnostics

TITLE = "clang, models"


def command(text: Path, include: Path) -> List[str]:
    """How clang is called on a text."""
    return [*clang.command(text, include), "-DMODELS"]

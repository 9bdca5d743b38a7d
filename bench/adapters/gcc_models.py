"""gcc -fanalyzer, with bodies for the functions of a protocol that write to null where a contract is broken."""
from __future__ import annotations

from pathlib import Path
from typing import List

from . import gcc
from .gcc import ENDING, PROGRAM, VERSION, diagnostics

TITLE = "gcc, models"


def command(text: Path, include: Path) -> List[str]:
    """How gcc is called on a text."""
    return [*gcc.command(text, include), "-DMODELS", "-Wno-unused-function"]

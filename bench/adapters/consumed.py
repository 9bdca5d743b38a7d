"""clang++ -Wconsumed, for which an object has one of three states."""
from __future__ import annotations

import re
from pathlib import Path
from typing import List

from messages import Diagnostic, read_gnu

TITLE, PROGRAM, ENDING = "clang++ -Wconsumed", "clang++", "cpp"
VERSION = ["clang++", "--version"]
RELEVANT = re.compile("-Wconsumed")
OPTIONS = ["-std=c++17", "-fsyntax-only", "-fno-caret-diagnostics", "-fdiagnostics-parseable-fixits"]


def command(text: Path, include: Path) -> List[str]:
    """How clang++ is called on a text."""
    return [PROGRAM, *OPTIONS, "-Wconsumed", f"-I{include}", str(text)]


def diagnostics(output: str, name: str, status: int) -> List[Diagnostic]:
    """The relevant diagnostics of what it wrote."""
    return read_gnu(output, name, RELEVANT)

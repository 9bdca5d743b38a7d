"""clang --analyze, told of makers and droppers by ownership attributes."""
from __future__ import annotations

import re
from pathlib import Path
from typing import List

from messages import Diagnostic, read_gnu

TITLE, PROGRAM, ENDING = "clang --analyze", "clang", "c"
VERSION = ["clang", "--version"]
RELEVANT = re.compile(r"^unix\.|^core\.NullDereference|-Wunused-result|-Wswitch")
"""What isn't initialized isn't relevant: clang takes what a maker gives for memory of malloc."""


def command(text: Path, include: Path) -> List[str]:
    """How clang is called on a text."""
    config = ["-Xclang", "-analyzer-config", "-Xclang", "unix.DynamicMemoryModeling:Optimistic=true"]
    return [PROGRAM, "--analyze", "--analyzer-output", "text", *config, "-fno-caret-diagnostics", "-fdiagnostics-parseable-fixits", f"-I{include}", str(text)]


def diagnostics(output: str, name: str, status: int) -> List[Diagnostic]:
    """The relevant diagnostics of what it wrote."""
    return read_gnu(output, name, RELEVANT)

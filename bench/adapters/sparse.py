"""sparse -Wcontext, for which each object or lock is a count of what is held."""
from __future__ import annotations

import re
from pathlib import Path
from typing import List

from messages import Diagnostic, read_gnu

TITLE, PROGRAM, ENDING = "sparse -Wcontext", "sparse", "c"
VERSION = ["sparse", "--version"]
RELEVANT = re.compile("context")


def command(text: Path, include: Path) -> List[str]:
    """How sparse is called on a text."""
    return [PROGRAM, "-Wcontext", f"-I{include}", str(text)]


def diagnostics(output: str, name: str, status: int) -> List[Diagnostic]:
    """The relevant diagnostics of what it wrote."""
    return read_gnu(output, name, RELEVANT)

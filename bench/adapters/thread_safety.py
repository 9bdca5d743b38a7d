"""clang++ -Wthread-safety, for which objects and their states are capabilities, which are held as locks are."""
from __future__ import annotations

import re
from pathlib import Path
from typing import List

from messages import Diagnostic, read_gnu

from .consumed import ENDING, OPTIONS, PROGRAM, VERSION

TITLE = "clang++ -Wthread-safety"
RELEVANT = re.compile("-Wthread-safety")


def command(text: Path, include: Path) -> List[str]:
    """How clang++ is called on a text; the order of locks is checked by the beta options alone."""
    return [PROGRAM, *OPTIONS, "-Wthread-safety", "-Wthread-safety-beta", f"-I{include}", str(text)]


def diagnostics(output: str, name: str, status: int) -> List[Diagnostic]:
    """The relevant diagnostics of what it wrote."""
    return read_gnu(output, name, RELEVANT)

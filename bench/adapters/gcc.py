"""gcc -fanalyzer, told of makers and droppers by the attribute `malloc`."""
from __future__ import annotations

import re
from pathlib import Path
from typing import List

from messages import Diagnostic, read_gnu

TITLE, PROGRAM, ENDING = "gcc -fanalyzer", "gcc", "c"
VERSION = ["gcc", "--version"]
RELEVANT = re.compile("-Wanalyzer-|-Wunused-result|-Wswitch|-Wuse-after-free|-Wmismatched-dealloc")


def command(text: Path, include: Path) -> List[str]:
    """How gcc is called on a text."""
    options = ["-fanalyzer", "-Wall", "-fdiagnostics-path-format=separate-events", "-fno-diagnostics-show-caret", "-fdiagnostics-parseable-fixits"]
    return [PROGRAM, *options, f"-I{include}", "-c", "-o", "/dev/null", str(text)]


def diagnostics(output: str, name: str, status: int) -> List[Diagnostic]:
    """The relevant diagnostics of what it wrote."""
    return read_gnu(output, name, RELEVANT)

"""cppcheck, told of makers and droppers by a configuration."""
from __future__ import annotations

import re
from pathlib import Path
from typing import List

from messages import Diagnostic, read_gnu

TITLE, PROGRAM, ENDING = "cppcheck", "cppcheck", "c"
VERSION = ["cppcheck", "--version"]
RELEVANT = re.compile("Leak|leak|dealloc|doubleFree|deallocret|ignoredReturnValue|nullPointer")


def command(text: Path, include: Path) -> List[str]:
    """How cppcheck is called on a text."""
    template = "--template={file}:{line}: warning: {message} [{id}]"
    return [PROGRAM, "--quiet", "--enable=warning", "-DCPPCHECK", f"--library={include / 'protocol.cfg'}", template, f"-I{include}", str(text)]


def diagnostics(output: str, name: str, status: int) -> List[Diagnostic]:
    """The relevant diagnostics of what it wrote."""
    return read_gnu(output, name, RELEVANT)

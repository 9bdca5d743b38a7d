"""vaultc check: the program that `vault` takes."""
from __future__ import annotations

import re
from pathlib import Path
from typing import List

from messages import Diagnostic, ToolError
from vault import paths, programs

ASKED = programs.take()
TITLE, PROGRAM, ENDING = "vaultc", "", "v"
VERSION = ["echo", (paths.TOP / "VERSION").read_text(encoding="utf-8").strip() + ("" if ASKED.proved else ", not known to be proved")]
REFUSAL = re.compile(r"(protocol|kind \d+) (\d+):\d+(.*)")


def command(text: Path, include: Path) -> List[str]:
    """How vaultc is called on a text."""
    return [*ASKED.command, "check", str(text)]


def diagnostics(output: str, name: str, status: int) -> List[Diagnostic]:
    """The refusal, if the text isn't accepted. What is no text in Vault is a ToolError."""
    met = REFUSAL.match(output)
    if status not in (0, 7, 8) or (status != 0) != bool(met):
        raise ToolError(output.strip())
    return [Diagnostic(met.group(1), met.group(3).strip(), int(met.group(2)))] if met else []

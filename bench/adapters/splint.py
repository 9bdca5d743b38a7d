"""splint, told of owners by annotations and of states by files of state machines."""
from __future__ import annotations

import re
from pathlib import Path
from typing import List

from messages import Diagnostic, ToolError

TITLE, PROGRAM, ENDING = "splint", "splint", "c"
VERSION = ["splint", "-help", "version"]
RELEVANT = re.compile("mustfree|usereleased|compdestroy|branchstate|statetransfer|statemerge|trans$|unique|retvalother|nullderef|nullpass|casebreak|misscase")
MESSAGE = re.compile(r"(?m)^(\S+?):(\d+):\d+: ((?:.+)(?:\n[ \t]+.*)*)")

NOTE = re.compile(r"(?m)^[ \t]+(\S+?):(\d+):\d+: ")
"""A further place of a message."""


def command(text: Path, include: Path) -> List[str]:
    """How splint is called on a text; it looks for its files of states in the folder of LARCH_PATH."""
    states = [word for name in ("power", "conn", "latch", "stage") for word in ("-mts", name)]
    return ["env", f"LARCH_PATH={include}:/usr/share/splint/lib", PROGRAM, "+quiet", "+forcehints", "-linelen", "900", *states, f"-I{include}", str(text)]


def diagnostics(output: str, name: str, status: int) -> List[Diagnostic]:
    """The relevant diagnostics of what it wrote."""
    if "Parse Error" in output or "Cannot find file" in output:
        raise ToolError(output.strip().split("\n")[0])
    found = []
    for file, line, text in MESSAGE.findall(output):
        kind = re.search(r"\(Use -(\w+) to\s+inhibit", text)
        if kind and RELEVANT.search(kind.group(1)):
            notes = tuple(int(place) for other, place in NOTE.findall(text) if other.endswith(name))
            found.append(Diagnostic(kind.group(1), text.split("\n")[0], int(line) if file.endswith(name) else None, notes))
    return found

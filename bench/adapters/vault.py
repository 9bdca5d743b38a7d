"""vault check: the lines of vaultc with what `vault` adds to them: places, paths and cures."""
from __future__ import annotations

import json
from pathlib import Path
from typing import Any, Dict, List

from adapters import vaultc
from messages import Diagnostic, Edit, ToolError
from vault import paths

TITLE, PROGRAM, ENDING = "vault", "", "v"
VERSION = vaultc.VERSION


def command(text: Path, include: Path) -> List[str]:
    """How vault is called on a text."""
    return [str(paths.TOP / "bin" / "vault"), "check", "--format", "json", str(text)]


def diagnostics(output: str, name: str, status: int) -> List[Diagnostic]:
    """The errors. What is no text in Vault is a ToolError."""
    if status not in (0, 7, 8):
        raise ToolError(output.strip())
    return [read(it) for it in json.loads(output)["files"][0]["errors"]]


def read(error: Dict[str, Any]) -> Diagnostic:
    """An error with the places of its notes and steps, and the edits of its first cure. The columns of both count from 1."""
    places = [place["line"] for part in error["related"] for place in part["places"]]
    edits = next((it["edits"] for it in error["cures"] if it["edits"]), [])
    cure = tuple(Edit((it["line"], it["character"]), (it["endLine"], it["endCharacter"]), it["text"]) for it in edits)
    return Diagnostic(error["rule"], error["message"], error["place"]["line"], tuple(places), cure)

"""rustc: ownership, borrows, and states as type parameters."""
from __future__ import annotations

import json
import tempfile
from pathlib import Path
from typing import Any, Dict, Iterator, List, Tuple

from messages import Diagnostic, Edit, ToolError

TITLE, PROGRAM, ENDING = "rustc", "rustc", "rs"
VERSION = ["rustc", "--version"]
RELEVANT = {"E0382": "moved", "E0499": "borrowed twice", "E0502": "borrowed", "E0505": "moved while borrowed", "E0507": "moved out of a borrow", "E0308": "another type", "E0004": "a case is missing"}

# rustc puts a new file in the place of its output, also in that of /dev/null if it may
OUTPUT = tempfile.TemporaryDirectory(prefix="vault-bench-")


def command(text: Path, include: Path) -> List[str]:
    """How rustc is called on a text."""
    return [PROGRAM, "--edition", "2021", "--emit", "metadata", "--out-dir", OUTPUT.name, "--error-format", "json", str(text)]


def diagnostics(output: str, name: str, status: int) -> List[Diagnostic]:
    """The relevant errors. A text that is refused for another reason is a ToolError."""
    told = [json.loads(line) for line in output.splitlines() if line.startswith("{")]
    errors = [it for it in told if it["level"] == "error" and it["code"] and it["code"]["code"] in RELEVANT]
    if bool(errors) != (status != 0):
        raise ToolError(output.strip())
    return [read(it, name) for it in errors]


def read(error: Dict[str, Any], name: str) -> Diagnostic:
    """An error with the places that it and its notes show, and its first suggestion, if that is more than a hint."""
    own = [it for it in error["spans"] if it["file_name"].endswith(name)]
    line = next((it["line_start"] for it in own if it["is_primary"]), None)
    notes = tuple(it["line_start"] for it in own if not it["is_primary"])
    return Diagnostic(error["code"]["code"], error["message"], line, notes, next(suggestions(error), ()))


def suggestions(error: Dict[str, Any]) -> Iterator[Tuple[Edit, ...]]:
    """The edits of each suggestion that can be made as it stands."""
    for child in error["children"]:
        spans = [it for it in child["spans"] if it["suggested_replacement"] is not None and it["suggestion_applicability"] != "HasPlaceholders"]
        if spans:
            yield tuple(Edit((it["line_start"], it["column_start"]), (it["line_end"], it["column_end"]), it["suggested_replacement"]) for it in spans)

"""The tools' own tests: each file of tests/ is a part, and tests of costs are in files of their own."""

from __future__ import annotations

import subprocess
import sys
from pathlib import Path
from typing import List

from .suite import Part

LONGEST = 60
"""How many lines of a failure are shown."""

COSTS = "costs: run with --slow"


def tool_parts(top: Path, slow: bool) -> List[Part]:
    """A part for each tests/test_TOPIC.py, and for each tests/slow_TOPIC.py, which is skipped unless `slow` asks for it."""
    folder = top / "tools" / "vault" / "tests"
    usual = [part_of(file, top, "") for file in sorted(folder.glob("test_*.py"))]
    return usual + [part_of(file, top, "" if slow else COSTS) for file in sorted(folder.glob("slow_*.py"))]


def part_of(file: Path, top: Path, skipped: str) -> Part:
    """The part that runs a file of tests."""
    return Part(f"tools: {file.stem}", lambda _: run_file(file, top), seconds=10.0, skipped=skipped)


def run_file(file: Path, top: Path) -> str:
    """What a file of tests says if it fails."""
    words = [sys.executable, "-m", "unittest", f"vault.tests.{file.stem}"]
    done = subprocess.run(words, cwd=top / "tools", stdout=subprocess.PIPE, stderr=subprocess.STDOUT, stdin=subprocess.DEVNULL)
    if done.returncode == 0:
        return ""
    lines = done.stdout.decode("utf-8", "replace").rstrip().split("\n")
    return "\n".join(lines[:LONGEST] + [f".. {len(lines) - LONGEST} more lines"] * (len(lines) > LONGEST))

"""What a command takes: instructions by callgrind, processor time, and peak memory."""

from __future__ import annotations

import os
import re
import resource
import shutil
import subprocess
import tempfile
from pathlib import Path
from typing import List, Optional, Sequence

from .errors import Problem
from .records import dataclass

BEST_OF = 3
"""A time is the least of so many runs."""


@dataclass(frozen=True)
class Cost:
    """What one run of a command took."""

    status: int
    seconds: float
    """Processor time, the least of some runs."""
    memory: int
    """Bytes, at the peak; that of the greatest process if there are several. It is never less than `own_memory()`, since the system
    counts what this process had when it made the other."""
    instructions: Optional[int] = None
    """Of all its processes; None if callgrind isn't installed or couldn't count them."""


def own_memory() -> int:
    """The bytes that this process had at its peak."""
    return resource.getrusage(resource.RUSAGE_SELF).ru_maxrss * 1024


def run_once(words: Sequence[str], folder: Path) -> Cost:
    """The status, time and memory of one run, whose output is dropped."""
    with open(os.devnull, "r+b") as nowhere:
        child = subprocess.Popen(list(words), cwd=folder, stdin=nowhere, stdout=nowhere, stderr=nowhere)
        _, ended, usage = os.wait4(child.pid, 0)
    child.returncode = os.WEXITSTATUS(ended) if os.WIFEXITED(ended) else 128 + os.WTERMSIG(ended)
    return Cost(child.returncode, usage.ru_utime + usage.ru_stime, usage.ru_maxrss * 1024)


def count_instructions(words: Sequence[str], folder: Path) -> Optional[int]:
    """The instructions of a command and of the processes that it starts."""
    valgrind = shutil.which("valgrind")
    if valgrind is None:
        return None
    options = ["--tool=callgrind", "--callgrind-out-file=/dev/null", "--trace-children=yes"]
    done = subprocess.run([valgrind, *options, *words], cwd=folder, stdin=subprocess.DEVNULL, stdout=subprocess.DEVNULL, stderr=subprocess.PIPE)
    counted = re.findall(rb"Collected : (\d+)", done.stderr)
    return sum(map(int, counted)) if counted else None


def measure(words: Sequence[str], folder: Path, is_counted: bool = True) -> Cost:
    """What a command takes in a folder."""
    runs = [run_once(words, folder) for _ in range(BEST_OF)]
    instructions = count_instructions(words, folder) if is_counted else None
    return Cost(runs[0].status, min(run.seconds for run in runs), max(run.memory for run in runs), instructions)


def each(less: Cost, more: Cost, count: int) -> Optional[float]:
    """The instructions of one more, of two runs of which the second has so many more."""
    if less.instructions is None or more.instructions is None:
        return None
    return (more.instructions - less.instructions) / count


class Folder:
    """A folder with the texts that are measured; one of its own goes when it is closed, one that was named stays."""

    def __init__(self, named: Optional[str]) -> None:
        self.own = None if named else tempfile.TemporaryDirectory(prefix="vault-speed-")
        self.path = Path(named or self.own.name)  # type: ignore[union-attr]
        try:
            self.path.mkdir(parents=True, exist_ok=True)
        except OSError as error:
            raise Problem(f"{self.path}: {error.strerror}")

    def write(self, name: str, text: str) -> str:
        """Writes a text, and gives its name."""
        (self.path / name).write_text(text, encoding="utf-8")
        return name

    def size(self, name: str) -> int:
        """How many bytes a text has."""
        return (self.path / name).stat().st_size

    def close(self) -> None:
        if self.own:
            self.own.cleanup()


def installed(name: str) -> Optional[List[str]]:
    """How a tool is called; None if it isn't installed."""
    path = shutil.which(name)
    return [path] if path else None

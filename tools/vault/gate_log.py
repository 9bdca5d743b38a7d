"""What `rt ci` has said so far, in its log: which crates it has proved, which one isn't proved and why, and its notes."""
from __future__ import annotations

import re
from collections import deque
from pathlib import Path
from typing import Deque, List

PROVED = re.compile(r"rt: (\w+)( proved| is kept: .*)")
FAILED = re.compile(r"rt: (\w+)(: its tests are)? NOT PROVED")
NOTE = re.compile(r"rt: note: (.*)")
# how many lines are told of a crate that isn't proved
LONGEST = 20


class Log:
    """A log that is still written: `read_on` reads what was added."""

    def __init__(self, path: Path) -> None:
        self._path, self._read = path, 0
        # the crates that are proved; those of them that this run has proved; the first one that isn't, and what was said of it
        self.done: List[str] = []
        self.proved: List[str] = []
        self.failed = ""
        self.why = ""
        self.notes: List[str] = []
        self._section: Deque[str] = deque(maxlen=LONGEST)

    @property
    def has_begun(self) -> bool:
        """Whether anything was written."""
        return self._read > 0

    def read_on(self) -> None:
        """Reads the whole lines that were added."""
        with open(self._path, "rb") as file:
            file.seek(self._read)
            added = file.read()
        whole = added[: added.rfind(b"\n") + 1]
        self._read += len(whole)
        for line in whole.decode("utf-8", "replace").splitlines():
            self._take(line)

    def _take(self, line: str) -> None:
        if line.startswith("== "):
            self._section.clear()
        proved, failed, note = (form.fullmatch(line) for form in (PROVED, FAILED, NOTE))
        if proved:
            self.done.append(proved[1])
            if proved[2] == " proved":
                self.proved.append(proved[1])
        elif failed and not self.failed:
            self.failed, self.why = failed[1], "\n".join(self._section)
        elif note:
            self.notes.append(note[1])
        self._section.append(line)

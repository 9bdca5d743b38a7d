"""Files of calls, of answers and of input as people write them: with comments, and calls with empty lines. They are cleaned before
`vaultc` reads them, and its line numbers are mapped back."""
from __future__ import annotations

import re
import tempfile
from contextlib import contextmanager
from pathlib import Path
from typing import Dict, Iterator, List

from .records import dataclass
from .source import Source

# of a file of calls; an empty line of a file of answers is an answer without numbers
SKIPS_EMPTY = ("calls", "input")


@dataclass(frozen=True)
class Cleaned:
    """The lines of a file without comments, and the number that each has in the file."""

    source: Source
    lines: List[str]
    numbers: List[int]
    changed: bool

    def number(self, cleaned: int) -> int:
        """The number in the file of a line that `vaultc` counts."""
        if 0 < cleaned <= len(self.numbers):
            return self.numbers[cleaned - 1]
        return len(self.source.lines)

    @property
    def text(self) -> bytes:
        return "".join(line + "\n" for line in self.lines).encode("utf-8", "surrogateescape")


def without_comment(line: str) -> str:
    """A line without `//` and what follows, and without a `#` that isn't an object's and what follows."""
    return re.sub(r"(^|\s)(//.*|#(?!\d).*)$", r"\1", line)


def clean(source: Source, what: str) -> Cleaned:
    """A file of `calls`, `answers` or `input` without comments; of calls and input also without empty lines."""
    lines, numbers = [], []
    total = len(source.lines) - (source.lines[-1:] == [""])
    for number, line in enumerate(source.lines[:total], 1):
        bare = without_comment(line)
        is_comment = bare.strip() == "" and line.strip() != ""
        if is_comment or (bare.strip() == "" and what in SKIPS_EMPTY):
            continue
        lines.append(bare.rstrip() if bare != line else line)
        numbers.append(number)
    return Cleaned(source, lines, numbers, lines != source.lines[:total])


def read_list(name: str, what: str) -> Cleaned:
    return clean(Source.read(name), what)


@contextmanager
def cleaned_files(files: Dict[str, Cleaned]) -> Iterator[Dict[str, str]]:
    """The names of files for `vaultc` to read: those that were changed are written to a folder that goes afterwards."""
    with tempfile.TemporaryDirectory(prefix="vault-") as folder:
        names = {}
        for what, cleaned in files.items():
            names[what] = cleaned.source.name
            if cleaned.changed:
                path = Path(folder) / what
                path.write_bytes(cleaned.text)
                names[what] = str(path)
        yield names

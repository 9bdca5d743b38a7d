"""The crates of the repository, as crates.txt lists them."""
from __future__ import annotations

from pathlib import Path
from typing import Dict, List, Tuple

from .paths import TOP
from .records import dataclass

# the program of the transcripts, which users don't call
TRANSCRIPTS = "vaultc_tests"


@dataclass(frozen=True)
class Crate:
    """A crate: its folder, and the names of the repository's crates that it uses itself."""

    name: str
    folder: Path
    uses: Tuple[str, ...]

    @property
    def is_program(self) -> bool:
        """Whether it is a program and no library."""
        return (self.folder / "src" / "main.rt").is_file()


def lines(top: Path = TOP) -> Dict[str, str]:
    """The line of each crate in crates.txt, without what stands behind a `#`, in their order."""
    listed = (line.partition("#")[0].strip() for line in (top / "crates.txt").read_text(encoding="utf-8").splitlines())
    return {line.split(":")[0].split()[0]: line for line in listed if line}


def read(top: Path = TOP) -> Dict[str, Crate]:
    """Each crate by its name, in the order of crates.txt, where each stands behind those that it uses."""
    listed = lines(top)
    uses = {name: line.partition(":")[2].split() for name, line in listed.items()}
    return {name: Crate(name, top / "crates" / name, tuple(it for it in uses[name] if it in listed)) for name in listed}


def programs(top: Path = TOP) -> List[str]:
    """The programs that people call."""
    return [crate.name for crate in read(top).values() if crate.is_program and crate.name != TRANSCRIPTS]


def below(names: List[str], crates: Dict[str, Crate]) -> List[str]:
    """These crates and all that they stand on, in the order of crates.txt."""
    wanted, left = set(), list(names)
    while left:
        name = left.pop()
        if name not in wanted:
            wanted.add(name)
            left += crates[name].uses
    return [name for name in crates if name in wanted]

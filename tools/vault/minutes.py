"""How long the proof of each crate takes, from the table of docs/GATE.md, and how long what is left takes by it."""
from __future__ import annotations

import re
from pathlib import Path
from typing import Dict, Iterable

from .crates import Crate

# processor minutes of a crate that the table doesn't have
UNKNOWN = 1.0
ROW = re.compile(r"^\| `(\w+)` \| ([\d.]+) \|", re.M)


def read(top: Path) -> Dict[str, float]:
    """The processor minutes of each crate's proof."""
    try:
        text = (top / "docs" / "GATE.md").read_text(encoding="utf-8")
    except OSError:
        return {}
    return {name: float(number) for name, number in ROW.findall(text)}


class Estimate:
    """What is left of the proofs of these crates, in minutes that the table has."""

    def __init__(self, crates: Dict[str, Crate], minutes: Dict[str, float]) -> None:
        self.minutes = {name: minutes.get(name, UNKNOWN) for name in crates}
        self.chains: Dict[str, float] = {}
        users: Dict[str, list] = {name: [] for name in crates}
        for name, crate in crates.items():
            for used in crate.uses:
                users[used].append(name)
        for name in reversed(list(crates)):
            self.chains[name] = self.minutes[name] + max((self.chains[user] for user in users[name]), default=0.0)

    def left(self, names: Iterable[str], at_once: int) -> float:
        """The minutes until all these crates are proved, so many at a time: no less than the longest chain of them."""
        names = list(names)
        whole = sum(self.minutes[name] for name in names) / at_once
        return max(whole, max((self.chains[name] for name in names), default=0.0))

"""What is held at each point of a program, as `vaultq keys` writes it."""
from __future__ import annotations

import re
from typing import Dict, FrozenSet, List, Optional, Sequence, Tuple

from .records import dataclass, field
from .source import Place

Atoms = FrozenSet[str]
ABSENT: Atoms = frozenset(["absent"])


def read_item(word: str) -> Tuple[str, Atoms]:
    """The name of an item as `K@{raw,named}:absent`, and what may be found of it: `absent`, `full`, `held`, `held@raw`, `lent`, .."""
    met = re.match(r"[^@:]*", word)
    name = met.group() if met else ""
    found: List[str] = []
    parts = word[len(name) :].split(":")
    held, others = parts[0], parts[1:]
    if held or not others or others == ["absent"]:
        found += with_states("held", held)
    for other in others:
        how, at, states = other.partition("@")
        found += with_states(how, at + states)
    return name, frozenset(found)


def with_states(how: str, states: str) -> List[str]:
    """`held` and `@{a,b}` as `held@a` and `held@b`."""
    names = states.lstrip("@").strip("{}").split(",") if states else []
    return [f"{how}@{name}" for name in names] or [how]


@dataclass
class Table:
    """What is held in a function, or in one instance of it: the items at each place. Where two ways of an `if` without `else` come
    to one place there are two lines; the first is that through `then`."""

    function: str
    state: str
    lines: List[Tuple[Place, Dict[str, Atoms]]] = field(default_factory=list)

    def at(self, place: Place, last: bool = False) -> Optional[Dict[str, Atoms]]:
        found = [items for where, items in self.lines if where == place]
        return (found[-1] if last else found[0]) if found else None

    def of(self, name: str, place: Place) -> Optional[Atoms]:
        """What may be found of a key or a variable at a place; None if the place is no point of the function."""
        items = self.at(place)
        return None if items is None else items.get(name, ABSENT)


def read_tables(lines: Sequence[str]) -> List[Table]:
    """The tables that the lines of `vaultq keys` make."""
    tables: List[Table] = []
    for line in lines:
        words = line.split(" ")
        if words[0] == "function" and len(words) > 1:
            tables.append(Table(words[1], words[2].partition("=")[2] if len(words) > 2 else ""))
        elif tables and re.fullmatch(r"\d+:\d+", words[0]):
            line_number, _, column = words[0].partition(":")
            tables[-1].lines.append((Place(int(line_number), int(column)), dict(read_item(word) for word in words[1:] if word)))
    return tables


def table_of(tables: Sequence[Table], function: str, state: str = "") -> Optional[Table]:
    """The table of a function, in the instance of this state if it has instances."""
    found = [table for table in tables if table.function == function]
    return next((table for table in found if table.state == state), found[0] if found else None)

"""The maps of held keys in a certificate are among the lines of `vaultq keys`: a loop's at its head, and those after it and after choices
at the point that comes next."""
from __future__ import annotations

import json
import unittest
from dataclasses import dataclass, field
from pathlib import Path
from typing import Any, Dict, Iterator, List, Optional, Tuple

from vault import ask
from vault.held import Atoms, Table, read_tables
from vault.paths import TOP

Row = List[Any]
Items = Dict[str, Atoms]
VARIABLES = 256
"""The number of the first variable among the tokens of a map."""
KINDS = ("held", "lent", "full")


def rows_of(text: str) -> List[Row]:
    """The rows of the certificate at the end of a C text."""
    return json.loads(text.split("/*VAULT-CERT\n")[1].split("\n*/")[0])


@dataclass
class Function:
    """A function's row, and the states that each of its keys may have."""

    row: Row
    states: List[List[str]]

    def items(self, held_map: List[Tuple[int, int, int]]) -> Items:
        """A map as `keys` writes what is found."""
        found = {}
        for token, kind, mask in held_map:
            own = self.row[5][token] if token < VARIABLES else self.row[6][token - VARIABLES]
            names = self.states[token] if token < VARIABLES and KINDS[kind] != "full" else []
            states = [f"{KINDS[kind]}@{name}" for at, name in enumerate(names) if mask >> at & 1]
            found[own[0] or "_"] = frozenset(states or [KINDS[kind]])
        return found


def functions_of(rows: List[Row]) -> Iterator[Tuple[Function, List[Row]]]:
    """Each function with a body, with the rows after its own."""
    sets = [row[2] for row in rows if row[0] == "states"]
    kinds = {"abstract": 2, "struct": 3, "variant": None}
    of_types = [row[kinds[row[0]]] if kinds[row[0]] else -1 for row in rows if row[0] in kinds]
    for at, row in enumerate(rows):
        if row[0] == "fn":
            of_keys = [of_types[of_type] if of_type >= 0 else -1 for _, of_type in row[5]]
            yield Function(row, [sets[number] if number >= 0 else [] for number in of_keys]), rows[at + 1 :]


@dataclass
class Points:
    """The points of a body in the order of its lines: the map that the certificate has of each, None if it has none."""

    rows: Iterator[Row]
    instance: Optional[int]
    maps: List[Any] = field(default_factory=list)

    def add_block(self, count: int) -> bool:
        """Adds those of a block of so many statements, and gives whether it can be passed."""
        after, passes = None, True
        for _ in range(count):
            row = next(self.rows)
            self.maps.append(self.map_in(row[3]) if row[0] == "while" else after)
            passes, after = self.add_inside(row)
        if passes:
            self.maps.append(after)
        return passes

    def add_inside(self, row: Row) -> Tuple[bool, Any]:
        """Adds those inside of a statement, and gives whether it can be passed, and the map after it."""
        if row[0] in ("return", "jump"):
            return False, None
        if row[0] in ("scope", "focus"):
            return self.add_block(row[-1][0]), None
        if row[0] not in ("if", "while", "switch"):
            return True, None
        blocks = [arm[2:] for arm in row[2]] if row[0] == "switch" else row[2:4] if row[0] == "if" else row[2:3]
        for block in blocks:
            self.add_block(block[0])
        return row[-1] != 0, self.map_in(row[-1])

    def map_in(self, maps: Any) -> Any:
        """That of this instance; 0 stands in place of maps that aren't owed."""
        if maps == 0:
            return None
        return maps if self.instance is None else maps[self.instance]


class Maps(unittest.TestCase):
    def setUp(self) -> None:
        self.asker = ask.take()
        if self.asker.vaultq is None:
            self.skipTest("there is no vaultq")

    def compared(self, file: Path) -> int:
        """How many maps the certificate of a program has; 0 if it isn't accepted."""
        emitted = self.asker.vaultc.ask(["emit", str(file)])
        if emitted.status != 0:
            return 0
        tables = read_tables(self.asker.vaultq.ask(["keys", str(file)]).lines)
        count = 0
        for function, rows in functions_of(rows_of(emitted.output)):
            own = [table for table in tables if table.function == function.row[1]]
            self.assertTrue(own, f"{file}: {function.row[1]}")
            for number, table in enumerate(own):
                points = Points(iter(rows), number if table.state else None)
                points.add_block(function.row[7])
                count += self.compared_in(file, function, table, points.maps)
        return count

    def compared_in(self, file: Path, function: Function, table: Table, maps: List[Any]) -> int:
        self.assertEqual(len(table.lines), len(maps), f"{file}: {table.function}")
        for (place, items), held_map in zip(table.lines, maps):
            if held_map is not None:
                self.assertEqual(items, function.items(held_map), f"{file}:{place}: {table.function} {table.state}")
        return sum(held_map is not None for held_map in maps)

    def test_of_each_example(self) -> None:
        files = sorted((TOP / "examples").rglob("*.v"))
        counts = [self.compared(file) for file in files]
        self.assertGreater(sum(count > 0 for count in counts), 12)
        self.assertGreater(sum(counts), 100)


if __name__ == "__main__":
    unittest.main()

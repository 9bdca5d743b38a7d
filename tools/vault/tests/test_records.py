"""Classes of named values are those of the standard library, made sooner."""
from __future__ import annotations

import dataclasses
import unittest
from types import ModuleType
from typing import List, Tuple

from vault import records


def classes(of: ModuleType) -> tuple:
    """The same classes by the standard library's module, or by the tool's."""

    @of.dataclass(frozen=True, order=True)
    class Place:
        line: int
        column: int = 1

    @of.dataclass
    class Open:
        name: str
        found: List[int] = of.field(default_factory=list)
        hidden: int = of.field(default=0, repr=False)

    @of.dataclass(frozen=True)
    class Base:
        text: str
        file: str = of.field(default="", init=False)
        span: Tuple[int, int] = of.field(default=(0, 0), compare=False)

    @of.dataclass(frozen=True)
    class Above(Base):
        count: int = 0
        length: int = of.field(init=False)

        def __post_init__(self) -> None:
            object.__setattr__(self, "length", len(self.text))

        def __str__(self) -> str:
            return self.text

    return Place, Open, Base, Above


def said_of(of: ModuleType) -> list:
    """What can be seen of values of these classes."""
    place, opened, base, above = classes(of)
    one, other = opened("a"), opened("a", [1], hidden=3)
    one.found.append(2)
    return [
        [str(it).rpartition(".")[2] for it in (place(1, 2), one, other, base("t"), base("t", (1, 2)))],
        repr(above("t", (1, 2), 3)).rpartition(".")[2],
        str(above("words")),
        [place(1, 2) == place(line=1, column=2), place(1) < place(2), place(2, 1) <= place(1, 2), place(3) > place(2), place(1) >= place(1)],
        [base("t", (1, 2)) == base("t"), base("t") == above("t"), one == other, base("t") != base("u"), place(1) == (1, 1)],
        [hash(base("t", (1, 2))) == hash(base("t")), {place(1): 2}[place(1, 1)], len({above("t"), above("t", (5, 5))})],
        [opened.__hash__, of.replace(above("t", (1, 2), 3), text="uv").length, of.replace(place(1, 2), column=5).column],
        [opened("b").found, above("t").file, above("t").span, above("t").count],
    ]


class Records(unittest.TestCase):
    def test_they_are_as_those_of_the_standard_library(self) -> None:
        self.assertEqual(said_of(records), said_of(dataclasses))

    def test_errors_are_errors(self) -> None:
        for of in (records, dataclasses):
            place, opened, base, above = classes(of)
            for wrong in (lambda: place(), lambda: place(1, 2, 3), lambda: place(1, colum=2), lambda: place(1, line=2), lambda: base("t", file="f")):
                self.assertRaises(TypeError, wrong)
            self.assertRaises(AttributeError, setattr, place(1), "line", 2)
            self.assertRaises(AttributeError, delattr, above("t"), "text")


if __name__ == "__main__":
    unittest.main()

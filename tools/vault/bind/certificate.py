"""The heads of a certificate: state sets, types and functions, as docs/C.md has their rows. `vaultc verify` has tested the file before."""
from __future__ import annotations

import json
from pathlib import Path
from typing import Any, List, Optional, Tuple

from ..errors import Problem
from ..records import dataclass

MARK, END = "/*VAULT-CERT\n", "\n*/"
NONE = -1
MOST_STATES = 32

KEPT, TAKEN, GIVEN, NEW, BOUND = range(5)
"""The modes of a clause's entries."""


@dataclass(frozen=True)
class Shape:
    """The type of a value. The kind is `void`, `int`, `bool`, `key` (a reference to the object of a key), `own` (an owned object in one of the states
    `states`, a mask), `guard`, `var` or `ownvar` (a variant); `type` is the number of the type, `key` that of the key, and `arguments` are the keys of its
    header."""

    kind: str
    type: int = NONE
    key: int = NONE
    states: int = NONE
    arguments: Tuple[int, ...] = ()


@dataclass(frozen=True)
class Case:
    """A case of a variant: what it carries, and the states of its keys' objects, by the header's parameters."""

    name: str
    payload: Tuple[Shape, ...]
    keys: Tuple[Tuple[int, int], ...]


@dataclass(frozen=True)
class TypeRow:
    """A type: `abstract`, `struct` or `variant`; `state_set` is the number of its set, or -1."""

    kind: str
    name: str
    header: Tuple[int, ...]
    state_set: int
    cases: Tuple[Case, ...] = ()


@dataclass(frozen=True)
class Entry:
    """An entry of a clause: masks of states, -1 for any. Of a bound entry `before` is the state that bounds it."""

    mode: int
    key: int
    before: int
    after: int

    @property
    def is_held_after(self) -> bool:
        return self.mode != TAKEN

    @property
    def is_held_before(self) -> bool:
        return self.mode in (KEPT, TAKEN, BOUND)


@dataclass(frozen=True)
class FunctionRow:
    """A function; its number among those of its kind is that of its C function. Keys are their names and types. The first variables are the
    parameters."""

    name: str
    is_external: bool
    number: int
    result: Shape
    parameters: Tuple[Tuple[str, Shape], ...]
    clause: Tuple[Entry, ...]
    keys: Tuple[Tuple[str, int], ...]
    variables: Tuple[Tuple[str, Shape], ...]

    def entry(self, key: int) -> Optional[Entry]:
        """The entry of a key, if the clause has one."""
        return next((it for it in self.clause if it.key == key), None)

    def is_held_before(self, key: int) -> bool:
        """Whether a call needs the key."""
        entry = self.entry(key)
        return entry is not None and entry.is_held_before


@dataclass(frozen=True)
class Certificate:
    """The heads of a certificate, in their order."""

    sets: Tuple[Tuple[str, Tuple[str, ...]], ...]
    links: Tuple[Tuple[Tuple[int, int], ...], ...]
    types: Tuple[TypeRow, ...]
    functions: Tuple[FunctionRow, ...]

    @property
    def externals(self) -> List[FunctionRow]:
        return [it for it in self.functions if it.is_external]

    def states(self, type_number: int) -> Tuple[str, ...]:
        """The states of a type's objects; none if it has no set."""
        number = self.types[type_number].state_set if type_number >= 0 else NONE
        return self.sets[number][1] if number >= 0 else ()

    def mask(self, type_number: int, states: int) -> int:
        """A mask of states in full: -1 stands for all states of the type. A type without states has one."""
        if states >= 0:
            return states
        if type_number < 0:
            return (1 << MOST_STATES) - 1
        return (1 << max(len(self.states(type_number)), 1)) - 1

    def before(self, function: FunctionRow, entry: Entry) -> int:
        """The states in which an entry's object has to be before a call."""
        kind = function.keys[entry.key][1]
        if entry.mode != BOUND:
            return self.mask(kind, entry.before)
        links = self.links[self.types[kind].state_set]
        below = {entry.before}
        while True:
            more = {low for low, high in links if high in below} - below
            if not more:
                return sum(1 << state for state in below)
            below |= more

    def after(self, function: FunctionRow, entry: Entry) -> int:
        """The states in which an entry's object can be after a call."""
        return self.mask(function.keys[entry.key][1], entry.after)

    def is_entry_function(self, function: FunctionRow) -> bool:
        """Whether a host may call it."""
        shapes = [shape for _, shape in function.parameters]
        result = function.result
        is_new = result.kind == "key" and any(it.mode == NEW for it in function.clause)
        return (
            not function.is_external
            and function.name != "main"
            and all(it.kind in ("int", "bool") or it.kind == "key" and not self.types[it.type].header for it in shapes)
            and (result.kind in ("void", "int", "bool") or is_new and not self.types[result.type].header)
            and all(it.mode != GIVEN for it in function.clause)
        )


def bits(mask: int) -> List[int]:
    """The states of a mask."""
    return [number for number in range(MOST_STATES) if mask >> number & 1]


def shape(row: List[Any]) -> Shape:
    """The type that a row says."""
    kind = row[0]
    if kind in ("key", "guard"):
        return Shape(kind, row[2], key=row[1])
    if kind == "own":
        return Shape(kind, row[2], states=row[1])
    return Shape(kind, row[1], arguments=tuple(row[2])) if kind in ("var", "ownvar") else Shape(kind)


def type_row(row: List[Any], cases: List[List[Any]]) -> TypeRow:
    """A type with the rows of its cases."""
    if row[0] == "abstract":
        return TypeRow("abstract", row[1], (), row[2])
    if row[0] == "struct":
        return TypeRow("struct", row[1], tuple(row[2]), row[3])
    found = tuple(Case(it[1], tuple(map(shape, it[2])), tuple((key, states) for key, states in it[3])) for it in cases)
    return TypeRow("variant", row[1], tuple(row[2]), NONE, found)


def function_row(row: List[Any], number: int) -> FunctionRow:
    """A function's head."""
    variables = tuple((name, shape(kind)) for name, kind in row[6])
    clause = tuple(Entry(*entry) for entry in row[4])
    keys = tuple((name, kind) for name, kind in row[5])
    return FunctionRow(row[1], row[0] == "extern", number, shape(row[2]), variables[: row[3]], clause, keys, variables)


def read(path: Path) -> Certificate:
    """The heads of the certificate of a C file."""
    try:
        return heads_of(path.read_text(encoding="utf-8"))
    except OSError as error:
        raise Problem(f"{path}: {error.strerror}", 2)
    except (ValueError, IndexError, TypeError):
        raise Problem(f"{path}: it has no certificate that can be read", 12)


def heads_of(text: str) -> Certificate:
    """The heads of the certificate of a C text."""
    at = text.index(MARK) + len(MARK)
    return certificate(json.loads(text[at : text.index(END, at)]))


def certificate(rows: List[List[Any]]) -> Certificate:
    """The heads that rows say."""
    sets, links, types, functions = [], [], [], []
    counts = {"extern": 0, "fn": 0}
    for number, row in enumerate(rows):
        if row[0] == "states":
            sets.append((row[1], tuple(row[2])))
            links.append(tuple((low, high) for low, high in (row[3] if len(row) > 3 else [])))
        elif row[0] in ("abstract", "struct", "variant"):
            count = row[3] if row[0] == "variant" else 0
            types.append(type_row(row, rows[number + 1 : number + 1 + count]))
        elif row[0] in counts:
            functions.append(function_row(row, counts[row[0]]))
            counts[row[0]] += 1
    return Certificate(tuple(sets), tuple(links), tuple(types), tuple(functions))

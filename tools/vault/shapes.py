"""The shapes of the answers of externals: which numbers an answer has, in which order, and what they mean."""
from __future__ import annotations

import re
from typing import List, Optional, Sequence, Tuple

from . import syntax as s
from .declarations import Declarations
from .records import dataclass
from .typing_of import BOOL, INT


@dataclass(frozen=True)
class Slot:
    """A number of an answer: what it is, and which names stand for which numbers; no names if any number of 64 bits is permitted."""

    what: str
    names: Tuple[Tuple[str, int], ...] = ()

    @property
    def word(self) -> str:
        return "|".join(name for name, _ in self.names) if self.names else "NUMBER"

    def read(self, word: str) -> Optional[int]:
        """The number that a word is, or that a name stands for; None if it is neither."""
        for name, number in self.names:
            if word == name or word == f"'{name}" or f"'{word}" == name:
                return number
        if not re.fullmatch(r"-?\d+", word):
            return None
        number = int(word)
        permitted = [value for _, value in self.names]
        return number if not permitted or number in permitted else None


@dataclass(frozen=True)
class Shape:
    """A form that an answer may have; `case` is the case of the result's variant, if the result is one."""

    slots: Tuple[Slot, ...]
    case: str = ""


class Shapes:
    """The shapes of answers of a program's externals."""

    def __init__(self, declarations: Declarations) -> None:
        self.declarations = declarations

    def of(self, function: s.Function) -> List[Shape]:
        """The shapes of an external's answers: one, or one for each case of its result."""
        before = tuple(slot for entry in function.entries for slot in self.of_entry(function, entry))
        result = function.result
        variant = self.declarations.find(result.name, s.Variant) if result.name else None
        if variant is None:
            return [Shape((*before, *self.of_type(result)))]
        shapes = []
        for number, case in enumerate(variant.cases):
            keys = dict(zip((key.name.text for key in variant.header), result.arguments))
            chosen = Slot("the case", ((case.tick.text, number),))
            states = [
                slot
                for key, listed in case.keys
                for slot in self.of_key(function, keys.get(key, key), self.key_type(variant, key), listed)
            ]
            carried = [slot for kind in case.types for slot in self.of_type(kind)]
            shapes.append(Shape((*before, chosen, *states, *carried), case.tick.text))
        return shapes

    def key_type(self, variant: s.Variant, key: str) -> str:
        return next((one.type_name for one in variant.header if one.name.text == key), "")

    def of_entry(self, function: s.Function, entry: s.Entry) -> List[Slot]:
        """The state of an entry that is held after the call, if it may be in several."""
        if entry.mode in ("taken", "bound"):
            return []
        kind = self.declarations.key_type(function, entry.key.text) or ""
        return self.of_key(function, entry.key.text, kind, entry.after)

    def of_key(self, function: s.Function, key: str, type_name: str, states: Tuple[str, ...]) -> List[Slot]:
        every = self.declarations.states_of(type_name)
        allowed = states or every
        if len(allowed) < 2:
            return []
        names = tuple((state, every.index(state)) for state in every if state in allowed)
        return [Slot(f"the state of {self.object_words(function, key)}", names)]

    def object_words(self, function: s.Function, key: str) -> str:
        found = next((one.name.text for one in function.parameters if one.type.key == key), None)
        return f"`{found}`" if found else "the object that it gives"

    def of_type(self, kind: s.Type) -> List[Slot]:
        """The numbers of a value; the state of an object that is given under a key is that of the clause's entry."""
        if kind == INT:
            return [Slot("a number")]
        if kind == BOOL:
            return [Slot("true or false", (("false", 0), ("true", 1)))]
        if kind.form != "owned":
            return []
        every = self.declarations.states_of(kind.name)
        allowed = kind.states or every
        if len(allowed) < 2:
            return []
        return [Slot(f"the state of the `{kind.name}`", tuple((state, every.index(state)) for state in every if state in allowed))]


def words_of(shape: Shape) -> str:
    """A shape as it is written in a file of answers."""
    return " ".join(slot.word if len(slot.names) != 1 else str(slot.names[0][1]) for slot in shape.slots)


def named(shape: Shape) -> str:
    """A shape with names, as in a table of answers."""
    return " ".join(slot.word for slot in shape.slots)


def meaning(shape: Shape) -> str:
    """What the numbers of a shape mean."""
    said = []
    for slot in shape.slots:
        values = ", ".join(f"{number} {name}" for name, number in slot.names)
        said.append(f"case {shape.case}" if slot.what == "the case" else slot.what + (f" ({values})" if values else ""))
    return ", ".join(said) or "no numbers: an empty line"


def read_answer(shapes: Sequence[Shape], words: Sequence[str]) -> Optional[List[int]]:
    """The numbers that the words of an answer are, by names or as numbers; None if they fit no shape."""
    for shape in shapes:
        numbers = [slot.read(word) for slot, word in zip(shape.slots, words)]
        if len(words) == len(shape.slots) and all(number is not None for number in numbers):
            return [number for number in numbers if number is not None]
    return None


def first_answers(shapes: Sequence[Shape]) -> List[str]:
    """For each shape the least answer of it."""
    return [" ".join(str(slot.names[0][1]) if slot.names else "0" for slot in shape.slots) for shape in shapes]

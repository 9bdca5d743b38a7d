"""How long objects last that a program hands to its host.

An object that went out comes back by an answer alone: by a `+` entry, or by a key of a case. If each such clause needs the key before the call, then what went out in an
earlier call never comes back, and a call that takes an object and doesn't give it back ends it."""
from __future__ import annotations

from typing import Dict, List, Set

from .certificate import GIVEN, NONE, TAKEN, Case, Certificate, FunctionRow, Shape


class Lasting:
    """What the clauses of a program's externals say of objects that went out."""

    def __init__(self, certificate: Certificate) -> None:
        self.certificate = certificate

    # ---- objects that end as they go out

    def comes_back(self, type_number: int) -> bool:
        """Whether an object of a type that went out in an earlier call can come back."""
        return any(kind in (type_number, NONE) for it in self.certificate.externals for kind in self.types_given(it))

    def types_given(self, function: FunctionRow) -> Set[int]:
        """The types of the keys that a call gives without having needed them."""
        keys = {it.key for it in function.clause if it.mode == GIVEN}
        keys |= {key for case in self.cases(function) for key in self.keys_of(function, case) if not function.is_held_before(key)}
        return {function.keys[key][1] for key in keys}

    def cases(self, function: FunctionRow) -> List[Case]:
        result = function.result
        return list(self.certificate.types[result.type].cases) if result.kind in ("var", "ownvar") else []

    def keys_of(self, function: FunctionRow, case: Case) -> Set[int]:
        """The function's keys that a case of its result gives."""
        return {function.result.arguments[key] for key, _ in case.keys}

    def ends(self, function: FunctionRow) -> Dict[int, int]:
        """The parameters, by their numbers, whose objects a call takes for good, unless a case gives them back; with their keys, -1 for none."""
        found = {}
        for number, (_, shape) in enumerate(function.parameters):
            entry = function.entry(shape.key) if shape.kind == "key" else None
            is_taken = shape.kind == "own" or entry is not None and entry.mode == TAKEN
            if is_taken and not self.comes_back(shape.type):
                found[number] = shape.key
        return found

    def lines(self, function: FunctionRow) -> List[str]:
        """Lines that let go of objects that end whatever the answer is."""
        given = {key for case in self.cases(function) for key in self.keys_of(function, case)}
        return [gone(number) for number, key in self.ends(function).items() if key not in given]

    def lines_of_case(self, function: FunctionRow, case: Case) -> List[str]:
        """Lines that let go of objects that end in this case, though others give them back."""
        given = {key for it in self.cases(function) for key in self.keys_of(function, it)}
        left = given - self.keys_of(function, case)
        return [gone(number) for number, key in self.ends(function).items() if key in left]

    # ---- records that are used again

    def guards(self) -> List[str]:
        """A line that keeps the program from being compiled with VAULT_REUSE, if an external may be told of an object that is gone: its record could be another's."""
        told = [it.name for it in self.certificate.externals if any(not self.lives(it, shape) for _, shape in it.parameters)]
        if not told:
            return []
        return [f'#ifdef VAULT_REUSE\n#error "{told[0]} may be told of an object that is gone: compile without VAULT_REUSE"\n#endif\n']

    def lives(self, function: FunctionRow, shape: Shape) -> bool:
        """Whether an argument's objects live at each call. Objects of abstract types end by going out alone, and not if they can come back."""
        if shape.kind not in ("key", "guard") or function.is_held_before(shape.key):
            return True
        return shape.kind == "key" and self.certificate.types[shape.type].kind == "abstract" and self.comes_back(shape.type)


def gone(number: int) -> str:
    return f"vault_gone(call->arguments[{number}].number);"

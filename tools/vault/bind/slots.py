"""The C variables that stand for the values of a program."""
from __future__ import annotations

from typing import List

from .certificate import Certificate, FunctionRow, Shape

NUMBER, REFERENCE = "n", "p"


def slot_kinds(certificate: Certificate, shape: Shape) -> List[str]:
    """The slots of a value: `n` for numbers, `p` for references. A variant has one for its case, and for each sort of payload as many as the case with
    most of it."""
    if shape.kind in ("int", "bool"):
        return [NUMBER]
    if shape.kind not in ("var", "ownvar"):
        return [REFERENCE]
    cases = certificate.types[shape.type].cases

    def most(*kinds: str) -> int:
        return max((sum(it.kind in kinds for it in case.payload) for case in cases), default=0)

    return [NUMBER] * (1 + most("int", "bool")) + [REFERENCE] * (most("guard") + most("own"))


def slots(certificate: Certificate, function: FunctionRow) -> List[List[str]]:
    """For each variable of a function the names of its C variables."""
    found: List[List[str]] = []
    used = {NUMBER: 0, REFERENCE: 0}
    for _, shape in function.variables:
        names = []
        for kind in slot_kinds(certificate, shape):
            names.append(f"{kind}{used[kind]}")
            used[kind] += 1
        found.append(names)
    return found

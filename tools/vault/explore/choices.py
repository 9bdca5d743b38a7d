"""What a host may do next: the calls that are permitted of what it holds, and the answers that keep an external's clause."""
from __future__ import annotations

import itertools
import re
from typing import Dict, Iterator, List, Optional, Sequence, Tuple

from .. import syntax as s
from ..declarations import Declarations
from ..records import dataclass

LARGEST = 2**63 - 1


@dataclass(frozen=True)
class Held:
    """An object that the host holds: its number, its type and its state; no state if its type has none."""

    number: int
    type: str
    state: str


def entry_functions(declarations: Declarations) -> List[s.Function]:
    """The functions that a host may call."""
    return [it for it in declarations.functions() if it.body and it.name.text != "main" and is_entry(declarations, it)]


def is_entry(declarations: Declarations, function: s.Function) -> bool:
    kinds = [it.type for it in function.parameters]
    is_new = function.result.form == "held" and any(entry.mode == "new" for entry in function.entries)
    return (
        all(kind.form in ("int", "bool") or kind.form == "held" and not kind.arguments for kind in kinds)
        and (function.result.form in ("void", "int", "bool") or is_new and not function.result.arguments)
        and all(entry.mode != "given" for entry in function.entries)
    )


def numbers_of(text: str, most: int) -> List[int]:
    """Numbers worth a try: those of the text and their neighbours, the small ones first, and then the extremes."""
    own = {int(it) for it in re.findall(r"\b\d{1,18}\b", text)}
    near = {number + step for number in own | {0, 1} for step in (-1, 0, 1)}
    return (sorted(near, key=lambda it: (abs(it), -it)) + [LARGEST, -LARGEST - 1])[:most]


def below(declarations: Declarations, state_set: s.StateSet, bound: str) -> List[str]:
    """The states up to a bound."""
    found = [bound]
    for state in found:
        found += [low for low, high in state_set.steps if high == state and low not in found]
    return found


def wanted(declarations: Declarations, entry: s.Entry, type_name: str) -> Tuple[str, ...]:
    """The states in which an entry's object has to be; none if any will do."""
    state_set = declarations.state_set_of(type_name)
    if entry.mode == "bound" and state_set:
        return tuple(below(declarations, state_set, entry.before[0]))
    return entry.before


def calls(declarations: Declarations, held: Sequence[Held], numbers: Sequence[int], most_objects: int) -> Iterator[str]:
    """The permitted calls, as lines of a calls file."""
    for function in entry_functions(declarations):
        if function.result.form == "held" and len(held) >= most_objects:
            continue
        ways: List[List[str]] = []
        for parameter in function.parameters:
            kind = parameter.type
            if kind.form == "held":
                ways.append([f"#{it.number}" for it in held if it.type == kind.name and fits(declarations, function, kind, it)])
            else:
                ways.append(["0", "1"] if kind.form == "bool" else [str(number) for number in numbers])
        for arguments in itertools.product(*ways):
            if are_apart(function, arguments):
                yield " ".join([function.name.text, *arguments])


def fits(declarations: Declarations, function: s.Function, kind: s.Type, it: Held) -> bool:
    entry = function.entry(kind.key)
    states = wanted(declarations, entry, kind.name) if entry and entry.mode in ("kept", "taken", "bound") else ()
    return not states or it.state in states


def are_apart(function: s.Function, arguments: Sequence[str]) -> bool:
    """Whether one key stands for one object, and keys of the clause for different ones."""
    objects: Dict[str, str] = {}
    for parameter, argument in zip(function.parameters, arguments):
        if parameter.type.form == "held" and objects.setdefault(parameter.type.key, argument) != argument:
            return False
    in_clause = [number for key, number in objects.items() if function.entry(key) is not None]
    return len(set(in_clause)) == len(in_clause)


def after_call(declarations: Declarations, held: Sequence[Held], call: str, next_number: int) -> Optional[List[Held]]:
    """What a host holds after a call that comes back, if a new object gets this number; None if the clause leaves several states of an object."""
    name, *words = call.split()
    function = declarations.find(name, s.Function)
    if function is None:
        return None
    found = {it.number: it for it in held}
    numbers = {it.type.key: int(word[1:]) for it, word in zip(function.parameters, words) if it.type.form == "held"}
    for entry in function.entries:
        number = next_number if entry.mode == "new" else numbers.get(entry.key.text)
        if number is None:
            return None
        if entry.mode == "taken":
            found.pop(number, None)
            continue
        kind = function.result.name if entry.mode == "new" else found[number].type
        every = declarations.states_of(kind)
        left = left_states(entry) or every if entry.mode != "bound" else (found[number].state,)
        if every and len(left) != 1:
            return None
        found[number] = Held(number, kind, left[0] if every else "")
    return [found[number] for number in sorted(found)]


def left_states(entry: s.Entry) -> Tuple[str, ...]:
    """The states that an entry names of its object after the call; none if it names none."""
    return entry.after or (() if entry.changes or entry.mode != "kept" else entry.before)


def answers(declarations: Declarations, external: s.Function, numbers: Sequence[int]) -> List[str]:
    """The answers that keep an external's clause, as lines of an answers file."""
    ways = [states_after(declarations, external, entry) for entry in external.entries if entry.mode not in ("taken", "bound")]
    ways = [way for way in ways if len(way) > 1] + [results(declarations, external.result, numbers)]
    return [" ".join(word for word in words if word) for words in itertools.product(*ways)]


def states_after(declarations: Declarations, external: s.Function, entry: s.Entry) -> List[str]:
    """The states that an entry's object can be in after the call, by their numbers."""
    every = declarations.states_of(declarations.key_type(external, entry.key.text) or "")
    return [str(every.index(state)) for state in left_states(entry) or every if state in every] or ["0"]


def results(declarations: Declarations, kind: s.Type, numbers: Sequence[int]) -> List[str]:
    """What an answer can say of a value of a type."""
    if kind.form == "int":
        return [str(number) for number in numbers]
    if kind.form == "bool":
        return ["0", "1"]
    variant = declarations.find(kind.name, s.Variant)
    if variant is not None:
        return [f"{number} {rest}".strip() for number, case in enumerate(variant.cases) for rest in case_answers(declarations, variant, case, numbers)]
    if kind.form == "owned":
        every = declarations.states_of(kind.name)
        fitting = [str(every.index(state)) for state in kind.states or every]
        return fitting if len(fitting) > 1 else [""]
    return [""]


def case_answers(declarations: Declarations, variant: s.Variant, case: s.Case, numbers: Sequence[int]) -> List[str]:
    """What an answer can say of a case: the states of its keys, and what it carries."""
    types = {key.name.text: key.type_name for key in variant.header}
    ways = []
    for key, states in case.keys:
        every = declarations.states_of(types.get(key, ""))
        fitting = [str(every.index(state)) for state in states or every if state in every]
        ways.append(fitting if len(fitting) > 1 else [""])
    ways += [results(declarations, kind, numbers) for kind in case.types]
    return [" ".join(word for word in words if word) for words in itertools.product(*ways)]

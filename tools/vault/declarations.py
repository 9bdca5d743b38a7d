"""What a text declares, by name: types with their states, functions, and what each function does to an object of a type."""
from __future__ import annotations

from typing import Dict, Iterable, List, Optional, Tuple, Type as Kind, TypeVar

from . import syntax as s
from .records import dataclass, field, replace

D = TypeVar("D", bound=s.Declaration)


@dataclass(frozen=True)
class Move:
    """A statement that changes an object: its text with `{}` for the variable, the states in which it is permitted, and those that
    it leaves; None if the object is gone after it. `function` is the one that it calls, if it calls one."""

    text: str
    before: Tuple[str, ...]
    after: Optional[Tuple[str, ...]]
    function: Optional[s.Function] = None


@dataclass(frozen=True)
class Declarations:
    """The declarations of a program, those of a name that is declared twice in the order of the text."""

    program: s.Program
    by_name: Dict[str, List[s.Declaration]] = field(init=False)

    def __post_init__(self) -> None:
        names: Dict[str, List[s.Declaration]] = {}
        for declaration in self.program.declarations:
            names.setdefault(declaration.name.text, []).append(declaration)
        object.__setattr__(self, "by_name", names)

    def all(self, kind: Kind[D]) -> List[D]:
        return [declaration for declaration in self.program.declarations if isinstance(declaration, kind)]

    def find(self, name: str, kind: Kind[D]) -> Optional[D]:
        """The first declaration of a name that is of this kind."""
        return next((one for one in self.by_name.get(name, []) if isinstance(one, kind)), None)

    def types(self) -> List[s.Declaration]:
        return [one for one in self.program.declarations if isinstance(one, (s.Abstract, s.Struct, s.Variant))]

    def functions(self) -> List[s.Function]:
        return self.all(s.Function)

    def at(self, offset: int) -> Optional[s.Declaration]:
        """The declaration that has a character, or ends just before it."""
        for declaration in self.program.declarations:
            if declaration.span.start <= offset <= declaration.span.end:
                return declaration
        return None

    def function_at(self, offset: int) -> Optional[s.Function]:
        found = self.at(offset)
        return found if isinstance(found, s.Function) else None

    def state_set_of(self, type_name: str) -> Optional[s.StateSet]:
        """The set of states of a type, if it has one."""
        found = self.find(type_name, s.Struct) or self.find(type_name, s.Abstract)
        return self.find(found.state_set, s.StateSet) if found and found.state_set else None

    def states_of(self, type_name: str) -> Tuple[str, ...]:
        """The states of a type's objects; none if it has no set."""
        found = self.state_set_of(type_name)
        return tuple(state.text for state in found.states) if found else ()

    def release_states(self, type_name: str) -> Tuple[str, ...]:
        """The states in which a struct's object may be released; none if it is all of them."""
        found = self.find(type_name, s.Struct)
        return found.released if found else ()

    def owns_objects(self, variant: s.Variant) -> bool:
        """Whether a value of a variant owns objects, so that its type is written `tracked V`."""
        return any(case.keys or any(one.form == "owned" for one in case.types) for case in variant.cases)

    def key_type(self, function: s.Function, key: str) -> Optional[str]:
        """The name of the type of a key's object in a function's head."""
        for one in (*(parameter.type for parameter in function.parameters), function.result):
            if one.form == "held" and one.key == key:
                return one.name
        return None

    def moves(self, type_name: str) -> List[Move]:
        """What can be done to an object of a type by one statement: calls that need no other object, `release` and `become`."""
        found = [move for function in self.functions() for move in self.move_by_call(function, type_name)]
        struct = self.find(type_name, s.Struct)
        if struct:
            found.append(Move("release {};", struct.released or self.states_of(type_name), None))
        return found

    def move_by_call(self, function: s.Function, type_name: str) -> List[Move]:
        """The call of a function whose other parameters are numbers and bools, and that gives nothing."""
        held = [one for one in function.parameters if one.type.form in ("held", "owned") and one.type.name == type_name]
        others = [one for one in function.parameters if one not in held]
        if len(held) != 1 or function.name.text == "main" or function.result.form != "void":
            return []
        if any(one.type.form not in ("int", "bool") for one in others):
            return []
        words = ["{}" if one in held else "0" if one.type.form == "int" else "false" for one in function.parameters]
        text = f"{function.name}({', '.join(words)});"
        every = self.states_of(type_name)
        if held[0].type.form == "owned":
            return [Move(text, held[0].type.states or every, None, function)] if not function.entries else []
        entry = function.entry(held[0].type.key)
        if entry is None or len(function.entries) != 1 or entry.mode not in ("kept", "taken"):
            return []
        after = None if entry.mode == "taken" else entry.after or every
        return [Move(text, entry.before or every, after, function)]

    def plan(self, type_name: str, found: Iterable[str], goal: Optional[Iterable[str]], most: int = 3) -> List[Tuple[Move, ...]]:
        """The shortest lists of moves from one of the states `found` to states within `goal`, or to a released object."""
        start = tuple(found) or self.states_of(type_name)
        aim = None if goal is None else set(goal) or set(self.states_of(type_name))
        moves = self.moves(type_name)
        rounds: List[Tuple[Tuple[str, ...], Tuple[Move, ...]]] = [(start, ())]
        for _ in range(most):
            longer = [(move.after, (*path, move)) for states, path in rounds for move in moves if set(states) <= set(move.before)]
            done = [
                path for states, path in longer if (states is None) == (aim is None) and (aim is None or set(states or ()) <= aim)
            ]
            if done:
                return done
            rounds = [(states, path) for states, path in longer if states is not None]
        return []

    def takers(self, type_name: str) -> List[s.Function]:
        """The functions that take an object of a type away from their caller."""
        found = []
        for function in self.functions():
            for one in function.parameters:
                entry = function.entry(one.type.key) if one.type.form == "held" else None
                if one.type.name == type_name and (one.type.form == "owned" or entry is not None and entry.mode == "taken"):
                    found.append(function)
                    break
        return found


def nearest(name: str, names: Iterable[str], likeness: float = 0.6) -> Optional[str]:
    """The one of some names that is most like a name: one that differs in capitals alone, else one of at least this likeness, from 0
    to 1, as difflib measures it."""
    known = [one for one in dict.fromkeys(names) if one != name]
    for one in known:
        if one.lower() == name.lower():
            return one
    if len(name) < 2:
        return None
    import difflib

    found = difflib.get_close_matches(name, known, 1, likeness)
    return found[0] if found else None


def substitute(kind: s.Type, keys: Dict[str, str]) -> s.Type:
    """A type with other keys in the place of some."""
    arguments = tuple(keys.get(one, one) for one in kind.arguments)
    return replace(kind, key=keys.get(kind.key, kind.key), arguments=arguments)


def header_keys(declarations: Declarations, kind: s.Type) -> Dict[str, str]:
    """What the keys of a type's header are where the type stands with its arguments."""
    found = declarations.find(kind.name, s.Struct) or declarations.find(kind.name, s.Variant)
    return dict(zip((key.name.text for key in found.header), kind.arguments)) if found else {}

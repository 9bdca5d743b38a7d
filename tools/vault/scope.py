"""What is known at a place of a function's body: the variables in scope with their types, and the statement that stands there."""
from __future__ import annotations

from typing import Dict, List, Optional, Tuple

from . import syntax as s
from .declarations import Declarations, header_keys, substitute
from .records import dataclass


@dataclass(frozen=True)
class Variable:
    """A variable: its name where it is bound, its type (None if that isn't known), and what binds it."""

    name: s.Name
    type: Optional[s.Type]
    binder: Optional[s.Statement]

    @property
    def key(self) -> str:
        """The key of the object that the variable refers to; empty if it has none."""
        return self.type.key if self.type is not None and self.type.form == "held" else ""


@dataclass(frozen=True)
class Scope:
    """What is known before a character of a function's body: variables in the order in which they are bound, and the statements
    around the character, the outermost first. The last one stands there."""

    function: s.Function
    variables: Tuple[Variable, ...]
    around: Tuple[s.Statement, ...]

    @property
    def statement(self) -> Optional[s.Statement]:
        return self.around[-1] if self.around else None

    def find(self, name: str) -> Optional[Variable]:
        return next((one for one in reversed(self.variables) if one.name.text == name), None)

    def of_key(self, key: str) -> List[Variable]:
        """The variables that refer to the object of a key."""
        return [one for one in self.variables if one.key == key]

    def guarded_by(self, key: str) -> List[Variable]:
        """The variables that refer to objects that the key's object adopted."""
        return [one for one in self.variables if one.type is not None and one.type.form == "guarded" and one.type.key == key]

    def type_name(self, key: str) -> Optional[str]:
        """The name of the type of a key's object."""
        found = self.of_key(key)
        return found[0].type.name if found and found[0].type else None

    def keys(self) -> List[str]:
        """The keys that are known."""
        found = [entry.key.text for entry in self.function.entries if entry.mode != "new"]
        return list(dict.fromkeys([*found, *(one.key for one in self.variables if one.key)]))


class Finder:
    """Finds the scope of a character in a function's body."""

    def __init__(self, declarations: Declarations, function: s.Function, offset: int) -> None:
        self.declarations = declarations
        self.function = function
        self.offset = offset
        self.variables: List[Variable] = [Variable(one.name, one.type, None) for one in function.parameters]
        self.around: List[s.Statement] = []

    def scope(self) -> Scope:
        if self.function.body:
            self.enter(self.function.body)
        return Scope(self.function, tuple(self.variables), tuple(self.around))

    def enter(self, block: s.Block) -> None:
        """Goes through a block that has the character, up to it."""
        for statement in block.statements:
            if statement.span.start > self.offset:
                return
            if self.offset < statement.span.end:
                self.around.append(statement)
                self.within(statement)
                return
            self.bind(statement)

    def within(self, statement: s.Statement) -> None:
        """Goes on in the part of a statement that has the character."""
        for arm in statement.arms if isinstance(statement, s.Switch) else ():
            if arm.body.span.start <= self.offset < arm.body.span.end:
                self.bind_arm(statement, arm)
        if isinstance(statement, s.Focus) and statement.body.span.start <= self.offset:
            self.bind_focus(statement)
        if isinstance(statement, s.If) and isinstance(statement.else_part, s.If) and statement.else_part.span.start <= self.offset:
            self.around.append(statement.else_part)
            self.within(statement.else_part)
        for block in statement.blocks():
            if block.span.start <= self.offset < block.span.end:
                self.enter(block)

    def bind(self, statement: s.Statement) -> None:
        """The variables that a statement binds for those after it."""
        if isinstance(statement, s.Declare):
            self.variables.append(Variable(statement.name, statement.type, statement))
        elif isinstance(statement, s.Open):
            owner = self.type_of(statement.variable)
            struct = self.declarations.find(owner.name, s.Struct) if owner else None
            owned = [one.type for one in struct.fields if self.is_owning(one.type)] if struct else []
            self.bind_names(statement, statement.names, owned, owner)

    def bind_arm(self, switch: s.Switch, arm: s.Arm) -> None:
        kind = self.type_of(switch.variable)
        variant = self.declarations.find(kind.name, s.Variant) if kind else None
        case = next((one for one in variant.cases if one.tick.text == arm.tick.text), None) if variant else None
        self.bind_names(switch, arm.variables, list(case.types) if case else [], kind)

    def bind_focus(self, focus: s.Focus) -> None:
        kind = self.type_of(focus.variable)
        held = s.Type("held", kind.name, focus.key.text, (), kind.arguments, kind.span) if kind else None
        self.variables.append(Variable(focus.name, held, focus))

    def bind_names(self, binder: s.Statement, names: Tuple[s.Name, ...], kinds: List[s.Type], owner: Optional[s.Type]) -> None:
        """Variables for parts of an object or a value of the type `owner`."""
        keys: Dict[str, str] = header_keys(self.declarations, owner) if owner else {}
        for number, name in enumerate(names):
            kind = substitute(kinds[number], keys) if number < len(kinds) else None
            self.variables.append(Variable(name, kind, binder))

    def is_owning(self, kind: s.Type) -> bool:
        return kind.form == "owned"

    def type_of(self, name: s.Name) -> Optional[s.Type]:
        found = next((one for one in reversed(self.variables) if one.name.text == name.text), None)
        return found.type if found else None


def scope_at(declarations: Declarations, offset: int) -> Optional[Scope]:
    """The scope of a character; None if it is in no function with a body."""
    function = declarations.function_at(offset)
    if function is None or function.body is None or offset < function.body.span.start:
        return None
    return Finder(declarations, function, offset).scope()


def statement_starting(declarations: Declarations, offset: int) -> Optional[s.Statement]:
    """The statement whose first character it is."""
    function = declarations.function_at(offset)
    if function is None or function.body is None:
        return None
    return next((one for one in s.all_statements(function.body) if one.span.start == offset), None)


def block_closing(declarations: Declarations, offset: int) -> Optional[Tuple[Optional[s.Statement], s.Block]]:
    """The block whose closing brace it is, with the statement of the block; None for the statement if it is a function's own."""
    function = declarations.function_at(offset)
    if function is None or function.body is None:
        return None
    if function.body.close == offset:
        return None, function.body
    for statement in s.all_statements(function.body):
        for block in statement.blocks():
            if block.close == offset:
                return statement, block
    return None

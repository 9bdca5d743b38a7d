"""The types of expressions and right sides, as far as the text tells them."""
from __future__ import annotations

from typing import Dict, Iterator, List, Optional, Tuple

from . import syntax as s
from .declarations import Declarations, header_keys, substitute
from .scope import Scope

INT, BOOL, VOID = s.Type("int"), s.Type("bool"), s.Type("void")
COMPARISONS = ("<", "<=", ">", ">=")
EQUALITIES = ("==", "!=")
LOGICAL = ("&&", "||")


class Typing:
    """Types in a scope. What isn't known has no type."""

    def __init__(self, declarations: Declarations, scope: Scope) -> None:
        self.declarations = declarations
        self.scope = scope

    def variable(self, name: s.Name) -> Optional[s.Type]:
        found = self.scope.find(name.text)
        return found.type if found else None

    def field(self, name: s.Name, member: s.Name) -> Optional[s.Type]:
        """The type of a field of a variable's object."""
        kind = self.variable(name)
        struct = self.declarations.find(kind.name, s.Struct) if kind else None
        found = next((one for one in struct.fields if one.name.text == member.text), None) if struct else None
        return substitute(found.type, header_keys(self.declarations, kind)) if found else None

    def expression(self, one: s.Expression) -> Optional[s.Type]:
        if one.kind == "number":
            return INT
        if one.kind == "bool":
            return BOOL
        if one.kind == "name":
            return self.variable(one.name)
        if one.kind == "field":
            return self.field(one.name, one.member)
        if one.kind == "group":
            return self.expression(one.operands[0])
        if one.kind == "sign":
            return BOOL if one.text == "!" else INT
        return BOOL if one.text in (*COMPARISONS, *EQUALITIES, *LOGICAL) else INT

    def right(self, right: object) -> Optional[s.Type]:
        """The type of what a right side gives. That of a `new` has no key yet."""
        if isinstance(right, s.Expression):
            return self.expression(right)
        if isinstance(right, s.Call):
            return self.call(right)
        if isinstance(right, s.Read):
            return INT if right.word == "input" else BOOL
        if isinstance(right, s.New):
            key = self.scope.find(right.owner.text).key if right.owner and self.scope.find(right.owner.text) else ""
            return s.Type("guarded", right.type.name, key, (), right.type.arguments) if key else None
        return None

    def callee(self, call: s.Call) -> Optional[s.Function]:
        return self.declarations.find(call.callee.text, s.Function)

    def keys(self, call: s.Call) -> Dict[str, str]:
        """The caller's keys for the callee's, as the arguments say them."""
        callee = self.callee(call)
        found: Dict[str, str] = {}
        for parameter, argument in zip(callee.parameters if callee else (), call.arguments):
            kind = self.expression(argument)
            if kind is not None and kind.key and parameter.type.key:
                found.setdefault(parameter.type.key, kind.key)
            for own, other in zip(parameter.type.arguments, kind.arguments if kind else ()):
                found.setdefault(own, other)
        return found

    def call(self, call: s.Call) -> Optional[s.Type]:
        callee = self.callee(call)
        return substitute(callee.result, self.keys(call)) if callee else None

    # ---- what is wanted where

    def wanted(self, statement: s.Statement, function: s.Function) -> Iterator[Tuple[s.Expression, Optional[s.Type]]]:
        """Each expression of a statement with the type that is wanted there, outer ones first."""
        for one, kind in self.outer(statement, function):
            yield from self.parts(one, kind)

    def parts(self, one: s.Expression, wanted: Optional[s.Type]) -> Iterator[Tuple[s.Expression, Optional[s.Type]]]:
        yield one, wanted
        if one.kind == "group":
            yield from self.parts(one.operands[0], wanted)
        elif one.kind == "sign":
            yield from self.parts(one.operands[0], BOOL if one.text == "!" else INT)
        elif one.kind == "operator":
            left, right = one.operands
            if one.text in EQUALITIES:
                yield from self.parts(left, None)
                yield from self.parts(right, self.expression(left))
            else:
                kind = BOOL if one.text in LOGICAL else INT
                yield from self.parts(left, kind)
                yield from self.parts(right, kind)

    def outer(self, statement: s.Statement, function: s.Function) -> List[Tuple[s.Expression, Optional[s.Type]]]:
        """The whole expressions of a statement with their types."""
        if isinstance(statement, (s.If, s.While)):
            return [(statement.condition, BOOL)]
        if isinstance(statement, s.Print):
            return [(statement.value, INT)]
        if isinstance(statement, s.SetField):
            return [(statement.right, self.field(statement.name, statement.member))]
        if isinstance(statement, s.CallStatement):
            return self.arguments(statement.call)
        right, kind = None, None
        if isinstance(statement, s.Declare):
            right, kind = statement.right, statement.type
        elif isinstance(statement, s.Assign):
            right, kind = statement.right, self.variable(statement.name)
        elif isinstance(statement, s.Return):
            right, kind = statement.value, function.result
        return self.of_right(right, kind)

    def of_right(self, right: object, kind: Optional[s.Type]) -> List[Tuple[s.Expression, Optional[s.Type]]]:
        if isinstance(right, s.Expression):
            return [(right, kind)]
        if isinstance(right, s.Call):
            return self.arguments(right)
        if isinstance(right, s.New):
            struct = self.declarations.find(right.type.name, s.Struct)
            keys = header_keys(self.declarations, right.type)
            types = {one.name.text: substitute(one.type, keys) for one in struct.fields} if struct else {}
            return [(value, types.get(name.text)) for name, value in right.fields]
        if isinstance(right, s.Build):
            case = self.case(right, kind)
            keys = header_keys(self.declarations, kind) if kind else {}
            types_ = [substitute(one, keys) for one in case.types] if case else []
            return [(one, types_[n] if n < len(types_) else None) for n, one in enumerate(right.arguments)]
        return []

    def case(self, build: s.Build, kind: Optional[s.Type]) -> Optional[s.Case]:
        variant = self.declarations.find(kind.name, s.Variant) if kind else None
        return next((one for one in variant.cases if one.tick.text == build.tick.text), None) if variant else None

    def arguments(self, call: s.Call) -> List[Tuple[s.Expression, Optional[s.Type]]]:
        callee = self.callee(call)
        keys = self.keys(call)
        kinds = [substitute(one.type, keys) for one in callee.parameters] if callee else []
        return [(one, kinds[n] if n < len(kinds) else None) for n, one in enumerate(call.arguments)]


def same(first: s.Type, second: s.Type) -> bool:
    """Whether two types are written alike, their keys aside."""
    return (first.form, first.name, first.states) == (second.form, second.name, second.states)

"""Plain words for what a statement does with a variable."""
from __future__ import annotations

from typing import Iterable, Iterator, List, Optional, Sequence, Tuple

from . import syntax as s
from .declarations import Declarations


def expressions(statement: s.Statement) -> Iterator[s.Expression]:
    """The expressions of a statement itself, not those in its blocks, with all that they are made of."""
    for one in own_expressions(statement):
        yield from one.parts()


def own_expressions(statement: s.Statement) -> List[s.Expression]:
    if isinstance(statement, (s.If, s.While)):
        return [statement.condition]
    if isinstance(statement, s.Print):
        return [statement.value]
    if isinstance(statement, s.SetField):
        return [statement.right]
    if isinstance(statement, s.CallStatement):
        return list(statement.call.arguments)
    right = right_side(statement)
    if isinstance(right, s.Expression):
        return [right]
    if isinstance(right, (s.Call, s.Build)):
        return list(right.arguments)
    return [value for _, value in right.fields] if isinstance(right, s.New) else []


def right_side(statement: Optional[s.Statement]) -> object:
    """The right side of a declaration or an assignment, or what a `return` gives."""
    if isinstance(statement, (s.Declare, s.Assign)):
        return statement.right
    return statement.value if isinstance(statement, s.Return) else None


def call_of(statement: Optional[s.Statement]) -> Optional[s.Call]:
    """The call that a statement makes, if it makes one."""
    if isinstance(statement, s.CallStatement):
        return statement.call
    right = right_side(statement)
    return right if isinstance(right, s.Call) else None


def mentioned(statement: Optional[s.Statement]) -> List[s.Name]:
    """The variables that a statement names, not those in its blocks."""
    if statement is None:
        return []
    found = [one.name for one in expressions(statement) if one.name is not None]
    for part in ("variable", "other", "owner"):
        name = getattr(statement, part, None)
        if isinstance(name, s.Name):
            found.append(name)
    if isinstance(statement, (s.SetField, s.Assign)):
        found.append(statement.name)
    right = right_side(statement)
    for part in ("variable", "owner"):
        name = getattr(right, part, None)
        if isinstance(name, s.Name):
            found.append(name)
    return found


def field_of(statement: s.Statement, names: Sequence[str]) -> Optional[Tuple[str, bool]]:
    """The first field of one of these variables that a statement touches, and whether it is written."""
    if isinstance(statement, s.SetField) and statement.name.text in names:
        return f"{statement.name}.{statement.member}", True
    for one in expressions(statement):
        if one.kind == "field" and one.name is not None and one.name.text in names:
            return one.text, False
    if isinstance(statement, s.Swap) and statement.variable.text in names:
        return f"{statement.variable}.{statement.member}", True
    return None


def argument_of(call: s.Call, names: Sequence[str]) -> Optional[int]:
    """The number of the argument that is one of these variables, from 0."""
    for number, one in enumerate(call.arguments):
        if one.kind == "name" and one.text in names:
            return number
    return None


def is_passed(call: Optional[s.Call], names: Sequence[str]) -> bool:
    return call is not None and argument_of(call, names) is not None


def use(statement: Optional[s.Statement], names: Sequence[str]) -> str:
    """What a statement does with one of these variables, as `is released`; `is used` if nothing better is known."""
    call = call_of(statement)
    if call is not None and is_passed(call, names):
        return f"is passed to `{call.callee}`"
    if isinstance(statement, s.Release):
        return "is released"
    if isinstance(statement, s.Become):
        return f"becomes `{statement.state}`"
    if isinstance(statement, s.Open):
        return "is opened"
    if isinstance(statement, s.Focus):
        return "is in focus"
    if isinstance(statement, s.Switch):
        return "is taken apart"
    right = right_side(statement)
    if isinstance(right, s.Adopt) and right.variable.text in names:
        return f"is adopted by `{right.owner}`"
    touched = field_of(statement, names) if statement else None
    if touched:
        return "is written to" if touched[1] else "is read"
    if isinstance(statement, s.Return):
        return "is returned"
    return "is handed over" if isinstance(right, (s.Expression, s.Build, s.New)) else "is used"


def past(statement: Optional[s.Statement], names: Sequence[str]) -> str:
    """How a statement made an object of one of these variables unavailable, as `was released`."""
    call = call_of(statement)
    if call is not None and is_passed(call, names):
        return f"was taken by `{call.callee}`"
    right = right_side(statement)
    if isinstance(statement, s.Release):
        return "was released"
    if isinstance(statement, s.Open):
        return "was opened"
    if isinstance(statement, s.Switch):
        return "was taken apart"
    if isinstance(statement, s.Swap):
        return "was swapped into a field"
    if isinstance(right, s.Adopt):
        return f"was adopted by `{right.owner}`"
    if isinstance(right, s.Build):
        return f"went into the case `{right.tick}`"
    if isinstance(statement, s.Focus):
        return "was taken by the `focus`"
    target = getattr(statement, "name", None)
    return f"was handed over to `{target}`" if isinstance(target, s.Name) else "was handed over"


def state_words(states: Iterable[str]) -> str:
    """`a`, or `a` or `b`, or `a`, `b` or `c`."""
    names = [f"`{state}`" for state in states]
    return " or ".join([", ".join(names[:-1]), names[-1]] if len(names) > 1 else names)


def head_span(statement: s.Statement) -> s.Span:
    """The characters of a statement up to its first block, a declaration's or a call's all of them."""
    blocks = statement.blocks()
    if isinstance(statement, s.Block):
        return s.Span(statement.span.start, statement.span.start + 1)
    if isinstance(statement, s.Switch):
        return s.Span(statement.span.start, statement.variable.span.end + 1)
    if isinstance(statement, (s.If, s.While)):
        return s.Span(statement.span.start, statement.condition.span.end + 1)
    return s.Span(statement.span.start, blocks[0].span.start - 1) if blocks else statement.span


def clause_entry(declarations: Declarations, call: Optional[s.Call], names: Sequence[str]) -> Optional[Tuple[s.Function, s.Entry]]:
    """The callee of a call and its clause's entry for the key of the argument that is one of these variables."""
    callee = declarations.find(call.callee.text, s.Function) if call else None
    number = argument_of(call, names) if call else None
    if callee is None or number is None or number >= len(callee.parameters):
        return None
    kind = callee.parameters[number].type
    entry = callee.entry(kind.key) if kind.form in ("held", "guarded") else None
    return (callee, entry) if entry else None

"""Warnings on what is permitted and often a mistake. No warning changes whether a program is accepted."""
from __future__ import annotations

from typing import Iterator, List, Optional, Sequence, Tuple

from . import syntax as s
from .held import Atoms, Table, table_of
from .picture import Cure, Edit, Label, Picture, View, Way
from .scope import Scope, scope_at
from .uses import call_of, head_span

LINK = "docs/VAULT.md#warnings"


def warning(
    view: View, rule: str, message: str, span: s.Span, here: str, others: Sequence[Label], cures: Sequence[Cure]
) -> Picture:
    mark = view.label(span, here, "fault")
    ways = (Way("", tuple(others), False),) if others else ()
    return Picture(mark.source, "warning", f"lint-{rule}", "", message, mark, ways, (), tuple(cures), LINK)


def lint(view: View, tables: Optional[Sequence[Table]]) -> List[Picture]:
    """The warnings of a text, in its order. Where `vaultq` isn't there, states that are lost aren't looked for."""
    found: List[Picture] = []
    for function in view.declarations.functions() if view.declarations else []:
        for statement in s.all_statements(function.body) if function.body else ():
            found += outside_clause(view, statement)
            found += endless(view, statement)
            found += dropping_arms(view, statement)
            found += lost_states(view, function, statement, tables or [])
    return sorted(found, key=lambda picture: picture.fault.place if picture.fault else None)


def given(view: View, statement: s.Statement) -> Iterator[Tuple[s.Function, s.Parameter, s.Expression]]:
    """The objects that a statement's call gives, with the callee's parameters."""
    call = call_of(statement)
    callee = view.declarations.find(call.callee.text, s.Function) if call else None
    for parameter, argument in zip(callee.parameters, call.arguments) if callee else ():
        if parameter.type.form == "held" and argument.kind == "name":
            yield callee, parameter, argument


def outside_clause(view: View, statement: s.Statement) -> Iterator[Picture]:
    """An external is given an object whose key isn't in its clause: it may be gone, and nothing says so."""
    for callee, parameter, argument in given(view, statement):
        key = parameter.type.key
        if not callee.is_external or callee.entry(key) is not None:
            continue
        where = callee.clause or callee.head
        text = f"this clause doesn't list `{key}`" if callee.clause else f"`{callee.name}` has no clause"
        at = where.end - 1 if callee.clause else callee.head.end
        added = (", " if callee.entries else "") + key if callee.clause else f" [{key}]"
        cure = Cure(f"list `{key}` in the clause of `{callee.name}`, if the object must be there", (Edit(s.Span(at, at), added),))
        message = f"`{callee.name}` is given `{argument.text}`, but its clause doesn't list the key `{key}`: the object may be gone"
        yield warning(view, "outside-clause", message, argument.span, "", [view.label(where, text)], [cure])


def endless(view: View, statement: s.Statement) -> Iterator[Picture]:
    """A loop without an end counts as one that may end."""
    if isinstance(statement, s.While) and statement.condition.text == "true":
        cure = Cure("let a variable end it: `bool go = true; while (go) { .. go = false; .. }`")
        message = "the check doesn't look at conditions: it takes this loop for one that may end"
        yield warning(view, "while-true", message, head_span(statement), "", [], [cure])


def dropping_arms(view: View, statement: s.Statement) -> Iterator[Picture]:
    """An arm that only releases what its case owns may hide a leak."""
    for arm in statement.arms if isinstance(statement, s.Switch) else ():
        inside = list(s.all_statements(arm.body))
        released = [
            one for one in inside if isinstance(one, s.Release) and one.variable.text in [name.text for name in arm.variables]
        ]
        if released and len(released) == len(inside):
            name = released[0].variable.text
            message = f"this arm only drops what `{name}` owns, and calls nothing: if it can't happen, a leak would go unseen here"
            cure = Cure("call an external that reports it, if this case can't happen")
            yield warning(
                view, "dropping-arm", message, arm.tick.span, "", [view.label(released[0].span, "it is dropped here")], [cure]
            )


def lost_states(view: View, function: s.Function, statement: s.Statement, tables: Sequence[Table]) -> Iterator[Picture]:
    """A call whose clause says nothing of the state leaves it unknown, though it was known and is asked for later."""
    table = table_of(tables, function.name.text)
    if table is None or any(entry.mode == "bound" for entry in function.entries):
        return
    scope = scope_at(view.declarations, statement.span.start)
    for callee, parameter, argument in given(view, statement):
        entry, variable = callee.entry(parameter.type.key), scope.find(argument.text) if scope else None
        if entry is None or entry.mode != "kept" or entry.before or variable is None or not variable.key:
            continue
        states = view.declarations.states_of(parameter.type.name)
        before = table.of(variable.key, view.source.place(statement.span.start))
        known = one_state(before)
        if len(states) < 2 or known is None or not is_asked_later(view, function, statement, scope, variable.key):
            continue
        cure = Cure(
            f"if `{callee.name}` leaves the state as it is, write `[{entry.key}@{known}]`, or of an ordered set `[{entry.key}@(s <= {states[-1]})]`"
        )
        message = f"`{argument.text}` is in state `{known}`, and `{callee.name}` loses that: its clause `[{entry.key}]` says nothing of the state"
        yield warning(
            view,
            "lost-state",
            message,
            argument.span,
            "",
            [view.label(entry.span, "this entry means any state before and after")],
            [cure],
        )


def one_state(atoms: Optional[Atoms]) -> Optional[str]:
    """The state of a key that is held in one state."""
    only = list(atoms or ())
    return only[0].partition("@")[2] if len(only) == 1 and only[0].startswith("held@") else None


def is_asked_later(view: View, function: s.Function, statement: s.Statement, scope: Scope, key: str) -> bool:
    """Whether a later call in the function asks for a state of a key."""
    names = {one.name.text for one in scope.of_key(key)}
    for later in s.all_statements(function.body) if function.body else ():
        if later.span.start <= statement.span.start:
            continue
        for callee, parameter, argument in given(view, later):
            entry = callee.entry(parameter.type.key)
            if argument.text in names and entry is not None and entry.before:
                return True
    return False

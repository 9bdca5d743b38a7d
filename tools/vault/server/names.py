"""What the names of a text stand for: where each is declared, and all its uses.

Types, functions and state sets are known everywhere; variables, parameters and keys in their function; fields and cases in their type;
states in their set."""
from __future__ import annotations

from typing import Iterator, List, Optional, Tuple

from .. import syntax as s
from ..declarations import Declarations
from ..picture import View
from ..records import dataclass
from ..scope import scope_at
from ..tokens import Token, tokens


@dataclass(frozen=True)
class Symbol:
    """What a name stands for: its kind (`global`, `variable`, `key`, `field`, `state`, `case`), its name, and where it is declared.
    `owner` is the function, type or set that it belongs to; a global has none."""

    kind: str
    name: str
    owner: str
    declared: s.Span


class Names:
    """The names of a text that has the grammar's form."""

    def __init__(self, view: View) -> None:
        assert view.declarations is not None
        self.declarations: Declarations = view.declarations
        self.tokens = tokens(view.source.text)

    def at(self, offset: int) -> Optional[Tuple[Token, Optional[Symbol]]]:
        """The name at a character, or just before it, with what it stands for."""
        for number, token in enumerate(self.tokens):
            if token.start <= offset <= token.end and token.kind in ("name", "tick"):
                return token, self.symbol(number)
        return None

    def uses(self, symbol: Symbol) -> Iterator[Token]:
        """All names of the text that stand for a symbol, its declaration too."""
        for number, token in enumerate(self.tokens):
            if token.text == symbol.name and self.symbol(number) == symbol:
                yield token

    def symbol(self, number: int) -> Optional[Symbol]:
        """What a token stands for; None if that isn't known."""
        token = self.tokens[number]
        if token.kind == "tick":
            return self.case(token)
        if token.kind != "name":
            return None
        before = self.tokens[number - 1] if number else None
        if before is not None and before.is_sign("."):
            return self.field(number)
        if self.is_state(number):
            return self.state(token, number)
        return self.declared_part(token) or self.header_key(token) or self.local(token, number) or self.known_everywhere(token)

    # ---- names of one place

    def known_everywhere(self, token: Token) -> Optional[Symbol]:
        found = self.declarations.by_name.get(token.text)
        return Symbol("global", token.text, "", found[0].name.span) if found else None

    def declared_part(self, token: Token) -> Optional[Symbol]:
        """The field or state that a declaration has at this token, or the field of a `new`."""
        for struct in self.declarations.all(s.Struct):
            for one in struct.fields:
                if one.name.span.start == token.start:
                    return Symbol("field", token.text, struct.name.text, one.name.span)
        for state_set in self.declarations.all(s.StateSet):
            for state in state_set.states:
                if state.text == token.text and state_set.span.start < token.start < state_set.span.end:
                    return Symbol("state", token.text, state_set.name.text, state.span)
        return self.new_field(token)

    def header_key(self, token: Token) -> Optional[Symbol]:
        """A key of a type's header, in the declaration of the type."""
        declaration = self.declarations.at(token.start)
        for key in declaration.header if isinstance(declaration, (s.Struct, s.Variant)) else ():
            if key.name.text == token.text:
                return Symbol("key", token.text, declaration.name.text, key.name.span)
        return None

    def new_field(self, token: Token) -> Optional[Symbol]:
        for new in self.news():
            for name, _ in new.fields:
                if name.span.start == token.start:
                    return self.field_of(new.type.name, token.text)
        return None

    def news(self) -> Iterator[s.New]:
        for function in self.declarations.functions():
            for statement in s.all_statements(function.body) if function.body else ():
                right = getattr(statement, "right", None)
                if isinstance(right, s.New):
                    yield right

    def field_of(self, type_name: str, name: str) -> Optional[Symbol]:
        struct = self.declarations.find(type_name, s.Struct)
        found = next((one for one in struct.fields if one.name.text == name), None) if struct else None
        return Symbol("field", name, type_name, found.name.span) if found else None

    def field(self, number: int) -> Optional[Symbol]:
        """The field after a `.`."""
        if number < 2:
            return None
        variable, scope = self.tokens[number - 2], scope_at(self.declarations, self.tokens[number].start)
        found = scope.find(variable.text) if scope else None
        return self.field_of(found.type.name, self.tokens[number].text) if found and found.type else None

    def case(self, token: Token) -> Optional[Symbol]:
        """The case of a tick, if one variant alone has it."""
        owners = [(one, case) for one in self.declarations.all(s.Variant) for case in one.cases if "'" + case.tick.text.lstrip("'") == token.text]
        inside = [it for it in owners if it[0].span.start <= token.start < it[0].span.end]
        found = inside or owners
        if len(found) != 1:
            return None
        variant, case = found[0]
        return Symbol("case", token.text, variant.name.text, case.tick.span)

    # ---- states

    def is_state(self, number: int) -> bool:
        """Whether a token stands where a state does: after `@` or `->`, alone or in braces, as a bound, or among those in which a struct is
        released."""
        before = self.tokens[number - 1]
        if before.is_sign("@"):
            return not self.names_a_set(number - 1)
        if before.is_sign("{", ","):
            return self.in_braces(number - 1)
        return before.is_sign("->") or before.is_sign("<=") and self.is_bound(number) or self.is_released_state(number)

    def is_released_state(self, number: int) -> bool:
        start = self.tokens[number].start
        spans = (one.released_span for one in self.declarations.all(s.Struct))
        return any(span is not None and span.start < start < span.end for span in spans)

    def is_bound(self, number: int) -> bool:
        start = self.tokens[number].start
        function = self.declarations.function_at(start)
        return function is not None and any(it.mode == "bound" and it.span.start < start < it.span.end for it in function.entries)

    def in_braces(self, at: int) -> bool:
        """Whether a sign stands in a list of states in braces."""
        while at > 0 and (self.tokens[at].is_sign(",") or self.tokens[at].kind == "name"):
            at -= 1
        return at > 0 and self.tokens[at].is_sign("{") and (self.tokens[at - 1].is_sign("@", "->") and not self.names_a_set(at - 1) or self.is_released_state(at + 1))

    def names_a_set(self, at: int) -> bool:
        """Whether the name after this `@` is that of a set: after the name of a type that is declared."""
        return any(one.name.span.end <= self.tokens[at].start < one.span.end and self.is_head(one, at) for one in self.declarations.types())

    def is_head(self, declaration: s.Declaration, at: int) -> bool:
        between = [it for it in self.tokens if declaration.name.span.end <= it.start < self.tokens[at].start]
        return all(not it.is_sign("{", ";") for it in between)

    def state(self, token: Token, number: int) -> Optional[Symbol]:
        """A state, if one set alone has it."""
        found = [(one, state) for one in self.declarations.all(s.StateSet) for state in one.states if state.text == token.text]
        if len(found) != 1:
            return None
        state_set, state = found[0]
        return Symbol("state", token.text, state_set.name.text, state.span)

    # ---- names in functions

    def local(self, token: Token, number: int) -> Optional[Symbol]:
        """A parameter, a variable or a key of the function that has the token."""
        function = self.declarations.function_at(token.start)
        if function is None or token.start == function.name.span.start:
            return None
        for parameter in function.parameters:
            if parameter.name.text == token.text and not self.is_key_place(number):
                return Symbol("variable", token.text, function.name.text, parameter.name.span)
        if self.is_key_place(number):
            return self.key(function, token)
        if any(it.variable == token.text and it.span.start <= token.start < it.span.end for it in function.entries):
            return Symbol("state variable", token.text, function.name.text, s.Span(token.start, token.end))
        here = self.bound_here(function, token)
        scope = scope_at(self.declarations, token.start)
        found = scope.find(token.text) if scope else None
        name = here or (found.name if found else None)
        return Symbol("variable", token.text, function.name.text, name.span) if name else None

    def bound_here(self, function: s.Function, token: Token) -> Optional[s.Name]:
        """The name that a statement binds at a token."""
        for statement in s.all_statements(function.body) if function.body else ():
            for name in bound_names(statement):
                if name.span.start == token.start:
                    return name
        return None

    def is_key_place(self, number: int) -> bool:
        """Whether a key stands at a token: in `tracked(K)`, before a `:`, in a clause, or among the keys of a type."""
        before, after = self.tokens[number - 1], self.tokens[number + 1]
        if before.is_sign("(") and number > 1 and self.tokens[number - 2].is_keyword("tracked"):
            return True
        token = self.tokens[number]
        function = self.declarations.function_at(token.start)
        if function and function.clause and function.clause.start <= token.start < function.clause.end:
            return before.is_sign("[", ",", "-", "+") or before.is_keyword("new")
        return after.is_sign(":") and not self.is_new_field(token) or before.is_sign("<", ",") and after.is_sign(">", ",") and self.in_angles(number)

    def is_new_field(self, token: Token) -> bool:
        return self.new_field(token) is not None

    def in_angles(self, number: int) -> bool:
        at = number - 1
        while at > 0 and (self.tokens[at].is_sign(",") or self.tokens[at].kind == "name"):
            at -= 1
        return self.tokens[at].is_sign("<") and at > 0 and self.tokens[at - 1].kind == "name" and self.tokens[at - 1].text in self.declarations.by_name

    def key(self, function: s.Function, token: Token) -> Symbol:
        """A key of a function: it is declared where it stands first."""
        span = s.Span(token.start, token.end)
        for number, it in enumerate(self.tokens):
            if function.span.start <= it.start and it.end <= function.span.end and it.text == token.text and self.is_key_place(number):
                span = s.Span(it.start, it.end)
                break
        return Symbol("key", token.text, function.name.text, span)


def bound_names(statement: s.Statement) -> Iterator[s.Name]:
    """The names that a statement binds."""
    if isinstance(statement, s.Declare):
        yield statement.name
    elif isinstance(statement, s.Open):
        yield from statement.names
    elif isinstance(statement, s.Focus):
        yield statement.name
    elif isinstance(statement, s.Switch):
        for arm in statement.arms:
            yield from arm.variables


def names_of(view: View) -> Optional[Names]:
    """The names of a text; None if it isn't of the grammar."""
    return Names(view) if view.declarations is not None else None


def fields_of(declarations: Declarations, type_name: str) -> List[s.Field]:
    """The fields of a struct; none of another type."""
    found = declarations.find(type_name, s.Struct)
    return list(found.fields) if found else []

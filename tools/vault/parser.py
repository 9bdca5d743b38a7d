"""Reads a Vault text by the grammar of docs/LANGUAGE.md. Only texts that `vaultc` takes as texts of the grammar need be read."""
from __future__ import annotations

from typing import Callable, List, Optional, Tuple, TypeVar

from . import syntax as s
from .tokens import Token, tokens

T = TypeVar("T")

# operators by how tightly they bind, the loosest first
LEVELS = (("||",), ("&&",), ("|",), ("^",), ("&",), ("==", "!="), ("<", "<=", ">", ">="), ("+", "-"), ("*", "/", "%"))
LEVEL_OF = {sign: level for level, signs in enumerate(LEVELS) for sign in signs}


class NotGrammar(Exception):
    """The text isn't of the grammar; `at` is the character of the token that isn't taken."""

    def __init__(self, at: int) -> None:
        super().__init__(at)
        self.at = at


class Parser:
    """Reads declarations, statements and expressions from a list of tokens."""

    def __init__(self, text: str) -> None:
        self.tokens = tokens(text)
        self.at = 0

    # ---- tokens

    @property
    def token(self) -> Token:
        return self.tokens[self.at]

    def peek(self, more: int = 1) -> Token:
        return self.tokens[min(self.at + more, len(self.tokens) - 1)]

    def take(self) -> Token:
        token = self.token
        self.at = min(self.at + 1, len(self.tokens) - 1)
        return token

    def fail(self) -> NotGrammar:
        return NotGrammar(self.token.start)

    def sign(self, text: str) -> Token:
        if not self.token.is_sign(text):
            raise self.fail()
        return self.take()

    def keyword(self, text: str) -> Token:
        if not self.token.is_keyword(text):
            raise self.fail()
        return self.take()

    def has_sign(self, text: str) -> bool:
        """Takes a sign if it is there."""
        if self.token.is_sign(text):
            self.take()
            return True
        return False

    def has_keyword(self, text: str) -> bool:
        if self.token.is_keyword(text):
            self.take()
            return True
        return False

    def name(self) -> s.Name:
        return self.named("name")

    def tick(self) -> s.Name:
        return self.named("tick")

    def named(self, kind: str) -> s.Name:
        if self.token.kind != kind:
            raise self.fail()
        token = self.take()
        return s.Name(token.text, s.Span(token.start, token.end))

    def span(self, first: Token) -> s.Span:
        """From a token up to the last one that was taken."""
        return s.Span(first.start, self.tokens[self.at - 1].end if self.at else first.start)

    def listed(self, read: Callable[[], T], opening: str, closing: str, may_be_empty: bool = False) -> Tuple[T, ...]:
        """Things with commas between them, in a pair of signs."""
        self.sign(opening)
        found: List[T] = []
        if may_be_empty and self.has_sign(closing):
            return ()
        found.append(read())
        while self.has_sign(","):
            found.append(read())
        self.sign(closing)
        return tuple(found)

    # ---- types

    def states(self) -> Tuple[str, ...]:
        if self.token.is_sign("{"):
            return tuple(name.text for name in self.listed(self.name, "{", "}"))
        return (self.name().text,)

    def states_after_at(self) -> Tuple[str, ...]:
        return self.states() if self.has_sign("@") else ()

    def arguments_of_type(self) -> Tuple[str, ...]:
        return tuple(name.text for name in self.listed(self.name, "<", ">")) if self.token.is_sign("<") else ()

    def type(self) -> s.Type:
        first = self.token
        form, key, states, name = "plain", "", (), ""
        if first.is_keyword("int", "bool"):
            self.take()
            return s.Type(first.text, span=self.span(first))
        if self.has_keyword("tracked"):
            form = "owned"
            if self.has_sign("("):
                form, key = "held", self.name().text
                self.sign(")")
            else:
                states = self.states_after_at()
        elif self.peek().is_sign(":"):
            form, key = "guarded", self.name().text
            self.sign(":")
        name = self.name().text
        arguments = self.arguments_of_type()
        return s.Type(form, name, key, states, arguments, self.span(first))

    # ---- declarations

    def program(self) -> s.Program:
        found = []
        while self.token.kind != "end":
            found.append(self.declaration())
        return s.Program(tuple(found))

    def declaration(self) -> s.Declaration:
        first = self.token
        forms = {"stateset": self.state_set, "abstract": self.abstract, "struct": self.struct, "variant": self.variant}
        if first.kind == "keyword" and first.text in forms:
            self.take()
            return forms[first.text](first)
        return self.function(first)

    def state_set(self, first: Token) -> s.StateSet:
        name = self.name()
        states: List[s.Name] = []
        steps: List[Tuple[str, str]] = []

        def chain() -> None:
            lower = self.name()
            states.append(lower)
            while self.has_sign("<"):
                higher = self.name()
                states.append(higher)
                steps.append((lower.text, higher.text))
                lower = higher

        self.listed(chain, "{", "}")
        once = {state.text: state for state in reversed(states)}
        order = sorted(once.values(), key=lambda state: state.span.start)
        return s.StateSet(name, self.span(first), tuple(order), tuple(steps))

    def abstract(self, first: Token) -> s.Abstract:
        name = self.name()
        state_set = self.name().text if self.has_sign("@") else ""
        self.sign(";")
        return s.Abstract(name, self.span(first), state_set)

    def header(self) -> Tuple[s.HeaderKey, ...]:
        def key() -> s.HeaderKey:
            name = self.name()
            return s.HeaderKey(name, self.name().text if self.has_sign(":") else "")

        return self.listed(key, "<", ">") if self.token.is_sign("<") else ()

    def struct(self, first: Token) -> s.Struct:
        name, header = self.name(), self.header()
        state_set = self.name().text if self.has_sign("@") else ""
        self.sign("{")
        fields: List[s.Field] = []
        released: Tuple[str, ...] = ()
        released_span: Optional[s.Span] = None
        while not self.token.is_sign("}"):
            begins = self.token
            if self.has_keyword("release"):
                released = self.states()
                released_span = self.span(begins)
            else:
                fields.append(s.Field(self.type(), self.name(), self.states_after_at()))
            self.sign(";")
        self.sign("}")
        return s.Struct(name, self.span(first), header, state_set, tuple(fields), released, released_span)

    def case(self) -> s.Case:
        def key() -> Tuple[str, Tuple[str, ...]]:
            return self.name().text, self.states_after_at()

        tick = self.tick()
        types = self.listed(self.type, "(", ")") if self.token.is_sign("(") else ()
        keys = self.listed(key, "{", "}") if self.token.is_sign("{") else ()
        return s.Case(tick, types, keys)

    def variant(self, first: Token) -> s.Variant:
        name, header = self.name(), self.header()
        cases = self.listed(self.case, "{", "}")
        return s.Variant(name, self.span(first), header, cases)

    def result(self) -> s.Type:
        first = self.token
        if self.has_keyword("void"):
            return s.Type("void", span=self.span(first))
        return self.type()

    def parameter(self) -> s.Parameter:
        return s.Parameter(self.type(), self.name())

    def entry(self) -> s.Entry:
        first = self.token
        for mode, taken in (("taken", self.has_sign("-")), ("given", self.has_sign("+")), ("new", self.has_keyword("new"))):
            if taken:
                key, states = self.name(), self.states_after_at()
                before, after = (states, ()) if mode == "taken" else ((), states)
                return s.Entry(mode, key, before, after, True, "", self.span(first))
        key = self.name()
        if not self.has_sign("@"):
            return s.Entry("kept", key, (), (), False, "", self.span(first))
        if self.has_sign("("):
            variable = self.name().text
            self.sign("<=")
            bound = self.name().text
            self.sign(")")
            return s.Entry("bound", key, (bound,), (), False, variable, self.span(first))
        before = self.states()
        changes = self.has_sign("->")
        after = self.states() if changes else before
        return s.Entry("kept", key, before, after, changes, "", self.span(first))

    def function(self, first: Token) -> s.Function:
        is_external = self.has_keyword("extern")
        start = self.token
        result, name = self.result(), self.name()
        parameters = self.listed(self.parameter, "(", ")", True)
        clause, entries, opening = None, (), self.token
        if opening.is_sign("["):
            entries = self.listed(self.entry, "[", "]", True)
            clause = self.span(opening)
        head = self.span(start)
        body = None
        if is_external:
            self.sign(";")
        else:
            body = self.block()
        return s.Function(name, self.span(first), result, parameters, entries, head, clause, body)

    # ---- statements

    def block(self) -> s.Block:
        first = self.sign("{")
        statements: List[s.Statement] = []
        while not self.token.is_sign("}"):
            statements.append(self.statement())
        closing = self.take()
        return s.Block(self.span(first), tuple(statements), closing.start)

    def statement(self) -> s.Statement:
        first = self.token
        if first.is_sign("{"):
            return self.block()
        forms = {
            "if": self.choice, "while": self.loop, "switch": self.switch, "focus": self.focus, "return": self.give, "print": self.print,
            "break": self.jump, "continue": self.jump, "release": self.release, "become": self.become, "swap": self.swap, "open": self.open,
        }  # fmt: skip
        if first.kind == "keyword" and first.text in forms:
            self.take()
            return forms[first.text](first)
        if first.kind == "name":
            found = self.after_name(first)
            if found is not None:
                return found
        kind, name = self.type(), self.name()
        self.sign("=")
        right = self.right()
        self.sign(";")
        return s.Declare(self.span(first), kind, name, right)

    def after_name(self, first: Token) -> Optional[s.Statement]:
        """An assignment or a call; None if a declaration begins with the name."""
        follows = self.peek()
        if follows.is_sign("("):
            call = self.call()
            self.sign(";")
            return s.CallStatement(self.span(first), call)
        if follows.is_sign("="):
            name = self.name()
            self.take()
            right = self.right()
            self.sign(";")
            return s.Assign(self.span(first), name, right)
        if follows.is_sign("."):
            name = self.name()
            self.take()
            member = self.name()
            self.sign("=")
            value = self.expression()
            self.sign(";")
            return s.SetField(self.span(first), name, member, value)
        return None

    def choice(self, first: Token) -> s.If:
        self.sign("(")
        condition = self.expression()
        self.sign(")")
        then_block = self.block()
        else_part: Optional[s.Statement] = None
        if self.has_keyword("else"):
            other = self.token
            else_part = self.choice(other) if self.has_keyword("if") else self.block()
        return s.If(self.span(first), condition, then_block, else_part)

    def loop(self, first: Token) -> s.While:
        self.sign("(")
        condition = self.expression()
        self.sign(")")
        body = self.block()
        return s.While(self.span(first), condition, body)

    def arm(self) -> s.Arm:
        self.keyword("case")
        tick = self.tick()
        names = self.listed(self.name, "(", ")") if self.token.is_sign("(") else ()
        self.sign(":")
        return s.Arm(tick, names, self.block())

    def switch(self, first: Token) -> s.Switch:
        self.sign("(")
        variable = self.name()
        self.sign(")")
        self.sign("{")
        arms = []
        while not self.token.is_sign("}"):
            arms.append(self.arm())
        closing = self.take()
        return s.Switch(self.span(first), variable, tuple(arms), closing.start)

    def focus(self, first: Token) -> s.Focus:
        variable = self.name()
        self.keyword("as")
        self.keyword("tracked")
        self.sign("(")
        key = self.name()
        self.sign(")")
        name = self.name()
        body = self.block()
        return s.Focus(self.span(first), variable, key, name, body)

    def give(self, first: Token) -> s.Return:
        value: object = None
        if not self.token.is_sign(";"):
            value = self.build() if self.token.kind == "tick" else self.expression()
        self.sign(";")
        return s.Return(self.span(first), value)

    def print(self, first: Token) -> s.Print:
        self.sign("(")
        value = self.expression()
        self.sign(")")
        self.sign(";")
        return s.Print(self.span(first), value)

    def jump(self, first: Token) -> s.Jump:
        self.sign(";")
        return s.Jump(self.span(first), first.text)

    def release(self, first: Token) -> s.Release:
        variable = self.name()
        self.sign(";")
        return s.Release(self.span(first), variable)

    def become(self, first: Token) -> s.Become:
        variable = self.name()
        self.sign("@")
        state = self.name()
        self.sign(";")
        return s.Become(self.span(first), variable, state)

    def swap(self, first: Token) -> s.Swap:
        variable = self.name()
        self.sign(".")
        member = self.name()
        self.sign(",")
        other = self.name()
        self.sign(";")
        return s.Swap(self.span(first), variable, member, other)

    def open(self, first: Token) -> s.Open:
        variable = self.name()
        self.keyword("into")
        names = self.listed(self.name, "(", ")")
        self.sign(";")
        return s.Open(self.span(first), variable, names)

    # ---- right sides and expressions

    def right(self) -> object:
        first = self.token
        if first.kind == "tick":
            return self.build()
        if first.kind == "name" and self.peek().is_sign("("):
            return self.call()
        if first.is_keyword("input", "more"):
            self.take()
            self.sign("(")
            self.sign(")")
            return s.Read(first.text, self.span(first))
        if self.has_keyword("new"):
            return self.new(first)
        if self.has_keyword("adopt"):
            variable = self.name()
            self.keyword("into")
            owner = self.name()
            return s.Adopt(variable, owner, self.span(first))
        return self.expression()

    def new(self, first: Token) -> s.New:
        def value() -> Tuple[s.Name, s.Expression]:
            name = self.name()
            self.sign(":")
            return name, self.expression()

        owner = None
        if self.has_sign("("):
            owner = self.name()
            self.sign(")")
        kind = self.type()
        fields = self.listed(value, "{", "}", True)
        return s.New(owner, kind, fields, self.span(first))

    def build(self) -> s.Build:
        first = self.token
        tick = self.tick()
        arguments = self.listed(self.expression, "(", ")") if self.token.is_sign("(") else ()
        return s.Build(tick, arguments, self.span(first))

    def call(self) -> s.Call:
        first = self.token
        callee = self.name()
        arguments = self.listed(self.expression, "(", ")", True)
        return s.Call(callee, arguments, self.span(first))

    def expression(self, level: int = 0) -> s.Expression:
        """An expression whose operators are of a level or bind tighter; all group to the left."""
        first = self.token
        left = self.operand()
        while True:
            operator = self.token
            here = LEVEL_OF.get(operator.text, -1)
            if here < level:
                return left
            self.take()
            right = self.expression(here + 1)
            left = s.Expression("operator", operator.text, self.span(first), (left, right))

    def operand(self) -> s.Expression:
        first = self.token
        if first.kind == "number":
            self.take()
            return s.Expression("number", first.text, self.span(first))
        if first.is_keyword("true", "false"):
            self.take()
            return s.Expression("bool", first.text, self.span(first))
        if first.is_sign("-", "!"):
            self.take()
            operand = self.operand()
            return s.Expression("sign", first.text, self.span(first), (operand,))
        if self.has_sign("("):
            inside = self.expression()
            self.sign(")")
            return s.Expression("group", "()", self.span(first), (inside,))
        name = self.name()
        if self.has_sign("."):
            member = self.name()
            return s.Expression("field", f"{name}.{member}", self.span(first), (), name, member)
        return s.Expression("name", name.text, self.span(first), (), name)


def parse(text: str) -> Optional[s.Program]:
    """The declarations of a text; None if it isn't of the grammar."""
    try:
        return Parser(text).program()
    except (NotGrammar, RecursionError):
        return None

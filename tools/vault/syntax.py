"""What a Vault text consists of: types, declarations, statements and expressions. Each part knows the characters that it takes."""
from __future__ import annotations

from typing import Iterator, List, NamedTuple, Optional, Tuple

from .records import dataclass, field


class Span(NamedTuple):
    """The characters from `start` up to `end`."""

    start: int
    end: int


class Name(NamedTuple):
    """A name where it stands."""

    text: str
    span: Span

    def __str__(self) -> str:
        return self.text


@dataclass(frozen=True)
class Type:
    """A type where it stands.

    The form is `void`, `int`, `bool`, `held` for `tracked(K) T`, `owned` for `tracked T`, `guarded` for `K:T`, or `plain` for `T`.
    """

    form: str
    name: str = ""
    key: str = ""
    states: Tuple[str, ...] = ()
    arguments: Tuple[str, ...] = ()
    span: Span = field(default=Span(0, 0), compare=False)

    def __str__(self) -> str:
        named = self.name + (f"<{', '.join(self.arguments)}>" if self.arguments else "")
        if self.form == "held":
            return f"tracked({self.key}) {named}"
        if self.form == "owned":
            return f"tracked{at_states(self.states)} {named}"
        return f"{self.key}:{named}" if self.form == "guarded" else named or self.form


def at_states(states: Tuple[str, ...]) -> str:
    """States after their `@`, as they are written; nothing if any are meant."""
    if not states:
        return ""
    return "@" + (states[0] if len(states) == 1 else "{ " + ", ".join(states) + " }")


@dataclass(frozen=True)
class Entry:
    """An entry of a clause.

    The mode is `kept`, `taken` (`-K`), `given` (`+K`), `new`, or `bound` (`K@(s <= b)`, then `variable` is s). `before` and `after` are
    states; no states mean any, or, after, the ones before if `changes` isn't so."""

    mode: str
    key: Name
    before: Tuple[str, ...]
    after: Tuple[str, ...]
    changes: bool
    variable: str
    span: Span


@dataclass(frozen=True)
class HeaderKey:
    """A key of a header, and the type of its object if one is given."""

    name: Name
    type_name: str


@dataclass(frozen=True)
class Declaration:
    """A declaration, with its name."""

    name: Name
    span: Span


@dataclass(frozen=True)
class StateSet(Declaration):
    """The states in the order in which they are named first, and the pairs of a lower state and the next higher one."""

    states: Tuple[Name, ...]
    steps: Tuple[Tuple[str, str], ...]


@dataclass(frozen=True)
class Abstract(Declaration):
    state_set: str


@dataclass(frozen=True)
class Field:
    type: Type
    name: Name
    states: Tuple[str, ...]


@dataclass(frozen=True)
class Struct(Declaration):
    header: Tuple[HeaderKey, ...]
    state_set: str
    fields: Tuple[Field, ...]
    released: Tuple[str, ...]
    released_span: Optional[Span]


@dataclass(frozen=True)
class Case:
    """A case of a variant: its tick, the types that it carries, and its keys with their states."""

    tick: Name
    types: Tuple[Type, ...]
    keys: Tuple[Tuple[str, Tuple[str, ...]], ...]


@dataclass(frozen=True)
class Variant(Declaration):
    header: Tuple[HeaderKey, ...]
    cases: Tuple[Case, ...]


@dataclass(frozen=True)
class Parameter:
    type: Type
    name: Name


@dataclass(frozen=True)
class Function(Declaration):
    """A function: `head` are the characters of its head, and `clause` those of its clause with the brackets. An external has no body."""

    result: Type
    parameters: Tuple[Parameter, ...]
    entries: Tuple[Entry, ...]
    head: Span
    clause: Optional[Span]
    body: Optional["Block"]

    @property
    def is_external(self) -> bool:
        return self.body is None

    def entry(self, key: str) -> Optional[Entry]:
        """The entry of a key, if the clause has one."""
        return next((entry for entry in self.entries if entry.key.text == key), None)


# ---- expressions


@dataclass(frozen=True)
class Expression:
    """An expression: a `number`, a `bool`, a `name`, a `field` (`name` and `member`), a `group`, a `sign` before an operand, or an
    `operator` between two; `text` is the sign or the operator."""

    kind: str
    text: str
    span: Span
    operands: Tuple["Expression", ...] = ()
    name: Optional[Name] = None
    member: Optional[Name] = None

    def parts(self) -> Iterator["Expression"]:
        """The expression and all that it is made of."""
        yield self
        for operand in self.operands:
            yield from operand.parts()


@dataclass(frozen=True)
class Call:
    callee: Name
    arguments: Tuple[Expression, ...]
    span: Span


@dataclass(frozen=True)
class Build:
    """A case of a variant with what it carries."""

    tick: Name
    arguments: Tuple[Expression, ...]
    span: Span


@dataclass(frozen=True)
class New:
    """A new object; `owner` is the variable whose object adopts it."""

    owner: Optional[Name]
    type: Type
    fields: Tuple[Tuple[Name, Expression], ...]
    span: Span


@dataclass(frozen=True)
class Adopt:
    variable: Name
    owner: Name
    span: Span


@dataclass(frozen=True)
class Read:
    """`input()` or `more()`."""

    word: str
    span: Span


# ---- statements


@dataclass(frozen=True)
class Statement:
    """A statement; `span` begins at its first token."""

    span: Span

    def blocks(self) -> List["Block"]:
        """The blocks in it, in order."""
        return []


@dataclass(frozen=True)
class Block(Statement):
    """A block, which may stand as a statement; `close` is the character of its closing brace."""

    statements: Tuple[Statement, ...]
    close: int

    def blocks(self) -> List["Block"]:
        return [self]


@dataclass(frozen=True)
class Declare(Statement):
    type: Type
    name: Name
    right: object


@dataclass(frozen=True)
class Assign(Statement):
    name: Name
    right: object


@dataclass(frozen=True)
class SetField(Statement):
    name: Name
    member: Name
    right: Expression


@dataclass(frozen=True)
class CallStatement(Statement):
    call: Call


@dataclass(frozen=True)
class Print(Statement):
    value: Expression


@dataclass(frozen=True)
class If(Statement):
    condition: Expression
    then_block: Block
    else_part: Optional[Statement]

    def blocks(self) -> List[Block]:
        other = self.else_part
        return [self.then_block] + ([other] if isinstance(other, Block) else [])


@dataclass(frozen=True)
class While(Statement):
    condition: Expression
    body: Block

    def blocks(self) -> List[Block]:
        return [self.body]


@dataclass(frozen=True)
class Jump(Statement):
    """`break` or `continue`."""

    word: str


@dataclass(frozen=True)
class Return(Statement):
    value: object


@dataclass(frozen=True)
class Arm:
    tick: Name
    variables: Tuple[Name, ...]
    body: Block


@dataclass(frozen=True)
class Switch(Statement):
    variable: Name
    arms: Tuple[Arm, ...]
    close: int

    def blocks(self) -> List[Block]:
        return [arm.body for arm in self.arms]


@dataclass(frozen=True)
class Release(Statement):
    variable: Name


@dataclass(frozen=True)
class Become(Statement):
    variable: Name
    state: Name


@dataclass(frozen=True)
class Swap(Statement):
    variable: Name
    member: Name
    other: Name


@dataclass(frozen=True)
class Open(Statement):
    variable: Name
    names: Tuple[Name, ...]


@dataclass(frozen=True)
class Focus(Statement):
    variable: Name
    key: Name
    name: Name
    body: Block

    def blocks(self) -> List[Block]:
        return [self.body]


@dataclass(frozen=True)
class Program:
    """The declarations of a text in their order."""

    declarations: Tuple[Declaration, ...]


def inner(statement: Statement) -> List[Statement]:
    """The statements directly in a statement: those of its blocks, and the `if` after `else`."""
    found = [one for block in statement.blocks() for one in block.statements]
    if isinstance(statement, If) and isinstance(statement.else_part, If):
        found.append(statement.else_part)
    return found


def all_statements(block: Block) -> Iterator[Statement]:
    """All statements of a block, each before those in it."""
    pending = list(reversed(block.statements))
    while pending:
        statement = pending.pop()
        yield statement
        pending.extend(reversed(inner(statement)))

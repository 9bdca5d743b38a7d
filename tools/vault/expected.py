"""What the grammar takes at the place of a token that it doesn't take.

The program is asked: the declaration up to the place, and after it one token of a kind. What isn't refused there is expected. The
parser of this package says which kinds to ask first, since most are refused."""
from __future__ import annotations

from typing import Callable, List, Optional, Sequence, Set, Tuple

from .parser import NotGrammar, Parser
from .picture import View
from .records import dataclass
from .report import Report, TextFault
from .side_by_side import mapped
from .tokens import KEYWORDS, SIGNS, Token, tokens

# one token of each kind: how it is called, and how it is written
KINDS: Tuple[Tuple[str, str], ...] = (
    *((word, word) for word in (*KEYWORDS, *SIGNS)),
    ("a name", "vault_name"),
    ("a case", "'Vault_case"),
    ("a number", "7"),
)
EXPRESSION = {"a name", "a number", "(", "-", "!", "true", "false"}
VALUES = {"new", "adopt", "input", "more", "a case"}
OPERATORS = set("+ - * / % & | ^ && || == != < <= > >=".split())
STATEMENTS = {
    "if",
    "while",
    "switch",
    "return",
    "break",
    "continue",
    "print",
    "release",
    "become",
    "swap",
    "open",
    "focus",
    "{",
    "int",
    "bool",
    "tracked",
    "a name",
}
DECLARATIONS = {"stateset", "abstract", "struct", "variant", "extern", "void", "int", "bool", "tracked", "a name"}
TYPES = {"int", "bool", "tracked", "a name"}
GROUPS: Tuple[Tuple[str, Set[str]], ...] = (
    ("a declaration", DECLARATIONS),
    ("a statement", STATEMENTS),
    ("an expression", EXPRESSION),
    ("a type", TYPES),
    ("an operator", OPERATORS),
)

# asks what a text is told, and at which character
Ask = Callable[[bytes], Sequence[Report]]


@dataclass(frozen=True)
class Place:
    """The token that isn't taken: its number among all tokens, and that of the first one of its declaration."""

    tokens: Sequence[Token]
    number: int
    first: int

    @property
    def found(self) -> Token:
        return self.tokens[self.number]

    def before(self, back: int = 1) -> Optional[Token]:
        """A token of the declaration before the place, the last one if `back` is 1."""
        number = self.number - back
        return self.tokens[number] if number >= self.first else None

    def after(self, on: int = 1) -> Optional[Token]:
        number = self.number + on
        return self.tokens[number] if number < len(self.tokens) else None


def place_of(text: str, offset: int) -> Optional[Place]:
    """The token at a character, the end of the text for one behind all; None if no token begins there."""
    parser = Parser(text)
    every = parser.tokens
    number = next((n for n, token in enumerate(every) if token.start >= offset), len(every) - 1)
    parser.tokens = [*every[:number], every[-1]]
    first = 0
    try:
        while parser.at < number:
            first = parser.at
            parser.declaration()
            first = parser.at
    except NotGrammar:
        pass
    return Place(every, number, first)


def abridged(prefix: Sequence[Token]) -> List[Token]:
    """The beginning of a function without the statements that are complete, which don't change what may follow. One that ends just before
    the place is kept, since an `else` may follow it."""
    if not prefix or prefix[0].text in ("stateset", "abstract", "struct", "variant"):
        return list(prefix)
    kept: List[Token] = []
    # where the current statement of each open block begins
    starts: List[int] = []
    is_complete = False
    for token in prefix:
        if is_complete and token.text not in ("else", ";"):
            del kept[starts[-1] :]
        kept.append(token)
        is_complete = bool(starts) and token.is_sign(";")
        if token.is_sign("{"):
            starts.append(len(kept))
        elif token.is_sign("}") and starts:
            starts.pop()
            is_complete = bool(starts)
    return kept


def is_taken(prefix: Sequence[Token], candidate: Token) -> bool:
    """Whether the parser of this package takes a token after these."""
    parser = Parser("")
    parser.tokens = [*prefix, candidate, Token("end", "", candidate.end, candidate.end)]
    try:
        parser.program()
    except NotGrammar as error:
        return error.at != candidate.start
    return True


def likely(text: str, place: Place) -> List[Tuple[str, str]]:
    """The kinds that the parser of this package takes at the place."""
    prefix = abridged(place.tokens[place.first : place.number])
    found = []
    for name, written in KINDS:
        one = tokens(written)[0]
        if is_taken(prefix, Token(one.kind, one.text, len(text) + 1, len(text) + 2)):
            found.append((name, written))
    return found


def expected(view: View, place: Place, ask: Ask, jobs: int, only_likely: bool = True) -> List[str]:
    """The kinds of tokens that the program takes at the place, in the order of KINDS."""
    text = view.source.text
    end = place.tokens[place.number - 1].end if place.number > place.first else 0
    prefix = text[place.tokens[place.first].start : end] if place.number > place.first else ""
    kinds = likely(text, place) if only_likely else list(KINDS)
    start = len((prefix + " ").encode("utf-8", "replace"))
    line = prefix.count("\n") + 1
    column = start - len(prefix.rpartition("\n")[0].encode("utf-8", "replace")) - (1 if "\n" in prefix else 0) + 1

    def takes(kind: Tuple[str, str]) -> bool:
        reports = ask(f"{prefix} {kind[1]}".encode("utf-8", "replace"))
        first = reports[0] if reports else None
        is_refused = isinstance(first, TextFault) and first.place is not None
        return not (is_refused and (first.place.line, first.place.column) == (line, column))

    taken = mapped(takes, kinds, jobs)
    found = [name for (name, _), is_it in zip(kinds, taken) if is_it]
    return found or (expected(view, place, ask, jobs, False) if only_likely else [])


def in_words(names: Sequence[str]) -> List[str]:
    """Kinds as a person says them: those of a group by its name, others as they are written."""
    left = list(names)
    said: List[str] = []
    for group, members in GROUPS:
        if members <= set(left):
            said.append(group)
            left = [name for name in left if name not in members]
            if group == "an expression" and VALUES <= set(left):
                said[-1] = "a value"
                left = [name for name in left if name not in VALUES]
    signs = [name if name.startswith("a ") else f"`{name}`" for name in left]
    # what closes or ends something is likelier to be missing than what makes it longer
    return sorted(signs, key=lambda name: name not in ("`;`", "`)`", "`}`", "`{`", "`]`", "`=`")) + said


def joined(words: Sequence[str], most: int = 4) -> str:
    """`a`, or `a` or `b`, or `a`, `b` or `c`; of more than `most` the rest is left out."""
    shown = list(words[:most])
    if len(words) > most:
        return ", ".join(shown) + ", .."
    return " or ".join([", ".join(shown[:-1]), shown[-1]] if len(shown) > 1 else shown)

"""Changes of a text that isn't of the grammar: signs put in or taken out, lines taken out or exchanged, braces as the indentation has them."""
from __future__ import annotations

from functools import cached_property
from typing import Iterator, List, Optional

from .picture import Cure, Edit, View
from .report import TextFault
from .source import Source
from .syntax import Span
from .tokens import Token, tokens

SIGNS = (";", ")", "{", "(", "}", ",", "=", ":", "]", ">")
PAIRS = {"(": ")", "[": "]"}


def text_repairs(view: View, fault: TextFault) -> Iterator[Cure]:
    """Changes to try, the likelier ones first."""
    offset = view.offset(fault.place) if fault.place else len(view.source.text.rstrip())
    return TextRepairs(view.source, offset).all()


class TextRepairs:
    """A text that the grammar doesn't take, and the token at which it is refused."""

    def __init__(self, source: Source, offset: int) -> None:
        self.text = source.text
        self.lines = source.lines
        self.starts = source.starts
        self.offset = offset
        self.tokens = tokens(self.text)
        self.number = next((n for n, token in enumerate(self.tokens) if token.start >= self.offset), len(self.tokens) - 1)
        self.line = source.place(min(self.offset, len(self.text))).line - 1

    @staticmethod
    def of(text: str) -> "TextRepairs":
        """Of a text by itself."""
        return TextRepairs(Source("", text.encode("utf-8", "replace")), len(text))

    def all(self) -> Iterator[Cure]:
        yield from self.of_signs()
        yield from self.of_doubled_lines()
        yield from self.of_braces()
        yield from self.of_moved_braces()
        yield from self.of_lines()
        yield from self.of_heads()

    @property
    def found(self) -> Token:
        return self.tokens[self.number]

    @property
    def last(self) -> Optional[Token]:
        return self.tokens[self.number - 1] if self.number else None

    # ---- signs

    def of_signs(self) -> Iterator[Cure]:
        """A sign that is missing behind the last token, or one too many."""
        if self.last is not None:
            at = self.last.end
            for sign in SIGNS[:2]:
                yield Cure(f"insert `{sign}` after `{self.last.text}`", (Edit(Span(at, at), sign),))
        if self.found.kind in ("sign", "other"):
            span = Span(self.found.start, self.found.end)
            yield Cure(f"remove `{self.found.text}`", (Edit(span, ""),))
        yield from self.of_body_without_braces()
        if self.last is not None:
            at = self.last.end
            for sign in SIGNS[2:]:
                yield Cure(f"insert `{sign}` after `{self.last.text}`", (Edit(Span(at, at), f" {sign}"),))

    def of_body_without_braces(self) -> Iterator[Cure]:
        """A statement that should stand in a block."""
        end = self.text.find(";", self.offset)
        if end >= 0 and self.last is not None and self.last.text in (")", "else", ":"):
            yield Cure("put the statement in braces", (Edit(Span(self.offset, self.offset), "{ "), Edit(Span(end + 1, end + 1), " }")))

    # ---- lines

    def span_of(self, number: int) -> Span:
        start = self.starts[number]
        return Span(start, min(start + len(self.lines[number]) + 1, len(self.text)))

    def near(self, most: int) -> List[int]:
        """The lines that aren't empty around the place, the nearest first."""
        numbers = [n for n, line in enumerate(self.lines) if line.strip()]
        return sorted(numbers, key=lambda n: (abs(n - self.line), n > self.line))[:most]

    def of_doubled_lines(self) -> Iterator[Cure]:
        """A line that stands twice, one after the other."""
        twice = [n for n in range(1, len(self.lines)) if self.lines[n].strip() and self.lines[n] == self.lines[n - 1]]
        for number in sorted(twice, key=lambda n: abs(n - self.line))[:3]:
            yield self.without(number)

    def without(self, number: int) -> Cure:
        return Cure(f"remove `{self.lines[number].strip()}`", (Edit(self.span_of(number), ""),))

    def of_lines(self) -> Iterator[Cure]:
        """Lines near the place that are superfluous, or in the wrong order."""
        for number in self.near(3):
            yield self.without(number)
        for number in self.near(6):
            yield from self.exchanged(number)

    def exchanged(self, number: int) -> Iterator[Cure]:
        """A line in the place of the next."""
        if 0 <= number and number + 1 < len(self.lines) and self.lines[number].strip() and self.lines[number + 1].strip():
            first, second = self.lines[number], self.lines[number + 1]
            start = self.starts[number]
            span = Span(start, start + len(first) + 1 + len(second))
            yield Cure(f"move `{second.strip()}` before `{first.strip()}`", (Edit(span, f"{second}\n{first}"),))

    # ---- braces

    @cached_property
    def depths(self) -> List[int]:
        """How many braces are open at the beginning of each line; one that is closed first on the line is not."""
        found, depth, at = [], 0, 0
        for number in range(len(self.lines)):
            end = self.starts[number] + len(self.lines[number])
            here, first = depth, True
            while at < len(self.tokens) - 1 and self.tokens[at].start < end:
                token = self.tokens[at]
                depth += token.is_sign("{") - token.is_sign("}")
                if first and token.is_sign("}"):
                    here -= 1
                first, at = False, at + 1
            found.append(here)
        return found

    def of_braces(self) -> Iterator[Cure]:
        """Braces where the indentation says that a block ends, or that there is none."""
        depths = self.depths
        width = self.width
        levels = [self.level(number) for number in range(len(self.lines))]
        for number, (line, depth) in enumerate(zip(self.lines, depths)):
            if not line.strip() or levels[number] == depth * width:
                continue
            if levels[number] < depth * width:
                blanks = " " * ((depth - 1) * width)
                start = self.starts[number]
                yield Cure("insert `}` before this line", (Edit(Span(start, start), f"{blanks}}}\n"),))
                if line.strip().startswith("}"):
                    yield self.without(number)
            else:
                yield from self.without_block(number, levels[number])
                yield from self.with_head(number, levels[number])
            for first in (number - 1, number, number - 2):
                yield from self.exchanged(first)
            break
        end = len(self.text.rstrip())
        if self.offset >= end:
            yield Cure("insert `}` at the end", (Edit(Span(end, end), "\n}"),))

    def of_moved_braces(self) -> Iterator[Cure]:
        """A closing brace on a line of its own that stands too early: where the indentation wants it."""
        for number in self.near(4):
            if self.lines[number].strip() != "}":
                continue
            rest = TextRepairs.of("\n".join([*self.lines[:number], *self.lines[number + 1 :]]))
            at = rest.too_deep()
            if at is None:
                continue
            blanks = " " * ((rest.depths[at] - 1) * rest.width)
            target = self.starts[at if at < number else at + 1]
            edits = (Edit(self.span_of(number), ""), Edit(Span(target, target), f"{blanks}}}\n"))
            yield Cure(f"move this `}}` to line {at + 1}", edits)

    def too_deep(self) -> Optional[int]:
        """The first line that the indentation has less deep than the braces."""
        for number, (line, depth) in enumerate(zip(self.lines, self.depths)):
            if line.strip() and self.level(number) < depth * self.width:
                return number
        return None

    @cached_property
    def width(self) -> int:
        """How many blanks a block is indented by."""
        return next((self.level(n) for n, depth in enumerate(self.depths) if depth == 1 and self.level(n)), 4)

    def without_block(self, number: int, level: int) -> Iterator[Cure]:
        """Lines that are indented as a block, but whose head is missing: without their closing brace, or without all of them."""
        last = number
        while last + 1 < len(self.lines) and (not self.lines[last + 1].strip() or self.level(last + 1) >= level):
            last += 1
        closing = last + 1
        if closing >= len(self.lines) or not self.lines[closing].strip().startswith("}"):
            return
        if self.lines[closing].strip() == "}":
            yield self.without(closing)
        whole = Span(self.starts[number], self.span_of(closing).end)
        yield Cure(f"remove lines {number + 1} to {closing + 1}", (Edit(whole, ""),))
        blanks = " " * max(level - 4, 0)
        if self.lines[closing].strip() == "}":
            start = self.starts[number]
            yield Cure("insert `{` before this line", (Edit(Span(start, start), f"{blanks}{{\n"),))

    def with_head(self, number: int, level: int) -> Iterator[Cure]:
        """A head before lines that are indented as a block: that of `main`, of a type that isn't declared, or of a case."""
        start, blanks = self.starts[number], " " * max(level - 4, 0)
        words = [token.text for token in self.tokens]
        heads = ["void main() {"] if "main" not in words else []
        declared = {words[n + 1] for n, word in enumerate(words[:-1]) if word in ("struct", "variant", "abstract", "stateset")}
        used = [word for n, word in enumerate(words) if n and self.tokens[n].kind == "name" and words[n - 1] in (")", "tracked", "new")]
        heads += [f"{kind} {name} {{" for name in dict.fromkeys(used) if name not in declared for kind in ("struct", "variant")]
        heads += [f"case {tick}: {{" for tick in dict.fromkeys(token.text for token in self.tokens if token.kind == "tick")]
        for head in heads[:8]:
            yield Cure(f"insert `{head}` before this line", (Edit(Span(start, start), f"{blanks}{head}\n"),))

    def level(self, number: int) -> int:
        return len(self.lines[number]) - len(self.lines[number].lstrip(" "))

    # ---- heads

    def of_heads(self) -> Iterator[Cure]:
        """A block whose `else` or arm has lost its beginning."""
        line = self.lines[self.line].strip()
        if line.startswith("} else"):
            depth, number = 0, self.line
            while number < len(self.lines):
                depth += self.lines[number].count("{") - self.lines[number].count("}")
                if number > self.line and depth <= 0 or number == self.line and depth < 0:
                    break
                number += 1
            if number < len(self.lines):
                whole = Span(self.starts[self.line], self.span_of(number).end)
                yield Cure("remove this `else`", (Edit(whole, ""),))

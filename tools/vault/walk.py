"""The points that a path of `vaultc explain` or `vaultq paths` comes by, in order."""
from __future__ import annotations

from typing import Callable, List, Optional

from . import syntax as s
from .records import dataclass
from .report import Choice, Path


@dataclass(frozen=True)
class Point:
    """A point of a path: before a statement, or at the closing brace of a block. `after` is the character of the next point of the
    text to which a simple statement leads, `word` the choice that is made at a statement that chooses."""

    offset: int
    statement: Optional[s.Statement]
    after: Optional[int] = None
    word: str = ""


class Arrived(Exception):
    """The end of the path."""


class Left(Exception):
    """A `break` or a `continue` is carried out."""

    def __init__(self, word: str) -> None:
        super().__init__(word)
        self.word = word


class Walk:
    """Goes along a path from the start of a body; `offset_of` gives the character of a choice's place, `goal` is the fault's."""

    def __init__(self, body: s.Block, path: Path, goal: int, offset_of: Callable[[Choice], int]) -> None:
        self.body = body
        self.choices = [(offset_of(choice), choice.word) for choice in path.choices]
        self.goal = goal
        self.points: List[Point] = []

    def run(self) -> List[Point]:
        try:
            self.block(self.body)
        except (Arrived, Left):
            pass
        return self.points

    def come(self, point: Point) -> None:
        self.points.append(point)
        if point.offset == self.goal and not self.choices:
            raise Arrived

    def choose(self, statement: s.Statement) -> str:
        """The next choice, which is that of this statement."""
        if not self.choices or self.choices[0][0] != statement.span.start:
            raise Arrived
        word = self.choices.pop(0)[1]
        self.points[-1] = Point(statement.span.start, statement, None, word)
        return word

    def block(self, block: s.Block) -> None:
        for number, statement in enumerate(block.statements):
            following = block.statements[number + 1].span.start if number + 1 < len(block.statements) else block.close
            self.come(Point(statement.span.start, statement, following))
            self.statement(statement)
        self.come(Point(block.close, None))

    def statement(self, statement: s.Statement) -> None:
        if isinstance(statement, s.If):
            self.branch(statement)
        elif isinstance(statement, s.While):
            self.loop(statement)
        elif isinstance(statement, s.Switch):
            word = self.choose(statement)
            for arm in statement.arms:
                if arm.tick.text == word:
                    self.block(arm.body)
            self.meet(statement.close)
        elif isinstance(statement, (s.Block, s.Focus)):
            self.block(statement.blocks()[0])
        elif isinstance(statement, s.Jump):
            raise Left(statement.word)
        elif isinstance(statement, s.Return):
            raise Arrived

    def branch(self, statement: s.If) -> None:
        word = self.choose(statement)
        other = statement.else_part
        if word == "then":
            self.block(statement.then_block)
        elif isinstance(other, s.If):
            self.come(Point(other.span.start, other))
            self.branch(other)
        elif isinstance(other, s.Block):
            self.block(other)
        self.meet(other.close if isinstance(other, s.Block) else statement.then_block.close)

    def loop(self, statement: s.While) -> None:
        while self.choose(statement) == "turn":
            try:
                self.block(statement.body)
            except Left as left:
                if left.word == "break":
                    break
            self.come(Point(statement.span.start, statement))
        self.meet(statement.body.close)

    def meet(self, offset: int) -> None:
        """Paths meet after a statement."""
        if offset == self.goal and not self.choices:
            raise Arrived


def entered(points: List[Point], number: int) -> Optional[int]:
    """The character of the point to which a point leads without another statement between: that after a simple statement, the first
    one in an arm or a focus; None if there is none."""
    point = points[number]
    if isinstance(point.statement, (s.Switch, s.Focus)):
        return points[number + 1].offset if number + 1 < len(points) else None
    if point.statement is None or point.statement.blocks() or isinstance(point.statement, (s.Return, s.Jump)):
        return None
    return point.after

"""Carries out cures: of each error of a file the first change that was tried, one after the other, each once it is agreed to."""
from __future__ import annotations

from pathlib import Path
from typing import Callable, Iterator, List, Optional, Set, Tuple

from .ask import STANDARD_INPUT, Asker
from .edits import apply
from .errors import Problem
from .files import replace_file
from .judge import Judged, Wishes, judge_text
from .picture import Cure, Picture
from .records import dataclass, field
from .source import Source

# whether a change of a file is wanted
Agree = Callable[[Picture, Cure], bool]
MOST = 100
"""How many changes are made of one file."""


@dataclass
class Fixing:
    """A file whose errors are cured, with what was done and what was declined."""

    name: str
    asker: Asker
    agree: Agree
    done: List[str] = field(default_factory=list)
    declined: Set[Tuple[str, str]] = field(default_factory=set)

    def run(self) -> Judged:
        """Changes the file, and gives what is left to say of it."""
        first = Source.read(self.name)
        source = first
        for _ in range(MOST):
            judged = judge_text(source, self.asker, Wishes(repairs=True))
            cure = self.wanted(judged)
            if cure is None:
                break
            self.done.append(cure.text)
            source = Source(self.name, apply(source.text, cure.edits).encode("utf-8", "surrogateescape"))
        if source is not first:
            replace_file(Path(self.name), source.data)
        return judged

    def wanted(self, judged: Judged) -> Optional[Cure]:
        """The first change that is agreed to."""
        if "\ufffd" in judged.source.text:
            # a text that can't be read can't be written back
            return None
        for picture, cure in self.offers(judged):
            if self.agree(picture, cure):
                return cure
            self.declined.add((picture.report, cure.text))
        return None

    def offers(self, judged: Judged) -> Iterator[Tuple[Picture, Cure]]:
        for picture in judged.pictures:
            for cure in picture.changes()[:1]:
                if picture.severity == "error" and (picture.report, cure.text) not in self.declined:
                    yield picture, cure


def fix(name: str, asker: Asker, agree: Agree) -> Tuple[Judged, List[str]]:
    """Cures the errors of a file; what is left to say of it, and what was done."""
    if name == STANDARD_INPUT or not Path(name).is_file():
        raise Problem(f"check --fix: {name} is no file that can be changed")
    fixing = Fixing(name, asker, agree)
    return fixing.run(), fixing.done

"""What docs/RULES.md says of each rule on names and types, and docs/LANGUAGE.md of each limit."""
from __future__ import annotations

import re
from functools import lru_cache
from typing import Dict, Tuple

from .paths import TOP
from .records import dataclass

RULES = "docs/RULES.md"


@dataclass(frozen=True)
class RuleCure:
    """A cure of a rule; `where` says in which situation, and is empty if it is in any."""

    where: str
    text: str

    def __str__(self) -> str:
        return f"{self.where}: {self.text}" if self.where else self.text


@dataclass(frozen=True)
class Rule:
    """A rule: its number, title and group, its paragraphs without the cures, the cures, and its programs: the first is wrong, the
    others are right."""

    number: int
    title: str
    group: str
    paragraphs: Tuple[str, ...]
    cures: Tuple[RuleCure, ...]
    programs: Tuple[str, ...]

    @property
    def cause(self) -> str:
        return self.paragraphs[0] if self.paragraphs else ""

    @property
    def link(self) -> str:
        """The part of the document."""
        return f"{RULES}#rule-{self.number}"


@lru_cache(maxsize=None)
def document(name: str) -> str:
    """The text of a document of docs/."""
    return (TOP / "docs" / name).read_text(encoding="utf-8")


def one_line(text: str) -> str:
    return " ".join(text.split())


def read_rule(number: int, title: str, group: str, body: str) -> Rule:
    """A rule from the text below its heading."""
    programs = tuple(text.strip("\n") + "\n" for text in re.findall(r"^```[^\n]*\n(.*?)^```$", body, re.M | re.S))
    prose = re.sub(r"^```[^\n]*\n.*?^```$", "", body, flags=re.M | re.S)
    paragraphs, cures = [], []
    for part in re.split(r"\n\s*\n", prose):
        words = one_line(part)
        if not words or words == "Right:" or words.startswith("<a id=") or re.fullmatch(r"`kind \d+ [^`]*`\.?", words):
            continue
        said, *mended = re.split(r"\*Cure(?:, ([^*:]*))?:\*", words)
        paragraphs += [said.strip()] if said.strip() else []
        cures += [RuleCure(where or "", text.strip()) for where, text in zip(mended[::2], mended[1::2])]
    return Rule(number, title, group, tuple(paragraphs), tuple(cures), programs)


@lru_cache(maxsize=None)
def all_rules() -> Dict[int, Rule]:
    """The rules by number."""
    found: Dict[int, Rule] = {}
    group = ""
    for part in re.split(r"^(?=##)", document("RULES.md"), flags=re.M):
        head, _, body = part.partition("\n")
        if head.startswith("## "):
            group = head[3:].strip()
        met = re.match(r"### (\d+)\. (.*)", head)
        if met:
            number = int(met[1])
            found[number] = read_rule(number, met[2].strip(), group, body)
    return found


def limit_words(number: int) -> str:
    """What a limit is of."""
    for numbers, of in re.findall(r"^\| ([\d, ]+) \| (.*?) \| [\d,]+ \|$", document("LANGUAGE.md"), re.M):
        if str(number) in numbers.split(", "):
            return of
    return "a size"

"""Definitions in `specs/`: where each stands, what it says, and which other definitions its words name."""

from __future__ import annotations

import re
from pathlib import Path
from typing import Dict, Iterator, List, NamedTuple, Optional, Tuple

from .records import dataclass, field

USE = re.compile(r"^\s*(?:pub )?(?:ghost )?use Rattle\.(\w+)\.([\w.]+?)(?:\.\{(.*)\}| as (\w+));?\s*$")
HEAD = re.compile(r"^ *(?:unfoldable |abbrev |pub )*(?:(data|record) (\S+)|(\S+) :(?: |$))")
OPENS = re.compile(r"^ *(unfoldable|abbrev|pub|data|record)\b")
WORD = re.compile(r"(?<![\w.])[A-Za-z_]\w*(?:\.[A-Za-z_]\w*)*|[^\w\s(){}\[\],;:.\"'=]+")
BLOCK = re.compile(r"(?:abbrev |unfoldable )*mutual$|module .* where$")
CASE = re.compile(r"^ +(?:pub )?([\w◌]+) :(?: |$)")


class Name(NamedTuple):
    """A name in a module of definitions, as an import gives it."""

    crate: str
    module: str
    """From the crate's folder on, as `specs.Replies` or `specs.declared.status.TheConstants`."""
    name: str

    def __str__(self) -> str:
        return f"{self.crate}.{self.module}.{self.name}"


@dataclass(frozen=True)
class Definition:
    """A definition with its lines, without comments and blanks."""

    name: str
    file: Path
    line: int
    lines: Tuple[str, ...]
    introduces: Tuple[str, ...]
    """Its name, and those of its cases and fields."""
    around: Tuple[str, ...]
    """The heads of the blocks that it stands in, which may have parameters."""

    def words(self) -> List[str]:
        """The words that it is made of."""
        return words_of(self.lines + self.around)


@dataclass
class Module:
    """A file of definitions: its imports by the names that they have here, and what it defines."""

    file: Path
    names: Dict[str, Name] = field(default_factory=dict)
    aliases: Dict[str, Tuple[str, str]] = field(default_factory=dict)
    """Crate and module of each `use .. as ALIAS`."""
    public: Dict[str, Name] = field(default_factory=dict)
    """What the file gives on by `pub use`."""
    definitions: Dict[str, Definition] = field(default_factory=dict)
    """By each name that a definition introduces."""

    def find(self, word: str) -> Iterator[Name]:
        """The imported names that a word of a definition may stand for: itself, or a name behind an alias. Operators are named
        by their sign."""
        head, _, rest = word.partition(".")
        if rest and head in self.aliases:
            yield Name(*self.aliases[head], rest.split(".")[0])
        elif head in self.names:
            yield self.names[head]


def read_imports(module: Module, line: str) -> bool:
    """Takes an import into a module; whether the line is one."""
    met = USE.match(line)
    if not met:
        return False
    crate, path, names, alias = met.groups()
    if alias:
        module.aliases[alias] = (crate, path)
    for entry in (names or "").split(","):
        if entry.strip():
            name, _, here = entry.strip().partition(" as ")
            for word in {here or name, (here or name).replace("◌", "")}:
                module.names[word] = Name(crate, path, name)
                if line.lstrip().startswith("pub "):
                    module.public[word] = Name(crate, path, name)
    return True


def read_module(file: Path) -> Module:
    """The module that a file is."""
    module = Module(file)
    lines = with_whole_heads(file.read_text(encoding="utf-8")).split("\n")
    for line in lines:
        read_imports(module, line)
    starts = list(definition_starts(lines))
    for (start, around), (end, _) in zip(starts, starts[1:] + [(len(lines), ())]):
        add(module, start + 1, tuple(line for line in lines[start:end] if says_something(line)), around)
    return module


def with_whole_heads(text: str) -> str:
    """A text in which the head of each `module .. where` is on one line; empty lines keep the numbers of what comes after."""
    return re.sub(r"^( *module _ .*)\n +(.* where)$", r"\1 \2\n", text, flags=re.M)


def definition_starts(lines: List[str]) -> Iterator[Tuple[int, Tuple[str, ...]]]:
    """The numbers, from 0, of the lines with which definitions begin, each with the heads of the blocks around it: a definition
    stands at the margin, or two columns further in than the `mutual` or `module .. where` that has it."""
    blocks: List[Tuple[int, str]] = []
    for number, line in enumerate(lines):
        text = line.strip()
        if not text or text.startswith("--"):
            continue
        indent = len(line) - len(line.lstrip())
        while blocks and indent <= blocks[-1][0]:
            blocks.pop()
        if BLOCK.match(text):
            blocks.append((indent, text))
        elif indent == (blocks[-1][0] + 2 if blocks else 0) and OPENS.match(line) and HEAD.match(line):
            yield number, tuple(head for _, head in blocks)


def says_something(line: str) -> bool:
    """Whether a line is more than a comment, a blank, an import or how tightly an operator binds."""
    text = line.strip()
    return bool(text) and not re.match(r"--|infix", text) and not BLOCK.match(text) and not USE.match(line)


def add(module: Module, number: int, lines: Tuple[str, ...], around: Tuple[str, ...]) -> None:
    """Adds a definition to a module, by its name and by those of its cases and fields."""
    met = HEAD.match(lines[0])
    assert met is not None
    kind, structure, function = met.groups()
    name = structure or function
    cases = [CASE.match(line) for line in lines[1:]] if kind else []
    introduced = (name, *(case.group(1) for case in cases if case))
    definition = Definition(name, module.file, number, lines, introduced, around)
    for each in introduced:
        module.definitions.setdefault(each, definition)
        module.definitions.setdefault(each.replace("◌", ""), definition)


@dataclass
class Library:
    """The definitions of a repository, read as they are asked for."""

    crates: Path
    modules: Dict[Path, Module] = field(default_factory=dict)

    def module(self, file: Path) -> Module:
        if file not in self.modules:
            self.modules[file] = read_module(file)
        return self.modules[file]

    def file_of(self, name: Name) -> Path:
        """The file that has a name, if it is one of the repository."""
        return self.crates / name.crate / (name.module.replace(".", "/") + ".antt")

    def find(self, name: Name) -> Optional[Definition]:
        """The definition that a name is of; None if it isn't one of the repository."""
        file = self.file_of(name)
        if not file.exists():
            return None
        module = self.module(file)
        if name.name in module.definitions:
            return module.definitions[name.name]
        handed_on = module.public.get(name.name)
        return self.find(handed_on) if handed_on else None


def words_of(lines: Tuple[str, ...]) -> List[str]:
    """The words of a definition: names, with what stands behind their dots, and operators. Comments and strings are left out."""
    text = re.sub(r'"(?:[^"\\]|\\.)*"', " ", "\n".join(re.sub(r"(^|\s)--.*$", "", line) for line in lines))
    return list(dict.fromkeys(WORD.findall(text)))

"""What must be believed of a clause: the definitions that its names reach, what of the code these take, and the kit's words."""

from __future__ import annotations

import re
from pathlib import Path
from typing import Dict, Iterator, List, Set, Tuple

from .definitions import Definition, Library, Module, Name, read_imports, words_of
from .records import dataclass, field

PUBLIC_CALLS = ("vaultc_core::vaultc", "vaultq_core::vaultq")
"""The calls that the programs make."""

LAW = re.compile(r"`(\w+(?:::\w+)*::(\w+))`")


@dataclass(frozen=True)
class Clause:
    """A clause of a function, with the module of its file, whose imports it uses."""

    call: str
    name: str
    text: str
    module: Module


@dataclass
class Believed:
    """What a clause rests on."""

    clause: Clause
    definitions: List[Definition] = field(default_factory=list)
    """In the order in which they are reached."""
    code: Set[Name] = field(default_factory=set)
    """Types, constants and traits of the code."""
    kit: Set[Name] = field(default_factory=set)
    """Words of the kit's crates."""

    def files(self) -> List[Path]:
        return list(dict.fromkeys(definition.file for definition in self.definitions))

    def lines(self) -> int:
        """How many lines the definitions have, without comments, blanks and imports."""
        return sum(len(definition.lines) for definition in self.definitions)

    def constants(self) -> List[Name]:
        """The constants that are read off the code."""
        return sorted(name for name in self.code if name.module.endswith("TheConstants"))

    def count(self) -> Tuple[int, int, int, int, int]:
        """Files, definitions, lines, constants of the code, and words of the kit."""
        return len(self.files()), len(self.definitions), self.lines(), len(self.constants()), len(self.kit)


# ---- clauses


def read_clauses(crates: Path, call: str) -> List[Clause]:
    """The clauses of a public function, such as `vaultc_core::vaultc`; none if the crate has no such function."""
    crate, name = call.split("::")[0], call.split("::")[-1]
    for file in sorted((crates / crate / "src").rglob("*.rt")):
        source = file.read_text(encoding="utf-8")
        met = re.search(rf"^ *pub fn {name}\b.*?^ *\{{", source, re.M | re.S)
        if met:
            module = Module(file)
            for line in source.split("\n"):
                read_imports(module, line)
            return list(clauses_of(call, met.group(), module))
    return []


def clauses_of(call: str, contract: str, module: Module) -> Iterator[Clause]:
    """The `ensures` clauses of a contract. One without a name has that of the function."""
    for part in re.split(r"\bensures\b", contract)[1:]:
        name, _, rest = part.strip().partition("{")
        yield Clause(call, name.strip() or call.split("::")[-1], "{" + rest[: closing_brace(rest)], module)


def closing_brace(text: str) -> int:
    """Where the brace closes that was opened just before a text."""
    depth = 1
    for at, character in enumerate(text):
        depth += {"{": 1, "}": -1}.get(character, 0)
        if depth == 0:
            return at
    return len(text)


def read_laws(top: Path) -> List[str]:
    """The laws that PROMISES names in plain words: functions of the crates, other than the public calls, that have a clause and no argument."""
    text = (top / "docs" / "PROMISES.md").read_text(encoding="utf-8").partition("\n## The public call")[0]
    named = dict.fromkeys(met.group(1) for met in LAW.finditer(text))
    return [call for call in named if call not in PUBLIC_CALLS and is_law(top / "crates", call)]


def is_law(crates: Path, call: str) -> bool:
    """Whether a name is that of a law: `pub fn NAME()` in its crate."""
    name = call.split("::")[-1]
    files = (crates / call.split("::")[0] / "src").rglob("*.rt")
    return any(re.search(rf"^ *pub fn {name}\(\)", file.read_text(encoding="utf-8"), re.M) for file in files)


def all_clauses(top: Path) -> List[Clause]:
    """The clauses of the public calls and of the laws that PROMISES names in plain words."""
    calls = [*PUBLIC_CALLS, *read_laws(top)]
    return [clause for call in calls for clause in read_clauses(top / "crates", call)]


def label(clause: Clause) -> str:
    """How a clause is called in tables: by its name, and behind the function where that isn't `vaultc`."""
    if clause.call == PUBLIC_CALLS[0]:
        return clause.name
    return clause.call if clause.call.endswith("::" + clause.name) else f"{clause.call} {clause.name}"


# ---- what they reach


@dataclass
class Named:
    """What the words of a text name: definitions, and words of the code and of the kit."""

    definitions: List[Definition] = field(default_factory=list)
    code: Set[Name] = field(default_factory=set)
    kit: Set[Name] = field(default_factory=set)


class Reach:
    """Follows names through a library; what a definition names is looked up once."""

    def __init__(self, crates: Path) -> None:
        self.library = Library(crates)
        self.known: Dict[Tuple[Path, str], Named] = {}

    def named(self, module: Module, words: List[str]) -> Named:
        """What some words of a module name."""
        found = Named()
        for word in words:
            own = module.definitions.get(word.partition(".")[0])
            if own:
                found.definitions.append(own)
                continue
            for name in module.find(word):
                definition = self.library.find(name)
                if definition:
                    found.definitions.append(definition)
                elif (self.library.crates / name.crate).is_dir():
                    found.code.add(name)
                else:
                    found.kit.add(name)
        return found

    def named_by(self, definition: Definition) -> Named:
        """What a definition names."""
        key = (definition.file, definition.name)
        if key not in self.known:
            self.known[key] = self.named(self.library.module(definition.file), definition.words())
        return self.known[key]

    def all_of(self, clause: Clause) -> Believed:
        """All that a clause rests on, breadth first."""
        believed = Believed(clause)
        seen: Set[Tuple[Path, str]] = set()
        layer = [self.named(clause.module, words_of((clause.text,)))]
        while layer:
            later: List[Named] = []
            for found in layer:
                believed.code |= found.code
                believed.kit |= found.kit
                for definition in found.definitions:
                    if (definition.file, definition.name) not in seen:
                        seen.add((definition.file, definition.name))
                        believed.definitions.append(definition)
                        later.append(self.named_by(definition))
            layer = later
        return believed


def all_believed(top: Path) -> List[Believed]:
    """What must be believed of each clause of the public calls, and of the laws that PROMISES names in plain words."""
    reach = Reach(top / "crates")
    return [reach.all_of(clause) for clause in all_clauses(top)]


# ---- constants


def value_of(crates: Path, name: Name) -> str:
    """The value of a constant of the code, as its source has it."""
    parts = name.module.split(".")[2:-1]
    folder = crates / name.crate / "src"
    for file in (folder / ("/".join(parts or ["lib"]) + ".rt"), *sorted(folder.rglob("*.rt"))):
        if file.exists():
            met = re.search(rf"^ *pub const {name.name}: [^=]*= (.*?);$", file.read_text(encoding="utf-8"), re.M)
            if met:
                return met.group(1)
    return ""


def grouped(names: Set[Name]) -> Dict[str, List[str]]:
    """Names by their modules."""
    found: Dict[str, List[str]] = {}
    for name in sorted(names):
        found.setdefault(f"{name.crate}.{name.module}", []).append(name.name)
    return found


# ---- tables

HEADING = "What must be believed"
TABLE_HEAD = ("| Clause | Files | Definitions | Lines | Constants | Words of the kit |", "|---|---|---|---|---|---|")
CEILINGS = "docs/believed.txt"
"""For each clause the most files, definitions and lines that it may reach, as `CLAUSE: FILES DEFINITIONS LINES`."""


def table_row(found: Believed) -> str:
    """The row of a clause in the table of docs/PROMISES.md."""
    return f"| `{label(found.clause)}` | " + " | ".join(f"{number:,}" for number in found.count()) + " |"


def read_ceilings(top: Path) -> Dict[str, Tuple[int, ...]]:
    """The ceilings by clause."""
    ceilings = {}
    for line in (top / CEILINGS).read_text(encoding="utf-8").splitlines():
        name, _, numbers = line.rpartition(": ")
        if name and not line.startswith("#"):
            ceilings[name] = tuple(int(number) for number in numbers.split())
    return ceilings


def above_ceilings(top: Path, all_found: List[Believed]) -> List[str]:
    """A line for each clause that reaches more than it may, or that has no ceiling."""
    ceilings = read_ceilings(top)
    said = []
    for found in all_found:
        most, count = ceilings.get(label(found.clause)), found.count()[:3]
        if most is None:
            said.append(f"{label(found.clause)} has no line in {CEILINGS}; it reaches {count}")
        elif any(number > ceiling for number, ceiling in zip(count, most)):
            said.append(f"{label(found.clause)} reaches {count} files, definitions and lines, more than {most}")
    return said


def with_table(page: str, all_found: List[Believed]) -> str:
    """docs/PROMISES.md with the table of these counts."""
    start = page.index("\n| Clause |", page.index(f"\n## {HEADING}")) + 1
    end = page.index("\n\n", start)
    return page[:start] + "\n".join([*TABLE_HEAD, *map(table_row, all_found)]) + page[end:]


def lower_ceilings(top: Path, all_found: List[Believed]) -> None:
    """Lowers each ceiling to what is reached. None is raised, but for one that is new."""
    file = top / CEILINGS
    ceilings = read_ceilings(top)
    head = [line for line in file.read_text(encoding="utf-8").splitlines() if line.startswith("#")]
    rows = []
    for found in all_found:
        count = found.count()[:3]
        least = tuple(map(min, zip(count, ceilings.get(label(found.clause), count))))
        rows.append(f"{label(found.clause)}: " + " ".join(map(str, least)))
    file.write_text("\n".join([*head, *rows]) + "\n", encoding="utf-8")


def imports_of_proofs(crates: Path) -> List[str]:
    """The files of definitions that import from a `proofs/` of this repository, as `CRATE/specs/NAME.antt`."""
    found = []
    for file in sorted(crates.glob("*/specs/**/*.antt")):
        for crate in re.findall(r"^(?:pub )?use Rattle\.(\w+)\.proofs\.", file.read_text(encoding="utf-8"), re.M):
            if (crates / crate).is_dir():
                found.append(str(file.relative_to(crates)))
    return found

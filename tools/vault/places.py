"""Where a form, an operator, a rule, a limit, a certificate row or a command stands, by the steps of docs/ADDING.md."""

from __future__ import annotations

import re
from enum import Enum
from pathlib import Path
from typing import Dict, Iterator, List, NamedTuple, Optional, Pattern, Tuple

from .documents import cells
from .errors import Problem
from .records import dataclass, field

FORM = re.compile(r"^    ([A-Z]\w*)(?: \{|\(|,)", re.M)
ASIDE = re.compile(r"\s*(//|--|(pub )?(unfoldable )?(ghost )?use |infix)")


class Kind(Enum):
    """What may be added; the values are headings of docs/ADDING.md."""

    FORM = "A statement form"
    OPERATOR = "An operator"
    RULE = "A rule on names and types"
    LIMIT = "A limit"
    ROW = "A row of certificates"
    COMMAND = "A command"


@dataclass(frozen=True)
class Subject:
    """What is looked for: expressions of words of the code and of definitions, and the crates in which these words mean it."""

    kind: Kind
    title: str
    code: Tuple[str, ...]
    pages: Tuple[str, ...]
    """Expressions of what stands for it in pages, examples, transcripts and tools."""
    crates: Tuple[str, ...] = ("",)
    """Beginnings of the names of crates."""


class Place(NamedTuple):
    """A file in which it stands, with the first line and how many there are."""

    file: Path
    line: int
    count: int


@dataclass
class Step:
    """A row of docs/ADDING.md: its number, what is done there, the files, and the minutes of a check."""

    number: str
    what: str
    files: str
    minutes: str
    places: List[Place] = field(default_factory=list)

    def patterns(self) -> List[str]:
        """The files as paths of the repository; `specs/..` and the like are of the crate that is named before."""
        found: List[str] = []
        crate = ""
        for span in re.findall(r"`([^`]+)`", self.files):
            if re.match(r"(src|specs|proofs|must-fail)(/|$)", span):
                span = f"{crate}/{span}"
            elif re.match(r"(vlt|c|cert|vaultc)_\w+|vaultc\b", span) and not span.endswith(".md"):
                crate = span.split("/")[0]
            found += braced(span)
        return found

    def crates(self, top: Path) -> List[str]:
        """The crates that it names, each once."""
        names = dict.fromkeys(pattern.split("/")[0] for pattern in self.patterns())
        return [name for name in names if (top / "crates" / name).is_dir()]

    def covers(self, name: str) -> bool:
        """Whether a file, by its path from the top, is one of the step's: a pattern has it, or it is the page of a crate that one names."""
        short = name[len("crates/") :] if name.startswith("crates/") else name
        if any(re.fullmatch(glob(pattern), short) or re.fullmatch(glob(pattern), name) for pattern in self.patterns()):
            return True
        crate, _, rest = short.partition("/")
        return rest == "README.md" and any(pattern.split("/")[0] == crate for pattern in self.patterns())


def braced(pattern: str) -> List[str]:
    """A pattern with `{a,b}` as one pattern for each."""
    met = re.search(r"\{([^{}]*)\}", pattern)
    if not met:
        return [pattern]
    return [each for word in met.group(1).split(",") for each in braced(pattern[: met.start()] + word + pattern[met.end() :])]


def glob(pattern: str) -> str:
    """The expression of a pattern: `*` is any name; a folder, or a crate, has all that is below it."""
    return re.escape(pattern.rstrip("/")).replace(r"\*", "[^/]*") + ("" if re.search(r"\.\w+$", pattern) else "(/.*)?")


# ---- the subjects


def find_subject(top: Path, words: List[str]) -> Subject:
    """The subject that the words name: `become`, `BitXor`, `load`, `rule 29`, `limit 9` or `row struct_type`."""
    makers = {
        "form": form_subject,
        "operator": operator_subject,
        "command": command_subject,
        "row": row_subject,
        "rule": rule_subject,
        "limit": limit_subject,
    }
    asked = {words[0]: makers[words[0]]} if len(words) == 2 and words[0] in makers else makers
    for maker in asked.values():
        subject = maker(top, words[-1])
        if subject:
            return subject
    raise Problem(f"there is no form, operator, command, row, rule or limit '{' '.join(words)}'")


def read(top: Path, name: str) -> str:
    return (top / name).read_text(encoding="utf-8")


def body_of(text: str, head: str) -> str:
    """The lines of an enumeration or of data, from its head to its end."""
    start = text.index(head)
    return text[start : re.compile(r"^(\}|$)", re.M).search(text, start + len(head)).start()]  # type: ignore[union-attr]


def form_subject(top: Path, name: str) -> Optional[Subject]:
    """A statement form, by its variant or its keyword."""
    variants = FORM.findall(body_of(read(top, "crates/vlt_syntax/src/tree.rt"), "pub enum Stmt {"))
    variant = name[:1].upper() + name[1:]
    if variant not in variants:
        return None
    word = variant[0].lower() + variant[1:]
    return Subject(Kind.FORM, f"the statement `{word}`", (word, variant), (rf"\b{word}\b", rf"\b{variant}\b"))


def operator_subject(top: Path, name: str) -> Optional[Subject]:
    """An operator, by its variant; its sign is a token of its own."""
    met = re.search(rf'^ +{re.escape(name)} = \d+, "([^"]+)"', read(top, "crates/vlt_ops/src/rows.rt"), re.M)
    if not met:
        return None
    sign = met.group(1)
    mark = re.search(rf'Mark::(\w+) => "{re.escape(sign)}"', read(top, "crates/vlt_tokens/src/token.rt"))
    snake = re.sub(r"(?<!^)(?=[A-Z])", "_", name).lower()
    words = tuple(dict.fromkeys([name, snake, *(mark.groups() if mark else ())]))
    return Subject(Kind.OPERATOR, f"the operator `{sign}`", words, (rf"\b{name}\b", rf"(?<=[`\s\"'])({re.escape(sign)})(?=[`\s\"'])"))


def command_subject(top: Path, name: str) -> Optional[Subject]:
    """A command, by its word."""
    commands = re.findall(r"^  (\w+) :", body_of(read(top, "crates/vaultc_words/specs/Commands.antt"), "pub data Command"), re.M)
    written = "modules" if name == "module" else name
    if written not in commands:
        return None
    words = (written, name, name.capitalize(), written.capitalize())
    return Subject(Kind.COMMAND, f"the command `{name}`", words, (rf"\b{name}\b",), ("vaultc", "vlt_load"))


def row_subject(top: Path, name: str) -> Optional[Subject]:
    """A row of certificates, by its case in `Row`."""
    rows = re.findall(r"^  (\w+) :", body_of(read(top, "crates/cert_rows/specs/Rows.antt"), "pub data Row"), re.M)
    if name not in rows:
        return None
    camel = "".join(part.capitalize() for part in name.split("_"))
    return Subject(Kind.ROW, f"the row `{name}` of certificates", (name, camel), (), ("cert_",))


def rule_subject(top: Path, number: str) -> Optional[Subject]:
    """A rule on names and types, by its number."""
    for crate in ("vlt_core", "vlt_iface"):
        name = constant(read(top, f"crates/{crate}/src/rules.rt"), number)
        if name:
            return Subject(Kind.RULE, f"rule {number}, {name}", (name,), (rf"\b(rule|kind) {number}\b", rf"\brule-{number}\b", name))
    return None


def limit_subject(top: Path, number: str) -> Optional[Subject]:
    """A limit, by its number."""
    name = constant(read(top, "crates/vlt_base/src/limits.rt"), number)
    if not name:
        return None
    words = (name, rf"limit(?:_of)? {number}", rf"limit\({number}\)", rf"Limit {number}")
    return Subject(Kind.LIMIT, f"limit {number}, {name}", words, (rf"\blimit {number}\b", rf"^\| [\d, ]*\b{number}\b[\d, ]* \| .*\| [\d,]+ \|$"))


def constant(text: str, number: str) -> str:
    """The name of the constant that has a number; empty if none has it."""
    met = re.search(rf"^pub const (\w+): u8 = {re.escape(number)};", text, re.M)
    return met.group(1) if met else ""


# ---- where it stands


def code_files(top: Path, subject: Subject) -> Iterator[Path]:
    """The files of code, definitions, proofs and edits of the subject's crates."""
    for crate in sorted((top / "crates").iterdir()):
        if crate.name.startswith(subject.crates):
            for part, ending in (("src", "rt"), ("specs", "antt"), ("proofs", "antt"), ("must-fail", "*")):
                yield from sorted(file for file in (crate / part).rglob(f"*.{ending}") if file.is_file())


def page_files(top: Path, crates: Tuple[str, ...] = ("",)) -> Iterator[Path]:
    """Pages, examples, transcripts, the tools and what editors and shells are given; of crates the pages of those that begin so."""
    yield top / "README.md"
    yield top / "crates" / "vaultc_tests" / "stdin"
    for folder in ("docs", "examples", "editors", "build", "packaging", "runtime", "tools"):
        yield from sorted(file for file in (top / folder).rglob("*") if is_text(file))
    yield from sorted(page for page in top.glob("crates/*/README.md") if page.parent.name.startswith(crates))


def is_text(file: Path) -> bool:
    """Whether a file is one that somebody writes."""
    return file.is_file() and file.suffix not in (".pyc", ".html", ".sarif", ".png", ".gif") and "out" not in file.parts


def lines_of_code(text: str, words: Pattern) -> List[int]:
    """The numbers of the lines that have a word, but those of comments and imports."""
    if not words.search(text):
        return []
    return [number for number, line in enumerate(text.split("\n"), 1) if words.search(line) and not ASIDE.match(line)]


def lines_of_page(file: Path, text: str, words: Pattern) -> List[int]:
    """The numbers of the lines that have a word: on a page in a piece of code, in the tools in a text of its own."""
    found = []
    if not words.search(text):
        return []
    fence = {".md": "```", ".py": '"""'}.get(file.suffix)
    inside = False
    for number, line in enumerate(text.split("\n"), 1):
        if fence and line.count(fence) % 2:
            inside = not inside
        if words.search(said_in(file, line, inside)):
            found.append(number)
    return found


def said_in(file: Path, line: str, inside: bool) -> str:
    """What of a line is code or a row of a table, and not prose; `inside` says whether it is in a block of code, or in a docstring."""
    if file.suffix == ".md" and not inside and not line.startswith("|"):
        return " ".join(re.findall(r"`[^`]*`|\b(?:rule|limit) \d+\b", line))
    if file.suffix == ".py":
        return "" if inside else " ".join(re.findall(r"\"\w[^\"]*\"|'\w[^']*'|\b[A-Z]\w*\b", re.sub(r'""".*?"""', "", line)))
    return line


def find_places(top: Path, subject: Subject) -> List[Place]:
    """All files in which a subject stands."""
    code = re.compile(r"\b(" + "|".join(subject.code) + r")(?!\w)")
    places = []
    for file in code_files(top, subject):
        lines = lines_of_code(file.read_text(encoding="utf-8"), code)
        if lines:
            places.append(Place(file, lines[0], len(lines)))
    if subject.pages:
        pages = re.compile("|".join(subject.pages), re.M)
        for file in page_files(top, subject.crates):
            lines = lines_of_page(file, file.read_bytes().decode("utf-8", "replace"), pages)
            if lines:
                places.append(Place(file, lines[0], len(lines)))
    return places


# ---- the steps


def read_steps(top: Path, kind: Kind) -> List[Step]:
    """The steps of a section of docs/ADDING.md."""
    lines = read(top, "docs/ADDING.md").split("\n")
    start = lines.index(f"## {kind.value}")
    end = next((n for n in range(start + 1, len(lines)) if lines[n].startswith("## ")), len(lines))
    rows = [cells(line) for line in lines[start:end] if re.match(r"\| \d", line)]
    return [Step(*row) for row in rows]


def sort_places(top: Path, steps: List[Step], places: List[Place]) -> List[Place]:
    """Gives each place to the first step that names its file; those that none names come back."""
    left = []
    for place in places:
        name = str(place.file.relative_to(top))
        step = next((step for step in steps if step.covers(name)), None)
        if step:
            step.places.append(place)
        else:
            left.append(place)
    return left


def named_nowhere(names: List[str], step: Step) -> List[str]:
    """The patterns of a step that name no file of these, which are given by their paths from the top and from crates/."""
    text = "\n".join(names)
    return [pattern for pattern in step.patterns() if not re.search(f"^{glob(pattern)}$", text, re.M)]


def all_names(top: Path) -> List[str]:
    """All files of the repository that steps may name, by their paths from the top and from crates/."""
    files = set(page_files(top)) | {top / name for name in ("crates.txt", "README.md", "bin/vault")}
    for crate in (top / "crates").iterdir():
        files |= {file for part in ("src", "specs", "proofs", "must-fail") for file in (crate / part).rglob("*") if file.is_file()}
    names = sorted(str(file.relative_to(top)) for file in files)
    return names + [name[len("crates/") :] for name in names if name.startswith("crates/")]


# ---- minutes


def read_minutes(gate: str) -> Dict[str, float]:
    """The processor minutes of each crate's proof, from docs/GATE.md; those that weren't counted yet are left out."""
    return {name: float(proof) for name, proof in re.findall(r"^\| `(\w+)` \| ([\d.]+) \|", gate, re.M)}


def minutes_of(top: Path, step: Step, minutes: Dict[str, float]) -> str:
    """How many minutes the checks of a step's crates take together; empty if it names no crate."""
    names = step.crates(top)
    return f"{sum(minutes.get(name, 0.0) for name in names):.1f}" if names else ""


def with_minutes(top: Path, page: str, gate: str) -> str:
    """docs/ADDING.md with the minutes in the last column."""
    minutes = read_minutes(gate)
    lines = []
    for line in page.split("\n"):
        row = cells(line) if re.match(r"\| \d", line) else []
        if len(row) == 4:
            line = "| " + " | ".join([*row[:3], minutes_of(top, Step(*row), minutes)]) + " |"
        lines.append(line)
    return "\n".join(lines)

"""The transcripts of `vaultc_tests`: their sections, the files that each needs, and the first reply that is another.

The forms of a line are in crates/vaultc_tests/README.md. A section may use files that one before it wrote: those that it needs
go before it, so that each section can be carried out by itself.
"""

from __future__ import annotations

import re
from functools import partial
from pathlib import Path
from typing import Dict, Iterator, List, Optional, Tuple

from .programs import Program
from .records import dataclass, field
from .suite import Part, first_difference

REPLY = re.compile(r"command (\d+): \$(.*)")
CALLS = ("$", "?")
"""What a line begins with that calls `vaultc`, or `vaultq`."""


@dataclass(frozen=True)
class Item:
    """A file, a changed copy of one, or a command, with the `!` lines before it."""

    line: int
    """The number of its first line, from 1."""
    lines: Tuple[str, ...]
    title: str
    """The words of a command with the space before them; of a file its name."""
    is_command: bool = False
    makes: str = ""
    """The name of the file that it makes; empty if it makes none."""
    names: Tuple[str, ...] = ()
    """Names of files that it may read."""

    def expected(self) -> List[str]:
        """What the command is to write, its status last."""
        start = next(n for n, line in enumerate(self.lines) if line.startswith(CALLS))
        return expand(self.lines[start + 1 :])


@dataclass
class Section:
    """Commands and files below one heading."""

    title: str
    line: int
    items: List[Item] = field(default_factory=list)
    needed: List[Item] = field(default_factory=list)
    """What makes the files of sections before this one that it uses, in order."""

    def everything(self) -> List[Item]:
        return self.needed + self.items

    def text(self) -> str:
        """The section as a transcript of its own."""
        return "".join(line + "\n" for item in self.everything() for line in item.lines)

    def commands(self) -> List[Item]:
        """Its commands, those that make needed files first."""
        return [item for item in self.everything() if item.is_command]


@dataclass(frozen=True)
class Difference:
    """A command that replies otherwise."""

    item: Item
    found: List[str]


# ---- reading


def read_items(lines: List[str], first: int) -> Iterator[Item]:
    """The items of some lines, of which the first has the number `first`."""
    at, fails = 0, []
    while at < len(lines):
        line, start = lines[at], at
        if line.startswith("--- "):
            at = lines.index("---", at) + 1
            yield Item(first + start, tuple(lines[start:at]), line[4:], makes=line[4:])
        elif line.startswith(CALLS):
            while not lines[at].startswith("= "):
                at += 1
            at += 1
            yield command_item(first + start, tuple(fails + lines[start:at]), line[1:])
            fails = []
        elif line.startswith("~ "):
            at += 1
            source, name = line[2:].split(" ", 2)[:2]
            yield Item(first + start, (line,), name, makes=name, names=(source,))
        else:
            fails += [line] if line.startswith("! ") else []
            at += 1


def command_item(line: int, lines: Tuple[str, ...], words: str) -> Item:
    """The item of a command: these words, which may end in `> NAME`."""
    asked, _, target = words.partition(" > ")
    return Item(line, lines, asked, is_command=True, makes=target, names=tuple(asked.split(" ")[1:]))


def read_sections(text: str) -> List[Section]:
    """The sections of a transcript, each with what it needs of those before it. What stands before the first heading is a remark."""
    lines = text.split("\n")
    heads = [n for n in outside_items(lines) if lines[n].startswith("# ")]
    sections: List[Section] = []
    before: List[Item] = []
    for head, end in zip(heads, heads[1:] + [len(lines)]):
        section = Section(lines[head][2:], head + 1, list(read_items(lines[head + 1 : end], head + 2)))
        section.needed = needed_items(section.items, before)
        sections.append(section)
        before += section.items
    return sections


def outside_items(lines: List[str]) -> Iterator[int]:
    """The numbers, from 0, of the lines that belong to no file and to no reply."""
    closing: Optional[str] = None
    for number, line in enumerate(lines):
        if closing is not None:
            closing = None if line == "---" and closing == "---" or line.startswith(closing) and closing == "= " else closing
        elif line.startswith("--- "):
            closing = "---"
        elif line.startswith(CALLS):
            closing = "= "
        else:
            yield number


def needed_items(items: List[Item], before: List[Item]) -> List[Item]:
    """What of the items before these ones makes the files that they read and don't make themselves, in order."""
    last: Dict[str, int] = {item.makes: n for n, item in enumerate(before) if item.makes}
    needed = set()
    made = set()
    for item in items:
        left = [last[name] for name in item.names if name not in made and name in last]
        made.add(item.makes)
        while left:
            number = left.pop()
            if number not in needed:
                needed.add(number)
                left += makers(before, number)
    return [before[n] for n in sorted(needed)]


def makers(before: List[Item], number: int) -> List[int]:
    """The numbers of the items that make what an item reads, as it is there."""
    found = []
    for name in before[number].names:
        found += [n for n in range(number) if before[n].makes == name][-1:]
    return found


def expand(lines: Tuple[str, ...]) -> List[str]:
    """The lines of a reply as they are written: `* COUNT PIECE` is the piece so many times, and `| LINE` the line."""
    text = ""
    for line in lines:
        if line.startswith("* "):
            count, piece = line[2:].split(" ", 1)
            text += "".join(piece.replace("#", str(turn)) for turn in range(int(count))).replace("\\n", "\n")
        else:
            text += (line[2:] if line.startswith("| ") else line) + "\n"
    return text.split("\n")[:-1]


# ---- what the program writes


def read_differences(section: Section, output: List[str]) -> List[Difference]:
    """The commands whose replies are others, of what `vaultc_tests` writes for a section."""
    commands = section.commands()
    heads = []
    for number, line in enumerate(output):
        met = REPLY.fullmatch(line)
        after = heads[-1][1] if heads else 0
        if met and after < int(met.group(1)) <= len(commands) and commands[int(met.group(1)) - 1].title == met.group(2):
            heads.append((number, int(met.group(1))))
    ends = [number for number, _ in heads[1:]] + [len(output) - 1]
    return [Difference(commands[count - 1], output[number + 1 : end]) for (number, count), end in zip(heads, ends)]


def transcripts_file(top: Path) -> Path:
    """The file of the transcripts."""
    return top / "crates" / "vaultc_tests" / "stdin"


def load_sections(top: Path) -> List[Section]:
    """The sections of the repository's transcripts. Line ends stay as they are: some texts have carriage returns."""
    return read_sections(transcripts_file(top).read_bytes().decode("utf-8"))


# ---- carrying them out

SECONDS: Dict[str, float] = {
    "C texts": 8,
    "Certificates that are refused": 38,
    "Generated programs": 4,
    "Hostile use": 5,
    "Interfaces and modules": 60,
    "Runs for hosts": 48,
}
"""How long sections take a processor of 2.5 GHz on a program without proofs, about, if that is more than some seconds."""

LATE = ("Limits", "Large texts", "Faults far inside", "Large and deep C texts", "Large and deep certificates")
"""Sections with texts of up to a megabyte, or long searches: each takes minutes without proofs."""


def check_section(section: Section, program: Program) -> str:
    """The first command of a section whose reply is another, as `vaultc_tests` finds it."""
    answer = program.ask([], input=section.text().encode("utf-8"))
    lines = answer.output.split("\n")[:-1]
    place = f"crates/vaultc_tests/stdin:{section.line}: # {section.title}"
    for difference in read_differences(section, lines):
        item = difference.item
        return first_difference(f"crates/vaultc_tests/stdin:{item.line}: ${item.title}", item.expected(), difference.found)
    expected = [f"{len(section.commands())} commands", "status 0"]
    return first_difference(place, expected, lines[-1:] + [f"status {answer.status}"])


def section_parts(top: Path, everything: bool) -> List[Part]:
    """A part for each section. Those that take minutes without proofs are skipped unless everything is asked for."""
    parts = []
    for section in load_sections(top):
        is_late = section.title in LATE
        seconds = 300.0 if is_late else SECONDS.get(section.title, 1.0)
        skipped = "takes minutes without proofs: run with --all" if is_late and not everything else ""
        parts.append(Part(f"transcripts: {section.title}", partial(check_section, section), "vaultc_tests", seconds, skipped))
    return parts

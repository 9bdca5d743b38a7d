"""Programs that are damaged by chance: one to three lines of accepted ones are taken out, doubled, or exchanged with the next."""
from __future__ import annotations

import random
from collections import Counter
from concurrent.futures import ThreadPoolExecutor
from dataclasses import dataclass
from pathlib import Path
from typing import Iterator, List, Optional, Sequence, Tuple

from vault.ask import Asker
from vault.edits import apply
from vault.judge import Wishes, jobs, pictures_of
from vault.paths import TOP
from vault.picture import Cure, Picture, View
from vault.report import KeyFault, Report
from vault.source import Source

PLACES = (
    "examples/*.v", "examples/tutorial/*.v", "examples/hosts/*.v", "examples/drivers/*/*.v", "bench/cases/*/right.v",
    "tools/vault/tests/drivers/*.v", "tools/vault/tests/lib/*.v",
)  # fmt: skip
WAYS = ("taken out", "doubled", "exchanged")
# how far a program got with a text, by its status: no text, names and types, keys, all of it
RANKS = {6: 0, 5: 0, 7: 1, 8: 2, 0: 3}


@dataclass(frozen=True)
class Damaged:
    """A damaged program: the file that it was, how it was damaged, and its text."""

    file: str
    way: str
    lines: int
    before: str
    text: str


@dataclass(frozen=True)
class Outcome:
    """What is shown of a damaged program: its first error, the changes that are offered, and whether one gives back what it was. `wrong` is
    what is wrong with a change that is offered."""

    damaged: Damaged
    picture: Picture
    cures: List[Cure]
    is_back: bool
    wrong: str = ""


def program_files(most_lines: int) -> List[Path]:
    """The programs of the repository that aren't longer; some are modules, and are refused by themselves."""
    files = sorted(file for place in PLACES for file in TOP.glob(place))
    return [file for file in files if file.read_bytes().count(b"\n") <= most_lines]


def code_lines(lines: Sequence[str]) -> List[int]:
    """The lines that have a token."""
    return [number for number, line in enumerate(lines) if line.strip() and not line.strip().startswith("//")]


def damage(text: str, way: str, count: int, chance: random.Random) -> str:
    lines = text.split("\n")
    for number in sorted(chance.sample(code_lines(lines), min(count, len(code_lines(lines)))), reverse=True):
        if way == "taken out":
            del lines[number]
        elif way == "doubled":
            lines.insert(number, lines[number])
        elif number + 1 < len(lines):
            lines[number], lines[number + 1] = lines[number + 1], lines[number]
    return "\n".join(lines)


def damaged_programs(asker: Asker, seed: int, most_lines: int) -> Iterator[Damaged]:
    """Damaged programs without end; those that are still accepted are among them."""
    chance = random.Random(seed)
    files = program_files(most_lines)
    with ThreadPoolExecutor(jobs()) as pool:
        accepted = list(pool.map(lambda file: asker.vaultc.ask(["check", str(file)]).status == 0, files))
    files = [file for file, is_accepted in zip(files, accepted) if is_accepted]
    while True:
        file, way, count = chance.choice(files), chance.choice(WAYS), chance.randint(1, 3)
        before = file.read_text(encoding="utf-8")
        text = damage(before, way, count, chance)
        if text != before:
            yield Damaged(str(file.relative_to(TOP)), way, count, before, text)


def lines_of(text: str) -> List[str]:
    return [line.strip() for line in text.split("\n") if line.strip()]


def outcome(asker: Asker, one: Damaged) -> Optional[Outcome]:
    """What is shown of a damaged program; None if it is accepted."""
    data = one.text.encode("utf-8")
    reply = asker.faults("damaged.v", data)
    if reply.status == 0:
        return None
    pictures = pictures_of(View(Source("damaged.v", data)), reply, asker, Wishes(repairs=True), data)
    cures = list(pictures[0].changes())
    texts = [apply(one.text, cure.edits) for cure in cures]
    is_back = any(lines_of(text) == lines_of(one.before) for text in texts)
    wrong = next((said for said in (wrong_with(asker, reply.reports, reply.status, text) for text in texts) if said), "")
    return Outcome(one, pictures[0], cures, is_back, wrong)


def wrong_with(asker: Asker, before: Sequence[Report], status: int, text: str) -> str:
    """What is wrong with a changed text: the error is still there, or the program gets less far, or there are more errors on keys."""
    after = asker.faults("damaged.v", text.encode("utf-8"))
    if RANKS.get(after.status, -1) < RANKS[status]:
        return f"status {after.status} after {status}"
    faults = [one for one in after.reports if isinstance(one, KeyFault)]
    if status == 8 and asker.vaultq and len(faults) >= len(before):
        return f"{len(faults)} errors after {len(before)}"
    same = after.reports and after.reports[0].line == before[0].line and text.count("\n") == 0
    return f"still {before[0].line}" if same else ""


def outcomes(asker: Asker, seed: int, count: int, most_lines: int) -> List[Outcome]:
    """What is shown of so many refused programs."""
    found: List[Outcome] = []
    damaged = damaged_programs(asker, seed, most_lines)
    with ThreadPoolExecutor(jobs()) as pool:
        while len(found) < count:
            some = [next(damaged) for _ in range(min(count - len(found), 4 * jobs()))]
            found += [one for one in pool.map(lambda it: outcome(asker, it), some) if one is not None]
    return found


def figures(found: Sequence[Outcome]) -> str:
    """How many get a change that cures them: all, by way, by number of lines, by kind of error."""
    every: Counter = Counter()
    cured: Counter = Counter()
    for one in found:
        kind = one.picture.rule.partition("-")[0]
        for what in ("all", one.damaged.way, f"{one.damaged.lines} lines", kind, f"{one.damaged.lines} lines {one.damaged.way}"):
            every[what] += 1
            cured[what] += bool(one.cures)
    back = sum(one.is_back for one in found)
    single = [one for one in found if one.damaged.lines == 1]
    words = [f"{what}: {cured[what]} of {every[what]}" for what in sorted(every)]
    words.append(f"back as it was: {back}, of those with one line {sum(one.is_back for one in single)} of {len(single)}")
    return "\n".join(words)


def rate(found: Sequence[Outcome]) -> Tuple[int, int]:
    return sum(bool(one.cures) for one in found), len(found)

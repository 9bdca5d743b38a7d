"""Judges files: asks the programs, and makes the pictures of what they report."""
from __future__ import annotations

import os
from typing import Callable, Iterator, List, Optional, Sequence, Tuple

from .ask import Asker, Reply
from .held import Table
from .key_cures import cures
from .key_faults import KeyStory
from .key_words import key_picture
from .picture import Picture, View, accepted
from .probes import Probes
from .records import dataclass, replace
from .report import Accepted, KeyFault, Limit, Report, RuleFault, TextFault
from .since import Knowledge
from .source import Source, is_regular
from .texts import limit_picture, other_picture, text_picture, token_picture
from .trying import Trial


@dataclass(frozen=True)
class Judged:
    """What came of a file: the status that `vaultc check` gives it, the pictures, and how many functions it has if it is accepted."""

    source: Source
    status: int
    pictures: List[Picture]
    functions: Optional[int] = None


@dataclass(frozen=True)
class Wishes:
    """How much is asked: only the first fault; warnings too; cures, which are tried one by one; other changes of the text that would do, if
    no cure changes it."""

    first: bool = False
    lint: bool = False
    cures: bool = True
    repairs: bool = False


def jobs() -> int:
    """How many programs run at one time: as many as processors may be used."""
    try:
        return len(os.sched_getaffinity(0))
    except AttributeError:
        return os.cpu_count() or 1


def counted(number: int, what: str) -> str:
    return f"{number} {what}" if number == 1 else f"{number} {what}s"


def accepted_words(source: Source, report: Accepted) -> Picture:
    return accepted(source, report, f"no errors in {counted(report.count, 'function')}")


def fault_picture(view: View, fault: KeyFault, tables: Optional[List[Table]], asker: Optional[Asker], trial: Optional[Trial]) -> Picture:
    """The picture of a fault on keys, with its cures if they are tried."""
    name = view.source.name

    def probing(story: KeyStory) -> Knowledge:
        return Probes(story, lambda text: asker.places(name, text)).of

    story = KeyStory(view, fault, tables, probing if asker and not tables else None)
    picture = key_picture(story)
    return replace(picture, cures=cures(story, trial)) if trial else picture


def picture_of(
    view: View,
    report: Report,
    status: int,
    tables: Optional[List[Table]] = None,
    asker: Optional[Asker] = None,
    trial: Optional[Trial] = None,
) -> Picture:
    """The picture of one report on a text. Changes of the text that it offers were tried; without a trial it offers none."""
    if isinstance(report, KeyFault) and view.declarations:
        return fault_picture(view, report, tables, asker, trial)
    found = other_picture_of(view, report, status, asker)
    if trial:
        return replace(found, cures=trial.with_words(report, found.cures))
    return replace(found, cures=tuple(replace(cure, edits=()) for cure in found.cures))


def other_picture_of(view: View, report: Report, status: int, asker: Optional[Asker]) -> Picture:
    """The picture of a report that isn't on keys, with changes that weren't tried."""
    name = view.source.name
    asked = (lambda text: asker.first(name, text).reports) if asker else None
    if isinstance(report, RuleFault):
        from .kinds import kind_picture

        return kind_picture(view, report)
    if isinstance(report, TextFault):
        if asked is None or report.what not in ("token", "end"):
            return text_picture(view, report)
        return token_picture(view, report, asked, jobs())
    if isinstance(report, Limit):
        return limit_picture(view, report, asked)
    if isinstance(report, Accepted):
        return accepted_words(view.source, report)
    return other_picture(view, report, status)


def pictures_of(view: View, reply: Reply, asker: Asker, wishes: Wishes, text: Optional[bytes] = None) -> List[Picture]:
    """The pictures of a reply on a text."""
    reports = reply.reports[:1] if wishes.first else reply.reports
    has_faults = any(isinstance(one, KeyFault) for one in reports)
    is_program = has_faults or any(isinstance(one, Accepted) for one in reports)
    tables = asker.tables(view.source.name, text) if has_faults or wishes.lint and is_program else None
    trial = Trial(view, reply.reports, lambda changed: asker.places(view.source.name, changed), jobs()) if wishes.cures else None
    found = [picture_of(view, report, reply.status, tables, asker, trial) for report in reports]
    if wishes.repairs and trial:
        from .repairs import repairs

        found = [replace(one, repairs=repairs(trial, report, one)) for one, report in zip(found, reports)]
    if wishes.lint:
        from .lint import lint

        found += lint(view, tables)
    return found or [other_picture(view, Report(""), reply.status)]


def judge(name: str, asker: Asker, wishes: Wishes) -> Judged:
    """Judges a file. One that can be read only once, as a pipe, is read here and then handed to the programs."""
    source = Source.read(name)
    text = None if is_regular(name) else source.data
    reply = asker.faults(name, text if text else None)
    count = next((one.count for one in reply.reports if isinstance(one, Accepted)), None)
    return Judged(source, reply.status, pictures_of(View(source), reply, asker, wishes, text), count)


def judge_text(source: Source, asker: Asker, wishes: Wishes) -> Judged:
    """Judges a text that need not be that of its file."""
    # what is asked may not be empty: a blank says nothing more
    data = source.data or b"\n"
    reply = asker.faults(source.name, data)
    count = next((one.count for one in reply.reports if isinstance(one, Accepted)), None)
    return Judged(source, reply.status, pictures_of(View(source), reply, asker, wishes, data), count)


def judge_all(names: Sequence[str], one: Callable[[str], Judged], jobs: int) -> Iterator[Tuple[int, Judged]]:
    """Judges files, as many at a time as `jobs` says; they come in their order, each with its number from 1."""
    if len(names) == 1:
        yield 1, one(names[0])
        return
    from concurrent.futures import ThreadPoolExecutor

    with ThreadPoolExecutor(max(jobs, 1)) as pool:
        yield from enumerate(pool.map(one, names), 1)

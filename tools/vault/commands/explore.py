"""Explores a driver: all orders in which a host may call its functions, for ends that no rule on keys excludes.

usage: vault explore F [--calls N] [--lists N] [--objects N] [--numbers N,N..] [--to FOLDER]
       vault explore --interface I F .. [the same]

Breadth first over what a host can hold: each permitted call, with numbers of the text and their neighbours, and answers that keep the clauses. Tells each distinct
end (a trap, a spent budget, an input that ends) at a distinct place, with the shortest list of calls that leads there, and what was never called or reached. Each
list is asked of `vaultc host` before it is told, so nothing that is told is false; what isn't told may still happen, unless the first line says `all`, and then
for these numbers alone. --to writes each list as files for `vault host`; with an interface also the text that it is asked of. The status is 9 if something was found, 0 if not, and that of `vaultc check` if F is refused."""
from __future__ import annotations

import argparse
import sys
from pathlib import Path
from typing import List, Optional

from .. import programs
from ..cli import Parser
from ..errors import Problem
from ..explore.choices import numbers_of
from ..explore.search import Explored, Found, Limits, Search, jobs
from ..modules import join
from ..picture import View
from ..source import Source

FOUND = 9
FUEL = "2000"
"""The fuel of a run: what takes more is told as `budget fuel`."""


def configure(parser: Parser) -> None:
    """The driver, and how far the search goes."""
    parser.add_argument("files", metavar="F", nargs="+", help="the driver; with an interface its modules")
    parser.add_argument("--interface", metavar="I", help="the interface beside which the files are modules")
    parser.add_argument("--calls", type=int, default=6, metavar="N", help="the most calls in a list; 6 unless it is told")
    parser.add_argument("--lists", type=int, default=5000, metavar="N", help="the most lists that are run; 5000 unless it is told")
    parser.add_argument("--objects", type=int, default=2, metavar="N", help="the most objects that a host holds at one time; 2 unless it is told")
    parser.add_argument("--numbers", metavar="N,N..", help="the numbers that are tried; otherwise six of the text and its neighbours")
    parser.add_argument("--to", metavar="FOLDER", help="where the lists are written")


def run(options: argparse.Namespace) -> int:
    """Explores, and tells what was found."""
    program = programs.take("vaultc")
    refused = refusal(program, options)
    if refused is not None:
        sys.stdout.write(refused.output)
        return refused.status
    view = view_of(options)
    if view is None or view.declarations is None:
        raise Problem(f"{options.files[0]}: its declarations can't be read")
    search = Search(program, view, view.declarations, limits(options, view.source.text))
    try:
        state = search.explore(jobs(), Progress().show)
    except KeyboardInterrupt:
        state = search.state
        state.is_cut = True
    Progress.clear()
    found = list(state.found.values())
    for line in report(state, found, search):
        sys.stdout.write(f"{line}\n")
    search.close()
    if options.to:
        write_lists(Path(options.to), found, view.source if options.interface else None)
    return FOUND if found else 0


def refusal(program: programs.Program, options: argparse.Namespace) -> Optional[programs.Answer]:
    """What the program says of the first file that it doesn't accept; None if there is none."""
    if options.interface is None and len(options.files) > 1:
        raise Problem("explore: several files are modules, and need --interface")
    beside = ["check"] if options.interface is None else ["module", options.interface]
    answers = (program.ask([*beside, file]) for file in options.files)
    return next((answer for answer in answers if answer.status != 0), None)


def view_of(options: argparse.Namespace) -> Optional[View]:
    """The text that is explored."""
    sources = [Source.read(file) for file in options.files]
    return View(sources[0]) if options.interface is None else join(Source.read(options.interface), *sources)


def limits(options: argparse.Namespace, text: str) -> Limits:
    """How far the search goes."""
    try:
        told = [int(word) for word in options.numbers.split(",")] if options.numbers else numbers_of(text, 6)
    except ValueError:
        raise Problem(f"explore: --numbers {options.numbers}: numbers with commas between them are expected")
    return Limits(options.calls, options.lists, options.objects, told, ("--fuel", FUEL))


def report(state: Explored, found: List[Found], search: Search) -> List[str]:
    """The lines of what came of the search."""
    lines = [f"explored {state.lists} lists, {len(state.worlds)} worlds, {state.deepest} calls deep, {'cut' if state.is_cut else 'all'}"]
    for it in found:
        lines.append(f"found {it.end} at {it.function} {it.place}")
        lines += [f"    {call}" for call in it.calls]
        lines += [f"    answer {answer}".rstrip() for answer in it.answers]
    lines += [f"never called {name}" for name in search.never_called()]
    lines += [f"never reached {where}" for where in search.never_reached()]
    return lines


def write_lists(folder: Path, found: List[Found], joined: Optional[Source]) -> None:
    """Writes each list as a calls file and an answers file, and the text that modules are joined to."""
    try:
        folder.mkdir(parents=True, exist_ok=True)
        if joined is not None:
            (folder / "joined.v").write_bytes(joined.data)
        for number, it in enumerate(found, 1):
            (folder / f"{number}.calls").write_text("".join(f"{call}\n" for call in it.calls), encoding="utf-8")
            (folder / f"{number}.answers").write_text("".join(f"{answer}\n" for answer in it.answers), encoding="utf-8")
    except OSError as error:
        raise Problem(f"{error.filename}: {error.strerror}", 3)


class Progress:
    """A line on terminals that tells how far the search is."""

    def show(self, state: Explored) -> None:
        if sys.stderr.isatty():
            sys.stderr.write(f"\r{state.lists} lists, {len(state.worlds)} worlds, {state.deepest} calls deep, {len(state.found)} found")
            sys.stderr.flush()

    @staticmethod
    def clear() -> None:
        if sys.stderr.isatty():
            sys.stderr.write("\r\x1b[K")

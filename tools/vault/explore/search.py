"""Breadth first over worlds: each permitted call on what the host holds, with each answer that keeps the clauses; equal worlds once.

A world is what the host holds: each object's type, state and fields, whatever their numbers. Objects with fields that no number shows are told apart by the calls that led to
them, so nothing that differs is taken for equal."""
from __future__ import annotations

import itertools
import os
import re
import tempfile
from collections import deque
from concurrent.futures import ThreadPoolExecutor
from pathlib import Path
from typing import Callable, Deque, Dict, Iterator, List, Optional, Sequence, Set, Tuple

from .. import syntax as s
from ..declarations import Declarations
from ..modules import JoinedView
from ..picture import View
from ..programs import Program
from ..records import dataclass, field
from .asking import Asking, Lines
from .choices import Held, after_call, answers, calls, entry_functions
from .marks import Marked, mark

ANSWERS_ENDED = "answers ended"
ENDS = re.compile(r"trap \d+|budget (fuel|heap|depth)|input ended")
REFUSED = re.compile(r"call (\d+) bad")

AT_ONCE = 16
"""How many lists one shell asks about, at most."""


@dataclass(frozen=True)
class Limits:
    """How far the search goes: calls in a list, lists in all, objects held at one time, and the numbers that are tried."""

    calls: int
    lists: int
    objects: int
    numbers: Sequence[int]
    options: Tuple[str, ...] = ()


@dataclass(frozen=True)
class Found:
    """An end that no rule excludes: its line, the function and place where it came, and the calls and answers that lead there."""

    end: str
    function: str
    place: str
    calls: Lines
    answers: Lines


@dataclass
class Explored:
    """What the search has come to: how many lists it ran, the longest one's calls, worlds by what tells them apart, ends, functions that were called, and the
    marks that were reached. `made` counts the calls of all runs. It is cut if a limit was met before all was tried."""

    lists: int = 0
    made: int = 0
    deepest: int = 0
    worlds: Set[object] = field(default_factory=set)
    found: Dict[Tuple[str, str], Found] = field(default_factory=dict)
    called: Set[str] = field(default_factory=set)
    reached: Set[int] = field(default_factory=set)
    is_cut: bool = False


@dataclass(frozen=True)
class Trial:
    """A list that is to be run, with what the host holds before its last call, and the largest number that it knows of an object."""

    calls: Lines
    answers: Lines
    held: Tuple[Held, ...]
    newest: int


@dataclass(frozen=True)
class Outcome:
    """A run of a list: its last line, the marks in their order, what is held, the fields' values, the last external that was called, and how many calls
    it took to find this out."""

    trial: Trial
    end: str
    marks: Tuple[int, ...]
    held: Tuple[Held, ...]
    newest: int
    values: Lines
    external: str
    made: int


class Search:
    """The search over one driver, which may be of several files."""

    def __init__(self, program: Program, view: View, declarations: Declarations, limits: Limits) -> None:
        self.view = view
        self.declarations = declarations
        self.limits = limits
        self.marked: Marked = mark(view.source, declarations)
        self.state = Explored()
        self.folder = tempfile.TemporaryDirectory(prefix="vault-explore-")
        self.asking = Asking(program, Path(self.folder.name), limits.options)
        self.own, self.text = (Path(self.folder.name) / name for name in ("own.v", "marked.v"))
        self.own.write_bytes(view.source.data)
        self.text.write_bytes(self.marked.text.encode("utf-8", "surrogateescape"))

    def close(self) -> None:
        """Removes the files of the search."""
        self.folder.cleanup()

    # ---- lists

    def run(self, trials: Sequence[Trial]) -> List[Outcome]:
        """Runs lists, and looks at the worlds that they lead to. What should be held is shown in the same run, behind the list; if what is held is another
        thing, it is shown in a run of its own."""
        shows = [self.shows(after_call(self.declarations, it.held, it.calls[-1], it.newest + 1)) for it in trials]
        told = self.asking.answers(self.text, [(it.calls + show, it.answers) for it, show in zip(trials, shows)])
        return [self.seen(trial, show, lines) for trial, show, lines in zip(trials, shows, told)]

    def seen(self, trial: Trial, shows: Lines, lines: List[str]) -> Outcome:
        """The outcome of a list that was run with these calls behind it. It is run again if these don't show what is held."""
        found = self.outcome(trial, lines)
        if found is None:
            found, shows = self.outcome(trial, self.ask(self.text, trial.calls, trial.answers)), ()
            assert found is not None
        wanted = self.shows(found.held)
        if found.end.startswith("held") and wanted != shows:
            found = self.outcome(trial, self.ask(self.text, trial.calls + wanted, trial.answers))
            assert found is not None
        return found

    def ask(self, text: Path, listed: Lines, given: Lines) -> List[str]:
        """What `vaultc host` writes of a list."""
        return self.asking.answers(text, [(listed, given)])[0]

    def shows(self, held: Optional[Sequence[Held]]) -> Lines:
        """The calls that show the fields of what is held; none if it isn't known, or if fields don't tell the worlds apart. A field that isn't permitted in
        an object's state is passed over."""
        if held is None or self.is_opaque(held):
            return ()
        shown = self.marked.shown
        return tuple(
            f"{one.function} #{it.number}" for it in held for one in shown if one.type == it.type and (not one.states or it.state in one.states)
        )

    def outcome(self, trial: Trial, lines: List[str]) -> Optional[Outcome]:
        """What the lines of a run say of a list; None if it came to an end in calls that stand behind the list."""
        begun = [number for number, line in enumerate(lines) if line.startswith("!")]
        own = lines[: begun[len(trial.calls)]] if len(begun) > len(trial.calls) else lines
        end = lines[-1] if lines else ""
        refused = REFUSED.fullmatch(end)
        if len(begun) > len(trial.calls) and not end.startswith("held") or refused and int(refused.group(1)) > len(trial.calls):
            return None
        held = self.held(own, end) if end.startswith("held") else ()
        marks = tuple(number for number in map(self.marked.mark_of, own) if number is not None)
        events = [line[1:].split()[0] for line in own if line.startswith("@")]
        newest = max([trial.newest, *(int(line[3:]) for line in own if line.startswith("= #"))])
        values = tuple(line for line in lines[len(own) :] if line.startswith("= "))
        return Outcome(trial, end, marks, held, newest, values, events[-1] if events else "", len(begun))

    def held(self, lines: List[str], end: str) -> Tuple[Held, ...]:
        """What the host holds, as the last line of a run says. An object's type is that of the function that gave it."""
        types: Dict[int, str] = {}
        function = ""
        for line in lines:
            if line.startswith("!"):
                function = line[1:].split()[0]
            elif line.startswith("= #"):
                found = self.declarations.find(function, s.Function)
                types[int(line[3:])] = found.result.name if found else ""
        split = [word[1:].partition("@") for word in end.split()[1:]]
        return tuple(Held(int(number), types.get(int(number), ""), state) for number, _, state in split)

    # ---- the search

    def is_opaque(self, held: Sequence[Held]) -> bool:
        """Whether something is held whose fields aren't all shown."""
        return any(it.type in self.marked.opaque for it in held)

    def world(self, outcome: Outcome) -> object:
        """The world of an outcome, the same for equal worlds."""
        if self.is_opaque(outcome.held):
            return (outcome.trial.calls, outcome.trial.answers)
        values = iter(outcome.values)
        return tuple(sorted((it.type, it.state, *itertools.islice(values, len(self.shows([it])))) for it in outcome.held))

    def explore(self, jobs: int, progress: Callable[[Explored], None]) -> Explored:
        """Searches until all is tried or a limit is met."""
        self.state.worlds.add(())
        front = [Trial((), (), (), 0)]
        with ThreadPoolExecutor(max(jobs, 1)) as pool:
            while front and not self.state.is_cut:
                todo = deque(Trial(it.calls + (call,), it.answers, it.held, it.newest) for it in front for call in self.next_calls(it.held))
                if todo and len(todo[0].calls) > self.limits.calls:
                    self.state.is_cut = True
                    break
                front = []
                while todo and not self.is_spent():
                    for outcomes in pool.map(self.run, self.batches(todo, jobs)):
                        for outcome in outcomes:
                            todo.extend(self.take(outcome, front))
                    progress(self.state)
                self.state.is_cut = self.state.is_cut or bool(todo)
        return self.state

    def batches(self, todo: Deque[Trial], jobs: int) -> List[List[Trial]]:
        """The lists that are run next, taken from those that are to be run."""
        count = min(len(todo), AT_ONCE * max(jobs, 1), self.limits.lists - self.state.lists)
        size = -(-count // max(jobs, 1))
        return [[todo.popleft() for _ in range(min(size, count - first))] for first in range(0, count, size)]

    def next_calls(self, held: Sequence[Held]) -> Iterator[str]:
        return calls(self.declarations, held, self.limits.numbers, self.limits.objects)

    def is_spent(self) -> bool:
        return self.state.lists >= self.limits.lists

    def take(self, outcome: Outcome, front: List[Trial]) -> List[Trial]:
        """Notes an outcome; the lists that it leads to with one answer more."""
        state, trial = self.state, outcome.trial
        state.lists += 1
        state.made += outcome.made
        state.deepest = max(state.deepest, len(trial.calls))
        state.reached.update(outcome.marks)
        if outcome.end == ANSWERS_ENDED:
            external = self.declarations.find(outcome.external, s.Function)
            more = answers(self.declarations, external, self.limits.numbers) if external else []
            return [Trial(trial.calls, trial.answers + (answer,), trial.held, trial.newest) for answer in more]
        state.called.add(trial.calls[-1].split()[0])
        if outcome.end.startswith("held"):
            world = self.world(outcome)
            if world not in state.worlds:
                state.worlds.add(world)
                front.append(Trial(trial.calls, trial.answers, outcome.held, outcome.newest))
        elif ENDS.fullmatch(outcome.end) and outcome.marks:
            self.note(outcome)
        return []

    def note(self, outcome: Outcome) -> None:
        """Keeps the first list that ends so at a place, once the driver itself has been asked."""
        function, statement = self.marked.statements[outcome.marks[-1]]
        where = self.place(statement)
        key = (outcome.end, where)
        if key in self.state.found:
            return
        lines = self.ask(self.own, outcome.trial.calls, outcome.trial.answers)
        if lines and lines[-1] == outcome.end:
            self.state.found[key] = Found(outcome.end, function.name.text, where, outcome.trial.calls, outcome.trial.answers)

    def place(self, statement: s.Statement) -> str:
        """Where a statement stands; in which file, if there are several."""
        file, at = self.view.origin(statement.span.start)
        return f"{file.place(at)}" + (f" in {file.name}" if isinstance(self.view, JoinedView) else "")

    # ---- what wasn't tried

    def never_called(self) -> List[str]:
        """The functions that no list called to their end."""
        return [it.name.text for it in entry_functions(self.declarations) if it.name.text not in self.state.called]

    def never_reached(self) -> List[str]:
        """The statements of functions that were called which no run came to."""
        return [
            self.place(statement)
            for number, (function, statement) in enumerate(self.marked.statements)
            if number not in self.state.reached and function.name.text in self.state.called
        ]


def jobs() -> int:
    """How many programs run at one time."""
    return len(os.sched_getaffinity(0))


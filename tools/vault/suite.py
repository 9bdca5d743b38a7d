"""Parts of a test run: each by itself, several at a time, with a line for each and the first difference of those that fail."""

from __future__ import annotations

import difflib
import sys
import time
import traceback
from concurrent.futures import FIRST_COMPLETED, Future, ThreadPoolExecutor, wait
from enum import Enum
from typing import Callable, Dict, Iterable, List, Optional, Sequence, TextIO

from .programs import Program
from .records import dataclass, replace

WIDTH = 160
"""How many columns of a line a difference shows."""

CONTEXT = 2
"""How many equal lines stand before and after the first difference."""

LONGEST = 14
"""How many lines of a difference are shown."""


class Skipped(Exception):
    """A part can't be run here; the message says why."""


class State(Enum):
    PASSED = "passed"
    FAILED = "FAILED"
    SKIPPED = "skipped"


@dataclass(frozen=True)
class Part:
    """A part of the tests.

    `work` gives the first difference as a text, which is empty if all is well; it raises `Skipped` if it can't be run here. It is
    given the program that the part asks for.
    """

    title: str
    work: Callable[[Optional[Program]], str]
    program: str = ""
    """The name of the program that it asks; empty if it asks none."""
    seconds: float = 1.0
    """How long it takes one processor, about. The longest parts begin first."""
    skipped: str = ""
    """Why it isn't run unless it is asked for; empty if it is."""

    def topic(self) -> str:
        """Its title without the group before the colon."""
        return self.title.partition(": ")[2]

    def group(self) -> str:
        """What stands before the colon of its title."""
        return self.title.partition(": ")[0]

    def unskipped(self) -> Part:
        """The same part, to be run."""
        return replace(self, skipped="")


@dataclass(frozen=True)
class Outcome:
    """How a part ended, after how many seconds."""

    part: Part
    state: State
    seconds: float
    detail: str

    def line(self) -> str:
        reason = f": {self.detail}" if self.state is State.SKIPPED else ""
        spent = "" if self.state is State.SKIPPED else f"{self.seconds:.1f} s"
        return f"{self.state.value:7} {spent:>8}  {self.part.title}{reason}"


def carry_out(part: Part, program: Optional[Program]) -> Outcome:
    """Runs one part. What goes wrong in it is its failure, never the end of the run."""
    began = time.monotonic()
    try:
        detail = part.work(program)
        state = State.FAILED if detail else State.PASSED
    except Skipped as reason:
        detail, state = str(reason), State.SKIPPED
    except Exception:  # a part that raises has failed, and the others go on
        detail, state = traceback.format_exc().rstrip(), State.FAILED
    return Outcome(part, state, time.monotonic() - began, detail)


def run_parts(parts: Sequence[Part], programs: Dict[str, Program], jobs: int, out: TextIO) -> bool:
    """Runs the parts over the programs that they ask for, as many at a time as `jobs`, and writes a line for each once it has ended;
    whether none failed."""
    outcomes = [Outcome(part, State.SKIPPED, 0.0, part.skipped) for part in parts if part.skipped]
    for outcome in outcomes:
        write(outcome, out)
    left = sorted((part for part in parts if not part.skipped), key=lambda part: -part.seconds)
    with ThreadPoolExecutor(max_workers=jobs) as pool:
        running: Dict[Future, Part] = {pool.submit(carry_out, part, programs.get(part.program)): part for part in left}
        try:
            for outcome in finished(running, out):
                outcomes.append(outcome)
                write(outcome, out)
        except BaseException:
            for future in running:
                future.cancel()
            raise
    passed, failed = (sum(outcome.state is state for outcome in outcomes) for state in (State.PASSED, State.FAILED))
    print(f"{passed} passed, {failed} failed", file=out, flush=True)
    return failed == 0


def finished(running: Dict[Future, Part], out: TextIO) -> Iterable[Outcome]:
    """The outcomes as they come, with a line on a terminal that says how many are left."""
    left = set(running)
    while left:
        done, left = wait(left, timeout=1, return_when=FIRST_COMPLETED)
        if out.isatty():
            print(f"\r\033[K{len(left)} of {len(running)} parts left", end="", file=sys.stderr, flush=True)
        if done and out.isatty():
            print("\r\033[K", end="", file=sys.stderr, flush=True)
        for future in done:
            yield future.result()


def write(outcome: Outcome, out: TextIO) -> None:
    """The line of a part, and below it what is wrong."""
    print(outcome.line(), file=out)
    if outcome.state is State.FAILED:
        for line in outcome.detail.split("\n"):
            print("    " + line, file=out)
    out.flush()


# ---- differences


def first_difference(place: str, expected: List[str], found: List[str]) -> str:
    """The first lines in which two lists of lines differ, as a diff below their place; empty if they are the same."""
    if expected == found:
        return ""
    same = next((n for n, (one, other) in enumerate(zip(expected, found)) if one != other), min(len(expected), len(found)))
    start = max(0, same - CONTEXT)
    span = slice(start, start + LONGEST)
    lines = list(difflib.ndiff(expected[span], found[span]))
    lines = [shortened(line) for line in lines if not line.startswith("?")][:LONGEST]
    return "\n".join([place, f"  line {same + 1} differs (- is expected, + was written)", *("  " + line for line in lines)])


def shortened(line: str) -> str:
    """A line of a difference, cut if it is long."""
    return line if len(line) <= WIDTH else line[:WIDTH] + f".. ({len(line)} characters)"

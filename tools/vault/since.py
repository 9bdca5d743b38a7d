"""Where a status that a fault finds came about: the last point of the fault's path at which it changed."""
from __future__ import annotations

from typing import Callable, Optional, Sequence

from .held import Atoms
from .picture import View
from .records import dataclass
from .report import KeyFault, Path
from .syntax import Block, Statement
from .walk import Point, Walk, entered

# what may be found of the fault's key before the point at a character; None if that isn't known
Knowledge = Callable[[int], Optional[Atoms]]
# whether a statement may change the status of the fault's key
Touches = Callable[[Statement], bool]


@dataclass(frozen=True)
class Trace:
    """The points of a path, and the number of the point whose statement brought the status about; None if there is none."""

    points: Sequence[Point]
    since: Optional[int]

    @property
    def point(self) -> Optional[Point]:
        return None if self.since is None else self.points[self.since]


def is_refused(fault: KeyFault, atoms: Atoms, comes_with_key: bool) -> bool:
    """Whether something that may be found is what the fault is about; of paths that meet, on the one with the key or on the other."""
    if fault.is_join:
        return any(one.startswith(("held", "lent", "full")) for one in atoms) if comes_with_key else "absent" in atoms
    found, wanted = fault.found, fault.wanted
    if found.how in ("absent", "full") or found.how != wanted.how or not found.states:
        return any(one.partition("@")[0] == found.how for one in atoms)
    wrong = [state for state in found.states if state not in wanted.states]
    return any(f"{found.how}@{state}" in atoms for state in wrong)


def is_about_states(fault: KeyFault) -> bool:
    """Whether the fault finds the key held, but in another state."""
    return not fault.is_join and fault.wanted is not None and fault.found.how == fault.wanted.how


def trace(
    view: View,
    body: Block,
    fault: KeyFault,
    path: Path,
    knowledge: Optional[Knowledge],
    touches: Touches,
    comes_with_key: bool = True,
) -> Trace:
    """The points of a path, and where the status came about if that is known: at the last statement that touches the key and after
    which the status is there, and wasn't before or was another."""
    points = Walk(body, path, view.offset(fault.place), lambda choice: view.offset(choice.place)).run()
    if knowledge is None:
        return Trace(points, None)
    # the last point is the fault's own
    for number in range(len(points) - 2, -1, -1):
        leads_to = entered(points, number)
        if leads_to is None or not touches(points[number].statement):
            continue
        before, after = knowledge(points[number].offset), knowledge(leads_to)
        if before is None or after is None or not is_refused(fault, after, comes_with_key):
            continue
        if is_changed(fault, before, after):
            return Trace(points, number)
    return Trace(points, None)


def is_changed(fault: KeyFault, before: Atoms, after: Atoms) -> bool:
    """Whether a status has changed: with its states if the fault is about them."""
    if is_about_states(fault):
        return before != after
    return {one.partition("@")[0] for one in before} != {one.partition("@")[0] for one in after}

"""What is found of a key before a statement, asked without `vaultq keys`: by the call of an external, put in before the statement, whose
clause asks for the key to be absent, or held."""
from __future__ import annotations

from typing import Callable, Dict, Optional, Sequence

from . import syntax as s
from .ask import Reply
from .held import ABSENT, Atoms
from .key_faults import KeyStory
from .picture import View
from .records import dataclass
from .report import KeyFault, Status
from .scope import Variable, scope_at
from .source import Place
from .side_by_side import mapped

# what the program says of a text
Check = Callable[[bytes], Reply]
NAME = "vault_probe"


class Probes:
    """Answers what may be found of a fault's key at points of its function. Only what the program itself says is an answer."""

    def __init__(self, story: KeyStory, check: Check) -> None:
        self.story = story
        self.check = check
        self.text = story.view.source.text
        self.known: Dict[int, Optional[Atoms]] = {}
        self.name = unused_name(self.text)

    def of(self, offset: int) -> Optional[Atoms]:
        """What may be found before the statement or the closing brace at a character; None if that can't be asked."""
        if offset not in self.known:
            self.known[offset] = self.ask(offset)
        return self.known[offset]

    def ask(self, offset: int) -> Optional[Atoms]:
        if offset == self.story.offset and not self.story.fault.is_join:
            return status_atoms(self.story.fault.found)
        if offset == self.story.offset and self.story.statement is not None:
            return None
        scope = scope_at(self.story.declarations, offset)
        if scope is None:
            return None
        key = self.story.fault.key
        found = [scope.find(key)] if self.story.is_variable else scope.of_key(key)
        variable = next((one for one in found if one is not None and one.type is not None), None)
        if variable is None:
            is_known = any(one.type.key == key for one in self.story.function.parameters) or self.story.entry is not None
            return None if is_known else ABSENT
        kind = variable.type
        if kind.arguments or kind.form not in ("held", "owned"):
            return None
        if kind.form == "owned":
            is_empty = self.faulty(offset, f"{kind} one", "", variable.name.text)
            return ABSENT if is_empty is not None and is_empty.found.how == "absent" else frozenset(["full"])
        parameter = f"tracked(Z) {kind.name} one"
        held, gone = mapped(lambda clause: self.faulty(offset, parameter, clause, variable.name.text), ["[+Z]", "[Z]"], jobs=2)
        atoms = status_atoms(held.found) if held else frozenset()
        return atoms | (ABSENT if gone is not None and gone.found.how == "absent" else frozenset()) or ABSENT

    def faulty(self, offset: int, parameter: str, clause: str, variable: str) -> Optional[KeyFault]:
        """The fault of the key at a probe, if the program tells it: a first one of the key, or of the text."""
        call = f"{self.name}({variable}); "
        changed = f"{self.text[:offset]}{call}{self.text[offset:]}\nextern void {self.name}({parameter}) {clause};\n"
        reply = self.check(changed.encode("utf-8", "replace"))
        place, key = self.story.view.source.place(offset), self.story.fault.key
        found = (one for one in reply.reports if isinstance(one, KeyFault) and (one.place, one.key) == (place, key))
        return next(found, None)


def unused_name(text: str) -> str:
    """A name that begins none of a text."""
    name = NAME
    while name in text:
        name += "_"
    return name


@dataclass(frozen=True)
class Probe:
    """The call of an external of its own that asks for the key of a variable, or takes over what the variable owns."""

    external: str
    variable: Variable

    @property
    def call(self) -> str:
        return f"{self.external}({self.variable.name}); "

    @property
    def item(self) -> str:
        """The name under which what is found is told."""
        return self.variable.key or self.variable.name.text

    def head(self, clause: str) -> str:
        kind = self.variable.type
        parameter = f"tracked(Z) {kind.name} one" if kind.form == "held" else f"{kind} one"
        return f"extern void {self.external}({parameter}) {clause if kind.form == 'held' else ''};\n"


def held_before(view: View, check: Check, offset: int) -> Dict[str, Atoms]:
    """What is held before the statement at a character, asked by two questions: of the text with a call for each key that asks for it to
    be absent, and with one that asks for it to be held. A key of which the program tells a fault before is left out. If the function has an
    entry that is bound its instances may differ, so nothing is told."""
    scope = scope_at(view.declarations, offset) if view.declarations else None
    if scope is None or any(entry.mode == "bound" for entry in scope.function.entries):
        return {}
    name = unused_name(view.source.text)
    once = {one.key or one.name.text: one for one in scope.variables if is_probed(one)}
    probes = [Probe(f"{name}{number}", one) for number, one in enumerate(once.values())]
    held = faults_of(view, check, offset, [one for one in probes if one.variable.key], "[+Z]")
    gone = faults_of(view, check, offset, probes, "[Z]")
    owned = {one.item: frozenset(["full"]) for one in probes if not one.variable.key and one.item not in gone}
    lent = {item for item, status in gone.items() if status is not None and status.how == "lent"}
    certain = {item: status_atoms(status) for item, status in held.items() if status is not None and (item not in gone or item in lent)}
    return {**certain, **owned}


def is_probed(variable: Variable) -> bool:
    kind = variable.type
    return kind is not None and kind.form in ("held", "owned") and not kind.arguments


def faults_of(view: View, check: Check, offset: int, probes: Sequence[Probe], clause: str) -> Dict[str, Optional[Status]]:
    """What the program finds at each of the calls that it refuses; None for a key of which it tells a fault before the call. It tells the
    first one of each key in a function, so one behind the call says that the call is right."""
    text, place = view.source.text, view.source.place(offset)
    function = view.declarations.function_at(offset) if view.declarations else None
    calls = [one.call for one in probes]
    columns = {one.item: place.column + len("".join(calls[:number]).encode("utf-8")) for number, one in enumerate(probes)}
    changed = f"{text[:offset]}{''.join(calls)}{text[offset:]}\n{''.join(one.head(clause) for one in probes)}"
    found: Dict[str, Optional[Status]] = {}
    for one in check(changed.encode("utf-8", "replace")).reports:
        if not isinstance(one, KeyFault) or function is None or not is_in(view, function, one.place):
            continue
        here = Place(place.line, columns.get(one.key, 0))
        if one.place <= here:
            found[one.key] = one.found if one.place == here else None
    return found


def is_in(view: View, function: s.Function, place: Place) -> bool:
    return view.source.place(function.span.start).line <= place.line <= view.source.place(function.span.end).line


def status_atoms(status: Status) -> Atoms:
    return frozenset(f"{status.how}@{state}" for state in status.states) or frozenset([status.how])

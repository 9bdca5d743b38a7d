"""Pictures of runs that didn't come to their end, and of calls and answers that aren't permitted."""
from __future__ import annotations

import re
from typing import Callable, Dict, List, Optional, Sequence, Tuple

from . import syntax as s
from .ask import Reply
from .declarations import Declarations, nearest
from .lists import Cleaned
from .picture import Cure, Label, Picture, View, Way
from .records import dataclass
from .report import Bad, ListFault, Report, Stop
from .scope import statement_starting
from .shapes import Shapes, meaning, words_of
from .source import Place
from .texts import list_picture
from .uses import head_span

RUNS = "docs/LANGUAGE.md#runs"
HOSTS = "docs/LANGUAGE.md#hosts"
STOPS = {
    ("trap", "1"): ("a result is out of the range of 64 bits", "test the operands before, or use smaller numbers"),
    ("trap", "2"): ("a divisor is zero", "test the divisor before: `if (n != 0) { .. }`"),
    ("budget", "fuel"): ("the run took more turns of loops and calls than its fuel allows", "end the loop, or allow more with `--fuel N`"),
    ("budget", "heap"): ("more objects are live at one time than the heap allows", "end objects earlier, or allow more with `--heap N`"),
    ("budget", "depth"): ("more functions run at one time than the depth allows", "end the recursion, or allow more with `--depth N`"),
    ("input", "ended"): ("the run wants another number, and the input has none left", "give more numbers with `--input G`, or ask `more()` before"),
    ("answers", "ended"): ("the run wants an answer of the host, and there is none left", "give more with `--answers A`; `vault answers F` lists their shapes"),
}  # fmt: skip


@dataclass(frozen=True)
class Run:
    """A run: the program's view, the lists that it read, what was written, and the functions that were running at its end with their
    places, the innermost first, if that is known."""

    view: View
    lists: Dict[str, Cleaned]
    lines: List[str]
    frames: Tuple[Tuple[str, Place], ...] = ()

    def event(self, number: Optional[int] = None) -> Optional[str]:
        """The name of the external of a call, counted from 1; of the last one if no number is given."""
        names = [line.split()[0][1:] for line in self.lines if line.startswith("@")]
        if not names or number is not None and number > len(names):
            return None
        return names[-1 if number is None else number - 1]


# asks the program of some lines of calls, with the options of the run
AskCalls = Callable[[Sequence[str]], Reply]


def is_end(report: Report) -> bool:
    """Whether a line says that a run, or a list for it, went wrong."""
    return isinstance(report, (Bad, Stop, ListFault))


def run_picture(run: Run, report: Report, ask_calls: Optional[AskCalls] = None) -> Picture:
    """The picture of the last line of a run; `ask_calls` is there if it is a run of calls."""
    if isinstance(report, ListFault):
        return list_fault(run, report)
    if isinstance(report, Bad):
        return answer_picture(run, report) if report.what == "answer" else call_picture(run, report, ask_calls)
    message, cure = STOPS.get((report.what, report.detail), (report.line, ""))
    labels: Tuple[Label, ...] = ()
    head = external(run, run.event()) if (report.what, report.detail) == ("answers", "ended") else None
    if head is not None:
        labels = (run.view.label(head.head, "this external was called last"),)
        message = f"`{head.name}` wants an answer of the host, and there is none left"
        cure = f"add one to the file of answers: {listed_shapes(run, head)}"
    inner, outer = frame_labels(run)
    labels = (*outer, *labels)
    ways = (Way("", labels, False),) if labels else ()
    return Picture(
        run.view.source, "error", report.what, report.line, message, inner, ways, (), (Cure(cure),) if cure else (), RUNS
    )


def frame_labels(run: Run) -> Tuple[Optional[Label], Tuple[Label, ...]]:
    """Where the run ended, in the innermost function, and where that and the other running functions were called."""
    if run.view.declarations is None:
        return None, ()
    labels = []
    for number, (name, place) in enumerate(run.frames):
        offset = run.view.offset(place)
        statement = statement_starting(run.view.declarations, offset)
        span = head_span(statement) if statement else s.Span(offset, offset + 1)
        labels.append(
            run.view.label(span, f"in `{name}`" if number == 0 else f"called in `{name}`", "fault" if number == 0 else "step")
        )
    return (labels[0] if labels else None), tuple(labels[1:])


def read_frames(lines: Sequence[str]) -> Tuple[Tuple[str, Place], ...]:
    """The running functions that the last lines `at NAME LINE:COLUMN` of `vaultq where` name, the innermost first."""
    found = [re.fullmatch(r"at (\S+) (\d+):(\d+)", line) for line in lines]
    return tuple((met[1], Place(int(met[2]), int(met[3]))) for met in found if met)


def list_fault(run: Run, report: ListFault) -> Picture:
    """A line of a list that isn't of its form, at its place in the file as it was written."""
    cleaned = run.lists.get(report.what)
    if cleaned is None:
        return Picture(run.view.source, "error", f"text-{report.what}", report.line, report.line)
    view = View(cleaned.source)
    return list_picture(view, ListFault(report.line, report.what, cleaned.number(report.number)))


def external(run: Run, name: Optional[str]) -> Optional[s.Function]:
    return run.view.declarations.find(name, s.Function) if name and run.view.declarations else None


def listed_shapes(run: Run, head: s.Function) -> str:
    """The answers that an external may have, in words."""
    shapes = Shapes(run.view.declarations).of(head)
    return "; or ".join(f"`{words_of(shape)}` ({meaning(shape)})" if shape.slots else "an empty line" for shape in shapes)


def line_label(cleaned: Cleaned, number: int, text: str) -> Label:
    """A line of a list, with what is said of it."""
    at = cleaned.number(number)
    view = View(cleaned.source)
    start = cleaned.source.starts[min(at, len(cleaned.source.starts)) - 1]
    return view.label(s.Span(start, start + max(len(cleaned.source.line(at)), 1)), text, "fault")


def answer_picture(run: Run, report: Bad) -> Picture:
    """An answer that doesn't keep the clause of its external."""
    cleaned, head = run.lists.get("answers"), external(run, run.event(report.number))
    name = f"`{head.name}`" if head else "its external"
    message = f"answer {report.number} doesn't fit {name}"
    mark = line_label(cleaned, report.number, "this answer") if cleaned else None
    if head is None:
        return Picture(mark.source if mark else run.view.source, "error", "answer", report.line, message, mark, link=RUNS)
    given = cleaned.lines[report.number - 1].split() if cleaned and report.number <= len(cleaned.lines) else []
    note = answer_note(run, head, given)
    where = head.clause or head.head
    text = f"the clause of {name}" if head.clause else f"{name} has no clause"
    ways = (Way("", (run.view.label(where, text),), False),)
    source = mark.source if mark else run.view.source
    return Picture(
        source, "error", "answer", report.line, message, mark, ways, note, (Cure(f"write {listed_shapes(run, head)}"),), RUNS
    )


def answer_note(run: Run, head: s.Function, given: Sequence[str]) -> Tuple[str, ...]:
    """What is wrong with the numbers, if it is how many they are."""
    counts = sorted({len(shape.slots) for shape in Shapes(run.view.declarations).of(head)})
    if len(given) not in counts:
        words = " or ".join(str(count) for count in counts)
        return (
            f"It has {len(given)} {'number' if len(given) == 1 else 'numbers'}, and {words} {'is' if words == '1' else 'are'} asked for.",
        )
    if any(entry.mode == "given" for entry in head.entries):
        return ("The object of a `+` entry must be with the host.",)
    return ()


# ---- calls of a host


@dataclass(frozen=True)
class Held:
    """An object that the host holds: its type if that is known, and its state; empty if it has none."""

    type_name: str
    state: str


def types_of_objects(declarations: Declarations, lines: Sequence[str]) -> Dict[str, str]:
    """The types of the objects that calls gave, by the results of the functions."""
    found: Dict[str, str] = {}
    called = ""
    for line in lines:
        if line.startswith("!"):
            called = line[1:].split()[0]
        met = re.fullmatch(r"= (#\d+)", line)
        function = declarations.find(called, s.Function)
        if met and function:
            found[met[1]] = function.result.name
    return found


def held_before(run: Run, number: int, ask_calls: AskCalls) -> Dict[str, Held]:
    """What the host holds before a call: the program is asked of the calls before it."""
    reply: Reply = ask_calls(run.lists["calls"].lines[: number - 1])
    last = next((line for line in reversed(reply.lines) if line.startswith("held")), "held")
    types = types_of_objects(run.view.declarations, reply.lines)
    found = {}
    for word in last.split()[1:]:
        name, _, state = word.partition("@")
        found[name] = Held(types.get(name, ""), state)
    return found


def call_picture(run: Run, report: Bad, ask_calls: AskCalls) -> Picture:
    """A call that isn't permitted, and why."""
    cleaned = run.lists["calls"]
    words = cleaned.lines[report.number - 1].split()
    why, label, cure = Permission(run.view, held_before(run, report.number, ask_calls)).why_not(words[0], words[1:])
    mark = line_label(cleaned, report.number, "this call")
    ways = (Way("", (label,), False),) if label else ()
    message = f"call {report.number} isn't permitted: {why}"
    return Picture(cleaned.source, "error", "call", report.line, message, mark, ways, (), (Cure(cure),) if cure else (), HOSTS)


# why a call isn't permitted, the place that says so, and what to do
Why = Tuple[str, Optional[Label], str]


class Permission:
    """Says why a call isn't permitted: by what docs/LANGUAGE.md says of hosts, on what the program says is held."""

    def __init__(self, view: View, held: Dict[str, Held]) -> None:
        self.view = view
        self.declarations: Declarations = view.declarations
        self.held = held

    def why_not(self, name: str, arguments: Sequence[str]) -> Why:
        function = self.declarations.find(name, s.Function)
        if function is None:
            near = nearest(name, [one.name.text for one in self.declarations.functions()])
            return f"there is no function `{name}`", None, f"write `{near}`" if near else ""
        label = self.view.label(function.head, "its head")
        reason = self.no_entry(function)
        if reason:
            return f"`{name}` is no entry function: {reason}", label, "call a function that a host may call"
        if len(arguments) != len(function.parameters):
            want = len(function.parameters)
            takes = f"{want or 'no'} argument{'' if want == 1 else 's'}"
            return f"`{name}` takes {takes}, and is given {len(arguments) or 'none'}", label, "give it as many as its head has"
        for parameter, argument in zip(function.parameters, arguments):
            why = self.argument(function, parameter, argument)
            if why is not None:
                return why
        return self.keys(function, arguments) or ("it isn't permitted", label, "")

    def no_entry(self, function: s.Function) -> str:
        """Why a function is none that a host may call."""
        if function.is_external:
            return "it is an external, which the program calls"
        if function.name.text == "main":
            return "`main` isn't called by a host"
        for one in function.parameters:
            if one.type.form not in ("int", "bool", "held"):
                return f"its parameter `{one.name}` is of the type `{one.type}`"
        if function.result.form not in ("void", "int", "bool", "held"):
            return f"it gives a `{function.result}`"
        return "its clause has a `+` entry" if any(entry.mode == "given" for entry in function.entries) else ""

    def argument(self, function: s.Function, parameter: s.Parameter, argument: str) -> Optional[Why]:
        label = self.view.label(s.Span(parameter.type.span.start, parameter.name.span.end), f"the parameter of `{function.name}`")
        kind = parameter.type
        if kind.form != "held":
            fits = re.fullmatch(r"-?\d+", argument) if kind.form == "int" else argument in ("0", "1")
            text = f"`{argument}` is given for `{kind} {parameter.name}`"
            return None if fits else (text, label, "give a number" if kind.form == "int" else "give 0 or 1")
        if not argument.startswith("#"):
            return f"`{argument}` is given for the object `{parameter.name}`", label, "give an object, as `#1`"
        if argument not in self.held:
            have = ", ".join(self.held) or "nothing"
            return f"the host doesn't hold `{argument}`", label, f"it holds {have}"
        held = self.held[argument]
        if held.type_name and held.type_name != kind.name:
            return f"`{argument}` is a `{held.type_name}`, and `{function.name}` asks for a `{kind.name}`", label, ""
        entry = function.entry(kind.key)
        states = self.asked(kind.name, entry)
        if entry is not None and held.state and states and held.state not in states:
            asks = " or ".join(f"`{state}`" for state in states)
            where = self.view.label(entry.span, f"`{function.name}` asks for this")
            return (
                f"`{argument}` is in state `{held.state}`, and `{function.name}` asks for {asks}",
                where,
                self.plan(kind.name, held.state, states, argument),
            )
        return None

    def asked(self, type_name: str, entry: Optional[s.Entry]) -> Tuple[str, ...]:
        """The states that an entry asks for; of a bound entry those up to its bound, if that can be told."""
        if entry is None or entry.mode != "bound":
            return entry.before if entry else ()
        declared = self.declarations.state_set_of(type_name)
        below = set(entry.before)
        for _ in declared.states if declared else ():
            below |= {lower for lower, higher in declared.steps if higher in below}
        return tuple(state.text for state in declared.states if state.text in below) if declared else ()

    def plan(self, type_name: str, state: str, states: Sequence[str], argument: str) -> str:
        """Calls that lead to a state that is asked for."""
        found = [
            path
            for path in self.declarations.plan(type_name, [state], states)
            if all(self.is_entry(move.function) for move in path)
        ]
        if not found:
            return ""
        calls = [
            f"`{move.function.name} {' '.join(argument if one.type.form == 'held' else '0' for one in move.function.parameters)}`"
            for move in found[0]
        ]
        return f"call {', then '.join(calls)} before"

    def is_entry(self, function: Optional[s.Function]) -> bool:
        return function is not None and not self.no_entry(function)

    def keys(self, function: s.Function, arguments: Sequence[str]) -> Optional[Why]:
        """Whether one key would be two objects, or two keys of the clause one."""
        found: Dict[str, str] = {}
        for parameter, argument in zip(function.parameters, arguments):
            key = parameter.type.key
            if key and found.setdefault(key, argument) != argument:
                label = self.view.label(function.head, f"`{key}` is one object")
                return f"`{found[key]}` and `{argument}` are given for the one key `{key}`", label, "give the same object"
        held = [entry.key.text for entry in function.entries if entry.mode in ("kept", "taken", "bound")]
        objects = [found[key] for key in held if key in found]
        twice = next((one for one in objects if objects.count(one) > 1), None)
        if twice is None:
            return None
        label = self.view.label(function.clause, "these are keys of different objects") if function.clause else None
        return f"`{twice}` is given for two keys of the clause of `{function.name}`", label, "give two objects"

"""Pictures of broken rules on keys: what is wrong in plain words, where the status came about, the clause that asks, and the path."""
from __future__ import annotations

from typing import Callable, List, Optional, Sequence

from . import syntax as s
from .held import Table, table_of
from .picture import Label, Picture, View, Way
from .report import KeyFault, Path, Status
from .scope import Scope, block_closing, scope_at, statement_starting
from .since import Knowledge, Trace, is_about_states, trace
from .uses import argument_of, call_of, clause_entry, field_of, head_span, mentioned, past, right_side, state_words
from .walk import Point

# makes knowledge of a story if there are no tables
Probing = Callable[["KeyStory"], Knowledge]
LINK = "docs/LANGUAGE.md#keys"


class KeyStory:
    """A fault, the statement or the brace at which it is, and the variables of its key."""

    def __init__(self, view: View, fault: KeyFault, tables: Optional[Sequence[Table]], probing: Optional[Probing] = None) -> None:
        self.view = view
        self.fault = fault
        self.declarations = view.declarations
        self.offset = view.offset(fault.place)
        self.function = self.declarations.function_at(self.offset)
        self.scope: Scope = scope_at(self.declarations, self.offset)
        self.statement = statement_starting(self.declarations, self.offset)
        self.closing = None if self.statement else block_closing(self.declarations, self.offset)
        self.is_variable = "full" in (fault.found.how, fault.wanted.how if fault.wanted else "")
        self.names = self.variable_names()
        self.knowledge = self.make_knowledge(tables) or (probing(self) if probing else None)
        self.traces = self.make_traces()

    # ---- what it is about

    def variable_names(self) -> List[str]:
        """The variables that speak of the key, those first that the statement names."""
        if self.is_variable or not self.fault.key:
            return [self.fault.key] if self.fault.key else []
        found = [one.name.text for one in self.scope.of_key(self.fault.key)]
        here = [name.text for name in mentioned(self.statement)]
        return sorted(found, key=lambda name: name not in here) or self.declared_later()

    def declared_later(self) -> List[str]:
        """The variable that the statement itself binds to the key."""
        one = self.statement
        is_it = isinstance(one, s.Declare) and one.type.form == "held" and one.type.key == self.fault.key
        is_focus = isinstance(one, s.Focus) and one.key.text == self.fault.key
        return [one.name.text] if is_it or is_focus else []

    @property
    def guarded(self) -> List[str]:
        """The variables that the statement names and whose objects the key's object adopted."""
        here = [name.text for name in mentioned(self.statement)]
        found = [one.name.text for one in self.scope.guarded_by(self.fault.key)]
        return [name for name in here if name in found]

    @property
    def name(self) -> str:
        """The object in words."""
        if self.names:
            return f"`{self.names[0]}`"
        return f"the object of key `{self.fault.key}`" if self.fault.key else "an object without a name"

    @property
    def type_name(self) -> str:
        found = self.scope.type_name(self.fault.key) or self.declarations.key_type(self.function, self.fault.key) or ""
        if not found and isinstance(self.statement, (s.Declare,)):
            found = self.statement.type.name
        return found

    @property
    def entry(self) -> Optional[s.Entry]:
        """The entry of the function's own clause for the key."""
        return None if self.is_variable else self.function.entry(self.fault.key)

    def is_end(self) -> bool:
        """Whether the function ends here."""
        return isinstance(self.statement, s.Return) or self.closing is not None and self.closing[0] is None

    def is_block_end(self) -> bool:
        return isinstance(self.statement, s.Jump) or self.closing is not None and self.closing[0] is not None

    # ---- where it became so

    def make_knowledge(self, tables: Optional[Sequence[Table]]) -> Optional[Knowledge]:
        """What the tables say of the key."""
        state = self.fault.paths[0].state if self.fault.paths else ""
        table = table_of(tables or [], self.function.name.text, state)
        if table is None or not self.fault.key:
            return None
        return lambda offset: table.of(self.fault.key, self.view.source.place(offset))

    def make_traces(self) -> List[Trace]:
        paths = self.fault.paths or (Path(),)
        body = self.function.body
        return [
            trace(self.view, body, self.fault, path, self.knowledge, self.touches, number == len(paths) - 1)
            for number, path in enumerate(paths)
        ]

    def touches(self, one: s.Statement) -> bool:
        """Whether a statement may change the status of the key: it names a variable of the key or of a type with the key, binds the
        key, or takes something apart."""
        if isinstance(one, (s.Switch, s.Focus, s.Open)):
            return True
        names = {name.text for name in mentioned(one)}
        if isinstance(one, s.Declare):
            names.add(one.name.text)
            if one.type.key == self.fault.key or self.fault.key in one.type.arguments:
                return True
        with_key = {name.text for name in mentioned(one) if self.is_of_key(one, name)}
        return bool(names & set(self.names)) or bool(with_key)

    def is_of_key(self, one: s.Statement, name: s.Name) -> bool:
        """Whether a variable at a statement is of the key, or of a type that has it."""
        scope = scope_at(self.declarations, one.span.start)
        found = scope.find(name.text) if scope else None
        return found is not None and found.type is not None and self.fault.key in (found.type.key, *found.type.arguments)

    def name_at(self, one: Optional[s.Statement]) -> str:
        """The variable by which a statement names the object."""
        here = [name.text for name in mentioned(one)] + ([one.name.text] if isinstance(one, s.Declare) else [])
        return next((name for name in self.names if name in here), self.names[0] if self.names else "")

    def object_at(self, one: Optional[s.Statement]) -> str:
        """The object as a statement names it, if it has another name there."""
        name = self.name_at(one)
        if not name or name == self.names[0]:
            return self.name
        return f"`{name}`, another name of the same object,"

    def past(self, one: Optional[s.Statement]) -> str:
        """How a statement made the object unavailable."""
        words = past(one, self.names)
        return words.replace("was taken by", "was handed over to") if self.is_variable else words

    @property
    def since(self) -> Optional[Point]:
        return self.traces[0].point

    def step_label(self, point: Point, seen: List[int]) -> Label:
        """What is said of a choice; `seen` are the loops that were entered before."""
        words = {"then": "the condition is true", "else": "the condition is false"}
        text = words.get(point.word, f"the case is `{point.word}`")
        if isinstance(point.statement, s.While):
            again = point.offset in seen
            if point.word == "turn":
                text = "the loop goes on" if again else "the loop is entered"
            else:
                text = "the loop ends" if again else "the loop is not entered"
                if point.statement.condition.text == "true":
                    text = "the loop ends: the check doesn't look at conditions, not even at `true`"
            seen.append(point.offset)
        return self.view.label(head_span(point.statement), text, "step")

    def way_labels(self, found: Trace, since_text: str) -> List[Label]:
        """The choices of a path in order, and among them where the status came about."""
        labels, seen = [], []
        last = len(found.points) - 1
        for number, point in enumerate(found.points):
            if point.word and point.statement is not None:
                labels.append(self.step_label(point, seen))
            if number == found.since and since_text and number < last:
                earlier = ", in the turn before" if point.offset == self.offset else ""
                labels.append(self.view.label(head_span(point.statement), since_text + earlier))
        return labels

    # ---- words

    def since_words(self, point: Optional[Point]) -> str:
        """What the statement did that brought the status about."""
        if point is None or point.statement is None:
            return ""
        fault, one = self.fault, point.statement
        if fault.found.how == "lent":
            return f"this `focus` lends {self.name} to its block"
        if is_about_states(fault):
            return self.state_words_of(one)
        if fault.found.how == "absent":
            return self.gone_words(one)
        if self.is_variable:
            return f"{self.name} gets its object here"
        return self.made_words(one)

    def since_words_at(self, found: Trace, comes_with_key: bool) -> str:
        """What brought the status about on one of two paths that meet."""
        point = found.point
        if point is None or point.statement is None:
            return ""
        if not comes_with_key:
            return self.gone_words(point.statement)
        return f"{self.name} gets its object here" if self.is_variable else self.made_words(point.statement)

    def gone_words(self, one: s.Statement) -> str:
        """What is said of the statement that took the object."""
        if isinstance(one, s.Declare) and self.fault.key in one.type.arguments and call_of(one):
            return f"`{call_of(one).callee}` takes {self.name}, and gives it back in a case of `{one.name}`"
        return f"{self.object_at(one)} {self.past(one)} here"

    def wrong_states(self) -> str:
        """The states that are found and not asked for."""
        found, wanted = self.fault.found.states, self.fault.wanted.states
        return state_words([state for state in found if state not in wanted] or found)

    def state_words_of(self, one: s.Statement) -> str:
        """What is said of the statement that led to another state."""
        found = clause_entry(self.declarations, call_of(one), self.names)
        states = self.wrong_states()
        if found and found[1].mode == "kept" and not found[1].before and len(self.declarations.states_of(self.type_name)) > 1:
            entry = self.view.text_of(found[1].span)
            return f"the clause `[{entry}]` of `{found[0].name}` says nothing of the state, so it is lost here"
        if isinstance(one, s.Become):
            return f"{self.name} becomes `{one.state}` here"
        if isinstance(one, s.Switch):
            return f"in this case {self.name} is in state {states}"
        if found:
            return f"`{found[0].name}` leaves {self.name} in state {states}"
        if isinstance(right_side(one), s.New):
            return f"a new `{right_side(one).type.name}` is in state {states}"
        if call_of(one):
            return f"`{call_of(one).callee}` gives {self.name} in state {states}"
        return f"{self.name} is in state {states} from here on"

    def made_words(self, one: s.Statement) -> str:
        right = right_side(one)
        if isinstance(right, s.New):
            return f"{self.name} is made here"
        if isinstance(one, s.Focus):
            return f"{self.name} is in focus from here on"
        found = clause_entry(self.declarations, call_of(one), self.names)
        if found and found[1].mode == "given":
            return f"`{found[0].name}` gives {self.name} here"
        if isinstance(one, s.Switch):
            return f"this case gives {self.name} back"
        return f"{self.name} comes from here" if isinstance(one, s.Declare) else f"{self.name} is held from here on"

    def place_words(self) -> str:
        """The end of a function or a block in words."""
        if isinstance(self.statement, s.Return):
            return f"`{self.function.name}` returns here"
        if isinstance(self.statement, s.Jump):
            return f"`{self.statement.word}` leaves its block"
        if self.is_end():
            return f"`{self.function.name}` ends"
        owner = self.closing[0] if self.closing else None
        words = {s.While: "the loop's body ends", s.Focus: "the `focus` ends", s.Switch: "the case ends"}
        return words.get(type(owner), "the block ends")

    def start_labels(self) -> List[Label]:
        """How the function begins with the key, if it has had this status from the start."""
        entry = self.entry
        if self.fault.is_join or self.since or self.is_end() or self.knowledge is None or entry is None:
            return []
        if is_about_states(self.fault) and entry.mode in ("kept", "taken") and entry.before:
            text = f"`{self.function.name}` begins with {self.name} in state {state_words(entry.before)}"
            return [self.view.label(entry.span, text)]
        path = self.fault.paths[0] if self.fault.paths else Path()
        if is_about_states(self.fault) and entry.mode == "bound" and path.state:
            text = f"`{self.function.name}` begins with {self.name} in state `{path.state}` in these calls"
            return [self.view.label(entry.span, text)]
        return []

    def missing_labels(self) -> List[Label]:
        """The head whose clause lacks the key."""
        function, key = self.function, self.fault.key
        has_key = any(key in (one.type.key, *one.type.arguments) for one in function.parameters)
        if self.fault.is_join or self.since or self.is_variable or self.fault.found.how != "absent" or not has_key:
            return []
        if self.entry is not None:
            return [self.view.label(self.entry.span, f"`{function.name}` begins without `{key}`")]
        if function.clause is not None:
            return [self.view.label(function.clause, f"this clause doesn't list `{key}`")]
        return [self.view.label(function.head, f"`{function.name}` has no clause")]

    def clause_labels(self) -> List[Label]:
        """The declaration that asks for what isn't so: the function's own clause, the callee's, a field's or a release set."""
        if self.is_end() and self.entry is not None:
            return [self.view.label(self.entry.span, f"the clause of `{self.function.name}` promises this of {self.name}")]
        found = clause_entry(self.declarations, call_of(self.statement), [*self.names, *self.guarded])
        if found:
            gives = found[1].mode == "given" and self.fault.found.how != "absent"
            text = "gives it, so it must not be held before" if gives else "asks for this"
            return [self.view.label(found[1].span, f"`{found[0].name}` {text}")]
        owned = self.owned_parameter()
        if owned:
            return [owned]
        return self.struct_labels()

    def owned_parameter(self) -> Optional[Label]:
        """The parameter that takes the object over."""
        call = call_of(self.statement)
        callee = self.declarations.find(call.callee.text, s.Function) if call else None
        number = argument_of(call, self.names) if call else None
        if callee is None or number is None or number >= len(callee.parameters) or callee.parameters[number].type.form != "owned":
            return None
        one = callee.parameters[number]
        return self.view.label(s.Span(one.type.span.start, one.name.span.end), f"`{callee.name}` takes it over")

    def struct_labels(self) -> List[Label]:
        struct = self.declarations.find(self.type_name, s.Struct) if self.type_name else None
        if struct is None or not is_about_states(self.fault):
            return []
        touched = field_of(self.statement, self.names) if self.statement else None
        if touched:
            member = next((one for one in struct.fields if one.name.text == touched[0].partition(".")[2]), None)
            if member and member.states:
                span = s.Span(member.type.span.start, member.name.span.end)
                return [self.view.label(span, f"`{member.name}` may be touched in {state_words(member.states)} only")]
        elif struct.released_span:
            return [
                self.view.label(struct.released_span, f"a `{struct.name}` may be released in {state_words(struct.released)} only")
            ]
        return []

    def asked_states(self, status: Status) -> str:
        return state_words(status.states) or "any state"

    # ---- the picture

    def span(self) -> s.Span:
        return head_span(self.statement) if self.statement else s.Span(self.offset, self.offset + 1)


def instance_note(fault: KeyFault) -> List[str]:
    """In which calls of a function with a bound entry it is so."""
    path = fault.paths[0] if fault.paths else Path()
    return [f"It is so in calls in which `{path.variable}` is `{path.state}`."] if path.variable else []


def step_picture(story: KeyStory, message: str, here: str, since: str) -> Picture:
    """The picture of a fault at a step."""
    view, fault = story.view, story.fault
    labels = story.way_labels(story.traces[0], since)
    asks = story.clause_labels()
    before = asks if asks and asks[0].place < fault.place and story.is_end() else []
    mark = view.label(story.span(), here, "fault")
    before = before or story.start_labels() or story.missing_labels()
    ways = (Way("", tuple([*before, *labels])),) if before or labels else ()
    after = tuple(label for label in asks if label not in before)
    if after:
        ways = (*ways, Way("", after, False))
    return Picture(mark.source, "error", "protocol", fault.line, message, mark, ways, tuple(instance_note(fault)), (), LINK)

"""Cures of faults on keys: changes of the text that follow from what the functions of the program do to an object. Each change is
tried: the program is asked of the changed text, and what still has the fault, or a new one, isn't shown."""
from __future__ import annotations

import re
from itertools import islice
from typing import Iterator, List, Optional, Sequence, Tuple

from . import syntax as s
from .declarations import Declarations
from .edits import drop, indent, put_after, put_before
from .key_faults import KeyStory
from .picture import Cure, Edit
from .since import is_about_states
from .trying import Trial
from .uses import call_of, clause_entry, field_of, right_side

MOST_TRIED = 8
MOST_SHOWN = 2


def in_words(statements: Sequence[str]) -> str:
    """Statements as a cure names them. Numbers and bools that are passed are only the least ones that could be meant."""
    said = " ".join(f"`{one}`" for one in statements)
    return said + " with the values that are meant" if any(re.search(r"[(,] ?(0|false)\b", one) for one in statements) else said


# ---- which changes are tried


class Candidates:
    """The changes that may cure a fault, the likelier ones first."""

    def __init__(self, story: KeyStory) -> None:
        self.story = story
        self.text = story.view.source.text
        self.declarations: Declarations = story.declarations
        self.variable = story.names[0] if story.names else ""

    def plans(self, goal: Optional[Tuple[str, ...]]) -> List[List[str]]:
        """Statements that lead from the states that are found to others, or to the object's end."""
        fault, kind = self.story.fault, self.story.type_name
        if not self.variable or not kind:
            return []
        found = self.declarations.plan(kind, fault.found.states, goal)
        own = self.story.function
        plans = [
            [move.text.format(self.variable) for move in plan] for plan in found if all(move.function is not own for move in plan)
        ]
        return sorted(plans, key=lambda plan: "release" not in plan[-1])

    def all(self) -> Iterator[Cure]:
        fault = self.story.fault
        if fault.is_join:
            yield from self.of_join()
        elif self.story.is_variable:
            yield from self.of_variable()
        elif fault.found.how == "absent":
            yield from self.of_absent()
        elif fault.found.how == "lent":
            return
        else:
            yield from self.of_held()

    # ---- held where it must be absent, or in another state

    def of_held(self) -> Iterator[Cure]:
        story, fault = self.story, self.story.fault
        if is_about_states(fault):
            yield from self.of_states()
        else:
            yield from self.of_end()
        entry = story.entry
        if story.is_end() and entry is not None and entry.mode == "taken":
            yield Cure(f"let the clause keep it: `[{entry.key}]`", (Edit(entry.span, entry.key.text),))

    def of_end(self) -> Iterator[Cure]:
        """The object is ended before this place."""
        for plan in self.plans(None):
            words = in_words(plan)
            yield Cure(f"{words} before this {self.place_word()}", (self.before_here(plan),))

    def before_here(self, plan: Sequence[str]) -> Edit:
        return put_before(self.text, self.story.offset, plan, self.story.closing is not None)

    def of_states(self) -> Iterator[Cure]:
        """The object is brought to the state that is asked for; after it, if that helps, back to the one that it had."""
        story, fault = self.story, self.story.fault
        one, point = story.statement, story.since
        if one is not None and point is not None and point.statement is not None and self.is_same(one, point.statement):
            yield Cure("remove this statement", (drop(self.text, one.span),))
        yield from self.of_bare_clause()
        for plan in self.plans(fault.wanted.states) or self.becomes(fault.wanted.states):
            words = in_words(plan)
            yield Cure(f"{words} before this {self.place_word()}", (self.before_here(plan),))
            for back in (self.back_plans() or self.becomes(fault.found.states))[:1]:
                yield from self.until_end(plan, back)
        if one is not None and point is not None and isinstance(point.statement, s.CallStatement):
            yield from self.moved_after(point.statement, one)

    def becomes(self, states: Tuple[str, ...]) -> List[List[str]]:
        """A `become` for each of some states, if the object is a struct's."""
        if not self.variable or self.declarations.find(self.story.type_name, s.Struct) is None:
            return []
        return [[f"become {self.variable}@{state};"] for state in states]

    def back_plans(self) -> List[List[str]]:
        """What leads from the states that are asked for to those that are found."""
        found = self.declarations.plan(self.story.type_name, self.story.fault.wanted.states, self.story.fault.found.states)
        own = self.story.function
        return [
            [move.text.format(self.variable) for move in plan] for plan in found if all(move.function is not own for move in plan)
        ]

    def until_end(self, first: Sequence[str], last: Sequence[str]) -> Iterator[Cure]:
        """Something before this place, and something before each later end of the function."""
        story, body = self.story, self.story.function.body
        if body is None or story.statement is None or story.statement not in body.statements:
            return
        later = [one for one in s.all_statements(body) if isinstance(one, s.Return) and one.span.start > story.offset]
        edits = [self.before_here(first), *(put_before(self.text, one.span.start, last) for one in later)]
        if not isinstance(body.statements[-1], s.Return):
            edits.append(put_before(self.text, body.close, last, True))
        words, back = in_words(first), in_words(last)
        yield Cure(f"{words} before it, and {back} before each end of `{story.function.name}`", tuple(edits))

    def place_word(self) -> str:
        one = self.story.statement
        if one is None:
            return "brace"
        return {s.Return: "`return`", s.Jump: "jump"}.get(type(one), "statement")

    def of_bare_clause(self) -> Iterator[Cure]:
        """The state was lost by a callee whose clause doesn't speak of it."""
        point = self.story.since
        found = clause_entry(self.declarations, call_of(point.statement), self.story.names) if point else None
        if not found or found[1].mode != "kept" or found[1].before:
            return
        callee, entry = found
        states = self.story.fault.wanted.states
        if len(states) == 1:
            written = f"{entry.key}@{states[0]}"
            text = f"if `{callee.name}` leaves the state as it is, let its clause say so: `[{written}]`"
            yield Cure(text, (Edit(entry.span, written),))

    # ---- absent where it must be held

    def of_absent(self) -> Iterator[Cure]:
        story = self.story
        point, one = story.since, story.statement
        if point is not None and point.statement is not None and one is not None and not story.is_end():
            if isinstance(point.statement, s.Release) and isinstance(one, s.Release):
                yield Cure("remove the second `release`", (drop(self.text, one.span),))
            elif isinstance(one, s.Release) and isinstance(right_side(point.statement), s.Adopt):
                yield Cure(f"remove this: the object ends with `{right_side(point.statement).owner}`", (drop(self.text, one.span),))
            elif isinstance(one, (s.CallStatement, s.Release)) and self.is_same(one, point.statement):
                yield Cure("remove this statement", (drop(self.text, one.span),))
            yield from self.moved_after(point.statement, one)
        if point is None:
            yield from self.of_missing_entry()
        yield from self.of_given()
        if story.is_end() and story.entry is not None and story.entry.mode == "kept":
            written = "-" + self.text[story.entry.span.start : story.entry.span.end].partition("->")[0]
            yield Cure(f"let the clause take it: `[{written}]`", (Edit(story.entry.span, written),))

    def is_same(self, first: s.Statement, second: s.Statement) -> bool:
        view = self.story.view
        return view.text_of(first.span) == view.text_of(second.span)

    def moved_after(self, gone: s.Statement, one: s.Statement) -> Iterator[Cure]:
        """The statement that took the object comes after this one."""
        if gone.blocks() or one.blocks() or isinstance(one, (s.Return, s.Jump)) or gone.span.start > one.span.start:
            return
        written = self.story.view.text_of(gone.span)
        moved = (drop(self.text, gone.span), put_after(self.text, one.span, [written]))
        yield Cure(f"move `{written}` behind this statement", moved)
        if isinstance(gone, s.CallStatement):
            yield Cure(f"remove `{written}`", (drop(self.text, gone.span),))

    def of_missing_entry(self) -> Iterator[Cure]:
        """The function's own clause doesn't have the key."""
        story, function, key = self.story, self.story.function, self.story.fault.key
        if story.entry is not None or not any(one.type.key == key or key in one.type.arguments for one in function.parameters):
            return
        states = story.fault.wanted.states
        entry = f"{key}@{states[0]}" if len(states) == 1 else key
        if function.clause is None:
            yield Cure(
                f"give `{function.name}` the clause `[{entry}]`",
                (Edit(s.Span(function.head.end, function.head.end), f" [{entry}]"),),
            )
        else:
            last = function.clause.end - 1
            comma = ", " if function.entries else ""
            yield Cure(f"add `{entry}` to the clause of `{function.name}`", (Edit(s.Span(last, last), comma + entry),))

    def of_given(self) -> Iterator[Cure]:
        """A function that gives the key is called first."""
        story = self.story
        for function in self.declarations.functions():
            for parameter in function.parameters:
                entry = function.entry(parameter.type.key) if parameter.type.form == "held" else None
                if (
                    entry is None
                    or entry.mode != "given"
                    or parameter.type.name != story.type_name
                    or len(function.parameters) != 1
                ):
                    continue
                call = f"{function.name}({self.variable});"
                yield Cure(f"`{call}` before this {self.place_word()}", (self.before_here([call]),))
                for taker in self.declarations.takers(parameter.type.name):
                    if len(taker.parameters) == 1:
                        yield from self.until_end([call], [f"{taker.name}({self.variable});"])

    # ---- owning variables

    def of_variable(self) -> Iterator[Cure]:
        story = self.story
        if story.fault.found.how != "full":
            one, point = story.statement, story.since
            if one is not None and point is not None and point.statement is not None and self.is_same(one, point.statement):
                yield Cure("remove this statement", (drop(self.text, one.span),))
            return
        yield Cure(
            f"`release {self.variable};` before this {self.place_word()}", (self.before_here([f"release {self.variable};"]),)
        )
        yield from self.taken_out()

    def taken_out(self) -> Iterator[Cure]:
        """The object is taken out of an owning variable, and ended by a function of its type."""
        found = self.story.scope.find(self.variable)
        kind = found.type if found else None
        if kind is None or kind.form != "owned" or kind.arguments:
            return
        key, name = self.fresh(kind.name[0].upper()), self.fresh(kind.name[0].lower())
        for plan in self.declarations.plan(kind.name, kind.states, None):
            statements = [f"tracked({key}) {kind.name} {name} = {self.variable};", *(move.text.format(name) for move in plan)]
            yield Cure(
                " ".join(f"`{one}`" for one in statements) + f" before this {self.place_word()}", (self.before_here(statements),)
            )

    def fresh(self, name: str) -> str:
        """A name that the text doesn't have."""
        number, found = 1, name
        while re.search(rf"\b{found}\b", self.text):
            number += 1
            found = f"{name}{number}"
        return found

    # ---- paths that meet

    def of_join(self) -> Iterator[Cure]:
        story = self.story
        ends = [[f"release {self.variable};"]] if story.is_variable else self.plans(None)
        owner = joined_statement(story)
        for plan in ends:
            words = in_words(plan)
            if isinstance(owner, s.If):
                yield from self.at_branch(owner, plan, words)
            elif isinstance(owner, s.Switch):
                yield from self.at_arm(owner, plan, words)
        yield from self.after_loop(owner)

    def at_branch(self, owner: s.If, plan: List[str], words: str) -> Iterator[Cure]:
        """The branch of an `if` that keeps the object ends it."""
        then_block, other = owner.then_block, owner.else_part
        taken = self.choice_at(owner)
        if taken == "else" and other is None:
            blanks = indent(self.text, owner.span.start)
            body = "".join(f"{blanks}    {one}\n" for one in plan)
            yield Cure(f"{words} in an `else`", (Edit(s.Span(owner.span.end, owner.span.end), f" else {{\n{body}{blanks}}}"),))
            for one in self.gone_statements():
                yield Cure(
                    f"move `{self.story.view.text_of(one.span)}` behind the `if`",
                    (drop(self.text, one.span), put_after(self.text, owner.span, [self.story.view.text_of(one.span)])),
                )
        else:
            block = then_block if taken == "then" else other
            if isinstance(block, s.Block):
                yield Cure(f"{words} at the end of the `{taken}` branch", (put_before(self.text, block.close, plan, True),))

    def at_arm(self, owner: s.Switch, plan: List[str], words: str) -> Iterator[Cure]:
        taken = self.choice_at(owner)
        for arm in owner.arms:
            if arm.tick.text == taken:
                yield Cure(f"{words} at the end of the case `{taken}`", (put_before(self.text, arm.body.close, plan, True),))

    def choice_at(self, owner: s.Statement) -> str:
        """What the path that comes with the object chooses at a statement."""
        words = [point.word for point in self.story.traces[-1].points if point.offset == owner.span.start and point.word]
        return words[-1] if words else ""

    def gone_statements(self) -> List[s.Statement]:
        """The statement that ends the object on the path that comes without it."""
        point = self.story.traces[0].point
        return [point.statement] if point is not None and isinstance(point.statement, (s.Release, s.CallStatement)) else []

    def after_loop(self, owner: Optional[s.Statement]) -> Iterator[Cure]:
        """What ends the object in a loop comes after it."""
        loop = owner if isinstance(owner, s.While) else self.story.statement
        if not isinstance(loop, s.While):
            return
        for one in self.gone_statements():
            if loop.span.start < one.span.start < loop.span.end:
                written = self.story.view.text_of(one.span)
                yield Cure(
                    f"move `{written}` behind the loop", (drop(self.text, one.span), put_after(self.text, loop.span, [written]))
                )


def joined_statement(story: KeyStory) -> Optional[s.Statement]:
    """The statement after which paths meet at a fault's place."""
    if story.closing is None:
        return None
    owner = story.closing[0]
    if owner is not None or story.function.body is None:
        return owner
    return None


# ---- what is shown


def advice(story: KeyStory) -> List[str]:
    """What to do where no change of the text can be tried, or none cures."""
    fault, name = story.fault, story.name
    point = story.since
    loop = next((one for one in (joined_statement(story), story.statement) if isinstance(one, s.While)), None)
    if fault.is_join:
        if loop is not None and loop.condition.text == "true":
            return ["let a variable end the loop: `bool go = true; while (go) { .. go = false; .. }`, and end the object after it"]
        return [f"end {name} on both paths, or on neither"]
    if fault.found.how == "lent":
        touched = field_of(story.statement, story.names) if story.statement else None
        what = f"`{touched[0]}` into a variable" if touched and not touched[1] else "what is needed"
        return [f"read {what} before the `focus`, or do this after it"]
    if story.is_variable:
        return variable_advice(story)
    if fault.found.how == "absent":
        result = right_side(point.statement) if point else None
        given = getattr(point.statement, "name", None) if point and isinstance(result, s.Call) else None
        if given is not None and fault.key in given_keys(point.statement):
            return [f"`{given}` says in which case {name} comes back: take it apart with a `switch` first"]
        return [f"do this before {name} is gone" if point else f"see that {name} is held here"]
    if is_about_states(fault):
        wanted = story.asked_states(fault.wanted)
        if point is not None and isinstance(point.statement, s.Switch):
            return [f"do this in a case of the `switch` in which {name} is {wanted}, or bring {name} to {wanted} in the others"]
        return [f"bring {name} to {wanted} first"]
    kind = story.type_name or "T"
    return [f"end {name}, or hand it over; an external that takes it is `extern void close(tracked(K) {kind} x) [-K];`"]


def given_keys(statement: Optional[s.Statement]) -> Tuple[str, ...]:
    return statement.type.arguments if isinstance(statement, s.Declare) else ()


def variable_advice(story: KeyStory) -> List[str]:
    """What to do about an owning variable."""
    found = story.scope.find(story.fault.key)
    if story.fault.found.how == "absent":
        return [f"hand {story.name} over only once; make another object for this"]
    if found is not None and found.type is not None and story.declarations.find(found.type.name, s.Variant):
        return [f"take {story.name} apart with a `switch`, and end what each case owns"]
    return [f"hand {story.name} over, or take the object out, `tracked(K) T x = {story.fault.key};`, and end it"]


def cures(story: KeyStory, trial: Trial) -> Tuple[Cure, ...]:
    """The changes that cure a fault, as they were tried; advice if none does."""
    candidates = list(islice((cure for cure in Candidates(story).all() if trial.is_grammar(cure.edits)), MOST_TRIED))
    helped = trial.tested(story.fault, candidates, MOST_SHOWN)
    return tuple(helped) or tuple(Cure(words) for words in advice(story))

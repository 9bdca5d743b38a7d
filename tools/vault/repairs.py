"""Changes of a text that may cure an error of which no cure changes the text: statements put in, taken out, moved or exchanged near its place.
They are guesses, so each is tried before it is shown."""
from __future__ import annotations

from typing import Dict, Iterator, List, Optional, Sequence, Set, Tuple, Union

from . import syntax as s
from .declarations import Declarations
from .edits import drop, indent, put_before
from .picture import Cure, Edit, Picture, View
from .report import KeyFault, Report, RuleFault, TextFault
from .scope import Scope, scope_at
from .text_repairs import text_repairs
from .tokens import Token, tokens
from .trying import Trial
from .uses import call_of, right_side

MOST_TRIED = 40
MOST_SHOWN = 3
NO_STATE_SET = 6


def repairs(trial: Trial, fault: Report, picture: Picture) -> Tuple[Cure, ...]:
    """Changes that cure a fault, if its picture has none."""
    if any(cure.edits for cure in picture.cures):
        return ()
    return tuple(trial.tested(fault, candidates(trial.view, fault), MOST_SHOWN))


def candidates(view: View, fault: Report) -> List[Cure]:
    """Changes to try, the likelier ones first."""
    if isinstance(fault, TextFault):
        found = text_repairs(view, fault)
    elif isinstance(fault, RuleFault) and view.declarations is not None:
        found = RuleRepairs(view, fault).all()
    elif isinstance(fault, KeyFault) and view.declarations is not None:
        found = Near(view, view.offset(fault.place)).all()
    else:
        return []
    once: Dict[Tuple[Edit, ...], Cure] = {}
    for cure in found:
        once.setdefault(cure.edits, cure)
    return list(once.values())[:MOST_TRIED]


def short(text: str) -> str:
    """A statement as it is named: its first line."""
    line = text.split("\n")[0].rstrip()
    return line if len(line) <= 48 else line[:45] + ".."


class Near:
    """Statements around a place that may be superfluous, or in the wrong order."""

    def __init__(self, view: View, offset: int) -> None:
        self.view = view
        self.text = view.source.text
        self.declarations: Declarations = view.declarations
        self.offset = offset
        self.scope: Optional[Scope] = scope_at(self.declarations, offset)
        self.function = self.declarations.function_at(offset)

    def all(self) -> Iterator[Cure]:
        yield from self.doubled()
        yield from self.around()
        yield from self.further()

    def block(self) -> Tuple[Tuple[s.Statement, ...], int]:
        """The statements of the innermost block at the place, and the number of the one that stands there, or would."""
        body = self.function.body if self.function else None
        if body is None:
            return (), 0
        around = [body, *(block for one in (self.scope.around if self.scope else ()) for block in one.blocks())]
        inner = [block for block in around if block.span.start < self.offset <= block.close or block is body]
        statements = inner[-1].statements
        number = next((n for n, one in enumerate(statements) if self.offset < one.span.end), len(statements))
        return statements, number

    def removal(self, one: Union[s.Statement, s.Declaration]) -> Cure:
        return Cure(f"remove `{short(self.view.text_of(one.span))}`", (drop(self.text, one.span),))

    def exchange(self, first: s.Statement, second: s.Statement) -> Cure:
        one, other = self.view.text_of(first.span), self.view.text_of(second.span)
        words = f"move `{short(other)}` before `{short(one)}`"
        return Cure(words, (Edit(first.span, other), Edit(second.span, one)))

    def doubled(self) -> Iterator[Cure]:
        """A statement that stands twice, one after the other."""
        statements, number = self.block()
        for at in sorted(range(1, len(statements)), key=lambda at: abs(at - number)):
            if self.view.text_of(statements[at].span) == self.view.text_of(statements[at - 1].span):
                yield self.removal(statements[at])

    def around(self) -> Iterator[Cure]:
        statements, number = self.block()
        if number < len(statements):
            here = statements[number]
            yield self.removal(here)
            if number + 1 < len(statements):
                yield self.exchange(here, statements[number + 1])
            if number:
                yield self.exchange(statements[number - 1], here)
        if 0 < number <= len(statements):
            yield self.removal(statements[number - 1])

    def further(self) -> Iterator[Cure]:
        """Neighbours in the whole function, those nearest to the place first."""
        body = self.function.body if self.function else None
        pairs: List[Tuple[s.Statement, s.Statement]] = []
        for block in blocks_in(body) if body else ():
            pairs += zip(block.statements, block.statements[1:])
        pairs.sort(key=lambda pair: abs(pair[1].span.start - self.offset))
        for first, second in pairs[:8]:
            yield self.exchange(first, second)
        for first, _ in pairs[:8]:
            yield self.removal(first)


def blocks_in(block: s.Block) -> Iterator[s.Block]:
    yield block
    for one in block.statements:
        inner = [one] if isinstance(one, s.Block) else one.blocks()
        for other in inner:
            yield from blocks_in(other)


class RuleRepairs(Near):
    """Changes for a broken rule on names and types."""

    def __init__(self, view: View, fault: RuleFault) -> None:
        super().__init__(view, view.offset(fault.place))
        self.fault = fault
        self.statement = self.scope.statement if self.scope else None

    def all(self) -> Iterator[Cure]:
        makers = {27: self.of_unknown, 30: self.of_numbers, 35: self.of_missing_return, 37: self.of_missing_arms, 34: self.of_unreachable}
        if self.fault.rule in makers:
            yield from makers[self.fault.rule]()
        if self.function is None or self.function.body is None or self.offset < self.function.body.span.start:
            yield from self.of_declarations()
        yield from super().all()

    # ---- declarations

    def of_declarations(self) -> Iterator[Cure]:
        """The declaration at the place, or a part of it, is superfluous."""
        one = self.declarations.at(self.offset)
        if one is None:
            return
        if isinstance(one, s.Struct):
            for member in one.fields:
                if member.type.span.start <= self.offset <= member.name.span.end:
                    yield Cure(f"remove the field `{member.name}`", (drop_line(self.text, member.type.span.start),))
        if isinstance(one, s.Variant):
            for case in one.cases:
                if case.tick.span.start <= self.offset <= case.tick.span.end:
                    yield Cure(f"remove the case `{case.tick}`", (drop_line(self.text, case.tick.span.start),))
        yield from self.of_missing_type()
        yield self.removal(one)

    def of_missing_type(self) -> Iterator[Cure]:
        """The type or set of states that is named here isn't declared."""
        one = self.declarations.at(self.offset)
        name = self.word()
        if one is None or not name.isidentifier() or name in self.declarations.by_name:
            return
        start = self.declarations.program.declarations[0].span.start
        if self.fault.rule == NO_STATE_SET:
            yield from self.of_missing_set(name, start)
            return
        sets = [it.name.text for it in self.declarations.all(s.StateSet)]
        for written in (f"abstract {name};", *(f"abstract {name}@{it};" for it in sets), f"struct {name} {{}}"):
            yield Cure(f"declare `{written}`", (Edit(s.Span(start, start), written + "\n"),))

    def of_missing_set(self, name: str, start: int) -> Iterator[Cure]:
        """A set of the states that the text names and no set has."""
        states = list(states_named(tokens(self.text), {state.text for it in self.declarations.all(s.StateSet) for state in it.states}))
        for first in states:
            written = f"stateset {name} {{ {', '.join([first, *(state for state in states if state != first)])} }}"
            yield Cure(f"declare `{written}`", (Edit(s.Span(start, start), written + "\n"),))

    def word(self) -> str:
        end = self.offset
        while end < len(self.text) and (self.text[end].isalnum() or self.text[end] == "_"):
            end += 1
        return self.text[self.offset : end]

    # ---- names

    def of_unknown(self) -> Iterator[Cure]:
        """A variable that is bound later, in a block that has ended, or nowhere."""
        name, one, body = self.word(), self.statement, self.function.body if self.function else None
        if body is None or one is None or not name:
            return
        for other in s.all_statements(body):
            if isinstance(other, s.Declare) and other.name.text == name and other.span.start > one.span.start:
                written = self.view.text_of(other.span)
                edits = (put_before(self.text, one.span.start, [written]), drop(self.text, other.span))
                yield Cure(f"move `{short(written)}` before this statement", edits)
        yield from self.of_missing_function(name, one)
        for written in self.bindings(name, one):
            yield Cure(f"insert `{written}`", (put_before(self.text, one.span.start, [written]),))

    def of_missing_function(self, name: str, one: s.Statement) -> Iterator[Cure]:
        """An external of this name, with the types of what the call is given."""
        call = call_of(one)
        if call is None or call.callee.text != name or call.callee.span.start != self.offset:
            return
        kinds = [self.type_of(argument) for argument in call.arguments]
        keys = [kind.key for kind in kinds if kind.form == "held"]
        result = one.type if isinstance(one, s.Declare) else None
        gives = f"new {result.key}" if result is not None and result.form == "held" else ""
        listed = ", ".join(f"{kind} x{number}" for number, kind in enumerate(kinds, 1))
        end = len(self.text.rstrip())
        for sign in ("", "-") if keys else ("",):
            entries = ", ".join([*(sign + key for key in dict.fromkeys(keys)), *([gives] if gives else [])])
            written = f"extern {result or 'void'} {name}({listed})" + (f" [{entries}];" if entries else ";")
            yield Cure(f"declare `{written}`", (Edit(s.Span(end, end), f"\n{written}"),))

    def type_of(self, argument: s.Expression) -> s.Type:
        """The type of an argument: that of a variable, else the one that its sign has."""
        found = self.scope.find(argument.text) if self.scope and argument.kind == "name" else None
        if found is not None and found.type is not None:
            return found.type
        signs = {"==", "!=", "<", "<=", ">", ">=", "&&", "||", "!"}
        return s.Type("bool" if argument.kind == "bool" or argument.text in signs else "int")

    def bindings(self, name: str, one: s.Statement) -> Iterator[str]:
        """Statements that bind a name as a statement uses it."""
        for kind in self.types_wanted(name, one):
            if kind.form == "int":
                yield f"int {name} = 0;"
            elif kind.form == "bool":
                yield f"bool {name} = false;"
            else:
                yield from self.objects(name, kind)
        yield f"int {name} = 0;"
        yield f"bool {name} = false;"
        names = [it.name.text for it in self.declarations.types() if not isinstance(it, s.Variant)]
        for of_type in names:
            yield from self.objects(name, s.Type("held", of_type, self.fresh(name.upper())))
        for of_type in names:
            # the name is that of a key
            yield from self.objects(self.fresh(name.lower()), s.Type("held", of_type, name))
        for variable in reversed(self.scope.variables if self.scope else ()):
            if variable.type is not None and variable.type.form in ("held", "guarded"):
                yield f"{variable.type} {name} = {variable.name};"

    def types_wanted(self, name: str, one: s.Statement) -> Iterator[s.Type]:
        call = call_of(one)
        callee = self.declarations.find(call.callee.text, s.Function) if call else None
        for parameter, argument in zip(callee.parameters, call.arguments) if callee and call else ():
            if argument.kind == "name" and argument.text == name:
                yield parameter.type

    def objects(self, name: str, kind: s.Type) -> Iterator[str]:
        """Statements that bind a name to an object of a type: what makes one, or an owning variable that has one."""
        key = self.fresh(kind.key or name[:1].upper())
        written = f"tracked({key}) {kind.name}" if kind.form != "owned" else f"tracked {kind.name}"
        for variable in self.scope.variables if self.scope else ():
            if variable.type is not None and variable.type.form == "owned" and variable.type.name == kind.name:
                yield f"{written} {name} = {variable.name};"
        for maker in self.declarations.functions():
            simple = all(parameter.type.form in ("int", "bool") for parameter in maker.parameters)
            if maker.result.name == kind.name and simple:
                values = ", ".join(value_of(parameter.type) for parameter in maker.parameters)
                yield f"{written} {name} = {maker.name}({values});"
        struct = self.declarations.find(kind.name, s.Struct)
        if struct is not None and all(member.type.form in ("int", "bool") for member in struct.fields):
            fields = ", ".join(f"{member.name}: {value_of(member.type)}" for member in struct.fields)
            yield f"{written} {name} = new {kind.name} {{ {fields} }};"

    def fresh(self, name: str) -> str:
        known = set(self.declarations.by_name)
        known |= {variable.name.text for variable in self.scope.variables} if self.scope else set()
        known |= {variable.key for variable in self.scope.variables} if self.scope else set()
        number, found = 1, name
        while found in known:
            number += 1
            found = f"{name}{number}"
        return found

    # ---- numbers of things

    def of_numbers(self) -> Iterator[Cure]:
        """A `new` that lacks fields, or has too many; a call with too few arguments, or too many."""
        right = right_side(self.statement) if self.statement else None
        if isinstance(right, s.New):
            yield from self.of_fields(right)
        call = call_of(self.statement) if self.statement else None
        callee = self.declarations.find(call.callee.text, s.Function) if call else None
        if call is not None and callee is not None:
            have = [self.view.text_of(argument.span) for argument in call.arguments]
            want = [value_of(parameter.type) for parameter in callee.parameters]
            values = [*have, *want[len(have) :]][: len(want)]
            written = f"{callee.name}({', '.join(values)})"
            yield Cure(f"write `{written}`", (Edit(call.span, written),))

    def of_fields(self, new: s.New) -> Iterator[Cure]:
        struct = self.declarations.find(new.type.name, s.Struct)
        if struct is None:
            return
        have = {name.text: self.view.text_of(value.span) for name, value in new.fields}
        fields = ", ".join(f"{it.name}: {have.get(it.name.text, value_of(it.type))}" for it in struct.fields)
        begin = self.text.rfind("{", new.span.start, new.span.end)
        yield Cure(f"write `{{ {fields} }}`", (Edit(s.Span(begin, new.span.end), f"{{ {fields} }}" if fields else "{}"),))
        close = struct.released_span.start if struct.released_span else struct.span.end - 1
        for name in have:
            if name not in [it.name.text for it in struct.fields]:
                edit = put_before(self.text, close, [f"int {name};"], struct.released_span is None)
                yield Cure(f"declare the field `{name}` in `{struct.name}`", (edit,))

    # ---- ends and arms

    def of_missing_return(self) -> Iterator[Cure]:
        """A function with a result that may end without one."""
        function = self.function
        if function is None or function.body is None:
            return
        close = function.body.close
        if function.result.form in ("int", "bool"):
            yield self.at_end(close, f"return {value_of(function.result)};")
        scope = scope_at(self.declarations, close)
        for variable in reversed(scope.variables if scope else ()):
            if variable.type is not None and variable.type.name == function.result.name:
                yield self.at_end(close, f"return {variable.name};")
        for case in self.cases_of(function.result.name):
            if not case.types:
                yield self.at_end(close, f"return {case.tick};")

    def at_end(self, close: int, written: str) -> Cure:
        return Cure(f"insert `{written}`", (put_before(self.text, close, [written], True),))

    def cases_of(self, name: str) -> Tuple[s.Case, ...]:
        variant = self.declarations.find(name, s.Variant)
        return variant.cases if variant else ()

    def of_missing_arms(self) -> Iterator[Cure]:
        """Arms that a `switch` lacks, and arms that it has twice."""
        one = self.statement
        if not isinstance(one, s.Switch):
            return
        ticks = [arm.tick.text for arm in one.arms]
        for number, arm in enumerate(one.arms):
            if arm.tick.text in ticks[:number]:
                span = s.Span(self.text.rfind("case", 0, arm.tick.span.start), arm.body.span.end)
                yield Cure(f"remove the second arm of `{arm.tick}`", (drop(self.text, span),))
        found = self.scope.find(one.variable.text) if self.scope else None
        cases = self.cases_of(found.type.name) if found and found.type else ()
        missing = [case for case in cases if case.tick.text not in ticks]
        if missing:
            for ends in (False, True):
                yield self.with_arms(one, missing, ends)

    def with_arms(self, one: s.Switch, missing: List[s.Case], ends: bool) -> Cure:
        """Arms for cases; `ends` says that what a case carries and owns is released."""
        blanks = indent(self.text, one.span.start)
        written = ""
        for case in missing:
            names = [f"{case.tick.text.lstrip(chr(39)).lower()}{number}" for number in range(1, len(case.types) + 1)]
            listed = f"({', '.join(names)})" if names else ""
            body = "".join(
                f"\n{blanks}        release {name};" for name, kind in zip(names, case.types) if ends and kind.form == "owned"
            )
            written += f"{blanks}    case {case.tick}{listed}: {{{body}" + (f"\n{blanks}    }}\n" if body else "}\n")
        start = self.text.rfind("\n", 0, one.close) + 1
        titles = ", ".join(f"`{case.tick}`" for case in missing)
        return Cure(f"insert the arm{'s' if len(missing) > 1 else ''} of {titles}", (Edit(s.Span(start, start), written),))

    def of_unreachable(self) -> Iterator[Cure]:
        """What stands after an end; or the end is superfluous."""
        statements, number = self.block()
        if 0 < number < len(statements):
            yield self.exchange(statements[number - 1], statements[number])
            yield self.removal(statements[number - 1])


def states_named(found: Sequence[Token], known: Set[str]) -> Iterator[str]:
    """The names that stand where a state does, each once, and that aren't known."""
    seen = set(known)
    for number, token in enumerate(found[:-1]):
        of_type = number > 1 and (found[number - 2].is_keyword("abstract", "struct") or found[number - 1].is_sign(">"))
        if not token.is_sign("@", "->") or token.is_sign("@") and of_type:
            continue
        at = number + 1
        last = at
        while found[at].is_sign("{") and not found[last].is_sign("}") and last < len(found) - 1:
            last += 1
        for one in found[at : last + 1]:
            if one.kind == "name" and one.text not in seen:
                seen.add(one.text)
                yield one.text


def drop_line(text: str, offset: int) -> Edit:
    start = text.rfind("\n", 0, offset) + 1
    end = text.find("\n", offset)
    return Edit(s.Span(start, len(text) if end < 0 else end + 1), "")


def value_of(kind: s.Type) -> str:
    """The least value of a type, as far as it has one that can be written."""
    return {"int": "0", "bool": "false"}.get(kind.form, "x")

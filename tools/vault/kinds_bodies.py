"""What is said of the rules on bodies, 27 to 44, types aside."""
from __future__ import annotations

from typing import Dict, List, Optional, Tuple

from . import syntax as s
from .declarations import nearest
from .kinds_heads import declared_label, instead, listed
from .kinds_types import mismatch
from .picture import Cure, Edit, Label
from .telling import Context, Teller, Told, cure
from .typing_of import Typing
from .uses import call_of, expressions, head_span, right_side

# what C has, and what stands in its place
C_FUNCTIONS = {
    "free": "an object ends with `release {};`",
    "malloc": "an object is made by `new`: `tracked(K) point p = new point {{ x: 1 }};`",
    "calloc": "an object is made by `new`: `tracked(K) point p = new point {{ x: 1 }};`",
    "printf": "`print({});` writes a number, and there are no strings",
    "puts": "there are no strings; `print` writes a number",
    "putchar": "`print({});` writes a number",
    "scanf": "`int n = input();` reads a number",
    "getchar": "`int n = input();` reads a number",
    "exit": "a program ends with the end of `main`: `return;`",
    "abort": "a program ends with the end of `main`: `return;`",
    "assert": "there is no `assert`: test with `if`",
    "sizeof": "there is no `sizeof`",
    "delete": "an object ends with `release {};`",
}
C_VALUES = {
    "NULL": "there is no null: a `variant` has a case for nothing, as `'None`",
    "nullptr": "there is no null: a `variant` has a case for nothing, as `'None`",
    "TRUE": "write `true`",
    "FALSE": "write `false`",
    "True": "write `true`",
    "False": "write `false`",
}


def a(kind: s.Type) -> str:
    """A type with its article."""
    return f"an `{kind}`" if str(kind)[0] in "aeiou" else f"a `{kind}`"


def own_statement(context: Context) -> Optional[s.Statement]:
    """The innermost statement at the place."""
    return context.statement


def named_in(statement: Optional[s.Statement], offset: int) -> str:
    """What a statement names at a character: `callee`, `member`, `object` (of become, release, new and so on), `case` or `variable`."""
    call = call_of(statement)
    if call is not None and call.callee.span.start == offset:
        return "callee"
    if isinstance(statement, (s.Release, s.Become, s.Open, s.Focus)) and statement.variable.span.start == offset:
        return "object"
    right = right_side(statement)
    owner = getattr(right, "owner", None)
    if isinstance(owner, s.Name) and owner.span.start == offset or isinstance(right, s.Adopt):
        return "object"
    return "variable"


def unknown(context: Context) -> Told:
    """A name that isn't known."""
    name = context.word
    if name.startswith("'"):
        return unknown_case(context)
    member = member_at(context)
    if member:
        return unknown_field(context, member)
    what = named_in(own_statement(context), context.offset)
    if what == "callee":
        return unknown_function(context)
    if context.scope and name in context.scope.keys():
        return key_for_variable(context, name)
    if is_key_place(context):
        return unknown_key(context)
    return unknown_variable(context)


def is_key_place(context: Context) -> bool:
    """Whether a key stands at the place, in a type of a declaration."""
    one = own_statement(context)
    kind = one.type if isinstance(one, s.Declare) else None
    return kind is not None and kind.span.start <= context.offset < kind.span.end


def member_at(context: Context) -> Optional[Tuple[s.Name, s.Name]]:
    """The variable and the field if the place is a field's."""
    one = own_statement(context)
    if one is None:
        return None
    pairs = [(part.name, part.member) for part in expressions(one) if part.kind == "field"]
    if isinstance(one, (s.SetField, s.Swap)):
        pairs.append((one.name if isinstance(one, s.SetField) else one.variable, one.member))
    return next((pair for pair in pairs if pair[1].span.start == context.offset), None)


def unknown_case(context: Context) -> Told:
    name = context.word
    cases = [(one, case) for one in context.declarations.all(s.Variant) for case in one.cases]
    found = nearest(name, [case.tick.text for _, case in cases])
    others = tuple(context.label(case.tick.span, f"a case of `{one.name}`") for one, case in cases if case.tick.text == found)[:1]
    return Told(f"there is no case `{name}`", "", others, (instead(context, found),) if found else cure("declare it in a variant"))


def unknown_field(context: Context, pair: Tuple[s.Name, s.Name]) -> Told:
    variable, member = pair
    found = context.scope.find(variable.text) if context.scope else None
    struct = context.declarations.find(found.type.name, s.Struct) if found and found.type else None
    if struct is None:
        kind = f": it is {a(found.type)}" if found and found.type else ""
        return Told(f"`{variable}` has no fields{kind}", "", (), cure("fields are those of a struct's object"))
    names = [one.name.text for one in struct.fields]
    near = nearest(member.text, names)
    others = (context.label(struct.name.span, f"its fields are {listed(names)}" if names else "it has no fields"),)
    cures = (
        (instead(context, near),)
        if near
        else cure(
            f"use one of {listed(names)}, or declare the field `{member}`" if names else f"declare the field: `int {member};`"
        )
    )
    return Told(f"`{struct.name}` has no field `{member}`", "", others, cures)


def unknown_function(context: Context) -> Told:
    name, call = context.word, call_of(own_statement(context))
    given = context.view.text_of(call.arguments[0].span) if call and call.arguments else "x"
    if name in C_FUNCTIONS:
        return Told(f"there is no function `{name}`", "", (), cure(C_FUNCTIONS[name].format(given)))
    near = nearest(name, [one.name.text for one in context.declarations.functions()])
    cures = [instead(context, near)] if near else []
    cures.append(Cure(f"declare `{name}`: with a body, or as `extern` if the host gives it"))
    return Told(f"there is no function `{name}`", "", declared_label(context, near) if near else (), tuple(cures))


def key_for_variable(context: Context, key: str) -> Told:
    variables = context.scope.of_key(key)
    if not variables:
        return Told(f"`{key}` is a key, and a variable is meant here", "", (), cure("name a variable that refers to its object"))
    name = variables[-1].name
    others = (context.label(name.span, f"the variable `{name}` has the key `{key}`"),)
    return Told(f"`{key}` is a key; its variable is `{name}`", "", others, (instead(context, name.text),))


def unknown_key(context: Context) -> Told:
    key = context.word
    keys = context.scope.keys() if context.scope else []
    near = nearest(key, keys)
    text = f"the keys that are known here are {listed(keys)}" if keys else "no key is known here"
    return Told(
        f"no key `{key}` is known here",
        text,
        (),
        (instead(context, near),) if near else cure(f"`tracked({key}) T x = ..` binds the key"),
    )


def elsewhere(context: Context, name: str) -> Optional[Label]:
    """Where a name is bound in the function, though not for this place."""
    function = context.scope.function if context.scope else None
    for one in s.all_statements(function.body) if function and function.body else ():
        if isinstance(one, s.Declare) and one.name.text == name:
            if one.span.start <= context.offset < one.span.end:
                return context.label(one.name.span, f"`{name}` is known only after this statement")
            later = one.span.start > context.offset
            return context.label(
                one.name.span, f"`{name}` is declared here, {'after this place' if later else 'in a block that has ended'}"
            )
    return None


def unknown_variable(context: Context) -> Told:
    name = context.word
    if name in C_VALUES:
        return Told(f"`{name}` is not declared in this scope", "", (), cure(C_VALUES[name]))
    other = elsewhere(context, name)
    if other is not None:
        text = f"declare `{name}` before the block, and assign it there" if "ended" in other.text else f"declare `{name}` before"
        return Told(f"`{name}` is not declared in this scope", "", (other,), cure(text))
    declared = context.declarations.by_name.get(name)
    if declared:
        return Told(
            f"`{name}` is no variable", "", declared_label(context, name), cure("a variable is meant here: choose its name")
        )
    variables = context.scope.variables if context.scope else ()
    near = nearest(name, [one.name.text for one in variables])
    others = tuple(context.label(one.name.span, f"`{near}` is declared here") for one in variables if one.name.text == near)[:1]
    cures = (instead(context, near),) if near else cure(f"declare it before: `int {name} = 0;`")
    return Told(f"`{name}` is not declared in this scope", "", others, cures)


def taken(context: Context) -> Told:
    """A name that is bound or declared already."""
    name = context.word
    variable = context.scope.find(name) if context.scope else None
    one = own_statement(context)
    if variable is not None and variable.name.span.start != context.offset:
        others = (context.label(variable.name.span, f"`{name}` is declared here"),)
        cures = [Cure(f"choose another name, as `{name}2`")]
        if isinstance(one, s.Declare) and variable.type is not None and variable.type.form == one.type.form:
            value = context.view.text_of(getattr(one.right, "span"))
            edit = Edit(s.Span(one.span.start, one.name.span.start), "")
            cures.insert(0, Cure(f"assign it: `{name} = {value};`", (edit,)))
        return Told(f"the name `{name}` is taken: a variable in scope has it", "here again", others, tuple(cures))
    return Told(
        f"the name `{name}` is taken: it is declared",
        "",
        declared_label(context, name),
        cure("choose another name: variables share the names of types and functions"),
    )


# ---- numbers of things


def wrong_number(context: Context) -> Optional[Told]:
    """Too few or too many of something."""
    one = own_statement(context)
    right = right_side(one)
    if isinstance(right, s.New):
        return fields_of_new(context, right)
    call = call_of(one)
    if call is not None:
        return arguments_of_call(context, call)
    if isinstance(one, s.Open):
        return opened_names(context, one)
    if isinstance(one, s.Switch):
        return names_of_arm(context, one)
    return payloads(context, right) if isinstance(right, s.Build) else None


def fields_of_new(context: Context, new: s.New) -> Optional[Told]:
    struct = context.declarations.find(new.type.name, s.Struct)
    if struct is None:
        return None
    want, have = [one.name.text for one in struct.fields], [name.text for name, _ in new.fields]
    missing = [name for name in want if name not in have]
    strange = [name for name in have if name not in want]
    whole = ", ".join(
        f"{name}: {dict((n.text, context.view.text_of(v.span)) for n, v in new.fields).get(name, '..')}" for name in want
    )
    cures = cure(f"write `{{ {whole} }}`")
    others = (context.label(struct.name.span, f"its fields are {listed(want)}"),)
    if strange:
        return Told(f"`{struct.name}` has no field `{strange[0]}`", "", others, cures, new.span)
    if missing:
        return Told(
            f"`new {struct.name}` lacks the field{'s' if len(missing) > 1 else ''} {listed(missing)}", "", others, cures, new.span
        )
    return Told(f"the fields of `new {struct.name}` stand in another order than in its declaration", "", others, cures, new.span)


def counted(number: int, what: str) -> str:
    return f"{number or 'no'} {what}{'' if number == 1 else 's'}"


def arguments_of_call(context: Context, call: s.Call) -> Optional[Told]:
    callee = context.declarations.find(call.callee.text, s.Function)
    if callee is None:
        return None
    want, have = len(callee.parameters), len(call.arguments)
    others = (
        context.label(s.Span(callee.head.start, (callee.clause.start - 1) if callee.clause else callee.head.end), "its parameters"),
    )
    words = ", ".join(f"{one.type} {one.name}" for one in callee.parameters)
    return Told(
        f"`{callee.name}` takes {counted(want, 'argument')}, and is given {have or 'none'}",
        "",
        others,
        cure(f"give it `({words})`"),
        call.span,
    )


def opened_names(context: Context, one: s.Open) -> Optional[Told]:
    found = context.scope.find(one.variable.text)
    struct = context.declarations.find(found.type.name, s.Struct) if found and found.type else None
    if struct is None:
        return None
    owned = [member.name.text for member in struct.fields if member.type.form == "owned"]
    message = f"`{struct.name}` has {counted(len(owned), 'owning field')}, and `open` names {len(one.names)}"
    others = (context.label(struct.name.span, f"its owning fields are {listed(owned)}" if owned else "it has no owning field"),)
    return Told(
        message,
        "",
        others,
        cure(f"write `open {one.variable} into ({', '.join(owned)});`" if owned else f"write `release {one.variable};`"),
    )


def names_of_arm(context: Context, one: s.Switch) -> Optional[Told]:
    arm = next((arm for arm in one.arms if arm.tick.span.start <= context.offset < arm.body.span.start), None)
    variant = variant_of(context, one)
    case = next((case for case in variant.cases if arm and case.tick.text == arm.tick.text), None) if variant else None
    if arm is None or case is None:
        return None
    kinds = ", ".join(str(kind) for kind in case.types)
    others = (context.label(case.tick.span, f"it carries `({kinds})`" if kinds else "it carries nothing"),)
    names = ", ".join(f"x{n}" for n in range(1, len(case.types) + 1))
    return Told(
        f"the case `{case.tick}` carries {counted(len(case.types), 'value')}, and this arm names {len(arm.variables)}",
        "",
        others,
        cure(f"write `case {case.tick}{f'({names})' if names else ''}: {{ .. }}`"),
    )


def payloads(context: Context, build: s.Build) -> Optional[Told]:
    cases = [case for one in context.declarations.all(s.Variant) for case in one.cases if case.tick.text == build.tick.text]
    if len(cases) != 1:
        return None
    kinds = ", ".join(str(kind) for kind in cases[0].types)
    others = (context.label(cases[0].tick.span, f"it carries `({kinds})`" if kinds else "it carries nothing"),)
    return Told(
        f"the case `{build.tick}` carries {counted(len(cases[0].types), 'value')}, and is given {len(build.arguments)}",
        "",
        others,
        cure(f"write `{build.tick}{f'({kinds})' if kinds else ''}`, with a value for each type"),
        build.span,
    )


# ---- calls and keys


def keys_meet(context: Context) -> Optional[Told]:
    call = call_of(own_statement(context))
    callee = context.declarations.find(call.callee.text, s.Function) if call else None
    if call is None or callee is None:
        return None
    texts = [context.view.text_of(one.span) for one in call.arguments]
    twice = next((text for text in texts if texts.count(text) > 1), None)
    keys = [entry.key.text for entry in callee.entries]
    others = (context.label(callee.clause, f"{listed(keys)} are keys of different objects"),) if callee.clause else ()
    what = f"`{twice}` is passed twice" if twice else "one object is passed twice"
    return Told(f"{what} to `{callee.name}`, for two keys of its clause", "", others, cure("pass two objects"), call.span)


def key_comes_apart(context: Context) -> Optional[Told]:
    call = call_of(own_statement(context))
    callee = context.declarations.find(call.callee.text, s.Function) if call else None
    if call is None or callee is None or context.scope is None:
        return None
    typing = Typing(context.declarations, context.scope)
    found: Dict[str, List[str]] = {}
    for parameter, argument in zip(callee.parameters, call.arguments):
        kind = typing.expression(argument)
        if kind is not None and kind.key and parameter.type.key:
            found.setdefault(parameter.type.key, []).append(kind.key)
    apart = next(((key, theirs) for key, theirs in found.items() if len(set(theirs)) > 1), None)
    if apart is None:
        return None
    others = (context.label(callee.head, f"the key `{apart[0]}` is one object"),)
    message = f"the arguments of `{callee.name}` have the keys {listed(list(dict.fromkeys(apart[1])))} where it has the one key `{apart[0]}`"
    return Told(
        message, "", others, cure("pass objects that belong together: an adopted one with the object that adopted it"), call.span
    )


def dropped(context: Context) -> Optional[Told]:
    one = own_statement(context)
    call = call_of(one)
    callee = context.declarations.find(call.callee.text, s.Function) if call else None
    if call is None or callee is None:
        return None
    kind = callee.result
    written = f"tracked(K) {kind.name}" if kind.form == "held" else str(kind)
    others = (context.label(kind.span, f"`{callee.name}` gives an object, which its caller must end"),)
    return Told(
        f"the object that `{callee.name}` gives is dropped",
        "",
        others,
        cure(f"take it, `{written} x = {context.view.text_of(call.span)};`, and release it"),
        one.span,
    )


# ---- the order of statements


def unreachable(context: Context) -> Optional[Told]:
    function, before = context.scope.function if context.scope else None, None
    blocks = [function.body] if function and function.body else []
    for block in [*blocks, *(inner for one in (s.all_statements(function.body) if blocks else ()) for inner in one.blocks())]:
        for number, one in enumerate(block.statements):
            if one.span.start == context.offset and number:
                before = block.statements[number - 1]
    others = (context.label(head_span(before), "nothing comes after this"),) if before else ()
    return Told("this is never reached", "", others, cure("remove it, or move it before"))


def return_missing(context: Context) -> Optional[Told]:
    one = context.declaration
    if not isinstance(one, s.Function):
        return None
    loops = [
        inner
        for inner in (one.body.statements if one.body else ())
        if isinstance(inner, s.While) and inner.condition.text == "true"
    ]
    others = [context.label(one.result.span, f"it gives `{one.result}`")]
    if loops:
        others.append(context.label(head_span(loops[-1]), "the check doesn't look at conditions, so the loop may end"))
    value = {"int": "0", "bool": "false"}.get(one.result.form, "x")
    return Told(
        f"`{one.name}` may end without a `return`",
        "",
        tuple(others),
        cure(f"return on each path: `return {value};` before this brace"),
    )


def jump(context: Context) -> Optional[Told]:
    one = own_statement(context)
    focus = (
        next((outer for outer in reversed(context.scope.around[:-1]) if isinstance(outer, s.Focus)), None)
        if context.scope
        else None
    )
    word = one.word if isinstance(one, s.Jump) else "return"
    if focus is None:
        return Told(f"`{word}` is in no loop", "", (), cure("leave a function with `return;`, an `if` by its end"))
    others = (context.label(head_span(focus), "this `focus` must end first"),)
    return Told(
        f"`{word}` would leave a `focus`",
        "",
        others,
        cure(f"end the `focus` first, and remember in a variable what to do: `bool done = true;`, and `{word}` after it"),
    )


def variant_of(context: Context, one: s.Switch) -> Optional[s.Variant]:
    found = context.scope.find(one.variable.text) if context.scope else None
    return context.declarations.find(found.type.name, s.Variant) if found and found.type else None


def cases(context: Context) -> Optional[Told]:
    """A `switch` on no variant, or with an arm that is strange, repeated or missing."""
    one = own_statement(context)
    if not isinstance(one, s.Switch):
        return None
    variant = variant_of(context, one)
    if variant is None:
        return no_variant(context, one)
    ticks = [arm.tick for arm in one.arms]
    declared = context.label(variant.name.span, f"its cases are {listed([case.tick.text for case in variant.cases])}")
    names = [tick.text for tick in ticks]
    missing = [case for case in variant.cases if case.tick.text not in names]
    strange = next((tick for tick in ticks if tick.text not in [case.tick.text for case in variant.cases]), None)
    if strange is not None:
        return strange_arm(context, one, variant, strange, missing, declared)
    twice = next((tick for number, tick in enumerate(ticks) if tick.text in names[:number]), None)
    if twice is not None:
        message, cures = f"the case `{twice}` has two arms", cure("remove one of them")
        return Told(message, "", (context.label(twice.span, "here again"),), cures, head_span(one))
    message = f"the `switch` has no arm for {listed([case.tick.text for case in missing])}"
    return Told(message, "", (declared,), cure(f"add `{' '.join(arm_of(case) for case in missing)}`"), head_span(one))


def arm_of(case: s.Case) -> str:
    """An empty arm for a case."""
    names = ", ".join(f"x{number}" for number in range(1, len(case.types) + 1))
    return f"case {case.tick}{f'({names})' if names else ''}: {{ }}"


def no_variant(context: Context, one: s.Switch) -> Told:
    found = context.scope.find(one.variable.text) if context.scope else None
    kind = f", but of type `{found.type}`" if found and found.type else ""
    cures = cure("a `switch` takes a variant apart; choose on numbers with `if`")
    return Told(f"`{one.variable}` is of no variant{kind}", "", (), cures, head_span(one))


def strange_arm(
    context: Context, one: s.Switch, variant: s.Variant, strange: s.Name, missing: List[s.Case], declared: Label
) -> Told:
    """An arm for a case that the variant hasn't; the one that is meant is the nearest, or the only one without an arm."""
    near = nearest(strange.text, [case.tick.text for case in variant.cases])
    near = near or (missing[0].tick.text if len(missing) == 1 else None)
    cures = (Cure(f"write `{near}`", (Edit(strange.span, near),)),) if near else cure("remove this arm")
    others = (context.label(strange.span, "this arm"), declared)
    return Told(f"`{variant.name}` has no case `{strange}`", "", others, cures, head_span(one))


# ---- what can't be done to an object


def no_become(context: Context) -> Optional[Told]:
    one = own_statement(context)
    found = context.scope.find(context.word) if context.scope else None
    if not isinstance(one, s.Become) or found is None or found.type is None:
        return None
    name, kind = found.name.text, found.type
    others = (context.label(found.name.span, f"`{name}` is {a(kind)}"),)
    if context.declarations.find(kind.name, s.Abstract):
        moves = [move for move in context.declarations.moves(kind.name) if move.function and one.state.text in (move.after or ())]
        movers = [move.function.name.text for move in moves if move.function is not context.scope.function]
        states = context.declarations.states_of(kind.name)
        clause = f"[K@{states[0]}->{one.state}]" if states else "[K]"
        text = (
            f"call {listed(movers)}"
            if movers
            else f"declare an external whose clause says how: `extern void f(tracked(K) {kind.name} x) {clause};`"
        )
        return Told(f"the state of `{name}` is changed by externals only: `{kind.name}` is abstract", "", others, cure(text))
    if kind.form == "guarded":
        return Told(
            f"`{name}` was adopted, so its state is changed in a `focus` only",
            "",
            others,
            cure(f"`focus {name} as tracked(F) one {{ become one@{one.state}; .. }}`"),
        )
    if kind.form == "owned":
        return Told(
            f"`{name}` owns its object, so it has no key to follow",
            "",
            others,
            cure(f"take it out first: `tracked(K) {kind.name} x = {name};`, then `become x@{one.state};`"),
        )
    return Told(f"`{name}` is {a(kind)}, which has no states", "", others, ())


def no_release(context: Context) -> Optional[Told]:
    one = own_statement(context)
    found = context.scope.find(context.word) if context.scope else None
    if found is None or found.type is None:
        return None
    name, kind = found.name.text, found.type
    verb = {s.Open: "opened"}.get(type(one), "released" if isinstance(one, s.Release) else "adopted")
    others = (context.label(found.name.span, f"`{name}` is {a(kind)}"),)
    if kind.form in ("int", "bool"):
        return Told(
            f"`{name}` can't be {verb}: it is {a(kind)}",
            "",
            others,
            (Cure(f"remove this statement: {a(kind)} needs no release", (Edit(one.span, ""),)),),
        )
    if context.declarations.find(kind.name, s.Abstract):
        takers = [taker.name.text for taker in context.declarations.takers(kind.name)]
        text = (
            f"end it by {' or '.join(f'`{taker}({name});`' for taker in takers[:3])}"
            if takers
            else "declare an external that takes it: `extern void close(tracked(K) T x) [-K];`"
        )
        return Told(
            f"`{name}` can't be {verb}: `{kind.name}` is abstract, so externals alone end its objects", "", others, cure(text)
        )
    if kind.form == "guarded":
        return Told(
            f"`{name}` can't be {verb}: another object adopted it, and it ends with that one",
            "",
            others,
            cure(f"release the object of key `{kind.key}` in its place"),
        )
    struct = context.declarations.find(kind.name, s.Struct)
    if struct is not None and verb != "opened":
        return not_dropped(context, name, struct, verb, others)
    text = f"take the object out first: `tracked(K) {kind.name} x = {name};`" if kind.form == "owned" else "switch on it"
    return Told(f"`{name}` can't be {verb}: it is {a(kind)}", "", others, cure(text))


def not_dropped(context: Context, name: str, struct: s.Struct, verb: str, others: Tuple[Label, ...]) -> Told:
    owned = [member for member in struct.fields if member.type.form == "owned"]
    labels = tuple(context.label(member.name.span, "this field owns an object that can't end so") for member in owned[:1])
    names = ", ".join(member.name.text for member in owned)
    return Told(
        f"`{name}` can't be {verb}: its fields own objects that must be ended apart",
        "",
        labels or others,
        cure(f"open it, `open {name} into ({names});`, and end each of them"),
    )


def guarded_field(context: Context) -> Optional[Told]:
    one = own_statement(context)
    part = (
        next(
            (part for part in expressions(one) if part.span.start <= context.offset < part.span.end and part.kind == "field"), None
        )
        if one
        else None
    )
    name = part.name if part else getattr(one, "name", None)
    member = part.member if part else getattr(one, "member", None)
    found = context.scope.find(name.text) if name and context.scope else None
    struct = context.declarations.find(found.type.name, s.Struct) if found and found.type else None
    declared = next((other for other in struct.fields if member and other.name.text == member.text), None) if struct else None
    if declared is None or member is None:
        return None
    states = listed(list(declared.states))
    others = (context.label(s.Span(declared.type.span.start, declared.name.span.end), f"it may be touched in {states} only"),)
    return Told(
        f"`{name}.{member}` needs a state, and that of `{name}` isn't known: another object adopted it",
        "",
        others,
        cure(f"touch it in a `focus`: `focus {name} as tracked(F) one {{ .. one.{member} .. }}`"),
        part.span if part else None,
    )


def no_new(context: Context) -> Optional[Told]:
    one = own_statement(context)
    new = right_side(one)
    if not isinstance(new, s.New):
        return None
    name = new.type.name
    declared = declared_label(context, name)
    if context.declarations.find(name, s.Abstract):
        makers = [other.name.text for other in context.declarations.functions() if other.result.name == name]
        text = (
            f"get one from {' or '.join(f'`{maker}(..)`' for maker in makers[:3])}"
            if makers
            else f"declare an external that gives one: `extern tracked(K) {name} make() [new K];`"
        )
        return Told(f"`{name}` is abstract, so `new` can't make one", "", declared, cure(text), new.type.span)
    if context.declarations.find(name, s.Variant):
        return Told(
            f"`{name}` is a variant: a value of it is one of its cases",
            "",
            declared,
            cure("write the case, as `'Case(..)`, without `new`"),
            new.type.span,
        )
    states = context.declarations.states_of(name)
    first = f"`{states[0]}`" if states else "its first state"
    wanted = one.type.states if isinstance(one, s.Declare) and one.type.states else context.declarations.release_states(name)
    return Told(
        f"a new `{name}` is in state {first}, and must be in {listed(list(wanted))} here",
        "",
        declared,
        cure(f"make it, `tracked(K) {name} x = new ..;`, bring it to that state, and hand it over then"),
    )


def field_labels(context: Context, variable: str, member: str) -> Tuple[Label, ...]:
    """The declaration of a field that owns its object."""
    found = context.scope.find(variable) if context.scope else None
    struct = context.declarations.find(found.type.name, s.Struct) if found and found.type else None
    fields = [field for field in struct.fields if field.name.text == member] if struct else []
    return tuple(context.label(s.Span(one.type.span.start, one.name.span.end), "this field owns an object") for one in fields)


def owning_field(context: Context) -> Optional[Told]:
    one = own_statement(context)
    if isinstance(one, s.SetField):
        value = context.view.text_of(one.right.span)
        return Told(
            f"`{one.name}.{one.member}` owns its object, so it can't be assigned",
            "",
            field_labels(context, one.name.text, one.member.text),
            cure(f"exchange it: `swap {one.name}.{one.member}, {value};`, and `{value}` has the old object then"),
        )
    if isinstance(one, s.Swap):
        return Told(
            f"`swap` exchanges an owning field with a variable, and `{one.variable}.{one.member}` isn't one with `{one.other}`",
            "",
            (),
            cure("give it an owning field and an owning variable of the same type"),
        )
    word = context.view.source.text[context.offset : context.offset + 60].split(";")[0].split(",")[0].split(")")[0]
    variable, _, member = word.partition(".")
    return Told(
        f"`{word}` owns its object, so it can't be read",
        "",
        field_labels(context, variable.strip(), member.strip()),
        cure(f"exchange it for another object: `swap {word}, x;`, then `x` has it"),
    )


def old_for_new(context: Context) -> Optional[Told]:
    one = own_statement(context)
    function = context.scope.function if context.scope else None
    if not isinstance(one, s.Return) or function is None or not isinstance(one.value, s.Expression):
        return None
    name = one.value.text
    entry = next((entry for entry in function.entries if entry.mode == "new"), None)
    others = (context.label(entry.span, "a new object is promised here"),) if entry else ()
    return Told(f"`{name}` isn't new: the clause keeps its key", "", others, cure("return an object that is made here"), one.span)


def return_fits(context: Context) -> Optional[Told]:
    one = own_statement(context)
    function = context.scope.function if context.scope else None
    if not isinstance(one, s.Return) or function is None:
        return None
    gives = "nothing" if function.result.form == "void" else f"`{function.result}`"
    others = (context.label(function.result.span, f"`{function.name}` gives {gives}"),)
    if one.value is None:
        value = {"int": "0", "bool": "false"}.get(function.result.form, "x")
        return Told(
            f"`return` gives nothing, and `{function.name}` must give `{function.result}`",
            "",
            others,
            cure(f"write `return {value};`"),
            one.span,
        )
    if function.name.text == "main":
        return Told("`main` gives nothing", "", others, (Cure("write `return;`", (Edit(one.span, "return;"),)),), one.span)
    return Told(
        f"`return` gives a value, and `{function.name}` gives none",
        "",
        others,
        cure(f"write `return;`, or let it give one: `int {function.name}(..)`"),
        one.span,
    )


BODIES: Dict[int, Teller] = {
    27: unknown, 28: taken, 29: mismatch, 30: wrong_number, 31: keys_meet, 32: key_comes_apart, 33: dropped, 34: unreachable,
    35: return_missing, 36: jump, 37: cases, 38: no_become, 39: no_release, 40: guarded_field, 41: no_new, 42: owning_field,
    43: old_for_new, 44: return_fits,
}  # fmt: skip

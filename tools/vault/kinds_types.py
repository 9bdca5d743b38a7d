"""What is said of rule 29: the type that is wanted, the one that is found, and what to do."""
from __future__ import annotations

from typing import Optional, Tuple

from . import syntax as s
from .picture import Cure, Edit, Label
from .telling import Context, Told, cure
from .typing_of import Typing, same
from .uses import call_of, expressions, right_side


def mismatch(context: Context) -> Optional[Told]:
    """The expression at the place, with both types if the text tells them."""
    if context.scope is None or context.statement is None:
        return None
    typing = Typing(context.declarations, context.scope)
    one = context.statement
    right = right_side(one)
    if isinstance(right, (s.Call, s.Build, s.New, s.Read, s.Adopt)) and right.span.start == context.offset:
        return of_right(context, typing, one, right)
    for part, wanted in typing.wanted(one, context.scope.function):
        found = typing.expression(part)
        if part.span.start == context.offset and wanted is not None and found is not None and is_other(wanted, found):
            return of_expression(context, typing, part, wanted, found)
    no_object = without_fields(context)
    if no_object is not None:
        return no_object
    for part, wanted in typing.wanted(one, context.scope.function):
        if part.span.start == context.offset:
            return unnamed(context, typing, part, wanted)
    return None


def without_fields(context: Context) -> Optional[Told]:
    """A field is named of a variable that refers to no object."""
    one = context.statement
    pairs = [(part.name, part.member) for part in expressions(one) if part.kind == "field"]
    if isinstance(one, s.SetField):
        pairs.append((one.name, one.member))
    name = next((name for name, _ in pairs if name.span.start == context.offset), None)
    variable = context.scope.find(name.text) if name else None
    if variable is None or variable.type is None or variable.type.form in ("held", "guarded"):
        return None
    text = f"`{name}` is declared here"
    others = (context.label(variable.name.span, text),)
    if variable.type.form == "owned":
        cures = cure(f"take the object out first: `tracked(K) {variable.type.name} x = {name};`, and use `x`")
        return Told(f"`{name}` owns its object, and only a reference with a key has fields", "", others, cures, name.span)
    return Told(f"`{name}` is {article(variable.type)}, which has no fields", "", others, cure("name a variable of an object"), name.span)


def is_other(wanted: s.Type, found: s.Type) -> bool:
    return not same(wanted, found) or wanted.key != found.key or wanted.arguments != found.arguments


def unnamed(context: Context, typing: Typing, part: s.Expression, wanted: Optional[s.Type]) -> Optional[Told]:
    """What is said if one of the types isn't known, or both are alike."""
    found = typing.expression(part)
    if wanted is not None and wanted.form != "void" and found is None:
        return Told(f"type mismatch: expected `{wanted}`", "", why(context, typing, part), (), part.span)
    if found is not None and wanted is None:
        return Told(f"type mismatch: `{context.view.text_of(part.span)}` is `{found}`", "", (), (), part.span)
    return None


def article(kind: s.Type) -> str:
    return f"an `{kind}`" if kind.form == "int" else f"a `{kind}`"


def why(context: Context, typing: Typing, part: s.Expression) -> Tuple[Label, ...]:
    """Where the wanted type stands: a parameter, a declaration, a field, or the function's result."""
    one = context.statement
    call = call_of(one)
    callee = typing.callee(call) if call else None
    for number, argument in enumerate(call.arguments if call else ()):
        if argument.span.start <= part.span.start < argument.span.end and callee is not None and number < len(callee.parameters):
            parameter = callee.parameters[number]
            return (context.label(s.Span(parameter.type.span.start, parameter.name.span.end), f"the parameter of `{callee.name}`"),)
    if isinstance(one, s.Declare) and not call:
        return (context.label(one.type.span, "the variable's type"),) if one.right is part else ()
    if isinstance(one, s.Assign):
        variable = context.scope.find(one.name.text)
        return (context.label(variable.name.span, f"`{variable.name}` is declared here"),) if variable else ()
    if isinstance(one, s.Return):
        return (context.label(context.scope.function.result.span, f"`{context.scope.function.name}` gives this"),)
    return ()


def bound_label(context: Context, part: s.Expression) -> Tuple[Label, ...]:
    """Where the variable that an expression is was declared."""
    variable = context.scope.find(part.text) if part.kind == "name" else None
    if variable is None or variable.type is None:
        return ()
    return (context.label(variable.name.span, f"`{variable.name}` is {article(variable.type)}"),)


def of_expression(context: Context, typing: Typing, part: s.Expression, wanted: s.Type, found: s.Type) -> Told:
    text = context.view.text_of(part.span)
    others = (*why(context, typing, part), *bound_label(context, part))
    cures = cures_of(context, part, text, wanted, found)
    if isinstance(context.statement, s.Declare) and context.statement.right is part and wanted.form == "held" == found.form:
        message = f"the key `{wanted.key}` would be new, but the object of `{text}` has the key `{found.key}`"
        return Told(message, f"this is `{found}`", others, cures, part.span)
    shown = declared_parameter(context, typing, part) if wanted.name != found.name else None
    return Told(f"type mismatch: expected `{shown or wanted}`, found `{found}`", f"this is `{found}`", others, cures, part.span)


def declared_parameter(context: Context, typing: Typing, part: s.Expression) -> Optional[s.Type]:
    """The type of the parameter for which an argument is given, as its head writes it."""
    call = call_of(context.statement)
    callee = typing.callee(call) if call else None
    for number, argument in enumerate(call.arguments if call else ()):
        if argument is part and callee is not None and number < len(callee.parameters):
            return callee.parameters[number].type
    return None


def cures_of(context: Context, part: s.Expression, text: str, wanted: s.Type, found: s.Type) -> Tuple[Cure, ...]:
    """What to do about an expression of another type."""
    if wanted.form == "bool" and found.form == "int":
        if part.kind == "number" and isinstance(context.statement, (s.While, s.If)):
            word = "false" if part.text == "0" else "true"
            return (Cure(f"write `{word}`", (Edit(part.span, word),)),)
        return compared_with_zero(context, part, f"({text})" if part.kind == "operator" else text)
    if wanted.form == "int" and found.form == "bool":
        one = context.statement
        if isinstance(one, s.Declare) and one.right is part:
            return (
                Cure(f"declare `bool {one.name}`", (Edit(one.type.span, "bool"),)),
                Cure(f"choose: `int {one.name} = 0; if ({text}) {{ {one.name} = 1; }}`"),
            )
        return cure(f"nothing is converted: choose a number with `if ({text}) {{ .. }}`")
    if wanted.form == "held" and found.form == "owned" and wanted.name == found.name:
        return cure(f"take the object out of `{text}` first: `tracked({wanted.key or 'K'}) {found.name} x = {text};`, and use `x`")
    if wanted.form == "held" and found.form == "held" and wanted.name == found.name:
        return alias_cure(context, part, text, found)
    if wanted.form == "guarded" and found.form == "guarded" and wanted.name == found.name:
        return cure(f"use an object that the object of key `{wanted.key}` adopted")
    if wanted.form == "owned" and found.form == "owned" and wanted.name == found.name:
        return cure(
            f"the states differ: bring the object to {', '.join(f'`{state}`' for state in wanted.states) or 'such a state'} first"
        )
    if wanted.name and found.name and wanted.name != found.name:
        return cure(f"pass an object of the type `{wanted.name}`")
    return cure(f"give {article(wanted)}")


def compared_with_zero(context: Context, part: s.Expression, text: str) -> Tuple[Cure, ...]:
    """A number where C tests whether it is zero; after `!` the test is the other one."""
    is_of = (one for one in expressions(context.statement) if one.kind == "sign" and one.text == "!" and one.operands[0] is part)
    whole = next(is_of, None)
    compared = f"{text} == 0" if whole else f"{text} != 0"
    return (Cure(f"compare: `{compared}`", (Edit((whole or part).span, compared),)),)


def alias_cure(context: Context, part: s.Expression, text: str, found: s.Type) -> Tuple[Cure, ...]:
    """A second name for an object."""
    one = context.statement
    if isinstance(one, s.Declare) and one.right is part:
        written = f"tracked({found.key}) {found.name}"
        return (
            Cure(f"a second name for the object has its key: `{written} {one.name} = {text};`", (Edit(one.type.span, written),)),
        )
    return cure(f"use an object of the key `{found.key}`")


# ---- right sides that are no expressions


def target_type(context: Context, one: s.Statement) -> Optional[s.Type]:
    if isinstance(one, s.Declare):
        return one.type
    variable = context.scope.find(one.name.text) if isinstance(one, s.Assign) else None
    return variable.type if variable else None


def of_right(context: Context, typing: Typing, one: s.Statement, right: object) -> Optional[Told]:
    wanted, found = target_type(context, one), typing.right(right)
    if wanted is None:
        return None
    if isinstance(right, s.Call) and found is not None:
        return of_call(context, typing, one, right, wanted, found)
    if isinstance(right, s.New):
        return of_new(context, one, right, wanted, found)
    if isinstance(right, s.Build):
        variants = [
            variant
            for variant in context.declarations.all(s.Variant)
            if any(case.tick.text == right.tick.text for case in variant.cases)
        ]
        names = " or ".join(f"`{variant.name}`" for variant in variants) or "no variant"
        return Told(
            f"type mismatch: expected `{wanted}`, and `{right.tick}` is a case of {names}",
            "",
            declared_type(context, one),
            cure(f"declare the variable as {names}"),
            right.span,
        )
    if found is not None:
        return Told(
            f"type mismatch: expected `{wanted}`, found `{found}`",
            f"this is `{found}`",
            declared_type(context, one),
            cure(f"declare `{found}`"),
            right.span,
        )
    return None


def declared_type(context: Context, one: s.Statement) -> Tuple[Label, ...]:
    return (context.label(one.type.span, "the variable's type"),) if isinstance(one, s.Declare) else ()


def of_call(context: Context, typing: Typing, one: s.Statement, call: s.Call, wanted: s.Type, found: s.Type) -> Told:
    callee = typing.callee(call)
    others = (context.label(callee.result.span, f"`{callee.name}` gives {'nothing' if found.form == 'void' else 'this'}"),)
    name = getattr(one, "name", "x")
    if found.form == "void":
        edit = Edit(one.span, f"{context.view.text_of(call.span)};")
        message = f"`{callee.name}` gives nothing, and `{wanted}` is expected"
        return Told(
            message, "", others, (Cure(f"call it as a statement: `{context.view.text_of(call.span)};`", (edit,)),), call.span
        )
    message = f"type mismatch: expected `{wanted}`, and `{callee.name}` gives `{found}`"
    written = f"tracked(K) {found.name}" if found.form == "held" else str(found)
    cures = [
        Cure(
            f"declare `{written} {name} = {context.view.text_of(call.span)};`",
            (Edit(one.type.span, written),) if isinstance(one, s.Declare) else (),
        )
    ]
    if wanted.form == "held" and found.form == "owned" and not callee.is_external:
        cures.append(Cure(f"let `{callee.name}` promise a new object: `tracked(N) {found.name} {callee.name}(..) [new N]`"))
    return Told(message, "", others, tuple(cures), call.span)


def of_new(context: Context, one: s.Statement, new: s.New, wanted: s.Type, found: Optional[s.Type]) -> Told:
    if new.owner is not None and found is not None:
        edit = (Edit(one.type.span, str(found)),) if isinstance(one, s.Declare) else ()
        return Told(
            f"type mismatch: expected `{wanted}`, and `new({new.owner})` gives `{found}`",
            "",
            (),
            (Cure(f"declare `{found}`", edit),),
            new.span,
        )
    written = f"tracked(K) {new.type.name}"
    message = f"type mismatch: expected `{wanted}`, found a new object of `{new.type.name}`"
    return Told(message, "", (), cure(f"declare `{written} {getattr(one, 'name', 'x')}`"), new.span)

"""What is said of the rules on declarations and heads, 1 to 26, 45 and 46."""
from __future__ import annotations

from typing import Dict, Iterator, List, Optional, Tuple

from . import syntax as s
from .declarations import nearest
from .habits import C_TYPES
from .picture import Cure, Edit, Label
from .telling import Context, Teller, Told, cure
from .tokens import tokens


def listed(names: List[str], most: int = 6) -> str:
    shown = ", ".join(f"`{name}`" for name in names[:most])
    return shown + (", .." if len(names) > most else "")


def instead(context: Context, name: str) -> Cure:
    """The cure that puts another name in the place of the one at the fault."""
    return Cure(f"write `{name}`", (Edit(context.token_span(), name),))


def types_in(declaration: Optional[s.Declaration]) -> Iterator[s.Type]:
    """The types that a declaration names, and those that its body's declarations name."""
    if isinstance(declaration, s.Struct):
        yield from (one.type for one in declaration.fields)
    elif isinstance(declaration, s.Variant):
        yield from (kind for case in declaration.cases for kind in case.types)
    elif isinstance(declaration, s.Function):
        yield declaration.result
        yield from (one.type for one in declaration.parameters)
        for statement in s.all_statements(declaration.body) if declaration.body else ():
            if isinstance(statement, s.Declare):
                yield statement.type
                if isinstance(statement.right, s.New):
                    yield statement.right.type


def type_at(context: Context) -> Optional[s.Type]:
    """The type that has the place in it."""
    for kind in types_in(context.declaration):
        if kind.span.start <= context.offset < kind.span.end:
            return kind
    return None


def declared_label(context: Context, name: str, but: Optional[s.Declaration] = None) -> Tuple[Label, ...]:
    """Where a name is declared."""
    for one in context.declarations.by_name.get(name, []):
        if one is not but:
            return (context.label(one.name.span, f"`{name}` is declared here"),)
    return ()


def name_after(context: Context, kind: s.Type) -> str:
    """The name that a type at the place is of: a parameter's, a field's, or a variable's."""
    text = context.view.source.text[kind.span.end : kind.span.end + 80].split()
    word = text[0].rstrip(";,)=") if text else "x"
    return word if word.isidentifier() else "x"


def no_main(context: Context) -> Told:
    found = nearest("main", [one.name.text for one in context.declarations.functions()])
    cures = [Cure("write `void main() { .. }`: a run begins there")]
    if found:
        cures.insert(0, Cure(f"the function `{found}` is called almost so: rename it"))
    cures.append(Cure("if this is a module, ask `vault module INTERFACE FILE`"))
    return Told("the program has no function `main`", "", (), tuple(cures))


def declared_twice(context: Context) -> Told:
    name = context.word
    return Told(
        f"`{name}` is declared twice", "here again", declared_label(context, name, context.declaration),
        cure("give one of them another name: state sets, types and functions share their names"),
    )  # fmt: skip


def repeated(context: Context) -> Told:
    name, one = context.word, context.declaration
    start = one.span.start
    first = next((token for token in tokens(context.view.text_of(one.span)) if token.text == name), None)
    others = ()
    if first is not None and start + first.start < context.offset:
        others = (context.label(s.Span(start + first.start, start + first.end), "it is here first"),)
    what = {s.StateSet: "a state", s.Struct: "a field or a key", s.Variant: "a case or a key"}.get(type(one), "a part")
    return Told(
        f"`{name}` is listed twice in `{one.name}`", "here again", others, cure(f"list {what} once, or give this one another name")
    )


def not_ascii(context: Context) -> Told:
    return Told(
        f"the external's name `{context.word}` isn't ASCII", "", (),
        cure("an external's name is written into C: use the letters a to z, digits and `_`"),
    )  # fmt: skip


def header_key_name(context: Context) -> Told:
    name = context.word
    return Told(
        f"the key `{name}` has the name of something that is declared", "", declared_label(context, name),
        cure(f"call the key otherwise; keys are written as capitals by habit: `{name[:1].upper()}`"),
    )  # fmt: skip


def no_state_set(context: Context) -> Told:
    name = context.word
    sets = [one.name.text for one in context.declarations.all(s.StateSet)]
    found = nearest(name, sets)
    others = declared_label(context, found) if found else declared_label(context, name)
    cures = [instead(context, found)] if found else []
    cures.append(Cure(f"declare `stateset {name} {{ .. }}`"))
    return Told(f"there is no state set `{name}`", "", others, tuple(cures))


def no_type(context: Context) -> Told:
    name = context.word
    if name in C_TYPES:
        return Told(f"there is no type `{name}`", "", (), (instead(context, C_TYPES[name]),))
    other = context.declarations.by_name.get(name)
    if other:
        what = "a state set" if isinstance(other[0], s.StateSet) else "a function"
        return Told(f"`{name}` is no type but {what}", "", declared_label(context, name), cure("write the name of a type"))
    found = nearest(name, [one.name.text for one in context.declarations.types()])
    others = declared_label(context, found) if found else ()
    cures = [instead(context, found)] if found else []
    cures.append(Cure(f"declare the type: `struct {name} {{ .. }}`, `variant {name} {{ .. }}` or `abstract {name};`"))
    return Told(f"there is no type `{name}`", "", others, tuple(cures))


def header_of(context: Context, name: str) -> Tuple[s.HeaderKey, ...]:
    found = context.declarations.find(name, s.Struct) or context.declarations.find(name, s.Variant)
    return found.header if found else ()


def number_of_keys(context: Context) -> Optional[Told]:
    kind = type_at(context)
    if kind is None:
        return None
    header = header_of(context, kind.name)
    want, have = len(header), len(kind.arguments)
    keys = ", ".join(key.name.text for key in header)
    message = f"`{kind.name}` takes {want or 'no'} {'key' if want == 1 else 'keys'}, and is given {have or 'none'}"
    text = f"write `{kind.name}<{keys}>`, with a key of your own for each" if want else f"write `{kind.name}` alone"
    return Told(message, "", declared_label(context, kind.name), cure(text), kind.span)


def key_not_in_header(context: Context) -> Optional[Told]:
    kind, one = type_at(context), context.declaration
    if one is None:
        return None
    key = kind.key if kind is not None and kind.key else context.word
    message = f"`{one.name}` speaks of the key `{key}`, which isn't in its header"
    word = "struct" if isinstance(one, s.Struct) else "variant"
    return Told(
        message,
        "",
        (context.label(one.name.span, "the header stands after this name"),),
        cure(f"write `{word} {one.name}<{key}>`, and the type of its object after a colon: `<{key}: T>`"),
    )


def wrong_prefix(context: Context) -> Optional[Told]:
    kind = type_at(context)
    if kind is None:
        return None
    declared = declared_label(context, kind.name)
    if kind.form == "guarded":
        message = f"`{kind}`: only an object of a struct can be adopted, and `{kind.name}` is none"
        return Told(message, "", declared, cure(f"write `tracked(K) {kind.name}`, or make `{kind.name}` a struct"), kind.span)
    return Told(
        f"`{kind}`: `tracked` goes before structs and abstract types, and `{kind.name}` is a variant",
        "",
        declared,
        cure(f"write `{kind.name}` or `tracked {kind.name}`"),
        kind.span,
    )


def tracked_on_variant(context: Context) -> Optional[Told]:
    kind = type_at(context)
    variant = context.declarations.find(kind.name, s.Variant) if kind else None
    if variant is None:
        return None
    declared = declared_label(context, kind.name)
    if context.declarations.owns_objects(variant):
        message = f"a `{kind.name}` owns objects, so its type is `tracked {kind.name}`"
        return Told(
            message,
            "",
            declared,
            (
                Cure(
                    f"write `tracked {kind.name} {name_after(context, kind)}`",
                    (Edit(s.Span(kind.span.start, kind.span.start), "tracked "),),
                ),
            ),
            kind.span,
        )
    return Told(
        f"a `{kind.name}` owns no object, so its type is written without `tracked`",
        "",
        declared,
        cure(f"write `{kind.name} {name_after(context, kind)}`"),
        kind.span,
    )


def bare_object(context: Context) -> Optional[Told]:
    kind = type_at(context)
    if kind is None:
        return None
    name, what = name_after(context, kind), kind.name
    struct = context.declarations.find(what, s.Struct)
    message = f"`{what}` alone doesn't say how the object of `{name}` is held"
    cures = [Cure(f"`tracked(K) {what} {name}`, if the key of the object is to be followed")]
    if (
        isinstance(context.declaration, s.Function)
        and context.declaration.body
        and context.offset > context.declaration.body.span.start
    ):
        return Told(
            message,
            "",
            declared_label(context, what),
            tuple(cures + [Cure(f"`tracked {what} {name}`, if `{name}` owns the object")]),
            kind.span,
        )
    cures.append(Cure(f"`tracked {what} {name}`, if it takes the object over"))
    if struct:
        cures.append(Cure(f"`K:{what} {name}`, if another object adopted it"))
    return Told(
        message,
        "",
        declared_label(context, what),
        tuple(cures if not isinstance(context.declaration, s.Struct) else cures[1:]),
        kind.span,
    )


def type_with_states(context: Context) -> Optional[str]:
    """The name of the type whose states are meant at the place."""
    one = context.declaration
    if isinstance(one, s.Struct):
        return one.name.text
    if isinstance(one, s.Function):
        for entry in one.entries:
            if entry.span.start <= context.offset < entry.span.end:
                return context.declarations.key_type(one, entry.key.text)
    become = context.statement
    if isinstance(become, s.Become) and context.scope:
        variable = context.scope.find(become.variable.text)
        return variable.type.name if variable and variable.type else None
    kind = type_at(context)
    return kind.name if kind else None


def no_such_state(context: Context) -> Optional[Told]:
    state, kind = context.word, type_with_states(context)
    if not kind:
        return None
    states = list(context.declarations.states_of(kind))
    if not states:
        return Told(
            f"`{kind}` has no states, so `@{state}` can't stand here",
            "",
            declared_label(context, kind),
            cure("leave the state off, or give the type a state set"),
        )
    if state in states:
        return Told(f"the state `{state}` is listed twice", "here again", (), cure("list each state once"))
    found = nearest(state, states, 0.8)
    one = context.declarations.state_set_of(kind)
    others = (context.label(one.name.span, f"its states are {listed(states)}"),) if one else ()
    cures = (instead(context, found),) if found else cure(f"use one of {listed(states)}")
    return Told(f"`{state}` is no state of `{kind}`", "", others, cures)


def field_type(context: Context) -> Optional[Told]:
    kind = type_at(context)
    if kind is None:
        return None
    name = name_after(context, kind)
    if kind.form == "held":
        cures = (
            Cure(f"`tracked {kind.name} {name}`, if the field owns the object"),
            Cure(f"`K:{kind.name} {name}`, if another object adopted it"),
        )
        return Told(f"a field can't have the type `{kind}`", "", (), cures, kind.span)
    message = f"a field can't have the type `{kind}`, a variant whose cases list keys"
    return Told(
        message,
        "",
        declared_label(context, kind.name),
        cure("keep the value in a variable, or let the field own the object"),
        kind.span,
    )


def payload_type(context: Context) -> Optional[Told]:
    kind = type_at(context)
    if kind is None:
        return None
    message = f"a case can't carry `{kind}`: it carries numbers, bools, adopted objects and objects that it owns"
    return Told(
        message,
        "",
        declared_label(context, kind.name),
        cure(f"put the parts of `{kind.name}` into this case, or into a struct that it owns"),
        kind.span,
    )


def case_keys(context: Context) -> Optional[Told]:
    one = context.declaration
    if not isinstance(one, s.Variant):
        return None
    keys = [key.name.text for key in one.header]
    word = context.word
    if word not in keys:
        message = f"the key `{word}` isn't in the header of `{one.name}`"
        return Told(message, "", (), cure(f"use {listed(keys)}" if keys else f"write `variant {one.name}<{word}: T>`"))
    typed = next(key for key in one.header if key.name.text == word).type_name
    return Told(
        f"the key `{word}` is listed twice in this case" if typed else f"the key `{word}` has no type in the header",
        "",
        (),
        cure("list it once" if typed else f"write `<{word}: T>`"),
    )


def key_of_variant(context: Context) -> Told:
    return Told(
        f"a key can't stand for a `{context.word}`, which is a variant",
        "",
        declared_label(context, context.word),
        cure("a key has one object: use a struct or an abstract type"),
    )


def name_in_head(context: Context) -> Optional[Told]:
    one, name = context.declaration, context.word
    if not isinstance(one, s.Function):
        return None
    others = declared_label(context, name)
    earlier = [other.name for other in one.parameters if other.name.text == name and other.name.span.start < context.offset]
    if earlier:
        others = (context.label(earlier[0].span, "it is here first"),)
    if any(entry.key.span.start == context.offset for entry in one.entries) and earlier:
        key = next((other.type.key for other in one.parameters if other.name.text == name), "")
        cures = (Cure(f"write `{key}`", (Edit(context.token_span(), key),)),) if key else ()
        others = (context.label(earlier[0].span, "the parameter"),)
        return Told(f"`{name}` is a parameter; a clause lists keys{f', and its key is `{key}`' if key else ''}", "", others, cures)
    kind = "a type" if context.declarations.find(name, s.Struct) or context.declarations.find(name, s.Abstract) else "declared"
    message = f"the name `{name}` is used twice in this head" if earlier else f"the name `{name}` is taken: it is {kind}"
    return Told(message, "here again" if earlier else "", others, cure("call the parameter otherwise"))


def key_with_two_types(context: Context) -> Optional[Told]:
    one, kind = context.declaration, type_at(context)
    if not isinstance(one, s.Function) or kind is None:
        return None
    first = next((other for other in types_in(one) if other.key == kind.key and other.name != kind.name), None)
    others = (context.label(first.span, f"here `{kind.key}` is of a `{first.name}`"),) if first else ()
    return Told(
        f"the key `{kind.key}` would be of a `{kind.name}` and of another type", "", others, cure("use two keys"), kind.span
    )


def key_twice(context: Context) -> Optional[Told]:
    one = context.declaration
    if not isinstance(one, s.Function):
        return None
    again = next((entry for entry in one.entries if entry.span.start <= context.offset < entry.span.end), None)
    first = next((entry for entry in one.entries if again and entry.key.text == again.key.text), None)
    if again is None or first is None:
        return None
    others = (context.label(first.span, "it is here first"),)
    return Told(
        f"the clause lists the key `{again.key}` twice",
        "here again",
        others,
        cure(
            f"say in one entry what becomes of it: `{again.key}` if it is held before and after, `{again.key}@s->t` with its states"
        ),
    )


def key_without_parameter(context: Context) -> Optional[Told]:
    one = context.declaration
    if not isinstance(one, s.Function):
        return None
    key = context.word
    keys = [parameter.type.key for parameter in one.parameters if parameter.type.key]
    found = nearest(key, keys)
    cures = [instead(context, found)] if found else []
    cures.append(Cure(f"give the function a parameter `tracked({key}) T x`, or drop the entry"))
    return Told(f"no parameter of `{one.name}` has the key `{key}`", "", (), tuple(cures))


def result_key(context: Context) -> Optional[Told]:
    one = context.declaration
    if not isinstance(one, s.Function):
        return None
    key = one.result.key
    message = f"`{one.name}` gives an object of the key `{key}`, but its clause doesn't say that it is new"
    text = context.view.text_of(one.head)
    if one.clause is None:
        edit = Edit(s.Span(one.head.end, one.head.end), f" [new {key}]")
        return Told(message, "", (), (Cure(f"write `{text} [new {key}]`", (edit,)),))
    return Told(message, "", (context.label(one.clause, "the clause"),), cure(f"add `new {key}` to the clause"))


def states_without_type(context: Context) -> Told:
    one = context.declaration
    entry = (
        next((entry for entry in one.entries if entry.span.start <= context.offset < entry.span.end), None)
        if isinstance(one, s.Function)
        else None
    )
    key = entry.key.text if entry else context.word
    return Told(
        f"states stand on the key `{key}`, whose type isn't known",
        "",
        (),
        cure(f"leave the states off, or give the key a type by a parameter `tracked({key}) T x`"),
    )


def external_head(context: Context) -> Optional[Told]:
    kind, one = type_at(context), context.declaration
    if kind is None or one is None:
        return None
    message = f"an external can't take or give a `{kind}`"
    return Told(
        message,
        "",
        declared_label(context, kind.name),
        cure("pass numbers, bools and tracked objects; a result may be a variant of these"),
        kind.span,
    )


def head_of_main(context: Context) -> Optional[Told]:
    one = context.declaration
    if not isinstance(one, s.Function):
        return None
    if one.parameters:
        return Told("`main` takes no parameters", "", (), cure("write `void main()`, and read numbers with `input()`"))
    if one.result.form in ("int", "bool"):
        edit = Edit(one.result.span, "void")
        return Told(f"`main` gives no `{one.result}`", "", (), (Cure("write `void main()`, and no value after `return`", (edit,)),))
    return Told("`main` has another head than `void main()`", "", (), cure("write `void main()`"))


def key_of_another_type(context: Context) -> Optional[Told]:
    kind = type_at(context)
    if kind is None:
        return None
    pairs = [(key, one) for key, one in zip(header_of(context, kind.name), kind.arguments) if key.type_name]
    wanted = ", ".join(f"`{one}` of a `{key.type_name}`" for key, one in pairs)
    message = f"`{kind}`: a key of another type than the header of `{kind.name}` asks for"
    here = f"it asks for {wanted}" if wanted else ""
    names = pairs[0] if pairs else None
    text = (
        f"add a parameter `tracked({names[1]}) {names[0].type_name} x`, which gives the key its type, or use a key of that type"
        if names
        else "use a key of the header's type"
    )
    return Told(message, here, declared_label(context, kind.name), cure(text), kind.span)


def bound_entries(context: Context) -> Optional[Told]:
    one = context.declaration
    if not isinstance(one, s.Function):
        return None
    bound = [entry for entry in one.entries if entry.mode == "bound"]
    here = next((entry for entry in bound if entry.span.start <= context.offset < entry.span.end), None)
    if here is not None and here is not bound[0]:
        others = (context.label(bound[0].span, "the first one"),)
        return Told(
            "a clause has one bound entry, and this is a second one",
            "",
            others,
            cure(f"write states in the place of this one: `{here.key}@{here.before[0]}`"),
        )
    name = here.variable if here else context.word
    return Told(
        f"the name `{name}` of the clause's state is taken",
        "",
        declared_label(context, name),
        cure("call it otherwise: no body names it"),
    )


def below_itself(context: Context) -> Told:
    return Told(
        f"a state of `{context.word}` would lie below itself",
        "",
        (),
        cure("write each `<` from the lower state to the higher one, and drop the one that leads back"),
    )


HEADS: Dict[int, Teller] = {
    1: no_main, 2: declared_twice, 3: repeated, 4: not_ascii, 5: header_key_name, 6: no_state_set, 7: no_type, 8: number_of_keys,
    9: key_not_in_header, 10: wrong_prefix, 11: tracked_on_variant, 12: bare_object, 13: no_such_state, 14: field_type, 15: payload_type,
    16: case_keys, 17: key_of_variant, 18: key_of_another_type, 19: name_in_head, 20: key_with_two_types, 21: key_twice,
    22: key_without_parameter, 23: result_key, 24: states_without_type, 25: external_head, 26: head_of_main, 45: below_itself, 46: bound_entries,
}  # fmt: skip

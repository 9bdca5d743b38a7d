"""The host's side of a program: a prototype for each external, whose result has just the answers that keep the clause, and the glue to the runtime.

An answer's numbers have the order that docs/LANGUAGE.md gives them: a state for each entry that is held after the call in one of several states, then
the result."""
from __future__ import annotations

from typing import List, Tuple

from ..records import dataclass
from .certificate import BOUND, TAKEN, Case, Certificate, FunctionRow, Shape, TypeRow, bits
from .clauses import clause_text, states_text
from .lasting import Lasting
from .naming import Scope

PLAIN = {"int": "long long", "bool": "bool", "void": "void"}


@dataclass(frozen=True)
class Choice:
    """A state that the host has to choose: the name of the parameter that it comes by, the type whose state it is, and the states that fit."""

    name: str
    type: int
    states: int


class Host:
    """Writes the two files of a program's host."""

    def __init__(self, base: str, certificate: Certificate) -> None:
        self.base = base
        self.certificate = certificate
        tags = Scope(f"{base}_object")
        self.set_tags = [tags.add(f"{base}_{name}") for name, _ in certificate.sets]
        self.type_tags = [tags.add(f"{base}_{it.name}") for it in certificate.types]
        self.case_tags = [tags.add(f"{base}_{it.name}_case") for it in certificate.types]
        names = Scope(f"{base}_host_begin")
        self.function_names = [names.add(f"{base}_host_{it.name}") for it in certificate.externals]
        self.state_names = [[names.add(f"{base}_{name}_{state}") for state in states] for name, states in certificate.sets]
        self.case_names = [[names.add(f"{base}_{it.name}_{case.name}") for case in it.cases] for it in certificate.types]

    # ---- names and types

    def type_of(self, shape: Shape) -> str:
        """The C type of a value."""
        if shape.kind in PLAIN:
            return PLAIN[shape.kind]
        name = self.type_tags[shape.type] if shape.type >= 0 else f"{self.base}_object"
        return f"struct {name}" + ("" if shape.kind in ("var", "ownvar") else " *")

    def case_members(self, type_number: int) -> List[str]:
        """The names of the members of a variant's struct, one for each case."""
        scope = Scope("which")
        return [scope.add(case.name) for case in self.certificate.types[type_number].cases]

    def declared(self, shape: Shape, name: str) -> str:
        """A declaration of a name of this type."""
        kind = self.type_of(shape)
        return kind + ("" if kind.endswith("*") else " ") + name

    def is_choice(self, type_number: int, mask: int) -> bool:
        return len(bits(self.certificate.mask(type_number, mask))) > 1

    def choices(self, function: FunctionRow, scope: Scope) -> List[Choice]:
        """The states that an answer of an external has before its result."""
        found = []
        for entry in function.clause:
            name, kind = function.keys[entry.key]
            if entry.mode not in (TAKEN, BOUND) and self.is_choice(kind, entry.after):
                found.append(Choice(scope.add(f"state_of_{name or 'object'}"), kind, entry.after))
        if function.result.kind == "own" and self.is_choice(function.result.type, function.result.states):
            found.append(Choice(scope.add("state_of_result"), function.result.type, function.result.states))
        return found

    def state_type(self, type_number: int) -> str:
        """The enum of a type's states; a number where the type isn't known."""
        number = self.certificate.types[type_number].state_set if type_number >= 0 else -1
        return f"enum {self.set_tags[number]}" if number >= 0 else "int"

    # ---- the header

    def header(self) -> str:
        """NAME_host.h."""
        guard = f"{self.base.upper()}_HOST_H"
        parts = [
            f"/* The externals of {self.base}, which its host defines. Written by `vault bind host`; the program's clauses stand beside them. */\n",
            f"#ifndef {guard}\n#define {guard}\n\n#include <stdbool.h>\n",
            '#ifdef __cplusplus\nextern "C" {\n#endif\n',
            f"/* Called once, before the program begins. */\nvoid {self.base}_host_begin(void);\n",
            *self.state_enums(),
            *self.objects(),
            *self.variants(),
            *(self.prototype(function) for function in self.certificate.externals),
            "#ifdef __cplusplus\n}\n#endif\n\n#endif\n",
        ]
        return "\n".join(parts)

    def state_enums(self) -> List[str]:
        return [f"enum {tag} {{ {', '.join(states)} }};\n" for tag, states in zip(self.set_tags, self.state_names)]

    def objects(self) -> List[str]:
        """What the host has for objects: it declares these structs itself."""
        found = []
        for kind, tag in zip(self.certificate.types, self.type_tags):
            if kind.kind != "variant":
                found.append(f"/* What the host has for a {kind.name}; it declares the struct. */\nstruct {tag};\n")
        return found

    def variants(self) -> List[str]:
        """The variants that externals give."""
        results = [it.result for it in self.certificate.externals]
        return [self.variant(number) for number in dict.fromkeys(it.type for it in results if it.kind in ("var", "ownvar"))]

    def variant(self, number: int) -> str:
        """A variant: which case it is, and what each case carries."""
        kind = self.certificate.types[number]
        tag = f"enum {self.case_tags[number]}"
        lines = [f"{tag} {{ {', '.join(self.case_names[number])} }};\n", f"struct {self.type_tags[number]} {{", f"    {tag} which;"]
        for case, name in zip(kind.cases, self.case_members(number)):
            members = self.members(kind, case)
            if members:
                lines.append("    struct {")
                lines += [f"        {declared};{note}" for _, declared, note in members]
                lines.append(f"    }} {name};")
        return "\n".join([*lines, "};\n"])

    def members(self, kind: TypeRow, case: Case) -> List[Tuple[str, str, str]]:
        """The members of a case: names, declarations and comments. States of keys come first, then payloads, an object before its state."""
        found = []
        for number, (key, states) in enumerate(case.keys):
            type_number = kind.header[key]
            if self.is_choice(type_number, states):
                name = f"state_{number}"
                found.append((name, f"{self.state_type(type_number)} {name}", self.fitting(type_number, states)))
        for number, shape in enumerate(case.payload):
            name = f"value_{number}"
            found.append((name, self.declared(shape, name), ""))
            if shape.kind == "own" and self.is_choice(shape.type, shape.states):
                state = f"state_of_value_{number}"
                found.append((state, f"{self.state_type(shape.type)} {state}", self.fitting(shape.type, shape.states)))
        return found

    def fitting(self, type_number: int, mask: int) -> str:
        """A comment with the states that fit, if not all do: another one ends the run as a bad answer."""
        text = states_text(self.certificate, type_number, mask)
        return f" /* one of {text} */" if text else ""

    def prototype(self, function: FunctionRow) -> str:
        """The prototype of an external, after its clause."""
        scope = Scope()
        parameters = [self.declared(shape, scope.add(name)) for name, shape in function.parameters]
        choices = self.choices(function, scope)
        parameters += [f"{self.state_type(it.type)} *{it.name}" for it in choices]
        notes = [f"{it.name}: one of {states_text(self.certificate, it.type, self.certificate.mask(it.type, it.states))}" for it in choices if it.type >= 0]
        if function.result.kind in ("key", "own"):
            notes.append("NULL: there is no answer, and the run ends")
        note = "".join(f"; {it}" for it in notes)
        listed = ", ".join(parameters) or "void"
        return f"/* {clause_text(self.certificate, function)}{note} */\n{self.declared(function.result, self.function_name(function))}({listed});\n"

    def function_name(self, function: FunctionRow) -> str:
        return self.function_names[function.number]

    # ---- the glue

    def glue(self) -> str:
        """NAME_host.c."""
        externals = self.certificate.externals
        rows = [f'    {{"{it.name}", carry_out_{it.name}}},' for it in externals] or ["    {NULL, NULL},"]
        parts = [
            f'#include "{self.base}_host.h"\n\n#include "vault_bind.h"\n',
            *Lasting(self.certificate).guards(),
            *(self.carrier(function) for function in externals),
            "const struct vault_external vault_externals[] = {",
            *rows,
            "};\n",
            f"const int vault_external_count = {len(externals)};\n",
            f"void vault_host_start(void)\n{{\n    {self.base}_host_begin();\n}}\n",
        ]
        return "\n".join(parts)

    def carrier(self, function: FunctionRow) -> str:
        """The function that carries out a call of an external, and gives the numbers of its answer."""
        lines = [f"static bool carry_out_{function.name}(const struct vault_call *call)", "{"]
        choices = self.choices(function, Scope())
        for it in choices:
            first = bits(self.certificate.mask(it.type, it.states))[0]
            lines.append(f"    {self.state_type(it.type)} {it.name} = ({self.state_type(it.type)}) {first};")
        arguments = [self.argument(number, shape) for number, (_, shape) in enumerate(function.parameters)] + [f"&{it.name}" for it in choices]
        call = f"{self.function_name(function)}({', '.join(arguments)})"
        if function.result.kind == "void":
            lines.append(f"    {call};")
        else:
            lines.append(f"    {self.declared(function.result, 'result')} = {call};")
        lines += ["    (void) call;"] + [f"    {line}" for line in Lasting(self.certificate).lines(function)]
        lines += [f"    vault_answer({it.name});" for it in choices if it.name != "state_of_result"]
        lines += [f"    {line}" for line in self.result_lines(function)]
        return "\n".join([*lines, "    return true;", "}\n"])

    def argument(self, number: int, shape: Shape) -> str:
        if shape.kind == "int":
            return f"call->arguments[{number}].number"
        if shape.kind == "bool":
            return f"call->arguments[{number}].number != 0"
        return f"vault_thing(call->arguments[{number}].number)"

    def result_lines(self, function: FunctionRow) -> List[str]:
        """What an answer says of the result."""
        result = function.result
        if result.kind == "void":
            return []
        if result.kind in ("int", "bool"):
            return ["vault_answer(result);"]
        if result.kind in ("key", "own"):
            lines = ["if (result == NULL) {", "    return false;", "}", "vault_set_thing(call->next_object, result);"]
            is_chosen = result.kind == "own" and self.is_choice(result.type, result.states)
            return lines + (["vault_answer(state_of_result);"] if is_chosen else [])
        kind = self.certificate.types[result.type]
        lasting = Lasting(self.certificate)
        lines = ["vault_answer(result.which);", "switch (result.which) {"]
        for case, name, member in zip(kind.cases, self.case_names[result.type], self.case_members(result.type)):
            lines.append(f"case {name}:")
            lines += [f"    {line}" for line in (*self.case_lines(kind, case, f"result.{member}"), *lasting.lines_of_case(function, case))]
            lines.append("    break;")
        return [*lines, "}"]

    def case_lines(self, kind: TypeRow, case: Case, place: str) -> List[str]:
        """What an answer says of a case: states of keys, then payloads. New objects are numbered in the order of the payloads."""
        lines, made = [], 0
        for name, _, _ in self.members(kind, case):
            number = name.rpartition("_")[2]
            shape = case.payload[int(number)] if name.startswith("value_") else None
            if shape is not None and shape.kind == "own":
                lines.append(f"vault_set_thing(call->next_object + {made}, {place}.{name});")
                made += 1
            else:
                lines.append(f"vault_answer({place}.{name});")
        return lines

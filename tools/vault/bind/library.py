"""A program as a library of C: a function for each entry function. A call that isn't permitted runs nothing, and says why.

Each call asks what `vaultc host` asks: each object is held and of the parameter's type, each key of the clause is in its states, one key stands for one object,
and keys of the clause for different ones. States are followed as the sets that the clauses leave. If a clause leaves more than one, the library is made of a text that keeps
the states of objects, and asks it."""
from __future__ import annotations

from typing import Dict, List, Tuple

from .certificate import BOUND, NEW, TAKEN, Certificate, Entry, FunctionRow, Shape, bits
from .clauses import clause_text, states_text
from .naming import Scope

PLAIN = {"int": "long long", "bool": "bool"}


class Library:
    """Writes the two files of a program's library; `text` is the name of the C file that it is made of."""

    def __init__(self, base: str, text: str, certificate: Certificate) -> None:
        self.base = base
        self.text = text
        self.certificate = certificate
        self.functions = [it for it in certificate.functions if certificate.is_entry_function(it)]
        tags, names = Scope(), Scope(f"{base}_begin", f"{base}_refused")
        self.type_tags = [tags.add(f"{base}_{it.name}") for it in certificate.types]
        self.function_names = {it.number: names.add(f"{base}_{it.name}") for it in self.functions}

    def type_name(self, type_number: int) -> str:
        return self.type_tags[type_number]

    def c_type(self, shape: Shape) -> str:
        return PLAIN[shape.kind] if shape.kind in PLAIN else f"struct {self.type_name(shape.type)}"

    def used_types(self) -> List[int]:
        """The types of objects that calls take or give."""
        shapes = [shape for it in self.functions for shape in (it.result, *(one for _, one in it.parameters))]
        return sorted({shape.type for shape in shapes if shape.kind == "key"})

    # ---- the header

    def header(self) -> str:
        """NAME.h."""
        guard = f"{self.base.upper()}_H"
        parts = [
            f"/* {self.base}, a library in Vault. Written by `vault bind library`.\n *\n"
            " * A function gives false if its call was refused, and then it has done nothing, or if the run ended in it, and then each later call is\n"
            f" * refused; {self.base}_refused() tells why. Its clause stands beside it. A process has one such library. */\n",
            f"#ifndef {guard}\n#define {guard}\n\n#include <stdbool.h>\n",
            '#ifdef __cplusplus\nextern "C" {\n#endif\n',
            *(self.handle(number) for number in self.used_types()),
            f"/* Called once, before the first call. */\nvoid {self.base}_begin(void);\n",
            f"/* Why the last call gave false; null if it didn't. */\nconst char *{self.base}_refused(void);\n",
            *(f"/* {clause_text(self.certificate, it)}{self.sets_left(it)} */\n{self.head(it)};\n" for it in self.functions),
            "#ifdef __cplusplus\n}\n#endif\n\n#endif\n",
        ]
        return "\n".join(parts)

    def sets_left(self, function: FunctionRow) -> str:
        """What the clause leaves open: the states of which a call leaves an object in one."""
        found = []
        for entry in function.clause:
            name, kind = function.keys[entry.key]
            states = self.certificate.after(function, entry)
            if entry.mode not in (TAKEN, BOUND) and not is_one(states):
                found.append(f"; {name or '_'} is left in one of {states_text(self.certificate, kind, states)}")
        return "".join(found)

    def handle(self, type_number: int) -> str:
        """The type of handles of a type's objects."""
        states = ", ".join(self.certificate.states(type_number))
        note = f" Its states are {states}." if states else ""
        name = self.certificate.types[type_number].name
        return f"/* A handle of a {name}; 0 is none.{note} */\nstruct {self.type_name(type_number)} {{\n    unsigned long long handle;\n}};\n"

    def parameters(self, function: FunctionRow) -> List[Tuple[str, Shape]]:
        """The parameters of the C function, but for the place of its result."""
        scope = Scope("result", "objects", "value")
        return [(scope.add(name), shape) for name, shape in function.parameters]

    def head(self, function: FunctionRow) -> str:
        """The head of the C function."""
        listed = [f"{self.c_type(shape)} {name}" for name, shape in self.parameters(function)]
        if function.result.kind != "void":
            listed.append(f"{self.c_type(function.result)} *result")
        return f"bool {self.function_names[function.number]}({', '.join(listed) or 'void'})"

    # ---- the code

    def code(self) -> str:
        """NAME_lib.c."""
        parts = [
            f'#include "{self.base}.h"\n\n#include <stddef.h>\n\n#include "vault_library.h"\n',
            f"#define VAULT_PROGRAM \"{self.text}\"\n#include \"vault_text.h\"\n",
            f"void {self.base}_begin(void)\n{{\n    vault_library_begin();\n}}\n",
            f"const char *{self.base}_refused(void)\n{{\n    return vault_library_refused();\n}}\n",
            *(self.body(it) for it in self.functions),
        ]
        return "\n".join(parts)

    def body(self, function: FunctionRow) -> str:
        """The C function of an entry function: its tests, the call, and what the clause says of the objects after it."""
        objects = [(name, shape) for name, shape in self.parameters(function) if shape.kind == "key"]
        lines = [self.head(function), "{"]
        if objects:
            lines.append(f"    struct vault_object *objects[{len(objects)}];")
        lines.append(f'    if (!vault_library_enter("{function.name}")) {{\n        return false;\n    }}')
        lines += [self.test(function, number, name, shape) for number, (name, shape) in enumerate(objects)]
        lines += self.comparisons(objects, function)
        lines.append("    if (VAULT_LIBRARY_ENDED()) {\n        return false;\n    }")
        lines.append(f"    {self.call(function, objects)}")
        lines += self.changes(function, objects)
        if function.result.kind == "key":
            lines.append(self.new_handle(function))
        return "\n".join([*lines, "    vault_library_leave();", "    return true;", "}\n"])

    def test(self, function: FunctionRow, number: int, name: str, shape: Shape) -> str:
        """The test that an argument's object is held, of its type, and in its states."""
        entry = function.entry(shape.key)
        states = self.certificate.before(function, entry) if entry and entry.is_held_before else self.certificate.mask(shape.type, -1)
        wanted = states_text(self.certificate, shape.type, states) if entry else ""
        why = f"{function.name}: {name} must be {'held' + wanted}"
        return (
            f"    objects[{number}] = vault_library_object({name}.handle, {shape.type}, {states}u);\n"
            f'    if (objects[{number}] == NULL) {{\n        return vault_library_refuse("{why}");\n    }}'
        )

    def comparisons(self, objects: List[Tuple[str, Shape]], function: FunctionRow) -> List[str]:
        """Tests that one key has one object, and that keys of the clause have different ones."""
        lines = []
        for second, (name, shape) in enumerate(objects):
            for first in range(second):
                other, earlier = objects[first]
                if earlier.key == shape.key:
                    sign, why = "!=", f"{function.name}: {other} and {name} must be one object"
                elif all(function.is_held_before(one.key) for one in (earlier, shape)):
                    sign, why = "==", f"{function.name}: {other} and {name} must be different objects"
                else:
                    continue
                lines.append(f'    if (objects[{first}] {sign} objects[{second}]) {{\n        return vault_library_refuse("{why}");\n    }}')
        return lines

    def call(self, function: FunctionRow, objects: List[Tuple[str, Shape]]) -> str:
        numbers: Dict[str, int] = {name: number for number, (name, _) in enumerate(objects)}
        words = [f"objects[{numbers[name]}]->block" if name in numbers else name for name, _ in self.parameters(function)]
        call = f"f{function.number}({', '.join(words)})"
        if function.result.kind == "void":
            return f"{call};"
        return f"vr_ref value = {call};" if function.result.kind == "key" else f"*result = {call};"

    def changes(self, function: FunctionRow, objects: List[Tuple[str, Shape]]) -> List[str]:
        """What the clause says of the objects after the call."""
        lines = []
        done = set()
        for number, (_, shape) in enumerate(objects):
            entry = function.entry(shape.key)
            if entry is None or shape.key in done or entry.mode == BOUND:
                continue
            done.add(shape.key)
            if entry.mode == TAKEN:
                lines.append(f"    vault_library_drop(objects[{number}]);")
            else:
                states = self.states_after(function, entry, f"objects[{number}]->block")
                lines.append(f"    objects[{number}]->states = {states};")
        return lines

    def new_handle(self, function: FunctionRow) -> str:
        entry = next(it for it in function.clause if it.mode == NEW)
        states = self.states_after(function, entry, "value")
        return f"    result->handle = vault_library_add(value, {function.result.type}, {states});"

    def states_after(self, function: FunctionRow, entry: Entry, block: str) -> str:
        """The states in which a call leaves an object: those of the clause if that is one, else the one that the text keeps."""
        states = self.certificate.after(function, entry)
        return f"{states}u" if is_one(states) else f"vault_state({block})"

    @property
    def keeps_states(self) -> bool:
        """Whether a clause leaves an object that is held in one of several states."""
        left = [(it, entry) for it in self.functions for entry in it.clause if entry.mode not in (TAKEN, BOUND)]
        return any(not is_one(self.certificate.after(it, entry)) for it, entry in left)


def is_one(states: int) -> bool:
    return len(bits(states)) == 1

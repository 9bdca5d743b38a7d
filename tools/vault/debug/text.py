"""The copy of a C text for a debugger: `#line` before each line that stands for one of the Vault text, and the names of the text."""
from __future__ import annotations

import re
from typing import Dict, List

from ..bind.certificate import Certificate, FunctionRow
from ..bind.naming import plain
from ..bind.slots import slots
from .places import FUNCTION


def names_of(certificate: Certificate, function: FunctionRow) -> Dict[str, str]:
    """For the C variables of a function the names of the text. The second slot of a value has `_1` behind its name, and so on; a name that is declared
    twice, in two blocks, has the number of its variable behind it."""
    found: Dict[str, str] = {}
    used: Dict[str, int] = {}
    for number, ((name, _), places) in enumerate(zip(function.variables, slots(certificate, function))):
        base = "" if not name else f"v_{plain(name)}" if name not in used else f"v_{plain(name)}_{number}"
        used.setdefault(name, number)
        for place, c_name in enumerate(places):
            if base:
                found[c_name] = base if place == 0 else f"{base}_{place}"
    return found


def function_names(certificate: Certificate) -> Dict[str, str]:
    """For the C functions the names of the text."""
    letters = {True: "e", False: "f"}
    prefix = {True: "ext_", False: "v_"}
    return {f"{letters[it.is_external]}{it.number}": prefix[it.is_external] + plain(it.name) for it in certificate.functions}


def for_debugger(text: str, lines: Dict[int, int], certificate: Certificate, name: str) -> str:
    """The copy of a C text; `lines` are the lines of the file `name` that its lines stand for."""
    functions = function_names(certificate)
    bodies = {it.number: it for it in certificate.functions if not it.is_external}
    local: Dict[str, str] = {}
    made: List[str] = []
    for number, line in enumerate(text.split("\n")):
        if line.startswith("/*VAULT-CERT"):
            break
        met = FUNCTION.fullmatch(line)
        if met:
            local = names_of(certificate, bodies[int(met.group(1))])
        elif re.match(r"(void|long long|vr_ref) e?f?\d+ \(", line):
            local = {}
        if number in lines:
            made.append(f'#line {lines[number]} "{name}"')
        made.append(re.sub(r"\b[nepf]\d+\b", lambda it: functions.get(it.group(), local.get(it.group(), it.group())), line))
    return "\n".join(made) + "\n"

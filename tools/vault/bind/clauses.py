"""Heads and clauses as comments of C."""
from __future__ import annotations

from .certificate import BOUND, GIVEN, KEPT, NEW, TAKEN, Certificate, Entry, FunctionRow, bits


def states_text(certificate: Certificate, type_number: int, mask: int) -> str:
    """States after their `@`; nothing for all states, or a type without any."""
    names = certificate.states(type_number)
    if mask < 0 or not names:
        return ""
    found = [names[bit] for bit in bits(mask) if bit < len(names)]
    return "@" + (found[0] if len(found) == 1 else "{" + ",".join(found) + "}")


def entry_text(certificate: Certificate, function: FunctionRow, entry: Entry) -> str:
    """An entry as it is written in Vault."""
    name, kind = function.keys[entry.key]
    name = name or "_"
    before, after = (states_text(certificate, kind, mask) for mask in (entry.before, entry.after))
    if entry.mode == BOUND:
        return f"{name}@(s <= {certificate.states(kind)[entry.before]})"
    if entry.mode == TAKEN:
        return f"-{name}{before}"
    if entry.mode in (GIVEN, NEW):
        return f"{'+' if entry.mode == GIVEN else 'new '}{name}{after}"
    assert entry.mode == KEPT
    return name + before + (f"->{after[1:]}" if after != before and after else "")


def clause_text(certificate: Certificate, function: FunctionRow) -> str:
    """A clause as it is written in Vault."""
    return "[" + ", ".join(entry_text(certificate, function, entry) for entry in function.clause) + "]"

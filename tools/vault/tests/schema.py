"""Tests values against a schema, by the words of JSON Schema that sarif-2.1.0.json uses."""
from __future__ import annotations

import json
import re
from pathlib import Path
from typing import Any, Callable, Dict, Iterator, List

SARIF = Path(__file__).parent / "sarif-2.1.0.json"
# RFC 3986: a scheme and a colon; characters that may stand in a URI
ABSOLUTE = re.compile(r"[A-Za-z][A-Za-z0-9+.-]*:")
CHARACTERS = re.compile(r"(?:[A-Za-z0-9._~:/?#\[\]@!$&'()*+,;=-]|%[0-9A-Fa-f]{2})*")
TYPES: Dict[str, Callable[[Any], bool]] = {
    "object": lambda it: isinstance(it, dict),
    "array": lambda it: isinstance(it, list),
    "string": lambda it: isinstance(it, str),
    "integer": lambda it: isinstance(it, int) and not isinstance(it, bool),
    "boolean": lambda it: isinstance(it, bool),
}
WORDS = {
    "$schema", "title", "definitions", "$ref", "type", "enum", "minimum", "format", "anyOf", "required", "properties", "additionalProperties",
    "items", "minItems", "uniqueItems",
}  # fmt: skip


class Schema:
    """A schema, and what of a value doesn't fit it."""

    def __init__(self, whole: Dict[str, Any]) -> None:
        self.whole = whole

    def faults(self, value: Any) -> List[str]:
        return list(self.of(value, self.whole, "document"))

    def of(self, value: Any, rule: Dict[str, Any], where: str) -> Iterator[str]:
        unknown = set(rule) - WORDS
        if unknown:
            yield f"{where}: the schema has {unknown}, which isn't tested"
        if "$ref" in rule:
            rule = self.whole["definitions"][rule["$ref"].rpartition("/")[2]]
        if "type" in rule and not TYPES[rule["type"]](value):
            yield f"{where}: {value!r} is no {rule['type']}"
            return
        if "enum" in rule and value not in rule["enum"]:
            yield f"{where}: {value!r} is none of {rule['enum']}"
        if "minimum" in rule and value < rule["minimum"]:
            yield f"{where}: {value} is below {rule['minimum']}"
        if "format" in rule and not is_uri(value, rule["format"] == "uri"):
            yield f"{where}: {value!r} is no {rule['format']}"
        if "anyOf" in rule and all(any(True for _ in self.of(value, one, where)) for one in rule["anyOf"]):
            yield f"{where}: it fits none of {rule['anyOf']}"
        if isinstance(value, dict):
            yield from self.of_object(value, rule, where)
        if isinstance(value, list):
            yield from self.of_list(value, rule, where)

    def of_object(self, value: Dict[str, Any], rule: Dict[str, Any], where: str) -> Iterator[str]:
        yield from (f"{where}: it lacks {name}" for name in rule.get("required", ()) if name not in value)
        known, others = rule.get("properties", {}), rule.get("additionalProperties", True)
        for name, one in value.items():
            if name in known:
                yield from self.of(one, known[name], f"{where}.{name}")
            elif isinstance(others, dict):
                yield from self.of(one, others, f"{where}.{name}")
            elif not others:
                yield f"{where}: it may have no {name}"

    def of_list(self, value: List[Any], rule: Dict[str, Any], where: str) -> Iterator[str]:
        if len(value) < rule.get("minItems", 0):
            yield f"{where}: it has too few members"
        if rule.get("uniqueItems") and len({json.dumps(one, sort_keys=True) for one in value}) < len(value):
            yield f"{where}: a member stands twice"
        for number, one in enumerate(value):
            yield from self.of(one, rule.get("items", {}), f"{where}[{number}]")


def is_uri(text: str, absolute: bool) -> bool:
    return CHARACTERS.fullmatch(text) is not None and (not absolute or ABSOLUTE.match(text) is not None)


def sarif_schema() -> Schema:
    return Schema(json.loads(SARIF.read_text(encoding="utf-8")))

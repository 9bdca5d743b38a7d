"""A grammar of tree-sitter as productions: a table of LALR(1) with its conflicts, which texts it takes, and random texts of it."""
from __future__ import annotations

import json
import random
import shutil
import subprocess
import unittest
from dataclasses import dataclass
from pathlib import Path
from typing import Any, Dict, FrozenSet, List, Optional, Sequence, Set, Tuple

from vault.paths import TOP
from vault.tokens import Token

END = "end of the text"
START = "start"
# terminals of the grammar that aren't written as they are
KINDS = {"name": "name", "tick": "tick", "number": "number"}


def written(text: str) -> str:
    """The terminal of a keyword or a sign; a rule may have the same name."""
    return f'"{text}"'


@dataclass(frozen=True)
class Production:
    """A rule of one form, with how tightly it binds and how it groups if it has such a mark."""

    left: str
    right: Tuple[str, ...]
    level: int = 0
    group: str = ""


class Grammar:
    """The productions of a grammar.json. Its terminals are names, ticks, numbers, and keywords and signs as they are written."""

    def __init__(self, said: Dict[str, Any]) -> None:
        self.rules = said["rules"]
        self.productions: List[Production] = [Production(START, (next(iter(self.rules)),))]
        self.fresh = 0
        for name, rule in self.rules.items():
            if name not in KINDS and name != "comment":
                self.add(name, rule)
        lefts = {one.left for one in self.productions}
        self.of: Dict[str, List[int]] = {}
        for number, one in enumerate(self.productions):
            self.of.setdefault(one.left, []).append(number)
        self.terminals = sorted({part for one in self.productions for part in one.right if part not in lefts} | {END})

    def add(self, left: str, rule: Dict[str, Any]) -> None:
        for right, level, group in self.forms(rule):
            self.productions.append(Production(left, right, level, group))

    def forms(self, rule: Dict[str, Any]) -> List[Tuple[Tuple[str, ...], int, str]]:
        """The sequences of symbols that a rule stands for."""
        kind = rule["type"]
        if kind == "BLANK":
            return [((), 0, "")]
        if kind == "STRING":
            return [((written(rule["value"]),), 0, "")]
        if kind == "SYMBOL":
            return [((rule["name"],), 0, "")]
        if kind == "FIELD":
            return self.forms(rule["content"])
        if kind.startswith("PREC"):
            return [(right, rule["value"], kind) for right, _, _ in self.forms(rule["content"])]
        if kind == "CHOICE":
            return [form for member in rule["members"] for form in self.forms(member)]
        if kind == "SEQ":
            found: List[Tuple[str, ...]] = [()]
            for member in rule["members"]:
                found = [first + right for first in found for right, _, _ in self.forms(member)]
            return [(right, 0, "") for right in found]
        return [((self.repeated(rule["content"], kind == "REPEAT1"),), 0, "")]

    def repeated(self, content: Dict[str, Any], at_least_one: bool) -> str:
        self.fresh += 1
        name = f"repeat {self.fresh}"
        for right, _, _ in self.forms(content):
            self.productions.append(Production(name, (name, *right)))
            if at_least_one:
                self.productions.append(Production(name, right))
        if not at_least_one:
            self.productions.append(Production(name, ()))
        return name


Item = Tuple[int, int]


class Table:
    """What a parser of LALR(1) does in each state, and where that isn't determined."""

    def __init__(self, grammar: Grammar) -> None:
        self.grammar = grammar
        self.bits = {name: 1 << number for number, name in enumerate(grammar.terminals)}
        self.nullable: Set[str] = set()
        self.first: Dict[str, int] = {}
        self.find_firsts()
        self.states: List[Dict[Item, int]] = []
        self.goto: List[Dict[str, int]] = []
        self.actions: List[Dict[str, Tuple[str, int]]] = []
        self.conflicts: List[str] = []
        self.build()
        for number in range(len(self.states)):
            self.actions.append(self.actions_of(number))

    def find_firsts(self) -> None:
        productions = self.grammar.productions
        changed = True
        while changed:
            changed = False
            for one in productions:
                mask, empty = self.first_of(one.right)
                if empty and one.left not in self.nullable:
                    self.nullable.add(one.left)
                    changed = True
                if mask | self.first.get(one.left, 0) != self.first.get(one.left, 0):
                    self.first[one.left] = mask | self.first.get(one.left, 0)
                    changed = True

    def first_of(self, symbols: Sequence[str]) -> Tuple[int, bool]:
        """The terminals with which symbols may begin, and whether they may be empty."""
        mask = 0
        for name in symbols:
            mask |= self.bits[name] if name in self.bits else self.first.get(name, 0)
            if name in self.bits or name not in self.nullable:
                return mask, False
        return mask, True

    def closure(self, kernel: Dict[Item, int]) -> Dict[Item, int]:
        found, todo = dict(kernel), list(kernel)
        while todo:
            number, dot = todo.pop()
            right = self.grammar.productions[number].right
            if dot == len(right) or right[dot] in self.bits:
                continue
            mask, empty = self.first_of(right[dot + 1 :])
            mask |= found[(number, dot)] if empty else 0
            for other in self.grammar.of[right[dot]]:
                before = found.get((other, 0))
                if before is None or before | mask != before:
                    found[(other, 0)] = (before or 0) | mask
                    todo.append((other, 0))
        return found

    def build(self) -> None:
        numbers: Dict[FrozenSet[Item], int] = {}
        self.states.append({(0, 0): self.bits[END]})
        self.goto.append({})
        numbers[frozenset(self.states[0])] = 0
        todo = [0]
        while todo:
            state = todo.pop()
            moves: Dict[str, Dict[Item, int]] = {}
            for (number, dot), mask in self.closure(self.states[state]).items():
                right = self.grammar.productions[number].right
                if dot < len(right):
                    moves.setdefault(right[dot], {})[(number, dot + 1)] = mask
            for name, kernel in moves.items():
                core = frozenset(kernel)
                target = numbers.get(core)
                if target is None:
                    target = numbers[core] = len(self.states)
                    self.states.append(dict(kernel))
                    self.goto.append({})
                    todo.append(target)
                elif any(self.states[target][item] | mask != self.states[target][item] for item, mask in kernel.items()):
                    for item, mask in kernel.items():
                        self.states[target][item] |= mask
                    todo.append(target)
                self.goto[state][name] = target

    def actions_of(self, state: int) -> Dict[str, Tuple[str, int]]:
        items = self.closure(self.states[state])
        actions = {name: ("shift", target) for name, target in self.goto[state].items() if name in self.bits}
        for (number, dot), mask in items.items():
            one = self.grammar.productions[number]
            if dot < len(one.right):
                continue
            for name in self.grammar.terminals:
                if mask & self.bits[name] and self.chooses_reduction(items, number, name, actions.get(name)):
                    actions[name] = ("reduce", number)
        return actions

    def chooses_reduction(self, items: Dict[Item, int], number: int, name: str, other: Optional[Tuple[str, int]]) -> bool:
        """Whether a form ends here rather than goes on with a terminal, by how tightly both bind."""
        if other is None:
            return True
        one = self.grammar.productions[number]
        if other[0] == "reduce":
            self.conflicts.append(f"{one} and {self.grammar.productions[other[1]]} both end before {name}")
            return False
        longer = [self.grammar.productions[n] for n, dot in items if self.grammar.productions[n].right[dot : dot + 1] == (name,)]
        most = max(it.level for it in longer)
        if one.level == most and not one.group.startswith(("PREC_LEFT", "PREC_RIGHT")):
            self.conflicts.append(f"{one} may end before {name}, and {longer[0]} goes on with it")
        return one.level > most or one.level == most and one.group == "PREC_LEFT"

    def refused_at(self, found: Sequence[Token]) -> Optional[int]:
        """The number of the first token that isn't taken; None if the text is of the grammar."""
        stack, at = [0], 0
        while True:
            token = found[at]
            name = END if token.kind == "end" else KINDS.get(token.kind, written(token.text))
            action = self.actions[stack[-1]].get(name)
            if action is None:
                return at
            kind, number = action
            if kind == "shift":
                stack.append(number)
                at += 1
                continue
            one = self.grammar.productions[number]
            if one.left == START:
                return None
            del stack[len(stack) - len(one.right) :]
            stack.append(self.goto[stack[-1]][one.left])


class Chance:
    """Random texts of a grammar."""

    def __init__(self, grammar: Grammar, seed: int) -> None:
        self.grammar = grammar
        self.chance = random.Random(seed)
        self.least = self.least_depths()

    def least_depths(self) -> Dict[str, int]:
        """How deep the least text of each symbol is."""
        found: Dict[str, int] = {name: 0 for name in self.grammar.terminals}
        changed = True
        while changed:
            changed = False
            for one in self.grammar.productions:
                if all(part in found for part in one.right):
                    depth = 1 + max((found[part] for part in one.right), default=0)
                    if depth < found.get(one.left, depth + 1):
                        found[one.left] = depth
                        changed = True
        return found

    def words(self, symbol: str, depth: int) -> List[str]:
        """The tokens of a text that a symbol stands for, not much deeper than `depth`."""
        if symbol in self.grammar.of:
            forms = [self.grammar.productions[number] for number in self.grammar.of[symbol]]
            fitting = [one for one in forms if all(self.least[part] < depth for part in one.right)]
            one = self.chance.choice(fitting or [min(forms, key=lambda it: max((self.least[part] for part in it.right), default=0))])
            return [word for part in one.right for word in self.words(part, depth - 1)]
        if symbol == "name":
            return [self.chance.choice(("a", "b", "K", "x1", "_", "long_name", "ü", "Größe"))]
        if symbol == "tick":
            return [self.chance.choice(("'A", "'case", "'b_2"))]
        return [self.chance.choice(("0", "7", "007", "9223372036854775807"))] if symbol == "number" else [symbol.strip('"')]

    def declaration(self, depth: int) -> List[str]:
        return self.words("_declaration", depth)


HERE = Path(__file__).parent
GRAMMAR = TOP / "editors" / "tree-sitter-vault" / "grammar.js"


def read_grammar() -> Dict[str, Any]:
    """The JSON of the grammar for tree-sitter. SkipTest if there is no node, which makes it."""
    if shutil.which("node") is None:
        raise unittest.SkipTest("node isn't installed")
    words = ["node", str(HERE / "editors" / "grammar_json.js"), str(GRAMMAR)]
    return json.loads(subprocess.run(words, check=True, stdout=subprocess.PIPE).stdout.decode("utf-8"))

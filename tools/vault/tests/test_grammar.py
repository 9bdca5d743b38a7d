"""The grammar for tree-sitter: its generator could make a parser of it, which would take what `vaultc` takes."""
from __future__ import annotations

import re
import unittest
from typing import Dict

from vault import programs
from vault.layout import lay_out
from vault.parser import parse
from vault.paths import TOP
from vault.tokens import KEYWORDS, SIGNS, tokens

from .grammar import GRAMMAR, Chance, Grammar, Table, read_grammar

QUERIES = GRAMMAR.parent / "queries"


class TreeSitter(unittest.TestCase):
    said: Dict = {}

    @classmethod
    def setUpClass(cls) -> None:
        cls.said = read_grammar()
        cls.grammar = Grammar(cls.said)
        cls.table = Table(cls.grammar)

    def test_it_has_no_conflicts(self) -> None:
        self.assertEqual(self.table.conflicts, [])

    def test_it_has_all_keywords_and_signs(self) -> None:
        self.assertEqual({word.strip('"') for word in self.grammar.terminals if word.startswith('"')}, {*KEYWORDS, *SIGNS})

    def test_supertypes_are_hidden_choices(self) -> None:
        for name in self.said["supertypes"]:
            self.assertTrue(name.startswith("_"))
            self.assertEqual(self.said["rules"][name]["type"], "CHOICE")

    def test_no_rule_but_the_first_is_empty(self) -> None:
        self.assertEqual({name for name in self.table.nullable if name in self.said["rules"]}, {"file"})

    def test_texts_of_the_repository_are_taken_or_refused_alike(self) -> None:
        for file in sorted(TOP.glob("**/*.v")):
            text = file.read_text(encoding="utf-8")
            with self.subTest(str(file.relative_to(TOP))):
                self.assertEqual(self.table.refused_at(tokens(text)) is None, parse(text) is not None)

    def test_random_texts_are_taken(self) -> None:
        program = programs.take("vaultc")
        chance = Chance(self.grammar, 58)
        for turn in range(12):
            text = " ".join(word for _ in range(4) for word in chance.declaration(16))
            with self.subTest(turn):
                self.assertIsNotNone(parse(text), text)
                self.assertEqual(lay_out(program, text).status, 0, text)

    def test_queries_name_what_the_grammar_has(self) -> None:
        for file in QUERIES.glob("*.scm"):
            text = file.read_text(encoding="utf-8")
            for name in re.findall(r"\(([a-z_]+)", text):
                self.assertIn(name, self.said["rules"], file.name)
            for word in re.findall(r'"([^"]+)"', text):
                self.assertIn(f'"{word}"', self.grammar.terminals, file.name)


if __name__ == "__main__":
    unittest.main()

"""Definitions are found with their lines, blocks and names."""
from __future__ import annotations

import tempfile
import unittest
from pathlib import Path

from vault.definitions import Library, Module, Name, read_imports, read_module

TEXT = """\
-- A file.
use Rattle.std.specs.Prelude.{◌≡◌, ℕ}
use Rattle.other.specs.Deep.Words.{plain, given as taken}
use Rattle.other.specs.Ops as ops

pub record Pair (a : ℕ) : Type 0 where
  -- what it has
  pub first : ℕ
  pub second : plain a

pub data Tree : Type 0 where
  leaf : Tree
  node : ℕ → Tree → Tree

abbrev mutual
  pub is_even : ℕ → Type 0
  is_even n = is_odd n

  pub is_odd : ℕ → Type 0
  is_odd n = ops.Less n   -- is_even

module _ (x : taken)
    (y : ℕ) where
  unfoldable pub both : ℕ
  both = x
"""


class Definitions(unittest.TestCase):
    def setUp(self) -> None:
        folder = tempfile.TemporaryDirectory()
        self.addCleanup(folder.cleanup)
        self.crates = Path(folder.name)
        self.file = self.crates / "one" / "specs" / "Main.antt"
        self.file.parent.mkdir(parents=True)
        self.file.write_text(TEXT, encoding="utf-8")
        self.module = read_module(self.file)

    def test_each_definition_has_its_line(self) -> None:
        lines = {it.name: it.line for it in self.module.definitions.values()}
        self.assertEqual(lines, {"Pair": 6, "Tree": 11, "is_even": 16, "is_odd": 19, "both": 24})

    def test_comments_and_heads_of_blocks_are_not_counted(self) -> None:
        self.assertEqual([len(self.module.definitions[name].lines) for name in ("Pair", "Tree", "is_even", "is_odd", "both")], [3, 3, 2, 2, 2])

    def test_cases_and_fields_lead_to_their_definition(self) -> None:
        self.assertEqual(self.module.definitions["node"].name, "Tree")
        self.assertEqual(self.module.definitions["second"].name, "Pair")

    def test_words_are_names_without_comments(self) -> None:
        self.assertIn("ops.Less", self.module.definitions["is_odd"].words())
        self.assertNotIn("is_even", self.module.definitions["is_odd"].words())

    def test_parameters_of_a_block_are_words_of_what_is_in_it(self) -> None:
        self.assertIn("taken", self.module.definitions["both"].words())

    def test_imports_are_found_by_name_alias_and_sign(self) -> None:
        self.assertEqual(list(self.module.find("taken")), [Name("other", "specs.Deep.Words", "given")])
        self.assertEqual(list(self.module.find("ops.Less")), [Name("other", "specs.Ops", "Less")])
        self.assertEqual(list(self.module.find("≡")), [Name("std", "specs.Prelude", "◌≡◌")])

    def test_what_is_handed_on_leads_to_where_it_stands(self) -> None:
        other = self.crates / "two" / "specs" / "Front.antt"
        other.parent.mkdir(parents=True)
        other.write_text("pub use Rattle.one.specs.Main.{Tree, leaf}\n", encoding="utf-8")
        found = Library(self.crates).find(Name("two", "specs.Front", "leaf"))
        self.assertIsNotNone(found)
        self.assertEqual((found.name, found.file), ("Tree", self.file))  # type: ignore[union-attr]

    def test_a_line_of_code_is_no_import(self) -> None:
        self.assertFalse(read_imports(Module(self.file), "use std::alloc::Global;"))


if __name__ == "__main__":
    unittest.main()

"""The tools are for Python 3.8 and later, and stand on the standard library alone."""
from __future__ import annotations

import ast
import sys
import unittest
from pathlib import Path
from typing import Iterator, Set

from vault.paths import TOP

LATER = {"removeprefix", "removesuffix", "is_relative_to", "hardlink_to", "with_stem", "bit_count", "pairwise", "batched"}
"""Methods and functions that came with a later Python."""

def sources() -> Iterator[Path]:
    """The files of the tools."""
    yield TOP / "bin" / "vault"
    yield from sorted((TOP / "tools").rglob("*.py"))


def imported(tree: ast.AST) -> Set[str]:
    """The packages that a file imports."""
    names: Set[str] = set()
    for node in ast.walk(tree):
        if isinstance(node, ast.Import):
            names |= {alias.name.split(".")[0] for alias in node.names}
        elif isinstance(node, ast.ImportFrom) and node.level == 0:
            names.add((node.module or "").split(".")[0])
    return names


class Sources(unittest.TestCase):
    def test_python_3_8_reads_them(self) -> None:
        for file in sources():
            with self.subTest(str(file.relative_to(TOP))):
                tree = ast.parse(file.read_text(encoding="utf-8"), feature_version=(3, 8))
                used = {node.attr for node in ast.walk(tree) if isinstance(node, ast.Attribute)}
                self.assertEqual(used & LATER, set())

    def test_annotations_are_not_evaluated(self) -> None:
        for file in sources():
            tree = ast.parse(file.read_text(encoding="utf-8"))
            has_code = any(not isinstance(node, ast.Expr) for node in tree.body)
            with self.subTest(str(file.relative_to(TOP))):
                self.assertTrue(not has_code or file.suffix != ".py" or "annotations" in file.read_text(encoding="utf-8").split("\nclass ")[0])

    @unittest.skipUnless(hasattr(sys, "stdlib_module_names"), "this Python doesn't list its standard library")
    def test_they_stand_on_the_standard_library(self) -> None:
        standard = set(sys.stdlib_module_names) | {"vault"}  # type: ignore[attr-defined]
        for file in sources():
            with self.subTest(str(file.relative_to(TOP))):
                self.assertEqual(imported(ast.parse(file.read_text(encoding="utf-8"))) - standard, set())


if __name__ == "__main__":
    unittest.main()

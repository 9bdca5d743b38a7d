"""Rules of C and limits go by their names in definitions and clauses, never by their numbers."""
from __future__ import annotations

import re
import unittest
from pathlib import Path
from typing import List

from vault.paths import TOP

NUMBERED = re.compile(r"\b(?:undefined|Undefined|breaks_rule|Broken|Err|limit_of|Limit) [0-9]")
"""What ends a run or refuses a text, by a number."""


def numbered_lines(crates: Path) -> List[str]:
    """The lines of definitions and of contracts that name a rule or a limit by its number, each as `FILE:LINE: TEXT`."""
    found = []
    for file in sorted([*crates.glob("*/specs/**/*.antt"), *crates.glob("*/src/**/*.rt")]):
        for number, line in enumerate(file.read_text(encoding="utf-8").splitlines(), 1):
            if NUMBERED.search(line) and not line.lstrip().startswith(("--", "//")):
                found.append(f"{file.relative_to(crates)}:{number}: {line.strip()}")
    return found


class Literals(unittest.TestCase):
    def test_rules_and_limits_go_by_name(self) -> None:
        self.assertEqual(numbered_lines(TOP / "crates"), [])

    def test_a_number_is_found(self) -> None:
        for line in ("stops (undefined 6 n) w", "or_misused false x = Err 8", "length ls ≤ limit_of 3", "e ≡ Limit 12"):
            with self.subTest(line):
                self.assertTrue(NUMBERED.search(line))

    def test_a_name_is_none(self) -> None:
        for line in ("stops (undefined rule.NO_VALUE n) w", "limit_of TOKENS", "limit_of limits.DEPTH", "Err r"):
            with self.subTest(line):
                self.assertFalse(NUMBERED.search(line))


if __name__ == "__main__":
    unittest.main()

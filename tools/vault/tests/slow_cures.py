"""400 programs with one to three lines taken out, doubled or exchanged: at least 85 % of their first errors get a cure that was tried."""
from __future__ import annotations

import sys
import unittest

from vault.ask import take

from .damaged import figures, outcomes, rate

PROGRAMS = 400
LEAST = 0.85
MOST_LINES = 80


class Cures(unittest.TestCase):
    def test_damaged_programs_are_cured(self) -> None:
        found = outcomes(take(), 58, PROGRAMS, MOST_LINES)
        sys.stderr.write(figures(found) + "\n")
        self.assertEqual([(one.damaged.file, one.wrong) for one in found if one.wrong], [])
        self.assertTrue(all(cure.tested for one in found for cure in one.cures))
        cured, every = rate(found)
        self.assertGreaterEqual(cured / every, LEAST, f"{cured} of {every}")


if __name__ == "__main__":
    unittest.main()

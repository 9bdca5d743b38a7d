"""The drawing of README is what the commands show now."""
from __future__ import annotations

import unittest

from vault import drawing, paths, programs
from vault.ask import take


class Drawing(unittest.TestCase):
    def test_styles_and_text(self) -> None:
        made = drawing.drawing("\x1b[1;31merror:\x1b[0m a <b>\n", "title")
        self.assertIn('fill="#ff7b72" font-weight="bold">error:</tspan>', made)
        self.assertIn("&lt;b&gt;", made)

    def test_the_drawing_of_readme(self) -> None:
        programs.take("vaultc")
        if not take().answers("keys"):
            self.skipTest("there is no vaultq")
        words = ["check", "examples/lock_kept.v"]
        made = drawing.drawing(drawing.shown(words), "vault " + " ".join(words))
        self.assertEqual(made, (paths.TOP / "docs" / "lock_kept.svg").read_text(encoding="utf-8"))


if __name__ == "__main__":
    unittest.main()

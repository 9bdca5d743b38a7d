"""10,000 random texts with comments: the layout of each is that of `vaultc fmt`, has the same comments in their order, and is its own layout."""
from __future__ import annotations

import random
import unittest
from concurrent.futures import ThreadPoolExecutor
from typing import List, Optional

from vault import layout, programs
from vault.judge import jobs

from .grammar import Chance, Grammar, read_grammar
from .test_layout import shaken

TEXTS = 10_000
LIMIT = 5


class Layouts(unittest.TestCase):
    def setUp(self) -> None:
        self.program = programs.take("vaultc")
        self.chance = Chance(Grammar(read_grammar()), 57)
        self.mixed = random.Random(57)

    def text(self) -> str:
        words: List[str] = []
        while len(words) < self.mixed.randint(1, 60):
            words += self.chance.declaration(self.mixed.choice((6, 10, 14, 18)))
        return shaken(" ".join(words), self.mixed)

    def fault(self, text: str) -> Optional[str]:
        """What is wrong with the layout of a text, empty if nothing is; None if the text has more of something than a limit allows."""
        plain = layout.lay_out(self.program, text)
        if plain.status == LIMIT:
            return None
        if plain.status != 0:
            return f"status {plain.status} of {text!r}"
        kept = layout.keep_comments(text, plain.output)
        again = layout.lay_out(self.program, kept)
        if (again.status, again.output) != (0, plain.output):
            return f"another layout: {text!r}"
        if layout.comments(kept) != layout.comments(text):
            return f"other comments: {text!r}"
        return "" if layout.keep_comments(kept, plain.output) == kept else f"laid out again it is another: {text!r}"

    def test_random_texts(self) -> None:
        tried = with_comments = 0
        with ThreadPoolExecutor(jobs()) as pool:
            while tried < TEXTS:
                texts = [self.text() for _ in range(min(TEXTS - tried, 200))]
                for text, wrong in zip(texts, pool.map(self.fault, texts)):
                    self.assertIn(wrong, ("", None))
                    tried += wrong is not None
                    with_comments += bool(layout.comments(text))
        self.assertGreater(with_comments, TEXTS / 2)


if __name__ == "__main__":
    unittest.main()

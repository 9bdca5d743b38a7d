"""What errors of 500 lines take: how many questions, and with proved programs how much time of a processor."""
from __future__ import annotations

import sys
import unittest
from typing import Callable, List

from vault import ask
from vault.judge import Wishes, judge_text
from vault.server.documents import Document
from vault.source import Source

from .large import MISTAKES, TEXTS, Spent, counted, spent, with_mistake

SECONDS = 0.3
"""How long a question may take: what is wrong and why, with cures, or the changes that an editor offers."""
EDITOR_SECONDS = 0.1
"""How long errors may take in an editor once a text has been at rest."""


class Large(unittest.TestCase):
    def setUp(self) -> None:
        taken = ask.take()
        self.asker = counted(taken)
        self.is_proved = taken.vaultc.proved and taken.vaultq is not None and taken.vaultq.proved

    def assert_cheap(self, work: Callable[[str], object], questions: int, limit: float) -> None:
        """Each mistake in each of the texts takes so many questions at most, and so many seconds of a processor if the programs are
        proved."""
        found: List[Spent] = []
        for name, make in TEXTS.items():
            text = make()
            self.assertGreaterEqual(text.count("\n"), 490)
            for mistake, lines in MISTAKES.items():
                changed = with_mistake(text, lines)
                took = spent(lambda: work(changed))
                found.append(took)
                with self.subTest(f"{mistake} in {name}"):
                    self.assertLessEqual(len(took.questions), questions)
                    if self.is_proved:
                        self.assertLess(took.seconds, limit)
        most = max(found, key=lambda one: one.seconds)
        sys.stderr.write(f"at most {max(len(one.questions) for one in found)} questions, {most.programs:.3f} + {most.tool:.3f} s\n")

    def test_what_is_wrong_with_cures(self) -> None:
        self.assert_cheap(lambda text: judge_text(Source("x.v", text.encode()), self.asker, Wishes()), 40, SECONDS)

    def test_warnings(self) -> None:
        self.assert_cheap(lambda text: judge_text(Source("x.v", text.encode()), self.asker, Wishes(lint=True, cures=False)), 24, SECONDS)

    def test_what_an_editor_offers(self) -> None:
        self.assert_cheap(lambda text: judge_text(Source("x.v", text.encode()), self.asker, Wishes(repairs=True)), 64, SECONDS)

    def test_errors_in_an_editor(self) -> None:
        """27 edits of open texts of 500 lines."""
        document = Document("untitled:large.v", "")

        def edit(text: str) -> None:
            document.change(text, document.version + 1)
            document.errors(self.asker)

        self.assert_cheap(edit, 24, EDITOR_SECONDS)


if __name__ == "__main__":
    unittest.main()

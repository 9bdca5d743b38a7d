"""A file that can't be read: the words and the status of `vaultc`, and what `vault` shows, without another look at it."""
from __future__ import annotations

import os
import subprocess
import tempfile
import unittest
from pathlib import Path

from vault import paths, programs

VAULT = str(paths.TOP / "bin" / "vault")


class Unread(unittest.TestCase):
    def setUp(self) -> None:
        self.program = programs.take("vaultc")
        folder = tempfile.TemporaryDirectory()
        self.addCleanup(folder.cleanup)
        self.folder = Path(folder.name)
        (self.folder / "folder.v").mkdir()
        (self.folder / "closed.v").write_text("void main() {\n}\n")
        (self.folder / "closed.v").chmod(0)

    def check(self, *words: str) -> tuple:
        """The status of `vault check` on these words, and its lines."""
        ran = subprocess.run([VAULT, "check", *words], cwd=self.folder, stdout=subprocess.PIPE, stderr=subprocess.PIPE, universal_newlines=True)
        self.assertEqual(ran.stderr, "")
        return ran.returncode, ran.stdout

    def test_each_cause_has_its_words_and_the_status_of_vaultc(self) -> None:
        causes = {"nothing.v": "there is no file of this name", "folder.v": "it is a folder"}
        if os.geteuid():
            causes["closed.v"] = "it may not be read"
        for name, why in causes.items():
            with self.subTest(name):
                answer = self.program.ask(["check", name], folder=self.folder)
                self.assertEqual((answer.status, answer.output), (2, f"read {name}\n"))
                self.assertEqual(self.check(name), (2, f"{name}: error: the file can't be read: {why} [read {name}]\n"))
                self.assertEqual(self.check("--format", "plain", name), (2, f"read {name}\n"))

    def test_others_are_judged_all_the_same(self) -> None:
        (self.folder / "good.v").write_text("void main() {\n}\n")
        status, output = self.check("nothing.v", "good.v")
        self.assertEqual(status, 2)
        self.assertIn("nothing.v: error: the file can't be read", output)
        self.assertIn("1 error in 1 of 2 files\n", output)


if __name__ == "__main__":
    unittest.main()

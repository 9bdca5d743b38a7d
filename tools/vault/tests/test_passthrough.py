"""Commands of `vaultc` that `vault` hands on, and the program `bin/vaultc`: the same output and status, whatever the words and files are."""
from __future__ import annotations

import os
import subprocess
import tempfile
import unittest
from pathlib import Path
from typing import List, Tuple

from vault import paths, programs

VAULT, VAULTC = (str(paths.TOP / "bin" / name) for name in ("vault", "vaultc"))
LOCK = "examples/lock.v"
AS_THEY_ARE = ("emit", "verify", "crun", "load")


def answer(words: List[str], folder: Path = paths.TOP) -> Tuple[int, bytes, bytes]:
    """The status, the output and the errors of a command."""
    ran = subprocess.run(words, stdout=subprocess.PIPE, stderr=subprocess.PIPE, stdin=subprocess.DEVNULL, cwd=folder)
    return ran.returncode, ran.stdout, ran.stderr


class HandedOn(unittest.TestCase):
    def setUp(self) -> None:
        self.program = list(programs.take("vaultc").command)
        self.folder = Path(tempfile.mkdtemp())
        self.addCleanup(lambda: subprocess.run(["rm", "-rf", str(self.folder)]))

    def assert_same(self, *words: str, by: str = VAULT) -> int:
        found, expected = answer([by, *words]), answer([*self.program, *words])
        self.assertEqual(found, expected)
        return found[0]

    def test_words_of_a_file(self) -> None:
        text = self.folder / "lock.c"
        text.write_bytes(answer([*self.program, "emit", LOCK])[1])
        self.assertEqual(self.assert_same("emit", LOCK), 0)
        self.assertEqual(self.assert_same("verify", str(text)), 0)
        self.assertEqual(self.assert_same("crun", str(text), "--fuel", "3"), 10)
        self.assertEqual(self.assert_same("load", "10"), 0)

    def test_words_that_are_no_command(self) -> None:
        for name in AS_THEY_ARE:
            for words in ([], ["-x"], ["a", "b", "c", "d"], ["--fuel"], [LOCK, "--fuel", "x"], [""]):
                with self.subTest(name=name, words=words):
                    self.assert_same(name, *words)

    def test_files_that_cannot_be_read(self) -> None:
        for file in ("nowhere.v", str(self.folder), "/dev/null/x"):
            with self.subTest(file):
                self.assertEqual(self.assert_same("emit", file), 2)
                self.assertEqual(self.assert_same("check", file, by=VAULTC), 2)

    def test_word_that_is_no_text_is_no_command(self) -> None:
        self.assertEqual(self.assert_same("emit", os.fsdecode(b"\xff.v")), 1)

    def test_vaultc_is_the_program(self) -> None:
        for words in (["check", LOCK], ["check", "examples/lock_kept.v"], ["explain", "examples/lock_kept.v"], ["run", LOCK], ["fmt", LOCK], ["--help"], []):
            with self.subTest(words):
                self.assert_same(*words, by=VAULTC)

    def test_full_disk_has_the_programs_status(self) -> None:
        for by in (VAULT, VAULTC):
            with open("/dev/full", "wb") as full:
                self.assertEqual(subprocess.run([by, "emit", LOCK], stdout=full, cwd=paths.TOP).returncode, 3)

    def test_links_to_the_scripts_work(self) -> None:
        for by in (VAULT, VAULTC):
            link = self.folder / Path(by).name
            link.symlink_to(by)
            self.assertEqual(answer([str(link), "load", "1"], self.folder), answer([*self.program, "load", "1"]))


if __name__ == "__main__":
    unittest.main()

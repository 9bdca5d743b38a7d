"""A command that has its program starts soon: it imports little, and only what it needs. Counted, since time depends on the machine."""
from __future__ import annotations

import subprocess
import sys
import unittest
from typing import Set

from vault import paths

EXAMPLES = paths.TOP / "examples"
# modules that `vault check` imports of a text with an error, the standard library's too
MOST = 140
# what takes long to import, and a usual call doesn't need
HEAVY = {"dataclasses", "inspect", "concurrent.futures", "logging", "difflib", "html", "tempfile", "unittest", "site", "sqlite3", "ctypes"}


def imported(*words: str) -> Set[str]:
    """The modules that `vault` imports for these words, in the way in which `bin/vault` starts Python."""
    whole = [sys.executable, "-SEB", "-X", "importtime", str(paths.TOP / "bin" / "vault"), *words]
    ran = subprocess.run(whole, stdin=subprocess.DEVNULL, stdout=subprocess.DEVNULL, stderr=subprocess.PIPE, universal_newlines=True)
    lines = [line.split("|") for line in ran.stderr.splitlines() if line.startswith("import time:")]
    return {line[2].strip() for line in lines[1:]}


class Startup(unittest.TestCase):
    def test_script_starts_python_as_it_is_counted_here(self) -> None:
        for name in ("vault", "vaultc", "vaultq"):
            self.assertIn('exec python3 -SEB "$0" "$@"\n', (paths.TOP / "bin" / name).read_text())

    def test_check_imports_little(self) -> None:
        for name in ("lock.v", "lock_kept.v"):
            found = imported("check", str(EXAMPLES / name))
            self.assertIn("vault.judge", found)
            self.assertEqual(found & HEAVY, set())
            self.assertLess(len(found), MOST, sorted(found))

    def test_command_that_hands_its_words_on_imports_less(self) -> None:
        found = imported("load", str(EXAMPLES / "nothing.c"))
        self.assertEqual(found & (HEAVY | {"vault.judge", "vault.parser"}), set())

    def test_help_imports_no_command(self) -> None:
        self.assertEqual([name for name in imported("--help") if name.startswith("vault.commands.")], [])


if __name__ == "__main__":
    unittest.main()

"""What the tests of pictures share: files that are judged, and texts that are compared with files of `golden/`."""
from __future__ import annotations

import os
import unittest
from contextlib import contextmanager
from pathlib import Path
from typing import Iterator, List, Sequence

from vault import ask
from vault.ask import Asker
from vault.judge import Judged, Wishes, judge, judge_all
from vault.paths import TOP

HERE = Path(__file__).parent
GOLDEN = HERE / "golden"
MISTAKES = HERE / "mistakes"
WIDTH = 110
# `VAULT_GOLDEN=write` writes the files in the place of comparing them
WRITES = os.environ.get("VAULT_GOLDEN") == "write"


@contextmanager
def folder(path: Path) -> Iterator[None]:
    """Within a folder, so that names of files are short and the same everywhere."""
    before = os.getcwd()
    os.chdir(path)
    try:
        yield
    finally:
        os.chdir(before)


def asker() -> Asker:
    """The program alone, as it is everywhere: what is shown of a first error doesn't depend on `vaultq`."""
    return Asker(ask.take().vaultc, None)


def judged(names: Sequence[str], where: Path = TOP, wishes: Wishes = Wishes(first=True)) -> List[Judged]:
    """What comes of files, the first error of each."""
    taken = asker()
    with folder(where):
        return [one for _, one in judge_all(names, lambda name: judge(name, taken, wishes), 8)]


class GoldenCase(unittest.TestCase):
    """A test that compares texts with files."""

    maxDiff = 4000

    def assert_golden(self, name: str, text: str) -> None:
        path = GOLDEN / name
        # places of documents are those of this checkout
        text = text.replace(TOP.as_uri(), "file:///TOP")
        if WRITES:
            GOLDEN.mkdir(exist_ok=True)
            path.write_text(text, encoding="utf-8")
        self.assertEqual(path.read_text(encoding="utf-8"), text)

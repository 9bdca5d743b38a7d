"""Parts are run side by side; what fails is said with its first difference."""
from __future__ import annotations

import io
import unittest
from typing import Optional

from vault.commands import test as command
from vault.errors import Problem
from vault.suite import Part, Skipped, first_difference, run_parts


def absent(_: Optional[object]) -> str:
    raise Skipped("it isn't installed")


def broken(_: Optional[object]) -> str:
    raise ValueError("no such row")


PARTS = [
    Part("a: good", lambda _: ""),
    Part("a: bad", lambda _: "f.v:1\n  - x"),
    Part("b: absent", absent),
    Part("b: broken", broken),
    Part("b: late", lambda _: "never run", skipped="takes long"),
]


class Runs(unittest.TestCase):
    def test_each_part_has_a_line_and_the_last_one_counts(self) -> None:
        out = io.StringIO()
        self.assertFalse(run_parts(PARTS, {}, 2, out))
        said = out.getvalue()
        self.assertRegex(said, r"passed +\d+\.\d s  a: good\n")
        self.assertRegex(said, r"FAILED +\d+\.\d s  a: bad\n    f.v:1\n      - x\n")
        self.assertIn("skipped           b: absent: it isn't installed\n", said)
        self.assertIn("skipped           b: late: takes long\n", said)
        self.assertIn("ValueError: no such row", said)
        self.assertTrue(said.endswith("1 passed, 2 failed\n"))

    def test_all_passed(self) -> None:
        out = io.StringIO()
        self.assertTrue(run_parts(PARTS[:1], {}, 1, out))
        self.assertTrue(out.getvalue().endswith("1 passed, 0 failed\n"))


class Choice(unittest.TestCase):
    def test_a_group_a_topic_and_a_piece_choose(self) -> None:
        for words, titles in ((["a"], ["a: good", "a: bad"]), (["Late"], ["b: late"]), (["bro"], ["b: broken"])):
            with self.subTest(words):
                self.assertEqual([part.title for part in command.chosen(PARTS, words)], titles)

    def test_what_is_named_is_run(self) -> None:
        self.assertEqual(command.chosen(PARTS, ["late"])[0].skipped, "")

    def test_a_misspelt_part_is_a_problem(self) -> None:
        with self.assertRaisesRegex(Problem, "did you mean 'broken'"):
            command.chosen(PARTS, ["brokken"])


class Differences(unittest.TestCase):
    def test_the_first_difference_has_its_line(self) -> None:
        said = first_difference("f.v", ["a", "b", "c"], ["a", "x", "c"])
        self.assertEqual(said.split("\n")[:2], ["f.v", "  line 2 differs (- is expected, + was written)"])
        self.assertIn("  - b", said)
        self.assertIn("  + x", said)

    def test_a_line_too_few_is_a_difference(self) -> None:
        self.assertIn("line 2 differs", first_difference("f.v", ["a", "b"], ["a"]))

    def test_long_lines_are_cut(self) -> None:
        self.assertLess(max(map(len, first_difference("f", ["x" * 9999], ["y" * 9999]).split("\n"))), 200)


if __name__ == "__main__":
    unittest.main()

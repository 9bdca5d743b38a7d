"""How a program is asked: its input, folder, status and texts."""
from __future__ import annotations

import os
import tempfile
import unittest
from pathlib import Path

from vault.errors import NoProgram, Problem
from vault.programs import Answer, Program


def shell(script: str) -> Program:
    """A program that is a script of the shell; its words are $1 and so on."""
    return Program("shell", Path("/bin/sh"), False, ("/bin/sh", "-c", script, "shell"))


class Asking(unittest.TestCase):
    def test_answer_has_status_output_and_errors(self) -> None:
        answer = shell('echo "$1"; echo "$2" >&2; exit 7').ask(["one", "two words"])
        self.assertEqual(answer, Answer(7, "one\n", "two words\n"))

    def test_lines_are_without_their_ends(self) -> None:
        for text, lines in (("", []), ("\n", [""]), ("a\nb\n", ["a", "b"]), ("a\n\nb", ["a", "", "b"])):
            self.assertEqual(Answer(0, text, "").lines, lines)

    def test_input_is_text_or_bytes_or_nothing(self) -> None:
        for given, found in (("\u00e4\n", "\u00e4\n"), (b"\xff", "\udcff"), (None, "")):
            self.assertEqual(shell("cat").ask([], input=given).output, found)

    def test_bytes_that_are_no_text_come_back_as_they_were(self) -> None:
        answer = shell('printf "%s" "$1"').ask([os.fsdecode(b"\xff.v")])
        self.assertEqual(os.fsencode(answer.output), b"\xff.v")

    def test_folder_is_where_it_runs(self) -> None:
        with tempfile.TemporaryDirectory() as folder:
            self.assertEqual(shell("pwd -P").ask([], folder=folder).output, os.path.realpath(folder) + "\n")

    def test_signal_has_its_status(self) -> None:
        self.assertEqual(shell("kill -TERM $$").ask([]).status, 143)

    def test_no_answer_in_time_is_a_problem(self) -> None:
        with self.assertRaisesRegex(Problem, "shell x: no answer within 0.2 seconds"):
            shell("sleep 60").ask(["x"], timeout=0.2)

    def test_program_that_is_gone_is_told(self) -> None:
        with self.assertRaises(NoProgram):
            Program("gone", Path("/nowhere"), False, ("/nowhere",)).ask([])


if __name__ == "__main__":
    unittest.main()

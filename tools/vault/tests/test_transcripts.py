"""Sections of transcripts stand by themselves, and differences have their places."""
from __future__ import annotations

import unittest

from vault import transcripts
from vault.paths import TOP
from vault.programs import Answer
from vault.transcripts import Section, expand, read_differences, read_sections

TEXT = """\
A remark.

# First
--- a.v
# no heading
$ no command
---
$ emit a.v > a.c
= 0
~ a.v b.v no => some
$ check a.v
accepted 1
# no heading either
= 0

# Second
! read 1
$ check b.v
* 2 x#\\n
| = 1
= 2
$ verify a.c
verified 1
= 0
"""


class Spoken:
    """A program that answers with some lines."""

    def __init__(self, *lines: str, status: int = 0) -> None:
        self.answer = Answer(status, "".join(line + "\n" for line in lines), "")

    def ask(self, words, *, input=None, folder=None, timeout=None) -> Answer:
        return self.answer


class Questions(unittest.TestCase):
    def test_a_question_is_a_command(self) -> None:
        (section,) = read_sections("# One\n--- a.v\n? no question\n---\n! read 1\n? faults a.v\nread a.v\n= 2\n")
        self.assertEqual([(it.title, it.expected()) for it in section.commands()], [(" faults a.v", ["read a.v", "= 2"])])


class Sections(unittest.TestCase):
    def setUp(self) -> None:
        self.first, self.second = read_sections(TEXT)

    def test_headings_stand_outside_files_and_replies(self) -> None:
        self.assertEqual([(it.title, it.line) for it in (self.first, self.second)], [("First", 3), ("Second", 16)])

    def test_files_of_earlier_sections_come_first(self) -> None:
        self.assertEqual([it.makes for it in self.second.needed], ["a.v", "a.c", "b.v"])
        self.assertTrue(self.second.text().startswith("--- a.v\n# no heading\n$ no command\n---\n$ emit a.v > a.c\n= 0\n~ a.v b.v no => some\n! read 1\n"))

    def test_each_command_has_its_line(self) -> None:
        self.assertEqual([(it.title, it.line) for it in self.first.items if it.is_command], [(" emit a.v", 8), (" check a.v", 11)])

    def test_replies_are_written_out(self) -> None:
        self.assertEqual(self.second.items[0].expected(), ["x0", "x1", "= 1", "= 2"])
        self.assertEqual(expand(("* 1 a\\n\\n", "b")), ["a", "", "b"])

    def test_differences_lead_to_their_command(self) -> None:
        output = ["command 2: $ check b.v", "read b.v", "= 2", "command 3: $ verify a.c", "refused 1", "= 12", "3 commands"]
        found = read_differences(self.second, output)
        self.assertEqual([(it.item.title, it.found) for it in found], [(" check b.v", ["read b.v", "= 2"]), (" verify a.c", ["refused 1", "= 12"])])

    def test_a_section_that_passes_says_nothing(self) -> None:
        self.assertEqual(transcripts.check_section(self.first, Spoken("2 commands")), "")

    def test_a_section_that_fails_says_where(self) -> None:
        said = transcripts.check_section(self.first, Spoken("command 2: $ check a.v", "text end", "= 6", "2 commands"))
        self.assertTrue(said.startswith("crates/vaultc_tests/stdin:11: $ check a.v\n"), said)
        self.assertIn("- accepted 1", said)
        self.assertIn("+ text end", said)

    def test_a_program_that_stops_early_fails(self) -> None:
        self.assertIn("2 commands", transcripts.check_section(self.first, Spoken("1 commands")))
        self.assertIn("status 101", transcripts.check_section(self.first, Spoken("2 commands", status=101)))


class Repository(unittest.TestCase):
    def test_all_commands_are_in_sections(self) -> None:
        commands = sum(item.is_command for section in transcripts.load_sections(TOP) for item in section.items)
        self.assertEqual(f"{commands} commands\n", (TOP / "crates" / "vaultc_tests" / "stdout").read_text(encoding="utf-8"))

    def test_readme_lists_the_sections(self) -> None:
        page = (TOP / "crates" / "vaultc_tests" / "README.md").read_text(encoding="utf-8")
        rows = page[page.index("| Section | Has |") :].split("\n\n")[0].split("\n")[2:]
        self.assertEqual([row.split(" | ")[0][2:] for row in rows], [section.title for section in transcripts.load_sections(TOP)])

    def test_times_are_of_sections(self) -> None:
        titles = {section.title for section in transcripts.load_sections(TOP)}
        self.assertEqual({*transcripts.SECONDS, *transcripts.LATE} - titles, set())

    def test_carriage_returns_stand_where_they_stood(self) -> None:
        self.assertIn(b"\r", transcripts.transcripts_file(TOP).read_bytes())


if __name__ == "__main__":
    unittest.main()

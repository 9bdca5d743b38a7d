"""docs/ADDING.md names each file in which a form, an operator, a rule, a limit, a row or a command stands."""
from __future__ import annotations

import re
import unittest
from pathlib import Path

from vault import places
from vault.errors import Problem
from vault.paths import TOP
from vault.places import Kind, Step

SUBJECTS = (["become"], ["BitXor"], ["load"], ["row", "struct_type"], ["rule", "29"], ["limit", "9"])
"""One of each kind, by words that stand for nothing else."""


class Pages(unittest.TestCase):
    def test_no_file_is_left_over(self) -> None:
        for words in SUBJECTS:
            with self.subTest(" ".join(words)):
                subject = places.find_subject(TOP, words)
                found = places.find_places(TOP, subject)
                self.assertGreater(len(found), 5)
                left = places.sort_places(TOP, places.read_steps(TOP, subject.kind), found)
                self.assertEqual([str(place.file.relative_to(TOP)) for place in left], [])

    def test_each_kind_has_a_subject(self) -> None:
        self.assertEqual({places.find_subject(TOP, words).kind for words in SUBJECTS}, set(Kind))

    def test_each_step_names_files_that_exist(self) -> None:
        names = places.all_names(TOP)
        for kind in Kind:
            for step in places.read_steps(TOP, kind):
                with self.subTest(f"{kind.value}, {step.number}"):
                    self.assertEqual(places.named_nowhere(names, step), [])


class Subjects(unittest.TestCase):
    def test_a_limit_is_found_by_its_number(self) -> None:
        self.assertEqual(places.find_subject(TOP, ["limit", "9"]).title, "limit 9, PARAMETERS")

    def test_an_operator_has_its_sign(self) -> None:
        subject = places.find_subject(TOP, ["BitXor"])
        self.assertEqual((subject.title, subject.code), ("the operator `^`", ("BitXor", "bit_xor", "Xor")))

    def test_a_name_of_nothing_is_a_problem(self) -> None:
        with self.assertRaisesRegex(Problem, "rule 99"):
            places.find_subject(TOP, ["rule", "99"])


class Steps(unittest.TestCase):
    step = Step("1", "", "`vlt_core/specs/{Rows,Flow}.antt`, `src/*.rt`; `vlt_rows`; `docs`, `README.md`", "")

    def test_parts_of_a_crate_are_of_the_one_before(self) -> None:
        self.assertEqual(self.step.patterns(), ["vlt_core/specs/Rows.antt", "vlt_core/specs/Flow.antt", "vlt_core/src/*.rt", "vlt_rows", "docs", "README.md"])

    def test_a_crate_and_a_folder_have_all_below_them(self) -> None:
        for name in ("crates/vlt_rows/src/a/b.rt", "crates/vlt_core/src/x.rt", "crates/vlt_core/README.md", "docs/C.md", "README.md"):
            self.assertTrue(self.step.covers(name), name)
        for name in ("crates/vlt_core/specs/Maps.antt", "crates/vlt_core/src/a/x.rt", "crates/vlt_rows_more/src/x.rt", "crates/x/README.md"):
            self.assertFalse(self.step.covers(name), name)


class Lines(unittest.TestCase):
    def test_comments_and_imports_are_passed_over(self) -> None:
        words = re.compile(r"\bgo\b")
        self.assertEqual(places.lines_of_code("// go\nuse a.{go}\n  go x\n-- go\ngoes", words), [3])

    def test_prose_is_passed_over(self) -> None:
        words = re.compile(r"\bgo\b")
        page = "go on\n`go`\n```\ngo\n```\n| go |\n"
        self.assertEqual(places.lines_of_page(Path("a.md"), page, words), [2, 4, 6])
        self.assertEqual(places.lines_of_page(Path("a.py"), '"""go"""\n"""\ngo\n"""\nx.go("no")\ny = "go"\n', words), [6])


if __name__ == "__main__":
    unittest.main()

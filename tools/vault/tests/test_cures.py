"""Cures are tried before they are shown: what makes a change good, and what is offered for common mistakes."""
from __future__ import annotations

import subprocess
import sys
import tempfile
import unittest
from pathlib import Path
from typing import List, Optional

from vault import programs
from vault.ask import Asker, Reply, take
from vault.edits import apply, changed_parts, drop, moved
from vault.judge import Wishes, jobs, judge_text
from vault.paths import TOP
from vault.picture import Cure, Edit, View
from vault.report import read_reports
from vault.source import Source
from vault.syntax import Span
from vault.trying import Trial

from .damaged import outcomes

VAULT = TOP / "bin" / "vault"

TEXT = """\
struct point {
    int x;
}
void f() {
    tracked(P) point p = new point { x: 1 };
    print(p.x);
}
void g() {
    tracked(Q) point q = new point { x: 2 };
    print(q.x);
}
void main() {
    f();
    g();
}
"""
F_LEAKS = "protocol 7:1 P found held wanted absent"
G_LEAKS = "protocol 11:1 Q found held wanted absent"
RELEASE = Edit(Span(TEXT.index("}\nvoid g"), TEXT.index("}\nvoid g")), "    release p;\n")


class Edits(unittest.TestCase):
    def test_places_move(self) -> None:
        edits = [Edit(Span(2, 4), "xyz"), Edit(Span(6, 6), "!")]
        self.assertEqual(apply("abcdefgh", edits), "abxyzef!gh")
        self.assertEqual([moved(at, edits) for at in (0, 2, 3, 4, 5, 6)], [0, None, None, 5, 6, 8])
        self.assertEqual(changed_parts(edits), [Span(2, 5), Span(7, 8)])

    def test_a_statement_goes_with_its_line(self) -> None:
        self.assertEqual(apply("a;\n  b;\nc;\n", [drop("a;\n  b;\nc;\n", Span(5, 7))]), "a;\nc;\n")
        self.assertEqual(apply("a; b;\n", [drop("a; b;\n", Span(3, 5))]), "a; \n")


class Trials(unittest.TestCase):
    """What is answered of the changed text decides."""

    def is_cured(self, before: List[str], after: List[str], edit: Edit = RELEASE, text: str = TEXT) -> bool:
        asked: List[bytes] = []

        def answer(changed: bytes) -> Reply:
            asked.append(changed)
            return Reply(8, after, read_reports(after))

        reports = read_reports(before)
        trial = Trial(View(Source("t.v", text.encode())), reports, answer, 1)
        good = trial.is_cured(reports[0], [edit])
        self.assertEqual(asked, [apply(text, [edit]).encode()])
        return good

    def test_all_errors_are_gone(self) -> None:
        self.assertTrue(self.is_cured([F_LEAKS], ["accepted 3"]))

    def test_the_error_is_still_there(self) -> None:
        self.assertFalse(self.is_cured([F_LEAKS], [F_LEAKS]))
        self.assertFalse(self.is_cured([F_LEAKS], ["protocol 8:1 P found held wanted absent"]))

    def test_an_error_that_was_there_may_stay(self) -> None:
        self.assertTrue(self.is_cured([F_LEAKS, G_LEAKS], ["protocol 12:1 Q found held wanted absent"]))

    def test_no_error_may_come(self) -> None:
        self.assertFalse(self.is_cured([F_LEAKS], ["protocol 6:5 P found absent wanted held"]))
        self.assertFalse(self.is_cured([F_LEAKS], ["protocol 6:5 R found absent wanted held"]))
        self.assertFalse(self.is_cured([F_LEAKS, G_LEAKS], ["protocol 7:5 P found absent wanted held", "protocol 12:1 Q found held wanted absent"]))

    def test_the_program_may_not_get_less_far(self) -> None:
        for line in ("text token 7:5", "kind 27 7:13", "limit 3 262144", ""):
            self.assertFalse(self.is_cured([F_LEAKS], [line] if line else []))

    def test_what_comes_to_light_elsewhere_is_not_new(self) -> None:
        wrong = TEXT.replace("print(p.x)", "print(p.y)")
        fix = Edit(Span(wrong.index("p.y"), wrong.index("p.y") + 3), "p.x")
        self.assertTrue(self.is_cured(["kind 27 6:13"], [G_LEAKS], fix, wrong))
        self.assertTrue(self.is_cured(["kind 27 6:13"], ["kind 27 10:13"], fix, wrong))
        # in the same function it may come of the change, if it is about the same names
        self.assertFalse(self.is_cured(["kind 27 6:13"], ["protocol 6:5 P found absent wanted held"], fix, wrong))
        self.assertFalse(self.is_cured(["kind 27 6:13"], ["kind 29 6:11"], fix, wrong))

    def test_a_text_that_the_grammar_refuses_is_not_asked_of(self) -> None:
        reports = read_reports([F_LEAKS])
        trial = Trial(View(Source("t.v", TEXT.encode())), reports, self.fail, 1)
        self.assertFalse(trial.is_cured(reports[0], [Edit(Span(0, 0), "}")]))
        self.assertFalse(trial.is_cured(reports[0], []))

    def test_words_stay_without_a_change_that_is_no_cure(self) -> None:
        reports = read_reports([F_LEAKS])
        trial = Trial(View(Source("t.v", TEXT.encode())), reports, lambda _: Reply(8, [F_LEAKS], reports), 1)
        (cure,) = trial.with_words(reports[0], [Cure("do this", (RELEASE,))])
        self.assertEqual((cure.text, cure.edits, cure.tested), ("do this", (), False))


CASES = {
    "a semicolon": ("void main() {\n    int x = 1\n    print(x);\n}\n", "write ; after 1"),
    "a brace": ("void main() {\n    if (1 > 0) {\n        print(1);\n    print(2);\n}\n", "write } here, or where the block should end"),
    "braces around a body": ("void main() {\n    if (1 > 0) print(1);\n}\n", "put the statement in braces"),
    "a doubled brace": ("void f() {\n}\n}\nvoid main() {\n    f();\n}\n", "remove }"),
    "tracked": (
        "struct p { int x; }\nvariant v { 'A(tracked p), 'B }\nvoid f(v a) {\n    switch (a) {\n        case 'A(x): {\n            release x;\n        }\n"
        "        case 'B: {}\n    }\n}\nvoid main() {\n}\n",
        "write tracked v a",
    ),
    "an arm": (
        "variant v { 'A, 'B }\nvoid f(v a) {\n    switch (a) {\n        case 'A: {}\n    }\n}\nvoid main() {\n}\n",
        "insert the arm of 'B",
    ),
    "a return": ("int f() {\n    print(1);\n}\nvoid main() {\n    int x = f();\n}\n", "insert return 0;"),
    "a set of states": ("abstract door@lock;\nextern tracked(D) door make() [new D@shut];\nvoid main() {\n}\n", "declare stateset lock { shut }"),
    "a statement too late": ("void main() {\n    print(x);\n    int x = 1;\n}\n", "move int x = 1; before this statement"),
    "a field": (
        "struct p {\n    int x;\n}\nvoid main() {\n    tracked(P) p a = new p { x: 1, y: 2 };\n    release a;\n}\n",
        "write { x: 1 }",
    ),
    "the second release": (
        "struct p {\n    int x;\n}\nvoid main() {\n    tracked(P) p a = new p { x: 1 };\n    release a;\n    release a;\n}\n",
        "remove the second release",
    ),
    "a clause": (
        "struct p {\n    int x;\n}\nvoid end(tracked(P) p a) [P] {\n    release a;\n}\nvoid main() {\n    tracked(A) p a = new p { x: 1 };\n    end(a);\n}\n",
        "let the clause take it: [-P]",
    ),
}


def first_change(asker: Asker, text: str) -> Optional[Cure]:
    judged = judge_text(Source("case.v", text.encode()), asker, Wishes(repairs=True))
    return next(iter(judged.pictures[0].changes()), None)


class Offers(unittest.TestCase):
    def setUp(self) -> None:
        programs.take("vaultc")
        self.asker = take()

    def test_the_first_change_cures(self) -> None:
        for name, (text, title) in CASES.items():
            with self.subTest(name):
                cure = first_change(self.asker, text)
                self.assertIsNotNone(cure)
                self.assertTrue(cure.tested)
                self.assertEqual(cure.text.replace("`", ""), title)
                self.assertEqual(self.asker.vaultc.ask(["check", "/dev/stdin"], input=apply(text, cure.edits)).status, 0)

    def test_what_is_offered_for_damaged_programs_was_tried(self) -> None:
        found = outcomes(self.asker, 7, 8, 30)
        self.assertEqual([one.wrong for one in found if one.wrong], [])
        self.assertTrue(all(cure.tested for one in found for cure in one.cures))
        # which programs they are changes with those of the repository; slow_cures.py has the bound
        self.assertGreater(sum(bool(one.cures) for one in found), 3)


class Fix(unittest.TestCase):
    """`vault check --fix`."""

    TWICE = "void main() {\n    int x = 1\n    print(x)\n}\n"

    def setUp(self) -> None:
        programs.take("vaultc")
        folder = tempfile.TemporaryDirectory()
        self.addCleanup(folder.cleanup)
        self.file = Path(folder.name) / "two.v"
        self.file.write_text(self.TWICE, encoding="utf-8")

    def fix(self, *words: str, answers: str = "") -> "subprocess.CompletedProcess[str]":
        command = [sys.executable, str(VAULT), "check", "--fix", *words, str(self.file)]
        return subprocess.run(command, input=answers, stdout=subprocess.PIPE, stderr=subprocess.PIPE, universal_newlines=True)

    def test_yes_carries_out_the_first_cure_of_each(self) -> None:
        done = self.fix("--yes")
        self.assertEqual((done.returncode, self.file.read_text(encoding="utf-8")), (0, self.TWICE.replace("= 1", "= 1;").replace("(x)", "(x);")))
        self.assertEqual(done.stderr.count("\n"), 2)
        self.assertIn("no errors in 1 function", done.stdout)

    def test_it_asks_first(self) -> None:
        done = self.fix(answers="y\nn\n")
        self.assertEqual((done.returncode, self.file.read_text(encoding="utf-8")), (6, self.TWICE.replace("= 1", "= 1;")))
        self.assertRegex(done.stderr, r"two\.v:2:14: expected `;`, .*\n  write ; after 1\? \[y/N\] ")
        self.assertIn("`;` is missing here", done.stdout)

    def test_without_an_answer_nothing_is_changed(self) -> None:
        done = self.fix()
        self.assertEqual((done.returncode, self.file.read_text(encoding="utf-8")), (6, self.TWICE))

    def test_a_file_that_is_none_is_refused(self) -> None:
        command = [sys.executable, str(VAULT), "check", "--fix", "--yes", "-"]
        done = subprocess.run(command, stdin=subprocess.DEVNULL, stdout=subprocess.PIPE, stderr=subprocess.PIPE, universal_newlines=True)
        self.assertEqual(done.returncode, 1)
        self.assertIn("no file that can be changed", done.stderr)


if __name__ == "__main__":
    unittest.main()

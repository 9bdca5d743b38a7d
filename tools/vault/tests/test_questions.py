"""What `vaultq` adds: all errors on keys with their paths, and the keys at each point, by which second places are found."""
from __future__ import annotations

import json
import unittest
from typing import List, Optional, Tuple

from vault import ask
from vault.ask import Asker
from vault.forms import gcc, json_form, page, sarif, text
from vault.judge import Judged, Wishes, judge, judge_all, judge_text
from vault.paths import TOP
from vault.picture import Picture
from vault.programs import Program
from vault.report import KeyFault, read_reports
from vault.source import Source

from .golden import MISTAKES, WIDTH, GoldenCase, folder
from .schema import sarif_schema

WISHES = Wishes(cures=False)
SIX = """\
struct point {
    int x;
}
void leaks() {
    tracked(P) point p = new point { x: 1 };
}
void twice() {
    tracked(P) point p = new point { x: 1 };
    release p;
    release p;
    tracked(Q) point q = new point { x: 2 };
}
void on_one_way(int n) {
    tracked(P) point p = new point { x: 1 };
    if (n > 0) {
        release p;
    }
}
void right() {
    tracked(P) point p = new point { x: 1 };
    release p;
}
void gone(tracked(P) point p) [P] {
    release p;
}
void used(tracked(P) point p) [-P] {
    release p;
    print(p.x);
}
void main() {
}
"""
KEYS = [("P", "6:1"), ("P", "10:5"), ("Q", "12:1"), ("P", "17:5"), ("P", "25:1"), ("P", "28:5")]


class Questions(unittest.TestCase):
    def setUp(self) -> None:
        self.asker = ask.take()
        if self.asker.vaultq is None:
            self.skipTest("there is no vaultq")

    def six(self, wishes: Wishes) -> List[Picture]:
        return judge_text(Source("six.v", SIX.encode()), self.asker, wishes).pictures

    def test_each_function_and_key_has_its_first_error(self) -> None:
        found = [(one.report.split()[2], str(one.fault.place)) for one in self.six(WISHES)]
        self.assertEqual(found, KEYS)

    def test_they_are_what_vaultq_says(self) -> None:
        answer = self.asker.vaultq.ask(["faults", "/dev/stdin"], input=SIX)
        said = [one.line for one in read_reports(answer.lines) if isinstance(one, KeyFault)]
        self.assertEqual([one.report for one in self.six(WISHES)], said)

    def test_each_has_its_paths(self) -> None:
        by_key = {(one.report.split()[2], str(one.fault.place)): one for one in self.six(WISHES)}
        self.assertEqual(len([way for way in by_key[("P", "17:5")].ways if way.is_path]), 2)
        self.assertIn("`p` was released here", [label.text for way in by_key[("P", "28:5")].ways for label in way.labels])

    def test_first_shows_one(self) -> None:
        self.assertEqual(len(self.six(Wishes(first=True, cures=False))), 1)

    def test_a_cure_of_one_leaves_the_others(self) -> None:
        found = self.six(Wishes())
        self.assertEqual(len(found), len(KEYS))
        for one in found:
            self.assertTrue(any(cure.tested and cure.edits for cure in one.cures), one.report)


class Forms(GoldenCase):
    """All errors of a text in each form, as they were looked at."""

    files: List[Judged] = []

    def setUp(self) -> None:
        asker = ask.take()
        if asker.vaultq is None:
            self.skipTest("there is no vaultq")
        if not Forms.files:
            Forms.files = [judge_text(Source("six.v", SIX.encode()), asker, Wishes())]

    def pictures(self) -> List[Picture]:
        return [picture for one in self.files for picture in one.pictures]

    def test_text(self) -> None:
        self.assert_golden("six.txt", text.write(self.pictures(), text.Style(WIDTH)))

    def test_gcc(self) -> None:
        self.assert_golden("six.gcc", gcc.write(self.pictures()))

    def test_sarif(self) -> None:
        written = sarif.write(self.files)
        self.assertEqual(sarif_schema().faults(json.loads(written)), [])
        self.assert_golden("six.sarif", written)

    def test_json(self) -> None:
        self.assert_golden("six.json", json_form.write(self.files))

    def test_html(self) -> None:
        self.assert_golden("six.html", page.write(self.pictures()))


class Counted(Program):
    """A program, and how often it is asked."""

    asked: List[str] = []

    def ask(self, words, **more):  # type: ignore[override]
        Counted.asked.append(words[0])
        return super().ask(words, **more)


class Costs(unittest.TestCase):
    """How many questions a picture takes: each is the start of a program."""

    def questions(self, name: str, asker: Asker) -> int:
        Counted.asked.clear()
        with folder(MISTAKES):
            judge(name, asker, WISHES)
        return len(Counted.asked)

    def counted(self, one: Optional[Program]) -> Optional[Program]:
        return Counted(one.name, one.path, one.proved, one.command) if one else None

    def test_what_was_expected_takes_few_questions(self) -> None:
        asker = Asker(self.counted(ask.take().vaultc), None)
        for file in sorted(MISTAKES.glob("a*.v"))[::5]:
            self.assertLessEqual(self.questions(file.name, asker), 48, file.name)

    def test_errors_on_keys_take_two(self) -> None:
        taken = ask.take()
        if not taken.answers("keys"):
            self.skipTest("no vaultq answers keys")
        asker = Asker(self.counted(taken.vaultc), self.counted(taken.vaultq))
        for file in sorted(MISTAKES.glob("c*.v"))[::5]:
            self.assertEqual(self.questions(file.name, asker), 2, file.name)


class SecondPlaces(unittest.TestCase):
    """What is said over `vaultq`, by its tables of keys if it has them, is what probes of `vaultc check` say."""

    def both(self, names: List[str]) -> List[Tuple[Judged, Judged]]:
        taken = ask.take()
        if taken.vaultq is None:
            self.skipTest("there is no vaultq")
        alone = Asker(taken.vaultc, None)
        first = Wishes(first=True, cures=False)
        found = []
        for asker in (taken, alone):
            with folder(MISTAKES):
                found.append([one for _, one in judge_all(names, lambda name: judge(name, asker, first), 8)])
        return list(zip(*found))

    def test_of_a_newcomers_mistakes(self) -> None:
        for one, other in self.both(sorted(file.name for file in MISTAKES.glob("c*.v"))):
            with self.subTest(one.source.name):
                self.assertEqual(one.status, other.status)
                self.assertEqual(self.told(one.pictures[0]), self.told(other.pictures[0]))

    @staticmethod
    def told(picture: Picture) -> Tuple[object, ...]:
        """What is said but for the choices of the path, of which there may be several."""
        notes = [(label.place, label.text) for way in picture.ways for label in way.labels if label.role == "note"]
        return picture.report, picture.message, picture.fault, notes


class LostStates(unittest.TestCase):
    def test_a_bare_clause_that_loses_a_state_is_warned_of(self) -> None:
        asker = ask.take()
        if not asker.answers("keys"):
            self.skipTest("no vaultq answers keys")
        with folder(TOP):
            found = judge(str(MISTAKES / "c20_state_lost_by_bare_clause.v"), asker, Wishes(lint=True, cures=False))
        self.assertIn("lint-lost-state", [one.rule for one in found.pictures])


if __name__ == "__main__":
    unittest.main()

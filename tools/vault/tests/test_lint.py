"""Warnings, and rules on names and types as they are read from the documents."""
from __future__ import annotations

import re
import unittest

from vault.ask import Asker
from vault import ask
from vault.commands import rule as rule_command
from vault.forms.text import Style
from vault.judge import Wishes, pictures_of
from vault.lint import lint
from vault.held import read_tables
from vault.kinds import TELLERS
from vault.paths import TOP
from vault.picture import View
from vault.rules import all_rules, limit_words
from vault.source import Source

HEAD = """stateset power { off, on }
abstract dev@power;
extern tracked(D) dev find() [new D@off];
extern void start(tracked(D) dev d) [D@off->on];
extern int id(tracked(D) dev d) [D];
extern void note(tracked(D) dev d);
extern void use(tracked(D) dev d) [D@on];
extern void drop(tracked(D) dev d) [-D];
"""


def warned(body: str, tables: str = "") -> list:
    """The names and places of the warnings of a `main`."""
    view = View(Source("x", (HEAD + "void main() {\n" + body + "}\n").encode()))
    return [(picture.rule, str(picture.fault.place)) for picture in lint(view, read_tables(tables.split("\n")))]


class Lint(unittest.TestCase):
    def test_outside_clause(self) -> None:
        body = "    tracked(D) dev d = find();\n    note(d);\n    drop(d);\n"
        self.assertEqual(warned(body), [("lint-outside-clause", "11:10")])

    def test_while_true(self) -> None:
        self.assertEqual(warned("    while (true) {\n    }\n    while (false) {\n    }\n"), [("lint-while-true", "10:5")])

    def test_lost_state(self) -> None:
        body = "    tracked(D) dev d = find();\n    start(d);\n    int n = id(d);\n    use(d);\n    drop(d);\n"
        tables = "function main\n10:5\n11:5 D@off\n12:5 D@on\n13:5 D@{off,on}\n14:5 D@on\n15:1"
        self.assertEqual(warned(body, tables), [("lint-lost-state", "12:16")])
        self.assertEqual(warned(body.replace("    use(d);\n", ""), tables), [])

    def test_dropping_arm(self) -> None:
        text = """struct point {
    int x;
}
variant slot { 'Full(tracked point), 'Free }
void f(tracked slot s) {
    switch (s) {
        case 'Full(p): {
            release p;
        }
        case 'Free: {
        }
    }
}
void main() {
}
"""
        view = View(Source("x", text.encode()))
        self.assertEqual([(one.rule, str(one.fault.place)) for one in lint(view, [])], [("lint-dropping-arm", "7:14")])

    def test_warnings_change_no_status(self) -> None:
        taken = Asker(ask.take().vaultc, None)
        text = (HEAD + "void main() {\n    while (true) {\n    }\n}\n").encode()
        reply = taken.faults("x", text)
        pictures = pictures_of(View(Source("x", text)), reply, taken, Wishes(lint=True), text)
        self.assertEqual(reply.status, 0)
        self.assertEqual([picture.severity for picture in pictures], ["ok", "warning"])


class Rules(unittest.TestCase):
    def test_each_rule_has_all_its_parts(self) -> None:
        found = all_rules()
        self.assertEqual(sorted(found), list(range(1, 51)))
        for number, rule in found.items():
            with self.subTest(number):
                self.assertTrue(rule.title and rule.cause and rule.cures)
                self.assertGreaterEqual(len(rule.programs), 2)
                self.assertNotIn("*", rule.cause)

    def test_each_rule_on_programs_is_told(self) -> None:
        self.assertEqual(sorted(TELLERS), list(range(1, 47)))

    def test_links_lead_to_anchors(self) -> None:
        text = (TOP / "docs" / "RULES.md").read_text(encoding="utf-8")
        for rule in all_rules().values():
            self.assertIn(f'<a id="{rule.link.partition("#")[2]}"></a>', text)

    def test_the_rule_is_shown(self) -> None:
        shown = rule_command.text_of(all_rules()[29], Style(80))
        self.assertTrue(shown.startswith("Rule 29: "))
        for line in ("Wrong:", "Right:"):
            self.assertIn(f"\n{line}\n", shown)
        self.assertRegex(shown, r"\nCure, at a condition: ")

    def test_limits(self) -> None:
        self.assertEqual(limit_words(6), "fields of a struct")
        self.assertEqual(limit_words(11), "variables, and keys, of a function, hidden ones included")

    def test_wrong_programs_of_the_rules_have_pictures(self) -> None:
        """Each rule's wrong program shows that rule, with a cure."""
        taken = Asker(ask.take().vaultc, None)
        for number, rule in all_rules().items():
            if number > 46:
                continue
            text = rule.programs[0].encode()
            reply = taken.first("x", text)
            picture = pictures_of(View(Source("x", text)), reply, taken, Wishes(first=True), text)[0]
            with self.subTest(number):
                self.assertEqual(picture.rule, f"rule-{number}")
                self.assertTrue(picture.message and picture.cures)
                self.assertIsNone(re.search(r"None|\bx\d+\b.*None", picture.message))


if __name__ == "__main__":
    unittest.main()

"""Lines of vaultc and vaultq as values, and what is held at each point."""
from __future__ import annotations

import unittest

from vault.held import read_item, read_tables, table_of

from vault.report import (
    Accepted, Bad, Clash, KeyFault, Limit, ListFault, Other, Path, Refused, RuleFault, Status, Stop, TextFault, Unread, read_line, read_reports,
)  # fmt: skip
from vault.source import Place


class Lines(unittest.TestCase):
    def test_each_form(self) -> None:
        forms = {
            "accepted 4": Accepted("accepted 4", 4),
            "module 1": Accepted("module 1", 1),
            "text token 3:7": TextFault("text token 3:7", "token", Place(3, 7)),
            "text end": TextFault("text end", "end", None),
            "text answers 4": ListFault("text answers 4", "answers", 4),
            "limit 3 262144": Limit("limit 3 262144", 3, 262144),
            "kind 29 1:23": RuleFault("kind 29 1:23", 29, Place(1, 23)),
            "clash write": Clash("clash write", "write"),
            "read a b.v": Unread("read a b.v", "a b.v"),
            "call 4 bad": Bad("call 4 bad", "call", 4),
            "trap 2": Stop("trap 2", "trap", "2"),
            "budget heap": Stop("budget heap", "budget", "heap"),
            "answers ended": Stop("answers ended", "answers", "ended"),
            "undefined 3 at 7": Stop("undefined 3 at 7", "undefined", "3 at 7"),
            "refused 5 statement 12": Refused("refused 5 statement 12", 5, "statement 12"),
            "@socket #1": Other("@socket #1"),
        }
        for line, value in forms.items():
            with self.subTest(line):
                self.assertEqual(read_line(line), value)

    def test_step_and_join(self) -> None:
        step = read_line("protocol 18:9 L found held@{shut,open} wanted held@loose")
        self.assertEqual((step.place, step.key), (Place(18, 9), "L"))
        self.assertEqual((step.found, step.wanted), (Status("held", ("shut", "open")), Status("held", ("loose",))))
        join = read_line("protocol 9:5  joins absent and held")
        self.assertEqual((join.key, join.found, join.is_join), ("", Status("held"), True))

    def test_file_at_the_end(self) -> None:
        self.assertEqual(read_line("kind 48 6:6 in a in b.v").file, "a in b.v")
        fault = read_line("protocol 3:5 in found held wanted absent in disk.v")
        self.assertEqual((fault.key, fault.file), ("in", "disk.v"))

    def test_paths_go_to_the_fault_above(self) -> None:
        lines = [
            "protocol 9:5 K joins absent and held",
            "path 7:5=then",
            "path",
            "protocol 12:1 R found held wanted absent",
            "path now=idle 3:4='Ok",
            "faults 2",
        ]
        first, second = read_reports(lines)
        self.assertIsInstance(first, KeyFault)
        self.assertEqual([[choice.word for choice in path.choices] for path in first.paths], [["then"], []])
        self.assertEqual((second.paths[0].variable, second.paths[0].state), ("now", "idle"))
        self.assertEqual(second.paths[0].choices[0].word, "'Ok")
        self.assertEqual(first.paths[1], Path())


class Held(unittest.TestCase):
    def test_items(self) -> None:
        forms = {
            "K": ("K", {"held"}),
            "K@raw": ("K", {"held@raw"}),
            "K@{raw,named}:absent": ("K", {"held@raw", "held@named", "absent"}),
            "K:absent": ("K", {"held", "absent"}),
            "P:lent@on": ("P", {"lent@on"}),
            "v:full": ("v", {"full"}),
            "v:full:absent": ("v", {"full", "absent"}),
            "A:none": ("A", {"none"}),
        }
        for word, (name, atoms) in forms.items():
            with self.subTest(word):
                self.assertEqual(read_item(word), (name, frozenset(atoms)))

    def test_tables(self) -> None:
        lines = [
            "function f now=off",
            "3:5 R@off",
            "4:1",
            "function f now=idle",
            "3:5 R@idle",
            "function main",
            "7:5 K",
            "7:5",
            "accepted 2",
        ]
        tables = read_tables(lines)
        self.assertEqual([(one.function, one.state) for one in tables], [("f", "off"), ("f", "idle"), ("main", "")])
        self.assertEqual(table_of(tables, "f", "idle").of("R", Place(3, 5)), frozenset(["held@idle"]))
        self.assertEqual(table_of(tables, "f", "off").of("R", Place(4, 1)), frozenset(["absent"]))
        self.assertIsNone(table_of(tables, "main").of("K", Place(9, 9)))
        self.assertEqual(table_of(tables, "main").at(Place(7, 5), last=True), {})


if __name__ == "__main__":
    unittest.main()

"""The reader of texts: tokens, declarations, statements and expressions, scopes and paths."""
from __future__ import annotations

import re
import unittest

from vault import ask
from vault import syntax as s
from vault.declarations import Declarations, nearest
from vault.parser import NotGrammar, Parser, parse
from vault.paths import TOP
from vault.picture import View
from vault.report import read_path
from vault.scope import scope_at
from vault.source import Place, Source
from vault.tokens import KEYWORDS, SIGNS, tokens
from vault.walk import Walk

from .golden import MISTAKES

EXAMPLES = sorted([*(TOP / "examples").glob("**/*.v")])


def table_row(word: str) -> str:
    """The second cell of a row of the table of tokens in docs/LANGUAGE.md."""
    text = (TOP / "docs" / "LANGUAGE.md").read_text(encoding="utf-8")
    return re.search(rf"^\| {word} \| `(.*)` \|$", text, re.M)[1]


class Tokens(unittest.TestCase):
    def test_keywords_and_signs_are_those_of_the_language(self) -> None:
        self.assertEqual(KEYWORDS, table_row("keyword").split())
        self.assertEqual(SIGNS, table_row("sign").replace("\\|", "|").split())

    def test_comments_are_passed_over(self) -> None:
        found = [(token.kind, token.text) for token in tokens("a// b\n/* c */'D 12 -> é_1 $")]
        self.assertEqual(
            found, [("name", "a"), ("tick", "'D"), ("number", "12"), ("sign", "->"), ("name", "é_1"), ("other", "$"), ("end", "")]
        )


class Places(unittest.TestCase):
    def test_bytes_and_characters(self) -> None:
        source = Source("x", "aé\tb\nüß\n".encode())
        for offset in range(len(source.text)):
            self.assertEqual(source.offset(source.place(offset)), offset)
        self.assertEqual(source.place(3), Place(1, 5))
        self.assertEqual(source.end(), Place(2, 5))

    def test_bytes_that_are_no_text(self) -> None:
        source = Source("x", b"a\xff\x1bb")
        self.assertEqual(source.line(1), "a\ufffd\ufffdb")


class Reading(unittest.TestCase):
    def test_programs_are_read(self) -> None:
        for file in EXAMPLES:
            if file.name != "unfinished.v":
                with self.subTest(file.name):
                    self.assertIsNotNone(parse(file.read_text(encoding="utf-8")))

    def test_texts_are_refused_where_the_program_refuses_them(self) -> None:
        vaultc = ask.take().vaultc
        for file in sorted(MISTAKES.glob("a*.v")):
            report = ask.ask(vaultc, "check", str(file)).reports[0]
            if getattr(report, "what", "") != "token":
                continue
            source = Source.read(str(file))
            with self.subTest(file.name), self.assertRaises(NotGrammar) as refused:
                Parser(source.text).program()
            self.assertEqual(source.place(refused.exception.at), report.place)

    def test_operators_group_as_in_the_language(self) -> None:
        self.assertEqual(shape("a + b * c - d"), "((a+(b*c))-d)")
        self.assertEqual(shape("a || b && c == d"), "(a||(b&&(c==d)))")
        self.assertEqual(shape("a | b ^ c & d == e"), "(a|(b^(c&(d==e))))")
        self.assertEqual(shape("(a - b) - -c"), "((a-b)--c)")

    def test_spans_are_the_texts(self) -> None:
        text = "void f(tracked(K) point p) [K@a->b] { p.x = -1; }"
        function = parse(text).declarations[0]
        self.assertEqual(text[function.head.start : function.head.end], "void f(tracked(K) point p) [K@a->b]")
        self.assertEqual(text[function.entries[0].span.start : function.entries[0].span.end], "K@a->b")
        self.assertEqual((function.entries[0].before, function.entries[0].after), (("a",), ("b",)))


def shape(text: str) -> str:
    """An expression with all its parentheses."""

    def show(one: s.Expression) -> str:
        if one.kind == "operator":
            return f"({show(one.operands[0])}{one.text}{show(one.operands[1])})"
        if one.kind == "sign":
            return one.text + show(one.operands[0])
        return show(one.operands[0]) if one.kind == "group" else one.text

    return show(Parser(text).expression())


class Names(unittest.TestCase):
    def test_nearest(self) -> None:
        self.assertEqual(nearest("totl", ["x", "total"]), "total")
        self.assertEqual(nearest("L", ["l", "k"]), "l")
        self.assertIsNone(nearest("x", ["y", "zebra"]))
        self.assertIsNone(nearest("free", ["release"]))

    def test_plans_are_the_shortest(self) -> None:
        view = View(Source.read(str(TOP / "examples" / "sockets.v")))
        plans = view.declarations.plan("sock", ["named"], ["listening"])
        self.assertEqual([[move.text for move in plan] for plan in plans], [["listen({}, 0);"]])
        self.assertEqual([move.text for move in view.declarations.plan("sock", ["raw"], None)[0]], ["close({});"])

    def test_scope(self) -> None:
        text = "struct p { int x; }\nvoid f(tracked(K) p a) [K] { int n = 1; if (n > 0) { int m = 2; print(m); } print(n); }\n"
        declarations = Declarations(parse(text))
        inner = scope_at(declarations, text.index("print(m)"))
        self.assertEqual([one.name.text for one in inner.variables], ["a", "n", "m"])
        outer = scope_at(declarations, text.index("print(n)"))
        self.assertEqual([one.name.text for one in outer.variables], ["a", "n"])
        self.assertEqual(outer.of_key("K")[0].name.text, "a")


class Paths(unittest.TestCase):
    text = "void f(int n) {\n    while (n > 0) {\n        if (n > 9) {\n            break;\n        }\n        n = n - 1;\n    }\n    print(n);\n}\n"

    def walk(self, path: str, goal: str) -> list:
        view = View(Source("x", self.text.encode()))
        body = view.declarations.functions()[0].body
        points = Walk(body, read_path(path), self.text.index(goal), lambda choice: view.offset(choice.place)).run()
        return [str(view.source.place(point.offset)) + (f"={point.word}" if point.word else "") for point in points]

    def test_turns_and_breaks(self) -> None:
        once = self.walk("path 2:5=turn 3:9=else 2:5=exit", "print")
        self.assertEqual(once, ["2:5=turn", "3:9=else", "6:9", "7:5", "2:5=exit", "8:5"])
        left = self.walk("path 2:5=turn 3:9=then", "print")
        self.assertEqual(left, ["2:5=turn", "3:9=then", "4:13", "8:5"])


if __name__ == "__main__":
    unittest.main()

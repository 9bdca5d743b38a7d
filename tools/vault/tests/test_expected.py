"""What was expected: what the parser of the tools takes is what the program takes, of all kinds of tokens."""
from __future__ import annotations

import unittest

from vault import ask
from vault.expected import KINDS, abridged, expected, in_words, is_taken, joined, place_of
from vault.parser import parse
from vault.paths import TOP
from vault.picture import View
from vault.report import TextFault
from vault.source import Source
from vault.tokens import Token, tokens

from .golden import MISTAKES

# a place in each part of the grammar
TEXTS = {
    "stateset mode { open }": "a name",
    "abstract sock;;": "a declaration",
    "struct p { int x }": "`;` or `@`",
    "variant v { A }": "a case",
    "extern int f(int n)\nvoid main() { }": "`;` or `[`",
    "void f() { release l }": "`;`",
    "void f() { if (c) print(1); }": "`{`",
    "void f() { int n = 1 + ; }": "an expression",
    "void f() { switch (v) { default: { } } }": "`case`",
    "void f(tracked(K p) { }": "`)`",
    "void f() [K@] { }": "`{`, `(` or a name",
    "void f() { focus b tracked(B) one { } }": "`as`",
}


class Abridged(unittest.TestCase):
    def test_complete_statements_are_left_out(self) -> None:
        before = "void f() { int n = 1; tracked(K) p q = new p { x: 1 }; if (n > 1) { n = 2; } else { while (n > 0) { n = 3; switch (v) { "
        cases = {
            "": "void f() { if (n > 1) { } else { while (n > 0) { switch (v) {",
            "case 'A: { g(1); } case 'B(x): { n =": "void f() { if (n > 1) { } else { while (n > 0) { switch (v) { case 'B(x): { n =",
            "case 'A: { } } } if (n) { n = 4; }": "void f() { if (n > 1) { } else { if (n) { }",
            "} } } return n;": "void f() { return n;",
        }
        for more, left in cases.items():
            with self.subTest(more):
                found = abridged(tokens(before + more)[:-1])
                self.assertEqual([token.text for token in found], [token.text for token in tokens(left)[:-1]])

    def test_what_is_likely_is_the_same(self) -> None:
        for file in sorted((TOP / "examples").glob("*.v")):
            found = tokens(file.read_text(encoding="utf-8"))[:-1]
            text = " ".join(token.text for token in found)
            parsed = parse(text)
            self.assertEqual(parsed is None, file.name == "unfinished.v")
            for span in [one.span for one in parsed.declarations] if parsed else []:
                inside = [token for token in tokens(text) if span.start <= token.start < span.end]
                for number in range(1, len(inside), 7):
                    sentinel = Token(inside[number].kind, inside[number].text, len(text) + 1, len(text) + 2)
                    self.assertEqual(is_taken(abridged(inside[:number]), sentinel), is_taken(inside[:number], sentinel))


class Expected(unittest.TestCase):
    def setUp(self) -> None:
        self.vaultc = ask.take().vaultc

    def reports(self, text: bytes):
        return ask.ask(self.vaultc, "check", "x", text).reports

    def names(self, text: str, only_likely: bool):
        view = View(Source("x", text.encode()))
        report = self.reports(text.encode())[0]
        self.assertIsInstance(report, TextFault)
        offset = view.offset(report.place) if report.place else len(text.rstrip())
        return expected(view, place_of(text, offset), self.reports, 8, only_likely)

    def test_each_part_of_the_grammar(self) -> None:
        self.assertEqual(len(KINDS), 64)
        for text, words in TEXTS.items():
            with self.subTest(text):
                likely = self.names(text, True)
                self.assertEqual(likely, self.names(text, False))
                self.assertEqual(joined(in_words(likely)), words)

    def test_mistakes(self) -> None:
        for file in sorted(MISTAKES.glob("a[0-4]*.v"))[::8]:
            text = file.read_text(encoding="utf-8")
            if getattr(self.reports(text.encode())[0], "what", "") in ("token", "end"):
                with self.subTest(file.name):
                    self.assertEqual(self.names(text, True), self.names(text, False))


if __name__ == "__main__":
    unittest.main()

"""Runs, hosts and answers: what is written, and what is shown of an end that isn't that of the program."""
from __future__ import annotations

import subprocess
import tempfile
import unittest
from pathlib import Path
from typing import Dict, Tuple

from vault import ask
from vault.declarations import Declarations
from vault.lists import clean, without_comment
from vault.parser import parse
from vault.paths import TOP
from vault.picture import View
from vault.report import read_line
from vault.runs import Run, read_frames, run_picture
from vault.shapes import Shapes, first_answers, meaning, read_answer, words_of
from vault.source import Place, Source

VAULT = TOP / "bin" / "vault"
DEVICE = "examples/device.v"


def vault(*words: str, files: Dict[str, str] = {}) -> Tuple[int, str, str]:
    """The status, the output and the errors of `vault` on these words, in which `{NAME}` is a file with a text of `files`."""
    with tempfile.TemporaryDirectory() as name:
        for file, text in files.items():
            (Path(name) / file).write_text(text, encoding="utf-8")
        typed = [word.replace("{", f"{name}/").replace("}", "") for word in words]
        ran = subprocess.run(
            [str(VAULT), *typed], cwd=TOP, stdout=subprocess.PIPE, stderr=subprocess.PIPE, universal_newlines=True, timeout=600
        )
        return ran.returncode, ran.stdout, ran.stderr


class Runs(unittest.TestCase):
    def test_output_is_that_of_vaultc(self) -> None:
        vaultc = ask.take().vaultc
        for words in (
            ["run", "examples/lock.v"],
            ["run", "examples/overflow.v"],
            ["host", DEVICE, "examples/device_refused.calls"],
        ):
            answer = vaultc.ask(words, folder=TOP)
            self.assertEqual(vault(*words)[:2], (answer.status, answer.output))

    def test_a_refused_program_is_shown_and_not_run(self) -> None:
        status, output, errors = vault("run", "examples/lock_kept.v")
        self.assertEqual((status, output), (8, ""))
        self.assertIn("`pay` ends with `a` in state `shut`", errors)

    def test_ends(self) -> None:
        self.assertIn("out of the range of 64 bits [trap 1]", vault("run", "examples/overflow.v")[2])
        self.assertIn("--fuel N", vault("run", "examples/lock.v", "--fuel", "2")[2])
        self.assertIn("`socket` wants an answer of the host", vault("run", "examples/sockets.v")[2])

    def test_an_answer_that_does_not_fit(self) -> None:
        status, output, errors = vault("run", "examples/sockets.v", "--answers", "{a}", files={"a": "// the socket\n\n0 7 8\n"})
        self.assertEqual(status, 11)
        self.assertIn("a:3:1: error: answer 2 doesn't fit `bind`", errors)
        self.assertIn("It has 3 numbers, and 1 or 2 are asked for.", errors)

    def test_a_line_that_is_no_answer(self) -> None:
        status, output, errors = vault("run", "examples/sockets.v", "--answers", "{a}", files={"a": "// one\n\n// two\nx\n"})
        self.assertEqual((status, output), (6, ""))
        self.assertIn("a:4:1: error: an answer is decimal numbers", errors)


class Frames(unittest.TestCase):
    def test_places_of_running_functions(self) -> None:
        """As `vaultq where` tells them, the innermost first; other lines are passed over."""
        frames = read_frames(["120", "trap 2", "at half 2:5", "at main 5:5"])
        self.assertEqual(frames, (("half", Place(2, 5)), ("main", Place(5, 5))))
        text = "int half(int n) {\n    return n / 0;\n}\nvoid main() {\n    int n = half(4);\n}\n"
        run = Run(View(Source("x", text.encode())), {}, ["trap 2"], frames)
        picture = run_picture(run, read_line("trap 2"))
        self.assertEqual(
            [(str(one.place), one.text) for one in picture.labels()], [("5:5", "called in `main`"), ("2:5", "in `half`")]
        )
        self.assertEqual(picture.fault.length, len("return n / 0;"))


class Hosts(unittest.TestCase):
    def refused(self, calls: str) -> str:
        status, _, errors = vault("host", DEVICE, "{c}", files={"c": calls})
        self.assertEqual(status, 11)
        return errors.split("isn't permitted: ")[1].split("[call")[0].replace("\n  ", " ").strip()

    def test_each_reason(self) -> None:
        opened = "open_device 96\n"
        reasons = {
            "opne_device 96\n": "there is no function `opne_device`",
            "port_in 96\n": "`port_in` is no entry function: it is an external, which the program calls",
            "main\n": "`main` is no entry function: `main` isn't called by a host",
            "open_device\n": "`open_device` takes 1 argument, and is given none",
            "open_device #1\n": "`#1` is given for `int port`",
            "read 1\n": "`1` is given for the object `d`",
            "read #1\n": "the host doesn't hold `#1`",
            opened + "flush #1\n": "`#1` is in state `clean`, and `flush` asks for `dirty`",
            opened + "close #1\nclose #1\n": "the host doesn't hold `#1`",
        }
        for calls, reason in reasons.items():
            with self.subTest(calls):
                self.assertEqual(self.refused(calls), reason)

    def test_the_place_is_that_of_the_file_as_it_is_written(self) -> None:
        _, output, errors = vault("host", DEVICE, "{c}", files={"c": "// open\nopen_device 96   // a port\n\n# close\nflush #1\n"})
        self.assertIn("c:5:1: error: call 2 isn't permitted", errors)
        self.assertIn("cure: call `write #1 0` before", errors)
        self.assertEqual(output, "!open_device 96\n= #1\ncall 2 bad\n")


class Lists(unittest.TestCase):
    def test_comments(self) -> None:
        self.assertEqual(without_comment("read #1 // a"), "read #1 ")
        self.assertEqual(without_comment("read #1 # a"), "read #1 ")
        self.assertEqual(without_comment("# a"), "")
        self.assertEqual(without_comment("read #1 #2"), "read #1 #2")

    def test_numbers_of_lines(self) -> None:
        calls = clean(Source("c", b"// a\nf 1\n\ng 2 // b\n"), "calls")
        self.assertEqual((calls.lines, calls.numbers), (["f 1", "g 2"], [2, 4]))
        answers = clean(Source("a", b"// a\n1\n\n2\n"), "answers")
        self.assertEqual((answers.lines, answers.numbers), (["1", "", "2"], [2, 3, 4]))
        self.assertFalse(clean(Source("a", b"1\n\n2\n"), "answers").changed)


ANSWERS = """
stateset power { off, idle, on }
abstract dev@power;
variant found<K: dev> { 'Dev { K@{ off, on } }, 'Busy(int) { K@off }, 'None(bool, tracked dev) { K@on } }
extern tracked(D) dev find() [new D@{ off, on }];
extern int id(tracked(D) dev d) [D@on];
extern bool is_on(tracked(D) dev d) [D->{ off, idle }];
extern tracked found<D> look(tracked(D) dev d) [-D];
"""


class Answers(unittest.TestCase):
    def test_shapes(self) -> None:
        text = ANSWERS.replace("[D->{ off, idle }]", "[D@on->{ off, idle }]")
        declarations = Declarations(parse(text))
        shapes = Shapes(declarations)
        forms = {one.name.text: [words_of(shape) for shape in shapes.of(one)] for one in declarations.functions()}
        self.assertEqual(forms["find"], ["off|on"])
        self.assertEqual(forms["id"], ["NUMBER"])
        self.assertEqual(forms["is_on"], ["off|idle false|true"])
        self.assertEqual(forms["look"], ["0 off|on", "1 NUMBER", "2 false|true off|idle|on"])
        look = shapes.of(declarations.functions()[3])
        self.assertEqual(read_answer(look, ["'Dev", "on"]), [0, 2])
        self.assertEqual(read_answer(look, ["Busy", "-4"]), [1, -4])
        self.assertEqual(read_answer(look, ["2", "1", "idle"]), [2, 1, 1])
        self.assertIsNone(read_answer(look, ["'Dev", "idle"]))
        self.assertEqual(meaning(look[0]), "case 'Dev, the state of `d` (0 off, 2 on)")

    def test_first_answers_are_taken_by_the_program(self) -> None:
        """Each shape's least answer is one that the program takes."""
        vaultc = ask.take().vaultc
        program = (
            ANSWERS.replace("[D->{ off, idle }]", "[D@{ off, on }->{ off, idle }]")
            + "extern void drop(tracked(D) dev d) [-D];\n"
            + "void take(tracked dev d) { tracked(E) dev e = d; drop(e); }\n"
            + "void main() {\n    tracked(D) dev d = find();\n    bool on = is_on(d);\n    tracked found<D> f = look(d);\n    switch (f) {\n"
            + "        case 'Dev: { drop(d); }\n        case 'Busy(n): { drop(d); }\n        case 'None(b, other): { drop(d); take(other); }\n    }\n}\n"
        )
        declarations = Declarations(parse(program))
        shapes = Shapes(declarations)
        find, _, is_on, look = declarations.functions()[:4]
        with tempfile.TemporaryDirectory() as name:
            (Path(name) / "p.v").write_text(program, encoding="utf-8")
            for answer in first_answers(shapes.of(look)):
                lines = [first_answers(shapes.of(find))[0], first_answers(shapes.of(is_on))[0], answer, "", ""]
                (Path(name) / "a").write_text("".join(line + "\n" for line in lines), encoding="utf-8")
                ran = vaultc.ask(["run", "p.v", "--answers", "a"], folder=Path(name))
                with self.subTest(answer):
                    self.assertEqual(ran.status, 0, ran.output)

    def test_a_file_from_a_table(self) -> None:
        table = "// the port is taken\nbind: 'Error 98\n"
        status, output, errors = vault("answers", "examples/sockets.v", "--from", "{t}", files={"t": table})
        self.assertEqual((status, output, errors), (0, "\n1 98\n\n", ""))
        ran = vault("run", "examples/sockets.v", "--answers", "{a}", files={"a": output})
        self.assertEqual(ran[:2], (0, "@socket\n@bind #1 8080\n-98\n@close #1\n"))

    def test_wrong_tables(self) -> None:
        for table, message in {
            "bnid: 1\n": "t:1: there is no external `bnid`",
            "\nbind: 'Eror 1\n": "t:2: `'Eror 1` is no answer of `bind`, which gives `'Ok`, or `'Error NUMBER`",
        }.items():
            status, output, errors = vault("answers", "examples/sockets.v", "--from", "{t}", files={"t": table})
            self.assertEqual((status, output), (1, ""))
            self.assertIn(message, errors)


if __name__ == "__main__":
    unittest.main()

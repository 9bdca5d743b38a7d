"""Lists the answers that a program's externals want, or writes a file of answers from a table of names.

Without --from each external is listed with the shapes of its answers. A line of TABLE is NAME: ANSWER | ANSWER ..: the answers that an
external gives, one after another, the last one again and again. An answer is numbers, or names of states and cases: `bind: 'Error 98`.
An external that isn't in the table gives its first possible answer. The program is run until it wants no more."""
from __future__ import annotations

import argparse
import sys
import tempfile
from pathlib import Path
from typing import Dict, List

from .. import programs
from .. import syntax as s
from ..cli import Parser
from ..declarations import Declarations
from ..errors import Problem
from ..lists import without_comment
from ..picture import View
from ..shapes import Shapes, first_answers, meaning, named, read_answer, words_of
from ..source import Source

MOST = 10000


def configure(parser: Parser) -> None:
    """The file and the table."""
    parser.add_argument("file", metavar="FILE", help="a Vault file")
    parser.add_argument("--from", dest="table", metavar="TABLE", help="the table from which a file of answers is written")
    parser.add_argument("--calls", metavar="CALLS", help="the calls of a host, if it isn't a run of main")
    parser.add_argument("--input", metavar="G", help="the file of the numbers that the run may read")
    parser.add_argument("--most", metavar="N", type=int, default=MOST, help=f"at most so many answers: {MOST} if it isn't given")


def run(options: argparse.Namespace) -> int:
    """Lists the shapes, or writes the answers."""
    source = Source.read(options.file)
    vaultc = programs.take("vaultc")
    answer = vaultc.ask(["check", options.file])
    if answer.status:
        sys.stderr.write(answer.output)
        raise Problem(f"{options.file} isn't accepted; 'vault check {options.file}' says why", answer.status)
    declarations = View(source).declarations
    if declarations is None:
        raise Problem(f"{options.file} can't be read")
    if options.table is None:
        sys.stdout.write(listing(declarations))
        return 0
    sys.stdout.write(Writer(vaultc, declarations, options).text())
    return 0


def externals(declarations: Declarations) -> List[s.Function]:
    return [one for one in declarations.functions() if one.is_external]


def listing(declarations: Declarations) -> str:
    """Each external with the shapes of its answers: what stands in the file, and what it means."""
    shapes = Shapes(declarations)
    out: List[str] = []
    for function in externals(declarations):
        out.append(f"{function.name}")
        for shape in shapes.of(function):
            written = words_of(shape) or "(an empty line)"
            table = f"   in a table: {named(shape)}" if any(slot.names for slot in shape.slots) else ""
            out.append(f"    {written:24} {meaning(shape)}{table}")
    return "\n".join(out) + "\n" if out else "no externals\n"


class Writer:
    """Makes a file of answers: runs the program, and answers the call at which it ends, until it wants no more."""

    def __init__(self, vaultc: programs.Program, declarations: Declarations, options: argparse.Namespace) -> None:
        self.vaultc = vaultc
        self.shapes = Shapes(declarations)
        self.declarations = declarations
        self.options = options
        self.table = self.read_table(options.table)
        self.used: Dict[str, int] = {}

    def read_table(self, name: str) -> Dict[str, List[str]]:
        """The answers of each external, as lines of a file of answers."""
        found: Dict[str, List[str]] = {}
        source = Source.read(name)
        for number, line in enumerate(source.lines, 1):
            bare = without_comment(line).strip()
            if not bare:
                continue
            callee, colon, rest = bare.partition(":")
            function = self.declarations.find(callee.strip(), s.Function)
            if not colon or function is None or not function.is_external:
                raise Problem(f"{name}:{number}: there is no external `{callee.strip()}`")
            found[callee.strip()] = [self.numbers(function, one, f"{name}:{number}") for one in rest.split("|")]
        return found

    def numbers(self, function: s.Function, text: str, place: str) -> str:
        """The line of an answer that is given by names or numbers."""
        shapes = self.shapes.of(function)
        words = text.replace("(", " ").replace(")", " ").replace(",", " ").split()
        found = read_answer(shapes, words)
        if found is None:
            forms = ", or ".join(f"`{named(shape)}`" for shape in shapes)
            raise Problem(f"{place}: `{text.strip()}` is no answer of `{function.name}`, which gives {forms}")
        return " ".join(str(number) for number in found)

    def next_answer(self, name: str) -> str:
        function = self.declarations.find(name, s.Function)
        choices = self.table.get(name) or (first_answers(self.shapes.of(function))[:1] if function else [""])
        number = self.used.get(name, 0)
        self.used[name] = number + 1
        return choices[min(number, len(choices) - 1)]

    def ask(self, answers: List[str]) -> List[str]:
        """The lines that a run with these answers writes."""
        with tempfile.TemporaryDirectory(prefix="vault-") as folder:
            path = Path(folder) / "answers"
            path.write_text("".join(answer + "\n" for answer in answers), encoding="utf-8")
            words = ["host", self.options.file, self.options.calls] if self.options.calls else ["run", self.options.file]
            more = ["--input", self.options.input] if self.options.input else []
            return self.vaultc.ask([*words, "--answers", str(path), *more]).lines

    def text(self) -> str:
        """The file of answers."""
        answers: List[str] = []
        lines = self.ask(answers)
        while lines and lines[-1] == "answers ended" and len(answers) < self.options.most:
            wanted = [line.split()[0][1:] for line in lines if line.startswith("@")]
            answers += [self.next_answer(name) for name in wanted[len(answers) :]]
            lines = self.ask(answers)
        if lines and lines[-1] == "answers ended":
            raise Problem(f"the run wants more than {self.options.most} answers")
        return "".join(answer + "\n" for answer in answers)

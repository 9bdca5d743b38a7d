"""Programs of some 500 lines, for tests of what questions cost: drivers of the repository, many small functions, and a large one."""
from __future__ import annotations

import resource
import threading
from dataclasses import dataclass
from typing import Callable, Dict, List, Optional, Sequence

from vault.ask import Asker
from vault.paths import TOP
from vault.programs import Answer, Program
from vault.tokens import tokens

DRIVERS = TOP / "examples" / "drivers"
LOCK = "stateset latch { loose, shut }\nstruct account@latch { int cents; release loose; }\n"


def renamed(text: str, suffix: str) -> str:
    """A program whose names and cases are others, but for `main`."""
    out, at = [], 0
    for token in tokens(text):
        is_other = token.kind in ("name", "tick") and token.text != "main"
        out.append(text[at : token.start] + token.text + (suffix if is_other else ""))
        at = token.end
    return "".join(out)


def drivers() -> str:
    """Two drivers of the examples in one text."""
    first, second = ((DRIVERS / name / f"{name}.v").read_text(encoding="utf-8") for name in ("sockets", "tcp"))
    return renamed(first.partition("void main()")[0], "_b") + second


def small_functions() -> str:
    """Many functions that take a lock and give it back."""
    heads = "".join(
        f"void {name}(tracked(L) account a) [L@{before}->{after}] {{\n    become a@{after};\n}}\n"
        for name, before, after in (("acquire", "loose", "shut"), ("unlock", "shut", "loose"))
    )
    functions = "".join(
        f"void pay{number}(tracked(L) account a, int cents) [L@loose] {{\n    acquire(a);\n    if (a.cents < cents) {{\n        unlock(a);\n"
        "        return;\n    }\n    a.cents = a.cents - cents;\n    unlock(a);\n}\n"
        for number in range(53)
    )
    calls = "    pay1(a, 3);\n    print(a.cents);\n"
    return f"{LOCK}{heads}{functions}void main() {{\n    tracked(A) account a = new account {{ cents: 5 }};\n{calls}    release a;\n}}\n"


def large_function() -> str:
    """One function with many choices and loops."""
    heads = "extern void acquire(tracked(L) account a) [L@loose->shut];\nextern void unlock(tracked(L) account a) [L@shut->loose];\n"
    body = "".join(
        f"    acquire(a);\n    if (a.cents > {n}) {{\n        a.cents = a.cents - {n};\n    }} else {{\n        a.cents = {n};\n    }}\n"
        f"    int n{n} = a.cents + 1;\n    while (n{n} > 0) {{\n        n{n} = n{n} - 1;\n    }}\n    unlock(a);\n"
        for n in range(44)
    )
    return f"{LOCK}{heads}void main() {{\n    tracked(A) account a = new account {{ cents: 5 }};\n{body}    release a;\n}}\n"


MISTAKES = {
    "an operand is missing": ("int wrong = 1 + ;",),
    "a semicolon is missing": ("int wrong = 1",),
    "a name is unknown": ("print(missing);",),
    "a type is another": ("bool unlike = 3;",),
    "a name is taken": ("int taken = 1;", "int taken = 2;"),
    "an object is kept": ("tracked(W) wrong w = new wrong { v: 1 };",),
    "an object is released twice": ("tracked(W) wrong w = new wrong { v: 1 };", "release w;", "release w;"),
    "an object is released on one path": ("tracked(W) wrong w = new wrong { v: 1 };", "if (w.v > 0) {", "    release w;", "}"),
    "an object is in another state": ("tracked(W) wrong w = new wrong { v: 1 };", "become w@second;", "release w;"),
}


def with_mistake(text: str, lines: Sequence[str]) -> str:
    """A program with a mistake in the last function before `main`, or at the end of `main` if there is no other."""
    before, main, after = text.rpartition("void main()")
    body, _, end = before.rpartition("}\n") if before.rstrip().endswith("}") else ("", "", "")
    declared = "stateset order { first, second }\nstruct wrong@order { int v; release first; }\n"
    added = "".join(f"    {line}\n" for line in lines)
    if body:
        return f"{declared}{body}{added}}}\n{end}{main}{after}"
    body, _, end = after.rpartition("}")
    return f"{declared}{before}{main}{body}{added}}}{end}"


TEXTS: Dict[str, Callable[[], str]] = {"drivers": drivers, "small functions": small_functions, "large function": large_function}


class Counted(Program):
    """A program that counts what it is asked."""

    asked: List[str] = []
    turn = threading.Lock()

    def ask(self, words, **more) -> Answer:  # type: ignore[override]
        with Counted.turn:
            Counted.asked.append(words[0])
        return super().ask(words, **more)


def counted(asker: Asker) -> Asker:
    """The same programs, counting."""

    def of(one: Optional[Program]) -> Optional[Program]:
        return Counted(one.name, one.path, one.proved, one.command) if one else None

    return Asker(of(asker.vaultc), of(asker.vaultq), asker.questions)  # type: ignore[arg-type]


@dataclass(frozen=True)
class Spent:
    """What work took: questions, and seconds of a processor, of the programs and of this one."""

    questions: List[str]
    programs: float
    tool: float

    @property
    def seconds(self) -> float:
        return self.programs + self.tool


def seconds(who: int) -> float:
    used = resource.getrusage(who)
    return used.ru_utime + used.ru_stime


def spent(work: Callable[[], object]) -> Spent:
    """What some work takes that asks a counted program."""
    Counted.asked.clear()
    programs, tool = seconds(resource.RUSAGE_CHILDREN), seconds(resource.RUSAGE_SELF)
    work()
    return Spent(list(Counted.asked), seconds(resource.RUSAGE_CHILDREN) - programs, seconds(resource.RUSAGE_SELF) - tool)

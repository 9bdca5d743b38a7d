"""The tables of docs/SPEED.md: what commands take over generated programs, and what other tools take over programs like them."""

from __future__ import annotations

from typing import Callable, Dict, Iterator, List, Optional, Tuple

from . import speed_peers as peers
from . import speed_texts as texts
from .measure import Cost, Folder, each, installed, measure, own_memory
from .programs import Program
from .records import dataclass

Row = List[str]

LEAST_TIME = 0.02
"""A difference of times that is less is none: clocks and caches make as much."""


@dataclass(frozen=True)
class Table:
    """A table: its title, its head, and its rows as they are measured."""

    title: str
    head: Row
    rows: Iterator[Row]


@dataclass
class Bench:
    """What is measured: a program, in a folder with the texts, over programs of `size` functions, with callgrind or without."""

    program: Program
    folder: Folder
    size: int
    is_counted: bool = True

    def vaultc(self, *words: str) -> Cost:
        """What the program takes."""
        return measure([*self.program.command, *words], self.folder.path, self.is_counted)

    def tool(self, *words: str) -> Cost:
        """What another tool takes."""
        return measure(words, self.folder.path, self.is_counted)

    def emit(self, name: str) -> str:
        """The C file of a program, beside it."""
        answer = self.program.ask(["emit", name], folder=self.folder.path)
        return self.folder.write(name[: -len(".v")] + ".c", answer.output)


# ---- how figures are written


def thousands(number: Optional[float]) -> str:
    return "not counted" if number is None else f"{number / 1000:,.1f}"


def millions(number: Optional[float]) -> str:
    return "not counted" if number is None else f"{number / 1e6:,.1f}"


def ratio(part: Cost, whole: Cost) -> str:
    """How many times as dear one is as another: by instructions, or by time if these weren't counted."""
    if part.instructions is not None and whole.instructions is not None:
        return f"{part.instructions / whole.instructions:.2f}"
    return f"{part.seconds / max(whole.seconds, 0.001):.2f}, by time"


def seconds(cost: Cost) -> str:
    return f"{cost.seconds:.3f}"


def megabytes(cost: Cost) -> str:
    return f"{cost.memory / 1e6:.1f}" if cost.memory > own_memory() else f"under {own_memory() / 1e6:.0f}"


def memory_a_byte(less: Cost, more: Cost, bytes_more: int) -> str:
    """The bytes of memory that each byte more of a file takes, of two runs on files of which the second is so much longer."""
    return f"{(more.memory - less.memory) / bytes_more:.1f}" if less.memory > own_memory() else "too few to tell"


def nanoseconds(less: Cost, more: Cost, count: int) -> str:
    """The time of one more, of two runs of which the second has so many more."""
    spent = more.seconds - less.seconds
    return f"{spent / count * 1e9:,.0f} ns" if spent > LEAST_TIME else "too short to tell"


# ---- tables


def command_table(bench: Bench) -> Table:
    """Each command over the generated program: what a function takes."""

    def rows() -> Iterator[Row]:
        less, more = bench.size // 2, bench.size
        small, large = (bench.folder.write(f"loops-{count}.v", texts.loops(count)) for count in (less, more))
        small_c, large_c = bench.emit(small), bench.emit(large)
        for command, one, other in (
            ("fmt", small, large),
            ("check", small, large),
            ("explain", small, large),
            ("run", small, large),
            ("emit", small, large),
            ("verify", small_c, large_c),
            ("crun", small_c, large_c),
        ):
            first, second = bench.vaultc(command, one), bench.vaultc(command, other)
            longer = bench.folder.size(other) - bench.folder.size(one)
            spent = thousands(each(first, second, more - less))
            yield [f"`{command}`", spent, seconds(second), megabytes(second), memory_a_byte(first, second, longer)]

    title = f"Commands over {bench.size} functions with a loop each"
    return Table(title, ["Command", "Thousands of instructions a function", "Seconds", "MB at the peak", "Bytes of memory for each byte more"], rows())


def checker_table(bench: Bench) -> Table:
    """`check` beside checkers of C over the same functions."""
    checkers = [
        ("`gcc -fsyntax-only`", ["gcc", "-fsyntax-only"], peers.PLAIN, "types"),
        ("`clang -Wthread-safety`", ["clang", "-fsyntax-only", "-Wthread-safety"], peers.THREAD_SAFETY, "types, and that a cell is held"),
        ("`sparse -Wcontext`", ["sparse", "-Wcontext"], peers.CONTEXTS, "types, and that counts of cells match"),
    ]

    def rows() -> Iterator[Row]:
        less, more = bench.size // 2, bench.size
        names = [bench.folder.write(f"loops-{count}.v", texts.loops(count)) for count in (less, more)]
        own = [bench.vaultc("check", name) for name in names]
        yield row_of("`vaultc check`", own, "types, and keys with their states")
        for title, words, annotations, what in checkers:
            found = installed(words[0])
            if found is None:
                yield [title, "isn't installed", "", "", what]
                continue
            files = [bench.folder.write(f"{words[0]}-{count}.c", peers.loops_in_c(count, annotations)) for count in (less, more)]
            yield row_of(title, [bench.tool(*found, *words[1:], file) for file in files], what)

    def row_of(title: str, costs: List[Cost], what: str) -> Row:
        count = bench.size - bench.size // 2
        return [title, thousands(each(*costs, count)), seconds(costs[1]), megabytes(costs[1]), what]

    return Table(
        f"Checkers over {bench.size} functions", ["Checker", "Thousands of instructions a function", "Seconds", "MB at the peak", "Checks"], rows()
    )


Runner = Callable[[Bench, peers.Turn, int], Optional[Cost]]


def run_vault(bench: Bench, turn: peers.Turn, count: int) -> Optional[Cost]:
    name = bench.folder.write(f"turns-{count}.v", texts.turns(count, turn.vault_declared, turn.vault))
    return bench.vaultc("run", name, "--fuel", str(10 * count))


def run_c_text(bench: Bench, turn: peers.Turn, count: int) -> Optional[Cost]:
    name = bench.folder.write(f"turns-{count}.v", texts.turns(count, turn.vault_declared, turn.vault))
    return bench.vaultc("crun", bench.emit(name), "--fuel", str(10 * count))


def run_script(tool: str, ending: str, text: Callable[[peers.Turn, int], str]) -> Runner:
    """A runner of scripts."""

    def run(bench: Bench, turn: peers.Turn, count: int) -> Optional[Cost]:
        found = installed(tool)
        return bench.tool(*found, bench.folder.write(f"turns-{count}.{ending}", text(turn, count))) if found else None

    return run


def run_gcc(bench: Bench, turn: peers.Turn, count: int) -> Optional[Cost]:
    """The loop as a C program without optimizations."""
    found = installed("gcc")
    if found is None:
        return None
    source = bench.folder.write(f"turns-of-gcc-{count}.c", peers.c_turns(turn, count))
    built = bench.folder.path / f"turns-of-gcc-{count}"
    measure([*found, "-O0", "-o", str(built), source], bench.folder.path, False)
    return bench.tool(str(built))


RUNNERS: Dict[str, Runner] = {
    "`run`": run_vault,
    "`crun`": run_c_text,
    "`lua`": run_script("lua", "lua", peers.lua_turns),
    "`python3`": run_script("python3", "py", peers.python_turns),
    "`gcc -O0`": run_gcc,
}


def run_table(bench: Bench) -> Table:
    """What a turn of a loop takes."""
    less, more = 10 * bench.size, 20 * bench.size

    def rows() -> Iterator[Row]:
        for what, turn in peers.TURNS.items():
            yield [what, *(cell(runner, turn) for runner in RUNNERS.values())]

    def cell(runner: Runner, turn: peers.Turn) -> str:
        costs = [runner(bench, turn, count) for count in (less, more)]
        if costs[0] is None or costs[1] is None:
            return "isn't installed"
        spent = each(costs[0], costs[1], more - less)
        return f"{spent:,.0f}" if spent is not None else nanoseconds(costs[0], costs[1], more - less)

    return Table("Instructions of a turn", ["A turn", *RUNNERS], rows())


def refusal_table(bench: Bench) -> Table:
    """What it takes to accept a text and to refuse the same with one fault at its end."""
    count = max(bench.size // 4, 2)
    shapes: Dict[str, Callable[[bool], str]] = {
        f"{keys} key{'s' * (keys > 1)}, {count} choices": lambda is_faulty, keys=keys: texts.choices(keys, count, is_faulty) for keys in (1, 31, 250)
    }
    shapes[f"an entry bound by 31 states, 1 key more, {count} choices"] = lambda is_faulty: texts.bound_choices(31, 1, count, is_faulty)
    shapes[f"an entry bound by 31 states, 250 keys more, {count // 2} choices"] = lambda is_faulty: texts.bound_choices(31, 250, count // 2, is_faulty)

    def rows() -> Iterator[Row]:
        for what, text in shapes.items():
            good, bad = (bench.folder.write(f"{name}.v", text(is_faulty)) for name, is_faulty in (("accepted", False), ("refused", True)))
            accepted, refused, explained = bench.vaultc("check", good), bench.vaultc("check", bad), bench.vaultc("explain", bad)
            yield [
                what,
                f"{bench.folder.size(good):,}",
                millions(accepted.instructions),
                millions(refused.instructions),
                ratio(refused, accepted),
                ratio(explained, accepted),
                f"{megabytes(accepted)}, {megabytes(refused)}",
            ]

    head = ["Text", "Bytes", "Accepted, millions", "Refused, millions", "Refused by accepted", "`explain` by accepted", "MB at the peak, accepted and refused"]
    return Table("Accepting and refusing", head, rows())


def ratio_table(bench: Bench) -> Table:
    """`emit` and `verify` by `check`, over ordinary texts and those on which they are dearest."""
    shapes: Dict[str, str] = {
        f"{bench.size} functions with a loop": texts.loops(bench.size),
        f"one body of {bench.size} assignments": texts.statements(bench.size),
        f"{max(bench.size // 20, 1)} sums of 60 variables": texts.long_sums(max(bench.size // 20, 1)),
        "60 loops in each other, 1 key": texts.nested_loops(1),
        "60 loops in each other, 250 keys": texts.nested_loops(250),
    }

    def rows() -> Iterator[Row]:
        for what, text in shapes.items():
            name = bench.folder.write("ratio.v", text)
            checked, emitted = bench.vaultc("check", name), bench.vaultc("emit", name)
            file = bench.emit(name)
            verified = bench.vaultc("verify", file)
            yield [what, f"{bench.folder.size(file):,}", millions(checked.instructions), ratio(emitted, checked), ratio(verified, checked)]

    return Table("Ratios", ["Text", "Bytes of its C file", "`check`, millions", "`emit` by `check`", "`verify` by `check`"], rows())


def reading_table(bench: Bench) -> Table:
    """What a token takes: of texts that the lexer, or the parser, refuses at their last token."""
    tokens = 86  # of a function

    def rows() -> Iterator[Row]:
        less, more = max(bench.size // 8, 1), max(bench.size // 4, 2)
        for what, end in (("refused by the lexer at its end", " #"), ("refused by the parser at its end", " (")):
            names = [bench.folder.write(f"functions-{count}.v", texts.functions(count) + end) for count in (less, more)]
            first, second = (bench.vaultc("fmt", name) for name in names)
            spent = each(first, second, (more - less) * tokens)
            yield [f"`fmt`, {what}", "not counted" if spent is None else f"{spent:,.0f}", seconds(second), f"{bench.folder.size(names[1]):,}"]
        name = bench.folder.write("list.v", texts.one_list(10 * bench.size))
        spent_all = bench.vaultc("fmt", name)
        yield ["`fmt` of a call with a list of numbers", "", seconds(spent_all), f"{bench.folder.size(name):,}"]

    return Table("Reading", ["Command", "Instructions a token", "Seconds", "Bytes"], rows())


def c_text_table(bench: Bench) -> Table:
    """What reading a C text takes, in which names stand in an order of their own, or in which there are many."""
    count = 4 * bench.size
    shapes: Dict[str, str] = {
        f"{count} functions, bodies in the order of heads": texts.c_functions(count, False),
        f"{count} functions, bodies in the reverse order": texts.c_functions(count, True),
        f"{2 * count} functions, bodies in the reverse order": texts.c_functions(2 * count, True),
        f"one function of {count} variables": texts.c_variables(count),
        f"one function of {2 * count} variables": texts.c_variables(2 * count),
        f"a call with {count} arguments": texts.c_parameters(count),
    }

    def rows() -> Iterator[Row]:
        for what, text in shapes.items():
            name = bench.folder.write("text.c", text)
            spent, length = bench.vaultc("crun", name), bench.folder.size(name)
            yield [what, f"{length:,}", millions(spent.instructions), seconds(spent), megabytes(spent), f"{spent.memory / length:.0f}" if spent.memory > own_memory() else "too few to tell"]

    return Table("C texts by `crun`", ["Text", "Bytes", "Millions of instructions", "Seconds", "MB at the peak", "Bytes of memory for each of the text"], rows())


TABLES: Dict[str, Callable[[Bench], Table]] = {
    "commands": command_table,
    "checkers": checker_table,
    "runs": run_table,
    "refusals": refusal_table,
    "ratios": ratio_table,
    "reading": reading_table,
    "c-texts": c_text_table,
}
"""The tables by their words."""


def lines_of(table: Table) -> Iterator[str]:
    """A table as lines of Markdown, each as soon as it is measured."""
    yield f"### {table.title}"
    yield ""
    yield "| " + " | ".join(table.head) + " |"
    yield "|---" * len(table.head) + "|"
    for row in table.rows:
        yield "| " + " | ".join(row) + " |"
    yield ""


def chosen(names: List[str]) -> List[Tuple[str, Callable[[Bench], Table]]]:
    """The tables that some words are of; all if there is none."""
    return [(name, TABLES[name]) for name in names or TABLES]

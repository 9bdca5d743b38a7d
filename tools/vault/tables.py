"""The tables of pages that are made of something else: of crates.txt, of the edits, of minutes, and of what clauses reach."""

from __future__ import annotations

import re
from pathlib import Path
from typing import Dict, List

from . import believed, crates, places
from .documents import cells

UNCOUNTED = "?"
"""What stands for minutes that nobody counted yet."""


def read(top: Path, name: str) -> str:
    return (top / name).read_text(encoding="utf-8")


def renewed_pages(top: Path) -> Dict[str, str]:
    """Each page that has a table, as it is to be."""
    gate = with_gate_rows(top, read(top, "docs/GATE.md"))
    return {
        "docs/GATE.md": gate,
        "docs/ADDING.md": places.with_minutes(top, read(top, "docs/ADDING.md"), gate),
        "docs/ARCHITECTURE.md": with_order(top, read(top, "docs/ARCHITECTURE.md")),
        "docs/PROMISES.md": believed.with_table(read(top, "docs/PROMISES.md"), believed.all_believed(top)),
        "README.md": with_benchmark(read(top, "README.md"), read(top, "bench/README.md")),
    }


def row(values: List[str]) -> str:
    return "| " + " | ".join(values) + " |"


# ---- minutes of the gate


def with_gate_rows(top: Path, text: str) -> str:
    """The page with a row for each crate, in the order of crates.txt: minutes as they stand there, and how many edits there are."""
    lines = text.split("\n")
    start = lines.index("| Crate | Proof | Tests | Edits | How many |") + 2
    end = next((n for n in range(start, len(lines)) if not lines[n].startswith("|")), len(lines))
    known = {cells(line)[0].strip("`"): cells(line) for line in lines[start:end]}
    rows = [gate_row(crate, known.get(name, [])) for name, crate in crates.read(top).items()]
    return "\n".join(lines[:start] + rows + lines[end:])


def gate_row(crate: crates.Crate, known: List[str]) -> str:
    """The row of a crate: what is known of it, or that nothing was counted."""
    count = len(list((crate.folder / "must-fail").glob("*.edit")))
    _, proof, tests, edits, _ = known or ["", UNCOUNTED, "-", "-", ""]
    spent = "-" if not count else edits if edits != "-" else UNCOUNTED
    return row([f"`{crate.name}`", proof, tests, spent, str(count) if count else "-"])


# ---- the crates of the architecture

CRATE = re.compile(r"\| `(\w+)` \|")


def with_order(top: Path, text: str) -> str:
    """The page with the rows of each group in the order of crates.txt, those of crates with rows for their parts aside, and the count."""
    order = list(crates.read(top))
    parted = set(re.findall(r"^\| `(\w+)::\w+` \|", text, re.M))
    lines = text.split("\n")
    heads = [n for n, line in enumerate(lines) if re.match(r"\| \*\w+: ", line)] + [len(lines)]
    for start, end in zip(heads, heads[1:]):
        met = [(n, CRATE.match(lines[n])) for n in range(start, end)]
        movable = [(n, found.group(1)) for n, found in met if found and found.group(1) in order and found.group(1) not in parted]
        moved = [lines[n] for n, _ in sorted(movable, key=lambda it: order.index(it[1]))]
        for (n, _), line in zip(movable, moved):
            lines[n] = line
    return re.sub(r"^All \d+, ", f"All {len(order)}, ", "\n".join(lines), flags=re.M)


# ---- the benchmark on the first page

COMPARED = {
    "vaultc": "vault", "gcc -fanalyzer": "gcc", "clang --analyze": "clang", "splint": "splint", "sparse -Wcontext": "sparse", "cppcheck": "cppcheck",
    "clang++ -Wconsumed": "clang -Wconsumed", "clang++ -Wthread-safety": "clang -Wthread-safety", "rustc": "rustc",
}
"""The columns of the benchmark that the first page shows, and their heads there."""


def with_benchmark(text: str, benchmark: str) -> str:
    """The first page with its table of tools, as the benchmark's page counts them. The table has the one head that begins with a pair of programs."""
    head, *rows = [cells(line) for line in benchmark.partition("<!-- table -->")[2].split("\n") if line.startswith("| ")]
    count = {cells_of[0]: dict(zip(head[1:], cells_of[1:])) for cells_of in rows}
    found = [{name: int(count[name][tool]) for name in ("Cases that were run", "Faults found", "By design")} for tool in COMPARED]
    told = [f"{it['Faults found'] + it['By design']} of {it['Cases that were run'] + it['By design']}" for it in found]
    table = [
        row(["Pairs of programs", *COMPARED.values()]),
        "|---|" + "---|" * len(COMPARED),
        row(["Faults found, or impossible by design", *told]),
        row(["At the right line", *(count["Places right"][tool] for tool in COMPARED)]),
        row(["False alarms", *(count["False alarms"][tool] for tool in COMPARED)]),
    ]
    lines = text.split("\n")
    start = next(n for n, line in enumerate(lines) if line.startswith("| Pairs of programs |"))
    end = next(n for n in range(start, len(lines)) if not lines[n].startswith("|"))
    return "\n".join(lines[:start] + table + lines[end:])

"""Lists what must be believed of a clause: the definitions that its names reach.

usage: vault believed [CLAUSE ..] [--files | --count]

CLAUSE is a clause of the public calls, as `promised`, or a law, as `vlt_sound::accepted_programs_go_right`; without any, all clauses
of the public calls and the laws that docs/PROMISES.md names in plain words. Names are followed from definition to definition, wherever these stand; lines are
counted without comments, blanks and imports. Listed apart are the constants and types that are read off the code, and the words of the
kit's libraries, whose definitions must be believed too and aren't counted."""
from __future__ import annotations

import argparse
import difflib
from typing import List

from .. import believed, paths
from ..believed import Believed, Clause, Reach
from ..cli import Parser
from ..errors import Problem


def configure(parser: Parser) -> None:
    """Clauses, and what is written of them."""
    parser.add_argument("clauses", metavar="CLAUSE", nargs="*", help="a clause of the public calls, or a law CRATE::NAME")
    how = parser.add_mutually_exclusive_group()
    how.add_argument("--files", action="store_true", help="writes the files alone, with how many lines of each are reached")
    how.add_argument("--count", action="store_true", help="writes a row of a table for each clause")


def run(options: argparse.Namespace) -> int:
    """Writes what is asked."""
    reach = Reach(paths.TOP / "crates")
    clauses = chosen(options.clauses)
    if options.count:
        print("\n".join(believed.TABLE_HEAD))
    for clause in clauses:
        found = reach.all_of(clause)
        if options.count:
            print(believed.table_row(found))
        else:
            print("\n".join(lines_of(found, options.files)))
    return 0


def chosen(names: List[str]) -> List[Clause]:
    """The clauses that some names are of; all if there is none."""
    clauses = believed.all_clauses(paths.TOP)
    if not names:
        return clauses
    found: List[Clause] = []
    for name in names:
        named = [clause for clause in clauses if name in (clause.name, clause.call, believed.label(clause))]
        named = named or (believed.read_clauses(paths.TOP / "crates", name) if "::" in name else [])
        if not named:
            near = difflib.get_close_matches(name, [clause.name for clause in clauses], 1, 0.5)
            hint = f"did you mean '{near[0]}'?" if near else "'vault believed --count' lists them"
            raise Problem(f"there is no clause '{name}'; {hint}")
        found += named
    return found


def lines_of(found: Believed, files_alone: bool) -> List[str]:
    """What is written of a clause: its files, the definitions in each with their lines, and what isn't defined there."""
    files, definitions, lines, _, _ = found.count()
    said = [f"{believed.label(found.clause)}: {files} files, {definitions} definitions, {lines} lines"]
    for file in found.files():
        here = sorted((it for it in found.definitions if it.file == file), key=lambda it: it.line)
        said.append(f"{sum(len(it.lines) for it in here):6} {file.relative_to(paths.TOP)}")
        if not files_alone:
            said += [f"       {it.line:5} {it.name}" for it in here]
    if files_alone:
        return said
    constants = [f"       {constant.name} = {believed.value_of(paths.TOP / 'crates', constant)}" for constant in found.constants()]
    others = {name for name in found.code if name not in set(found.constants())}
    return [
        *said,
        *(["constants of the code"] + constants if constants else []),
        *grouped_lines("types, variants and traits of the code", others),
        *grouped_lines("words of the kit", found.kit),
    ]


def grouped_lines(title: str, names: set) -> List[str]:
    """Names by their modules, below a title; nothing if there is none."""
    rows = [f"       {module}: {', '.join(words)}" for module, words in believed.grouped(names).items()]
    return [title, *rows] if rows else []

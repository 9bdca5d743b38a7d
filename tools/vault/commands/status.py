"""Says which program is taken, whether it is proved, from what it was built, and what else is kept.

Without a program it says so, and builds none."""
from __future__ import annotations

import argparse
import os
import time

from .. import crates, paths, programs, sources, store
from ..cli import Parser
from ..progress import duration


def configure(parser: Parser) -> None:
    """The options of `vault status`."""
    parser.add_argument("--sum", action="store_true", help="only the sum over the sources from which programs are built")


def run(options: argparse.Namespace) -> int:
    """Writes a line for each program, and then what else is kept."""
    if options.sum:
        print(sources.sum_of_sources())
        return 0
    print(f"vault {sources.version()}, commit {sources.commit()}, {sources.kit_line()}")
    names = crates.programs() if paths.is_repository() else sorted(file.stem for file in paths.INSTALLED.glob("*.json"))
    for name in names:
        print(f"{name}: {words_on_taken(name)}")
    taken = {kept.path for kept in map(programs.find, names) if kept}
    others = [it for it in store.everything() if it.path not in taken]
    if others:
        print(f"also kept below {paths.cache()}, for at most {store.MOST} states of the sources:")
    for it in others:
        print(f"  {it.note.name}: {words_on(it)}")
    return 0


def words_on_taken(name: str) -> str:
    """What is told of the program of this name that vault takes."""
    told = os.environ.get(name.upper())
    if told:
        return f"{told}, as the variable {name.upper()} says"
    kept = programs.find(name)
    return words_on(kept) if kept else "none of these sources; 'vault build' compiles it, or the first command that needs it"


def words_on(kept: store.Kept) -> str:
    """What is told of a kept program: whether it is proved, its commit, kit, age and place."""
    note = kept.note
    how = "proved" if note.proved else "without proofs, with checks at run time"
    age = duration(max(0.0, time.time() - note.built))
    return f"{how}; of commit {note.commit}, {note.kit}; built {age} ago; {kept.path}"

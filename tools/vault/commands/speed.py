"""Measures what the commands take, beside checkers of C and other languages.

usage: vault speed [TABLE ..] [--functions N] [--time] [--folder FOLDER]

TABLE is one of commands, checkers, runs, refusals, ratios, reading and c-texts; without any, all. The texts are generated. Instructions are
counted by callgrind, if valgrind is installed; times are processor time, the least of three runs; memory is that of the peak. A tool
that isn't installed is left out, with a word. docs/SPEED.md has what was measured, and how to read it."""
from __future__ import annotations

import argparse
import shutil
import sys

from .. import programs, speed
from ..cli import Parser
from ..errors import Problem
from ..measure import Folder
from ..speed import Bench

UNPROVED = (
    "which isn't known to be proved: a program that is built without proofs tests at run time what is proved, so its figures are no measure of the "
    "proved one, and callgrind can't run it"
)

LEAST = 8
"""A program has so many functions at least, so that half of them are some."""


def configure(parser: Parser) -> None:
    """Tables, and how large the texts are."""
    parser.add_argument("tables", metavar="TABLE", nargs="*", help=", ".join(speed.TABLES))
    parser.add_argument("--functions", type=int, default=2000, metavar="N", help="how many functions the programs have, and what follows from it")
    parser.add_argument("--time", action="store_true", help="counts no instructions, which takes 50 times as long")
    parser.add_argument("--folder", metavar="FOLDER", help="where the texts are kept")


def run(options: argparse.Namespace) -> int:
    """Writes the tables."""
    unknown = [name for name in options.tables if name not in speed.TABLES]
    if unknown:
        raise Problem(f"there is no table '{unknown[0]}': the tables are {', '.join(speed.TABLES)}")
    if not LEAST <= options.functions <= 4000:
        raise Problem(f"--functions is {LEAST} to 4000")
    program = programs.take("vaultc")
    folder = Folder(options.folder)
    try:
        print(heading(program, options))
        bench = Bench(program, folder, options.functions, not options.time)
        for name, make in speed.chosen(options.tables):
            print(f"vault: measuring {name}", file=sys.stderr, flush=True)
            for line in speed.lines_of(make(bench)):
                print(line, flush=True)
    finally:
        folder.close()
    return 0


def heading(program: programs.Program, options: argparse.Namespace) -> str:
    """What the figures are of."""
    how = "proved" if program.proved else UNPROVED
    counted = "" if options.time or shutil.which("valgrind") else " valgrind isn't installed, so no instructions are counted."
    return f"Of {program.path}, {how}.{counted}\n"

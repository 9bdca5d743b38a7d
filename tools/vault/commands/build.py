"""Compiles the programs, once for these sources, and keeps them.

Without --proved the proofs are left out: it takes two minutes, and each command that needs a program does it so by itself at its first
call. Such a program has checks at run time and is slower. With --proved each crate is proved first, in an hour or two from nothing; what
`rt ci` has proved on this machine is kept beside the kit, so it can be stopped and begun again."""
from __future__ import annotations

import argparse
from typing import Dict

from .. import compilation, crates, paths, proving
from ..cli import Parser
from ..errors import NoProgram
from ..progress import Progress
from ..store import Kept


def configure(parser: Parser) -> None:
    """The options of `vault build`."""
    parser.add_argument("--proved", action="store_true", help="prove all crates and build the proved programs")
    parser.add_argument("--tests", action="store_true", help="also the program of the transcripts, which 'vault test' runs")
    parser.add_argument("--passed", metavar="SUM", help="only keep, as proved, what .ci/run has built; SUM is that of 'vault status --sum' before it ran")


def run(options: argparse.Namespace) -> int:
    """Compiles what isn't kept yet, and says where the programs are."""
    for kept in made(options).values():
        print(f"{kept.note.name}: {kept.path}")
    return 0


def made(options: argparse.Namespace) -> Dict[str, Kept]:
    """The programs that the options ask for."""
    if not paths.is_repository():
        raise NoProgram(f"{paths.TOP} has no sources: programs are built in a clone of the repository")
    if options.passed is not None:
        return proving.keep_passed(options.passed)
    names = crates.programs() + [crates.TRANSCRIPTS] * options.tests
    return proving.build(names, Progress()) if options.proved else compilation.keep(names, Progress(), asked=True)

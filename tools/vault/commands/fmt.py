"""Lays out programs: one layout for all, with comments and single blank lines kept.

usage: vault fmt F
       vault fmt --check F ..
       vault fmt --write F ..

The layout of F goes to standard output. --check names the files that aren't in their layout, and then has status 1. --write
changes these files, and names them. A file that is no program in Vault is refused with the line and the status of vaultc."""
from __future__ import annotations

import argparse
import sys
from pathlib import Path

from .. import layout, programs
from ..cli import Parser
from ..errors import Problem
from ..files import replace_file
from ..programs import Program

UNLIKE = 1


def configure(parser: Parser) -> None:
    """The files, and what is done with their layouts."""
    how = parser.add_mutually_exclusive_group()
    how.add_argument("--check", action="store_true", help="name the files that aren't in their layout; then the status is 1")
    how.add_argument("--write", action="store_true", help="write the layout into the files that aren't in it, and name them")
    parser.add_argument("files", metavar="F", nargs="+", help="a program in Vault")


def run(options: argparse.Namespace) -> int:
    """Lays out each file. The status is the greatest of all files."""
    if len(options.files) > 1 and not options.check and not options.write:
        raise Problem("fmt: several files need --check or --write")
    program = programs.take("vaultc")
    return max(lay_out_file(program, name, options) for name in options.files)


def lay_out_file(program: Program, name: str, options: argparse.Namespace) -> int:
    """Lays out one file, and gives its status."""
    try:
        text = Path(name).read_bytes().decode("utf-8", "surrogateescape")
        answer = layout.lay_out_with_comments(program, text)
    except OSError:
        # the program says it in its own words
        answer = program.ask(["fmt", name])
    except layout.NotKept as problem:
        raise Problem(f"{name} isn't laid out: {problem}")
    if answer.status != 0:
        sys.stdout.write(f"{name}: {answer.output}" if len(options.files) > 1 else answer.output)
        return answer.status
    if not options.check and not options.write:
        sys.stdout.write(answer.output)
        return 0
    if answer.output == text:
        return 0
    sys.stdout.write(f"{name}\n")
    if options.check:
        return UNLIKE
    replace_file(Path(name), answer.output.encode("utf-8", "surrogateescape"))
    return 0

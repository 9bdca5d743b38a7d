"""Writes a copy of a program's C text in which a debugger steps through the Vault text.

usage: vault debug F.v [--to FOLDER]

The copy, NAME.debug.c, has the lines and names of F.v: compile it with -g as docs/C.md says of an emitted text, and a debugger stops at lines of F.v, and shows v_x for
a variable x. It is no text that `vaultc verify` reads: what ships is what `vaultc emit` writes."""
from __future__ import annotations

import argparse
import os
import sys
from pathlib import Path

from .. import programs
from ..bind.certificate import heads_of
from ..cli import Parser
from ..debug.places import Places
from ..debug.text import for_debugger
from ..errors import Problem
from ..judge import jobs
from ..picture import View
from ..source import Source


def configure(parser: Parser) -> None:
    """The program, and where the copy goes."""
    parser.add_argument("file", metavar="F.v", help="the program")
    parser.add_argument("--to", metavar="FOLDER", default=".", help="where the copy is written; the current folder unless it is told")


def run(options: argparse.Namespace) -> int:
    """Writes the copy, and names it."""
    program = programs.take("vaultc")
    checked = program.ask(["check", options.file])
    if checked.status != 0:
        sys.stdout.write(checked.output)
        return checked.status
    source = Source.read(options.file)
    declarations = View(source).declarations
    if declarations is None:
        raise Problem(f"{options.file}: its declarations can't be read")
    places = Places(program, source, declarations)
    text = for_debugger(places.text, places.of_text(jobs()), heads_of(places.text), os.path.abspath(options.file))
    path = Path(options.to) / f"{Path(options.file).stem}.debug.c"
    try:
        path.parent.mkdir(parents=True, exist_ok=True)
        path.write_text(text, encoding="utf-8")
    except OSError as error:
        raise Problem(f"{error.filename}: {error.strerror}", 3)
    sys.stdout.write(f"{path}\n")
    return 0

"""Writes typed C for an emitted program: its host's side, or a library of its functions.

usage: vault bind host F.c [--name NAME] [--to FOLDER]
       vault bind library F.c [--name NAME] [--to FOLDER]

F.c is verified first; a file that isn't verified is refused with the line of `vaultc verify`, and nothing is written. `host` writes NAME_host.h, with a prototype
for each external whose result has just the answers that keep its clause, and NAME_host.c, the glue to the runtime. `library` writes NAME.h and NAME_lib.c: a
function for each function that a host may call, which refuses calls in a wrong state; and NAME_states.c if a clause leaves an object in one of several states.
docs/C.md says how they are compiled."""
from __future__ import annotations

import argparse
import sys
from pathlib import Path
from typing import Dict

from .. import programs
from ..bind import certificate, states
from ..bind.host import Host
from ..bind.library import Library
from ..bind.naming import base_name
from ..cli import Parser
from ..errors import UNREAD, Problem
from ..texts import unread_words


def configure(parser: Parser) -> None:
    """Which side, of which file."""
    parser.add_argument("side", choices=("host", "library"), help="the host's side, or a library")
    parser.add_argument("file", metavar="F.c", help="what `vaultc emit` or `vaultc link` wrote")
    parser.add_argument("--name", help="what all names begin with; the file's name unless it is told")
    parser.add_argument("--to", metavar="FOLDER", default=".", help="where the files are written; the current folder unless it is told")


def run(options: argparse.Namespace) -> int:
    """Verifies the file and writes the bindings."""
    answer = programs.take("vaultc").ask(["verify", options.file])
    if answer.status == UNREAD:
        raise Problem(f"{options.file}: the file can't be read: {unread_words(options.file)}", UNREAD)
    if answer.status != 0:
        sys.stdout.write(answer.output)
        return answer.status
    path = Path(options.file)
    base = base_name(Path(options.name) if options.name else path)
    made = host_files(base, certificate.read(path)) if options.side == "host" else library_files(base, path)
    for name, text in made.items():
        write(Path(options.to) / name, text)
    return 0


def host_files(base: str, heads: certificate.Certificate) -> Dict[str, str]:
    """The files of the host's side, by their names."""
    host = Host(base, heads)
    return {f"{base}_host.h": host.header(), f"{base}_host.c": host.glue()}


def library_files(base: str, path: Path) -> Dict[str, str]:
    """The files of a library, by their names."""
    heads = certificate.read(path)
    library = Library(base, path.name, heads)
    found = {}
    if library.keeps_states:
        library = Library(base, f"{base}_states.c", heads)
        found[library.text] = states.with_states(programs.take("vaultc"), path.read_text(encoding="utf-8"), heads)
    return {f"{base}.h": library.header(), f"{base}_lib.c": library.code(), **found}


def write(path: Path, text: str) -> None:
    """Writes a file, and names it."""
    try:
        path.parent.mkdir(parents=True, exist_ok=True)
        path.write_text(text, encoding="utf-8")
    except OSError as error:
        raise Problem(f"{error.filename}: {error.strerror}", 3)
    sys.stdout.write(f"{path}\n")

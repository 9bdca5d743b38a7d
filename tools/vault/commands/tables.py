"""Compares tables of pages with what they are made of.

usage: vault tables [--write]

The rows of docs/GATE.md are the crates of crates.txt with their edits, those of docs/ARCHITECTURE.md are in its order, the minutes of
docs/ADDING.md are the gate's, and the counts of docs/PROMISES.md those of 'vault believed'. Pages that differ are listed, or written."""
from __future__ import annotations

import argparse

from .. import believed, paths, tables
from ..cli import Parser


def configure(parser: Parser) -> None:
    """Whether pages are written."""
    parser.add_argument("--write", action="store_true", help="writes the pages that differ, and lowers docs/believed.txt to what is reached")


def run(options: argparse.Namespace) -> int:
    """Lists or writes the pages; 1 if one differs and isn't written."""
    differing = [name for name, text in tables.renewed_pages(paths.TOP).items() if tables.read(paths.TOP, name) != text]
    if options.write:
        for name, text in tables.renewed_pages(paths.TOP).items():
            (paths.TOP / name).write_text(text, encoding="utf-8")
        believed.lower_ceilings(paths.TOP, believed.all_believed(paths.TOP))
    for name in differing:
        print(name)
    return 0 if options.write or not differing else 1

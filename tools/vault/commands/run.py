"""Runs an accepted program within budgets.

Each number that it prints is a line, and the last line says how the run ended. What went wrong is shown on standard error."""
from __future__ import annotations

import argparse

from ..cli import Parser
from ..running import Running, add_options


def configure(parser: Parser) -> None:
    """The file and the options."""
    parser.add_argument("file", metavar="FILE", help="a Vault file")
    add_options(parser)


def run(options: argparse.Namespace) -> int:
    """Runs the program."""
    running = Running("run", options)
    if options.format == "plain":
        running.plain()
    return running.run()

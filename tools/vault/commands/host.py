"""Makes the calls that a file lists on the functions of an accepted program.

Each line of CALLS is a call, as of a host that loads a driver: a name and its arguments. Empty lines are passed over, and `//` begins
a comment. What went wrong is shown on standard error."""
from __future__ import annotations

import argparse

from ..cli import Parser
from ..running import Running, add_options


def configure(parser: Parser) -> None:
    """The files and the options."""
    parser.add_argument("file", metavar="FILE", help="a Vault file")
    parser.add_argument("calls", metavar="CALLS", help="the file of the calls")
    add_options(parser)


def run(options: argparse.Namespace) -> int:
    """Makes the calls."""
    running = Running("host", options, options.calls)
    if options.format == "plain":
        running.plain()
    return running.run()

"""Says what `check` says; in the form `plain` also by which paths a rule on keys is broken."""
from __future__ import annotations

import argparse

from ..cli import Parser
from . import check

COMMAND = "explain"


def configure(parser: Parser) -> None:
    """As of check."""
    check.configure(parser)


def run(options: argparse.Namespace) -> int:
    """Judges the files, and writes what came of it."""
    return check.run_as(COMMAND, options)

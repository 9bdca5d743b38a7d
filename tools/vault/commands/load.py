"""Makes a program of N functions, and says what emit and run do with it.

N is a number of 1 to 19 decimal digits."""
from __future__ import annotations

import argparse

from ..cli import Parser
from . import _passthrough


def configure(parser: Parser) -> None:
    """All words go to vaultc."""
    parser.take_all_words("N")


def run(options: argparse.Namespace) -> int:
    """Goes on as vaultc."""
    _passthrough.become("load", options.words)

"""Writes the C text of an accepted program, with a certificate.

The text goes to standard output."""
from __future__ import annotations

import argparse

from ..cli import Parser
from . import _passthrough


def configure(parser: Parser) -> None:
    """All words go to vaultc."""
    parser.take_all_words("F")


def run(options: argparse.Namespace) -> int:
    """Goes on as vaultc."""
    _passthrough.become("emit", options.words)

"""Says from a C file alone whether it keeps all rules, by its certificate.

F is a C file as emit writes it. The status is 0 if it is verified."""
from __future__ import annotations

import argparse

from ..cli import Parser
from . import _passthrough


def configure(parser: Parser) -> None:
    """All words go to vaultc."""
    parser.take_all_words("F")


def run(options: argparse.Namespace) -> int:
    """Goes on as vaultc."""
    _passthrough.become("verify", options.words)

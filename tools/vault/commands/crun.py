"""Runs a C text of the subset that emit writes, and stops where C leaves the behaviour undefined.

The lines are those of run."""
from __future__ import annotations

import argparse

from ..cli import Parser
from . import _passthrough


def configure(parser: Parser) -> None:
    """All words go to vaultc."""
    parser.take_all_words("F [--fuel N] [--heap N] [--depth N] [--input G] [--answers A]")


def run(options: argparse.Namespace) -> int:
    """Goes on as vaultc."""
    _passthrough.become("crun", options.words)

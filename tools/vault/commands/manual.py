"""Writes the man page of vault.

usage: vault manual | man -l -"""
from __future__ import annotations

import argparse
import sys

from .. import manual
from ..cli import Parser


def configure(parser: Parser) -> None:
    """It has no words."""


def run(options: argparse.Namespace) -> int:
    """Writes the page."""
    sys.stdout.write(manual.text())
    return 0

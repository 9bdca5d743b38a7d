"""Writes the completion of vault and vaultc for a shell.

usage: vault completions bash|zsh|fish

For bash: source <(vault completions bash). For zsh: write it to a file _vault in a folder of $fpath. For fish: write it to
~/.config/fish/completions/vault.fish."""
from __future__ import annotations

import argparse
import sys

from .. import completions
from ..cli import Parser


def configure(parser: Parser) -> None:
    """The shell."""
    parser.add_argument("shell", choices=sorted(completions.SHELLS), help="the shell")


def run(options: argparse.Namespace) -> int:
    """Writes the completion."""
    sys.stdout.write(completions.text(options.shell))
    return 0

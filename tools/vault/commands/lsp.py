"""Serves an editor: the Language Server Protocol over standard input and output.

usage: vault lsp [--seconds N]

Errors as they are typed, with what led to them; the keys that are held at each line; declarations, uses, renaming, completion, layout, and cures that were
tried. editors/README.md says how editors start it."""
from __future__ import annotations

import argparse
import os
import sys

from ..cli import Parser
from ..server.loop import LONGEST, serve


def configure(parser: Parser) -> None:
    """Editors may say --stdio."""
    parser.add_argument("--stdio", action="store_true", help="standard input and output, which is the only way")
    parser.add_argument("--seconds", type=float, default=LONGEST, metavar="N", help="how long a program may take before it is ended (5)")


def run(options: argparse.Namespace) -> int:
    """Serves until the client ends."""
    # nothing else may write between messages
    output = os.fdopen(os.dup(1), "wb")
    os.dup2(2, 1)
    return serve(sys.stdin.buffer, output, options.seconds)

"""Says whether modules follow the rules beside an interface.

The first file is the interface, the others are modules, each of which is judged apart. The status is that of `vaultc module`, the
greatest of several."""
from __future__ import annotations

import argparse
import functools
import sys

from .. import ask, options as shared
from ..cli import Parser
from ..judge import Wishes, jobs, judge_all
from ..modules import judge_module


def configure(parser: Parser) -> None:
    """Files and options."""
    parser.add_argument("interface", metavar="INTERFACE", help="the file of the interface")
    parser.add_argument("files", metavar="FILE", nargs="+", help="a module")
    parser.add_argument("--first", action="store_true", help="only the first error of each module")
    shared.add_options(parser)


def run(options: argparse.Namespace) -> int:
    """Judges the modules, and writes what came of it."""
    asker = ask.take()
    if options.format == "plain":
        answers = [asker.vaultc.ask(["module", options.interface, name]) for name in options.files]
        sys.stdout.write("".join(answer.output for answer in answers))
        return max(answer.status for answer in answers)
    one = functools.partial(judge_module, options.interface, asker=asker, wishes=Wishes(options.first))
    judged = shared.progress(judge_all(options.files, one, jobs()), len(options.files))
    return shared.write(judged, options)

"""Writes the C text of an interface with two modules.

I is the interface, F and G are the modules. The text is what `emit` writes of them together. Errors are shown on standard error."""
from __future__ import annotations

import argparse
import sys

from .. import ask, options as shared
from ..cli import Parser
from ..judge import Judged, Wishes
from ..modules import refusal
from ..report import read_reports
from ..source import Source


def configure(parser: Parser) -> None:
    """Files and options."""
    parser.add_argument("interface", metavar="I", help="the file of the interface")
    parser.add_argument("first", metavar="F", help="a module")
    parser.add_argument("second", metavar="G", help="another module")
    shared.add_options(parser)


def run(options: argparse.Namespace) -> int:
    """Writes the C text, or shows why there is none."""
    names = [options.interface, options.first, options.second]
    asker = ask.take()
    if options.format == "plain":
        asker.vaultc.become(["link", *names])
    answer = asker.vaultc.ask(["link", *names])
    if answer.status == 0:
        sys.stdout.write(answer.output)
        return 0
    reply = ask.Reply(answer.status, answer.lines[:1], read_reports(answer.lines[:1]))
    interface, *modules = [Source.read(name) for name in names]
    pictures = refusal(asker, reply, interface, modules, Wishes(first=True))
    return shared.write_refusal([Judged(pictures[0].source, answer.status, pictures)], options)

"""Says whether programs follow the rules on names, on types and on keys.

Shows each error with its place, what led to it and what cures it. The status is that of `vaultc check`, the greatest of several
files: 0 if all are accepted. With --fix the first cure of each error is carried out in the file, if the answer is yes; what is left is
shown. A cure changes a file only if the program was asked of the changed text, and no longer has the error."""
from __future__ import annotations

import argparse
import functools
import sys

from .. import ask, options as shared, programs
from ..ask import Asker
from ..cli import Parser
from ..judge import Judged, Wishes, jobs, judge, judge_all
from ..picture import Cure, Picture, title

COMMAND = "check"


def configure(parser: Parser) -> None:
    """Files and options."""
    parser.add_argument("files", metavar="FILE", nargs="+", help="a Vault file; `-` is standard input")
    parser.add_argument("--first", action="store_true", help="only the first error of each file")
    parser.add_argument("--lint", action="store_true", help="warnings too, on what is permitted and often a mistake")
    parser.add_argument("--fix", action="store_true", help="carry out the first cure of each error, each if the answer is yes")
    parser.add_argument("--yes", action="store_true", help="with --fix: don't ask")
    shared.add_options(parser)


def run(options: argparse.Namespace) -> int:
    """Judges the files, and writes what came of it."""
    return run_as(COMMAND, options)


def run_as(command: str, options: argparse.Namespace) -> int:
    """As `check` or as `explain`, which differ in the lines of the form `plain` only."""
    names = [ask.STANDARD_INPUT if name == "-" else name for name in options.files]
    if options.format == "plain":
        return plain(command, names)
    asker = ask.take()
    if options.fix:
        return shared.write([fix_file(name, asker, options.yes) for name in names], options)
    wishes = Wishes(options.first, options.lint)
    one = functools.partial(judge, asker=asker, wishes=wishes)
    judged = shared.progress(judge_all(names, one, jobs()), len(names))
    return shared.write(judged, options)


def fix_file(name: str, asker: Asker, yes: bool) -> Judged:
    """Carries out cures in a file, and says on standard error what was done."""
    # what few calls need is imported where it is needed
    from ..fixing import fix

    judged, done = fix(name, asker, lambda picture, cure: yes or agrees(picture, cure))
    for text in done:
        sys.stderr.write(f"{name}: {title(text)}\n")
    return judged


def agrees(picture: Picture, cure: Cure) -> bool:
    """Asks whether a change is wanted. The end of the input is a no."""
    where = f"{picture.source.name}:{picture.fault.place}" if picture.fault else picture.source.name
    sys.stderr.write(f"{where}: {picture.message}\n  {title(cure.text)}? [y/N] ")
    sys.stderr.flush()
    return sys.stdin.readline().strip().lower() in ("y", "yes")


def plain(command: str, names: list) -> int:
    """The lines of `vaultc` as they are."""
    vaultc = programs.take("vaultc")
    if len(names) == 1:
        vaultc.become([command, *names])
    status = 0
    for name in names:
        answer = vaultc.ask([command, name])
        sys.stdout.write(answer.output)
        status = max(status, answer.status)
    return status

"""Lists the files in which a form, an operator, a rule, a limit, a row or a command stands.

usage: vault places NAME

NAME is `become`, `BitXor`, `load`, `rule 29`, `limit 9` or `row struct_type`. The files of code, definitions, proofs, pages and tools
are grouped by the steps of docs/ADDING.md, each with its first line; at the end are those that no step names. A word that stands for
other things too, as `return`, brings files of these: docs/ADDING.md names neighbours whose words don't."""
from __future__ import annotations

import argparse

from .. import paths, places
from ..cli import Parser
from ..errors import Problem
from ..places import Place


def configure(parser: Parser) -> None:
    """The name, or a kind and a name."""
    parser.add_argument("name", metavar="NAME", nargs="*", help="a name, or a kind and a name")


def run(options: argparse.Namespace) -> int:
    """Writes the places."""
    if len(options.name) not in (1, 2):
        raise Problem("'vault places' takes a name, or a kind and a name")
    subject = places.find_subject(paths.TOP, options.name)
    steps = places.read_steps(paths.TOP, subject.kind)
    left = places.sort_places(paths.TOP, steps, places.find_places(paths.TOP, subject))
    count = sum(len(step.places) for step in steps) + len(left)
    print(f"{subject.title}: {count} files")
    for step in steps:
        if step.places:
            print(f"{step.number}  {step.what}")
            print("\n".join(map(line_of, step.places)))
    if left:
        print("no step names")
        print("\n".join(map(line_of, left)))
    return 0


def line_of(place: Place) -> str:
    """A file with its first line."""
    more = f" and {place.count - 1} more" if place.count > 1 else ""
    return f"    {place.file.relative_to(paths.TOP)}:{place.line}{more}"

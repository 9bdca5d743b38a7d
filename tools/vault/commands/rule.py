"""Shows a rule on names and types: what breaks it, why, and what is right.

Without a number the rules are listed."""
from __future__ import annotations

import argparse
import sys
import textwrap

from ..cli import Parser
from ..errors import Problem
from ..forms.text import Style, style_of
from ..rules import Rule, all_rules


def configure(parser: Parser) -> None:
    """The number."""
    parser.add_argument("number", metavar="N", nargs="?", type=int, help="the number of a rule, as in `kind N LINE:COLUMN`")
    parser.add_argument(
        "--color", choices=("auto", "always", "never"), default="auto", help="colour; auto: on terminals, unless NO_COLOR is set"
    )


def run(options: argparse.Namespace) -> int:
    """Writes the rule, or the list."""
    style = style_of(options.color)
    found = all_rules()
    if options.number is None:
        sys.stdout.write("".join(f"{number:4}  {rule.title}\n" for number, rule in sorted(found.items())))
        return 0
    if options.number not in found:
        raise Problem(f"there is no rule {options.number}; 'vault rule' lists them")
    sys.stdout.write(text_of(found[options.number], style))
    return 0


def text_of(rule: Rule, style: Style) -> str:
    """The rule: title, cause, the wrong program, the right one, cures."""
    out = [style.paint(f"Rule {rule.number}: {rule.title}", "bold"), ""]
    for paragraph in rule.paragraphs:
        out += [*style.wrap(paragraph, "", ""), ""]
    for number, program in enumerate(rule.programs):
        name, kind = ("Wrong:", "error") if number == 0 else ("Right:", "ok")
        out += [style.paint(name, kind), "", textwrap.indent(program.rstrip("\n"), "    "), ""]
    for cure in rule.cures:
        where = f"Cure, {cure.where}: " if cure.where else "Cure: "
        out += style.wrap(where + cure.text, "", "      ")
    return "\n".join(out).rstrip("\n") + "\n"

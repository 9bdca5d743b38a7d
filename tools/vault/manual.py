"""The man page vault(1), made of the subcommands' own help."""
from __future__ import annotations

import argparse
import re
from typing import List

from . import cli, sources

HEAD = """\
.TH VAULT 1 "" "vault {version}" "Telltalefig"
.SH NAME
vault \\- checks, runs and compiles programs in Vault
.SH SYNOPSIS
.B vault
.I COMMAND
.RI [ WORD " ..]"
.SH DESCRIPTION
The tool around the compiler
.BR vaultc (1):
it shows errors with what led to them, lays out texts, builds and tests the programs, and more. An accepted program never uses an object in a wrong
state or after its release, and leaves none behind; that is proved of vaultc.
.SH COMMANDS
"""

TAIL = """\
.SH EXIT STATUS
That of
.BR vaultc (1),
for its commands: 0 if all is well, 1 for wrong words, 2 for a file that can't be read, 3 if output fails, 5 to 8 for a refused program. 70 if there is no program to
ask, and none could be built.
.SH ENVIRONMENT
.TP
.BR VAULTC ", " VAULTQ
the program that is asked in place of the one that vault would take
.TP
.B XDG_CACHE_HOME
the folder in which built programs are kept; without it ~/.cache
.TP
.B NO_COLOR
if it is set, no colour is written
.SH SEE ALSO
.BR vaultc (1)
"""


def roff(text: str) -> str:
    """A text for a man page: no sign of it is a request or an escape."""
    safe = text.replace("\\", "\\e").replace("-", "\\-")
    return "\n".join("\\&" + line if line.startswith((".", "'")) else line for line in safe.split("\n"))


def paragraphs(doc: str) -> List[str]:
    """The paragraphs of a subcommand's help; lines of usage stay as they are."""
    found = []
    for paragraph in re.split(r"\n\s*\n", doc.strip()):
        if paragraph.startswith("usage:"):
            found.append(".nf\n" + roff(paragraph) + "\n.fi")
        else:
            found.append(roff(" ".join(paragraph.split())))
    return found


def option_lines(parser: cli.Parser) -> List[str]:
    """The lines of a subcommand's options."""
    lines: List[str] = []
    for action in parser._actions:
        if action.option_strings and action.help is not argparse.SUPPRESS and not isinstance(action, argparse._HelpAction):
            values = "" if action.nargs == 0 else " " + (action.metavar or action.dest.upper() if not action.choices else "|".join(action.choices))
            lines += [".TP", f".B {roff(action.option_strings[-1] + values)}", roff(action.help or "")]
    return lines


def text() -> str:
    """The man page."""
    lines: List[str] = []
    for name in cli.command_names():
        module = cli.module_of(name)
        options = option_lines(cli.parser_of(name, module))
        lines += [f".SS vault {roff(name)}", "\n.PP\n".join(paragraphs(module.__doc__ or ""))]
        lines += [".RS", *options, ".RE"] if options else []
    return HEAD.format(version=sources.version()) + "\n".join(lines) + "\n" + TAIL

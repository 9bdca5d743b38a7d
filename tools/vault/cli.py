"""The command line: finds the module of a subcommand, reads its words and runs it.

A subcommand NAME is the module `commands/NAME.py` (an underscore is a hyphen in the word). It has a docstring, whose first line is its
line of help, `configure(parser: Parser) -> None` and `run(options: argparse.Namespace) -> int`, which gives the status."""
from __future__ import annotations

import argparse
import importlib
import sys
from types import ModuleType
from typing import Callable, List, NoReturn

from . import output, paths, programs
from .errors import OutputFailed, Problem

INTERRUPTED = 130

# the subcommands that are given programs, in the order in which one needs them
ON_PROGRAMS = "check explain rule fmt run host trace explore module link emit verify crun load".split()

INTRODUCTION = """\
usage: vault COMMAND [WORD ..]

Checks, runs and compiles programs in Vault. 'vault COMMAND --help' tells of a command, 'vault --version' which vault this is.
"""


class Parser(argparse.ArgumentParser):
    """A parser whose errors have status 1, since 2 is that of a file that can't be read."""

    takes_all = False

    def take_all_words(self, usage: str = "WORD ..") -> None:
        """Leaves all words but a first --help to the command, as options.words; `usage` says what they are."""
        self.takes_all = True
        self.usage = f"{self.prog} {usage}"
        self.add_argument("words", metavar="WORD", nargs="*", help="those of vaultc; docs/COMMANDS.md tells of them, and 'man vaultc'")

    def parse_words(self, words: List[str]) -> argparse.Namespace:
        """The options that these words say."""
        if self.takes_all and words[:1] not in (["-h"], ["--help"]):
            return argparse.Namespace(words=words)
        return self.parse_args(words)

    def error(self, message: str) -> NoReturn:
        self.print_usage(sys.stderr)
        self.exit(1, f"vault: {message}\n")


def command_names() -> List[str]:
    """The subcommands that there are, in the order of the alphabet."""
    names = (file.stem.replace("_", "-") for file in paths.COMMANDS.glob("[a-z]*.py"))
    return sorted(names)


def module_of(name: str) -> ModuleType:
    """The module of a subcommand."""
    return importlib.import_module(f"{__package__}.commands.{name.replace('-', '_')}")


def line_of(name: str) -> str:
    """The first line of a subcommand's docstring, with which its file begins; to import all of them would take long."""
    with open(paths.COMMANDS / f"{name.replace('-', '_')}.py", encoding="utf-8") as file:
        return file.readline().strip().strip('"')


def parser_of(name: str, module: ModuleType) -> Parser:
    """The parser of a subcommand."""
    raw = argparse.RawDescriptionHelpFormatter
    parser = Parser(prog=f"vault {name}", description=module.__doc__, formatter_class=raw, allow_abbrev=False)
    module.configure(parser)
    return parser


def help_text() -> str:
    """What `vault --help` writes: each subcommand with its line, those on programs in Vault first."""
    names = command_names()
    width = max(map(len, names))
    lines = [INTRODUCTION]
    for title, group in (("Programs in Vault:", ON_PROGRAMS), ("Around them:", [name for name in names if name not in ON_PROGRAMS])):
        lines.append(title)
        lines += [f"  {name:{width}}  {line_of(name)}" for name in group if name in names]
    return "\n".join(lines) + "\n"


def version_text() -> str:
    """What `vault --version` writes: the version, the commit and the kit's line."""
    from . import sources

    return f"vault {sources.version()}\ncommit {sources.commit()}\n{sources.kit_line()}\n"


def unknown(name: str) -> Problem:
    """The error of a word that is no subcommand."""
    import difflib

    near = difflib.get_close_matches(name, command_names(), 1, 0.5)
    hint = f"did you mean '{near[0]}'?" if near else "'vault --help' lists the commands"
    return Problem(f"there is no command '{name}'; {hint}")


def dispatch(words: List[str]) -> int:
    """Carries out the command that the words are, and gives its status."""
    if not words:
        sys.stderr.write(help_text())
        return 1
    name, rest = words[0], words[1:]
    if name == "help" and rest:
        name, rest = rest[0], ["--help"]
    if name in ("help", "-h", "--help"):
        sys.stdout.write(help_text())
        return 0
    if name == "--version":
        sys.stdout.write(version_text())
        return 0
    if name not in command_names():
        raise unknown(name)
    module = module_of(name)
    return module.run(parser_of(name, module).parse_words(rest))


def main(words: List[str]) -> int:
    """Carries out the command and gives its status; errors go to standard error, a line each."""
    output.guard()
    return guarded(lambda: dispatch(words))


def become(name: str, words: List[str]) -> int:
    """Goes on as the program of this name; gives a status only where there is none."""
    return guarded(lambda: programs.take(name).become(words))


def guarded(work: Callable[[], int]) -> int:
    """The status of this work, or of the error by which it ended, which is told on standard error."""
    status = outcome(work)
    try:
        sys.stdout.flush()
    except OutputFailed as failed:
        return told(failed)
    return status


def outcome(work: Callable[[], int]) -> int:
    """As `guarded`, but output may still be held back."""
    try:
        return work()
    except SystemExit as ended:
        if isinstance(ended.code, str):
            return told(Problem(ended.code))
        return ended.code or 0
    except Problem as problem:
        return told(problem)
    except OSError as error:
        return told(Problem(f"{error.filename or 'the system'}: {error.strerror}"))
    except KeyboardInterrupt:
        return INTERRUPTED


def told(problem: Problem) -> int:
    """Tells of a problem, and gives its status."""
    if problem.message:
        output.tell(problem.message)
    return problem.status

"""Installs the programs and the tools below a folder.

usage: vault install [--prefix FOLDER] [--unproved]
       vault install --remove [--prefix FOLDER]

FOLDER is /usr/local unless it is told, or $DESTDIR/FOLDER if DESTDIR is set. It gets the commands, man pages, completions for bash, zsh and fish,
files of editors, the runtime of C texts, documents and examples. The proved programs of these sources are installed, which
'vault build --proved' makes; --unproved takes those without proofs. --remove removes what was installed there, and nothing else."""
from __future__ import annotations

import argparse
import os
import sys
from pathlib import Path

from .. import installation, programs
from ..cli import Parser
from ..errors import Problem
from ..paths import is_repository


def configure(parser: Parser) -> None:
    """Where, and which programs."""
    parser.add_argument("--prefix", default="/usr/local", metavar="FOLDER", help="the folder; /usr/local unless it is told")
    parser.add_argument("--unproved", action="store_true", help="take programs without proofs")
    parser.add_argument("--remove", action="store_true", help="remove what was installed")


def run(options: argparse.Namespace) -> int:
    """Installs, or removes."""
    if not os.path.isabs(options.prefix):
        raise Problem("install: the prefix has to be an absolute path")
    prefix = Path(os.environ.get("DESTDIR", "") + options.prefix)
    if options.remove:
        sys.stdout.write(f"{installation.uninstall(prefix)} files are removed from {prefix}\n")
        return 0
    if not is_repository():
        raise Problem("install: this vault is installed itself; a clone of the repository has what is installed")
    if options.unproved:
        programs.take_all([name for name in installation.PROGRAMS if (installation.paths.TOP / "crates" / name).is_dir()])
    kept = installation.kept_programs(not options.unproved)
    sys.stdout.write(f"{installation.install(prefix, kept)} files are installed in {prefix}\n")
    return 0

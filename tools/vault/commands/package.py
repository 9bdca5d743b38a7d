"""Makes packages of the proved programs: a tarball and a Debian package, with their sums.

usage: vault package --gate LOG [--to FOLDER]
       vault package --unproved [--to FOLDER]
       vault package --vsix [--to FOLDER]

LOG is what a run of the gate (.ci/run) of this commit wrote; its closing lines go beside the packages, as the file GATE. The same commit and programs give
the same bytes. --unproved packs programs without proofs, and says so in the packages' names. --vsix packs the extension of VS Code alone. FOLDER is the current one unless it is told."""
from __future__ import annotations

import argparse
import sys
from pathlib import Path

from .. import files, installation, packages, paths, sources, vsix
from ..cli import Parser
from ..errors import Problem


def configure(parser: Parser) -> None:
    """Which programs, and where to."""
    parser.add_argument("--gate", metavar="LOG", help="the log of a run of the gate that passed")
    parser.add_argument("--unproved", action="store_true", help="pack programs without proofs")
    parser.add_argument("--vsix", action="store_true", help="pack the extension of VS Code")
    parser.add_argument("--to", default=".", metavar="FOLDER", help="the folder of the packages")


def run(options: argparse.Namespace) -> int:
    """Makes the packages, and names them."""
    if [bool(options.gate), options.unproved, options.vsix].count(True) != 1:
        raise Problem("package: tell --gate LOG, --unproved or --vsix")
    if options.vsix:
        path = Path(options.to) / f"vault-{sources.version()}.vsix"
        files.write_file(path, vsix.pack(paths.TOP / "editors" / "vscode"))
        sys.stdout.write(f"{path}\n")
        return 0
    gate = packages.closing_lines(Path(options.gate)) if options.gate else ""
    items = installation.items(installation.kept_programs(not options.unproved))
    for path in packages.write_packages(items, Path(options.to), gate, "-unproved" * options.unproved):
        sys.stdout.write(f"{path}\n")
    return 0

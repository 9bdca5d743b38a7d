"""Sessions in Markdown pages: blocks marked `console`, in which a line after `$ ` is a command and the lines below are what it writes.

usage, in tools/: python3 -m vault.sessions PAGE ..      writes what the commands write now into the pages"""
from __future__ import annotations

import os
import shlex
import subprocess
import sys
import tempfile
from functools import partial
from pathlib import Path
from typing import Iterator, List, Tuple

from . import paths, programs
from .programs import Program
from .records import dataclass
from .suite import Part, first_difference

COLUMNS = "78"
"""How wide a picture in a page may be."""

LINKED = ("examples", "docs", "runtime", "tools")
"""The folders that a command finds where it runs."""


@dataclass(frozen=True)
class Command:
    """A command of a session: the number of its line in the page, what is typed, and the lines below it."""

    line: int
    typed: str
    written: List[str]


def read_session(text: str) -> List[Command]:
    """The commands of all sessions of a page."""
    session: List[Command] = []
    inside = False
    for number, line in enumerate(text.split("\n"), 1):
        if line.startswith("```"):
            inside = line == "```console"
        elif inside and line.startswith("$ "):
            session.append(Command(number, line[2:], []))
        elif inside and session:
            session[-1].written.append(line)
    return session


def write_tools(program: Program, folder: Path) -> None:
    """Puts `bin/vaultc`, which goes on as the program, and `bin/vault` into a folder."""
    (folder / "bin").mkdir()
    script = folder / "bin" / "vaultc"
    script.write_text("#!/bin/sh\nexec " + " ".join(map(shlex.quote, program.command)) + ' "$@"\n', encoding="utf-8")
    script.chmod(0o755)
    (folder / "bin" / "vault").symlink_to(paths.TOP / "bin" / "vault")


def replay(top: Path, program: Program, session: List[Command]) -> Iterator[Tuple[Command, List[str]]]:
    """Each command with the lines that it writes now. They are typed to bash one after another, in a folder of their own."""
    with tempfile.TemporaryDirectory(prefix="vault-session-") as name:
        folder = Path(name)
        write_tools(program, folder)
        for linked in LINKED:
            (folder / linked).symlink_to(top / linked)
        path = f"{folder / 'bin'}{os.pathsep}{os.environ.get('PATH', os.defpath)}"
        environment = {**os.environ, "PATH": path, "VAULTC": str(folder / "bin" / "vaultc"), "COLUMNS": COLUMNS}
        for command in session:
            done = subprocess.run(
                ["bash", "-c", command.typed],
                cwd=folder,
                env=environment,
                stdin=subprocess.DEVNULL,
                stdout=subprocess.PIPE,
                stderr=subprocess.STDOUT,
            )
            yield command, done.stdout.decode("utf-8", "replace").splitlines()


def check_page(page: Path, top: Path, program: Program) -> str:
    """The first command of a page that writes something else; empty if there is none."""
    name = page.relative_to(top)
    for command, written in replay(top, program, read_session(page.read_text(encoding="utf-8"))):
        said = first_difference(f"{name}:{command.line}: {command.typed}", command.written, written)
        if said:
            return said
    return ""


def update_page(page: Path, top: Path, program: Program) -> None:
    """Puts what the commands of a page write now below each of them."""
    text = page.read_text(encoding="utf-8")
    lines = text.split("\n")
    for command, written in reversed(list(replay(top, program, read_session(text)))):
        lines[command.line : command.line + len(command.written)] = written
    page.write_text("\n".join(lines), encoding="utf-8")


def session_parts(top: Path, pages: List[Path]) -> List[Part]:
    """A part for each page that has a session."""
    found = [page for page in pages if read_session(page.read_text(encoding="utf-8"))]
    return [Part(f"sessions: {page.relative_to(top)}", partial(check_page, page, top), "vaultc", 5.0) for page in found]


def main(names: List[str]) -> int:
    """Updates the pages of these names."""
    program = programs.take("vaultc")
    for name in names:
        update_page(Path(name).resolve(), paths.TOP, program)
    return 0


if __name__ == "__main__":
    sys.exit(main(sys.argv[1:]))

"""Many lists of calls asked of `vaultc host` by one shell, one after another: it starts a program in a third of the time that Python takes."""
from __future__ import annotations

import shlex
import subprocess
import threading
from pathlib import Path
from typing import List, Sequence, Tuple

from ..errors import Problem
from ..programs import Program

Lines = Tuple[str, ...]

END = "/\n"
"""What stands behind each answer; no line of a run has this sign."""


class Asking:
    """How lists are asked of a program: with options, and with their files in a folder."""

    def __init__(self, program: Program, folder: Path, options: Sequence[str]) -> None:
        self.program = program
        self.folder = folder
        self.options = tuple(options)

    def answers(self, text: Path, lists: Sequence[Tuple[Lines, Lines]]) -> List[List[str]]:
        """The lines that `vaultc host` writes of each list: its calls, and the host's answers."""
        stem = f"{self.folder}/{threading.get_ident()}"
        words = [*self.program.command, "host", str(text), f"{stem}.calls", "--answers", f"{stem}.answers", *self.options]
        host = " ".join(map(shlex.quote, words))
        script = "".join(
            f"{written(calls, f'{stem}.calls')}\n{written(given, f'{stem}.answers')}\n{host}\nprintf {shlex.quote(END)}\n" for calls, given in lists
        )
        # a session of its own: an interrupt is for this process, and the runs that have begun come to their ends
        ran = subprocess.run(
            ["/bin/sh"], input=script.encode("utf-8", "surrogateescape"), stdout=subprocess.PIPE, stderr=subprocess.DEVNULL, start_new_session=True
        )
        *told, rest = ran.stdout.decode("utf-8", "surrogateescape").split(END)
        if len(told) != len(lists) or rest:
            raise Problem(f"{self.program.name} host: {len(told)} answers to {len(lists)} lists")
        return [it.split("\n")[:-1] for it in told]


def written(lines: Lines, file: str) -> str:
    """The command that writes lines to a file."""
    return (f"printf '%s\\n' {' '.join(map(shlex.quote, lines))}" if lines else ":") + f" > {shlex.quote(file)}"

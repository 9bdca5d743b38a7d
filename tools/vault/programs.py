"""The program that is asked: which one is taken, and how it is asked."""
from __future__ import annotations

import os
import shutil
import signal
import subprocess
from pathlib import Path
from typing import Dict, List, NoReturn, Optional, Sequence, Tuple, Union

from . import paths, sources, store
from .errors import NoProgram, Problem
from .records import dataclass


@dataclass(frozen=True)
class Answer:
    """What a program wrote, and its status: 128 and the signal's number where a signal ended it. Bytes that aren't UTF-8 are
    surrogates in the texts, as in names of files."""

    status: int
    output: str
    errors: str

    @property
    def lines(self) -> List[str]:
        """The lines of the output."""
        return self.output.split("\n")[: -1 if self.output.endswith("\n") else None] if self.output else []


@dataclass(frozen=True)
class Program:
    """A program that can be asked; `command` is how it is started, before its own words."""

    name: str
    path: Path
    proved: bool
    command: Tuple[str, ...]

    def ask(
        self,
        words: Sequence[str],
        *,
        input: Union[str, bytes, None] = None,
        folder: Optional[os.PathLike] = None,
        timeout: Optional[float] = None,
    ) -> Answer:
        """What the program answers to these words, over this standard input (none: nothing), in this folder (none: the current
        one). After `timeout` seconds it is ended, and that is a Problem."""
        given = input.encode("utf-8", "surrogateescape") if isinstance(input, str) else input or b""
        try:
            ran = subprocess.run([*self.command, *words], input=given, capture_output=True, cwd=folder, timeout=timeout)
        except subprocess.TimeoutExpired:
            raise Problem(f"{self.name} {' '.join(words)}: no answer within {timeout:g} seconds")
        except OSError as error:
            raise NoProgram(f"{self.path}: {error.strerror}")
        status = ran.returncode if ran.returncode >= 0 else 128 - ran.returncode
        return Answer(status, *(text.decode("utf-8", "surrogateescape") for text in (ran.stdout, ran.stderr)))

    def become(self, words: Sequence[str]) -> NoReturn:
        """Goes on as the program: it has the caller's standard streams and signals, and its status is the caller's."""
        # Python ignores SIGPIPE and would hand that on
        signal.signal(signal.SIGPIPE, signal.SIG_DFL)
        try:
            os.execv(self.command[0], [*self.command, *words])
        except OSError as error:
            raise NoProgram(f"{self.path}: {error.strerror}")


def take(name: str = "vaultc") -> Program:
    """The program of this name: the one that the variable of its name in capitals says; else the installed one; else of these sources
    a proved one, or a kept one; else it is compiled without proofs, which takes two minutes."""
    return take_all([name])[name]


def take_all(names: Sequence[str]) -> Dict[str, Program]:
    """The programs of these names. Those that have to be compiled are compiled side by side."""
    found = known(names)
    missing = [name for name in names if name not in found]
    if missing:
        from . import compilation
        from .progress import Progress

        found.update({name: _of_kept(kept) for name, kept in compilation.keep(missing, Progress()).items() if name in missing})
    return found


def known(names: Sequence[str]) -> Dict[str, Program]:
    """Those programs of these names that need not be compiled."""
    told = {name: _told(name) for name in names}
    kept = find_all([name for name, it in told.items() if it is None])
    found = {name: it or (_of_kept(kept[name]) if name in kept else None) for name, it in told.items()}
    return {name: it for name, it in found.items() if it}


def _of_kept(kept: store.Kept) -> Program:
    kept.touch()
    return Program(kept.note.name, kept.path, kept.note.proved, kept.command)


def find(name: str) -> Optional[store.Kept]:
    """The installed program of this name, or that of these sources which is kept, if there is one: a proved one before others."""
    return find_all([name]).get(name)


def find_all(names: Sequence[str]) -> Dict[str, store.Kept]:
    """The installed or kept programs of these names, those that there are."""
    if not names:
        return {}
    if paths.is_repository():
        told, kit = sources.sum_of_sources(), sources.kit_line()
        found = {name: store.find(name, told, kit) for name in names}
    else:
        found = {name: store.read(paths.INSTALLED / name) for name in names}
    return {name: it for name, it in found.items() if it}


def _told(name: str) -> Optional[Program]:
    """The program that the variable of this name in capitals says, if it is set, as a path or a word of the PATH."""
    told = os.environ.get(name.upper())
    if not told:
        return None
    found = shutil.which(told)
    if found is None:
        raise NoProgram(f"{name.upper()}={told}: there is no program of this name that can be run")
    path = Path(os.path.abspath(found))
    return Program(name, path, False, (str(path),))

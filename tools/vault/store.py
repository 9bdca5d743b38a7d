"""Programs that were built, kept below a folder of the cache for each sum of sources and kit.

The folder SUM has, of each program NAME, the file NAME, or NAME.proved where its proofs were checked, and beside it a note, NAME.json or
NAME.proved.json."""
from __future__ import annotations

import hashlib
import json
import os
import shutil
import time
from pathlib import Path
from typing import List, Optional, Tuple

from . import paths
from .records import dataclass
from .sources import NO_KIT

MOST = 5


@dataclass(frozen=True)
class Note:
    """What is known of a kept program: from which commit, sources and kit it was built, when (seconds since 1970), and how it is
    started: before the file stand the words `loader`, which are none where the system's own loader runs it."""

    name: str
    proved: bool
    commit: str
    sources: str
    kit: str
    built: float
    loader: Tuple[str, ...] = ()


@dataclass(frozen=True)
class Kept:
    """A kept program: its file and its note."""

    path: Path
    note: Note

    @property
    def command(self) -> Tuple[str, ...]:
        """How it is started: by the kit's loader only while the kit is there."""
        loader = self.note.loader
        return (*(loader if loader and os.path.exists(loader[0]) else ()), str(self.path))

    def touch(self) -> None:
        """Marks its folder as used now, at most once in an hour."""
        at = self.path.parent
        try:
            if time.time() - at.stat().st_mtime > 3600:
                os.utime(at)
        except OSError:
            # it is kept elsewhere, where nothing is removed
            pass


def folder(sources: str, kit: str) -> Path:
    """Where the programs of these sources and this kit are kept."""
    return paths.cache() / hashlib.sha256(f"{sources} {kit}".encode()).hexdigest()[:16]


def file_name(name: str, proved: bool) -> str:
    """The name of a program's file in its folder."""
    return f"{name}.proved" if proved else name


def read(path: Path) -> Optional[Kept]:
    """The kept program of this file; None where there is none, or no note that can be read."""
    try:
        said = json.loads(Path(f"{path}.json").read_text(encoding="utf-8"))
        note = Note(**{**said, "loader": tuple(said["loader"])})
    except (OSError, ValueError, TypeError, KeyError):
        return None
    return Kept(path, note) if os.access(path, os.X_OK) else None


def find(name: str, sources: str, kit: str) -> Optional[Kept]:
    """The kept program of these sources and this kit: a proved one before one without proofs. Without a kit, which has another line, the
    program of any kit serves."""
    found = read(folder(sources, kit) / file_name(name, True)) or read(folder(sources, kit) / file_name(name, False))
    if found or kit != NO_KIT:
        return found
    fitting = [it for it in everything() if it.note.name == name and it.note.sources == sources]
    return max(fitting, key=lambda it: (it.note.proved, it.note.built), default=None)


def everything() -> List[Kept]:
    """All kept programs, those of the folder that was used last first."""
    found = (read(file.with_suffix("")) for it in folders() for file in sorted(it.glob("*.json")))
    return [it for it in found if it]


def write(made: Path, note: Note) -> Kept:
    """Keeps a program that was made in a file of the same file system: that file is moved. A half-kept program never has its name."""
    at = folder(note.sources, note.kit)
    at.mkdir(parents=True, exist_ok=True)
    path = at / file_name(note.name, note.proved)
    part = Path(f"{path}.json.part")
    part.write_text(json.dumps(vars(note), indent=2) + "\n", encoding="utf-8")
    os.chmod(made, 0o755)
    os.replace(made, path)
    os.replace(part, f"{path}.json")
    drop_oldest()
    return Kept(path, note)


def folders() -> List[Path]:
    """The folders with kept programs, the one that was used last first."""
    if not paths.cache().is_dir():
        return []
    found = [it for it in paths.cache().iterdir() if it.is_dir() and len(it.name) == 16]
    return sorted(found, key=lambda it: it.stat().st_mtime, reverse=True)


def drop_oldest() -> None:
    """Removes what is kept beyond the newest folders."""
    for it in folders()[MOST:]:
        shutil.rmtree(it, ignore_errors=True)

"""What programs are built from: the sum of all sources, the commit, the version and the kit."""
from __future__ import annotations

import hashlib
import json
import os
import shutil
import subprocess
import time
from pathlib import Path
from typing import Iterator, List, Optional, Tuple

from . import paths
from .paths import TOP

PARTS = ("src", "specs")
NO_KIT = "no kit"
# seconds after which a file's time of change tells it from each later state of it
SETTLED = 2.0


def version() -> str:
    """The version of the tool, from the file VERSION."""
    return (TOP / "VERSION").read_text().strip()


def commit() -> str:
    """The commit of the repository, with a `+` where files were changed since; of an installed tool the one that it was made from."""
    told = TOP / "COMMIT"
    if told.is_file():
        return told.read_text().strip()
    said = ask_git("rev-parse", "--short", "HEAD")
    return said + "+" * bool(ask_git("status", "--porcelain", "--untracked-files=no")) if said else "unknown"


def ask_git(*words: str) -> str:
    """What git says of the repository to these words, without the line's end; nothing if it fails."""
    try:
        ran = subprocess.run(["git", "-C", str(TOP), *words], stdout=subprocess.PIPE, stderr=subprocess.DEVNULL, universal_newlines=True)
    except OSError:
        return ""
    return ran.stdout.strip() if ran.returncode == 0 else ""


def kit() -> Optional[Path]:
    """The folder of the kit whose `rt` is in the PATH, if any is."""
    rt = shutil.which("rt")
    return Path(os.path.realpath(rt)).parent.parent if rt else None


def kit_line() -> str:
    """What `rt version` says: the kit's name and its logic."""
    folder = kit()
    if folder is None:
        return NO_KIT
    told = folder / "KIT-ID"
    if told.is_file():
        return told.read_text().strip()
    ran = subprocess.run(["rt", "version"], stdout=subprocess.PIPE, stderr=subprocess.DEVNULL, universal_newlines=True)
    return ran.stdout.strip() or NO_KIT


def _walk(folder: str) -> Iterator[os.DirEntry]:
    """The files below a folder, in one order."""
    try:
        with os.scandir(folder) as entries:
            found = sorted(entries, key=lambda it: it.name)
    except (FileNotFoundError, NotADirectoryError):
        return
    for it in found:
        if it.is_dir(follow_symlinks=False):
            yield from _walk(it.path)
        else:
            yield it


def files(top: Path = TOP) -> List[str]:
    """The files that decide what a program does, relative to `top`, in one order: crates.txt, and each crate's src/ and specs/."""
    return [os.path.relpath(path, top) for path, _ in _states(top)]


def _states(top: Path) -> Iterator[Tuple[str, os.stat_result]]:
    """Each of these files with its state."""
    listed = os.path.join(top, "crates.txt")
    yield listed, os.stat(listed)
    crates = os.path.join(top, "crates")
    for crate in sorted(os.listdir(crates)):
        for part in PARTS:
            for it in _walk(os.path.join(crates, crate, part)):
                yield it.path, it.stat()


def sum_of_sources(top: Path = TOP) -> str:
    """A sum over the names and bytes of all these files. That of TOP is kept beside the programs, with the files' states, so that
    they are read again only after one of them has changed."""
    began = time.time()
    states = list(_states(top))
    if top != TOP:
        return _sum_of_bytes(top, states)
    signature = _signature(states)
    index = paths.cache() / f"sum-{hashlib.sha256(os.fsencode(top)).hexdigest()[:16]}.json"
    told = _told_by(index, signature)
    if told:
        return told
    said = _sum_of_bytes(top, states)
    # a file that was changed just now may change again without another time or size
    if all(max(state.st_mtime, state.st_ctime) < began - SETTLED for _, state in states):
        _tell(index, signature, said)
    return said


def _sum_of_bytes(top: Path, states: List[Tuple[str, os.stat_result]]) -> str:
    total = hashlib.sha256()
    for path, _ in states:
        data = Path(path).read_bytes()
        total.update(f"{os.path.relpath(path, top)}\0{len(data)}\0".encode("utf-8", "surrogateescape"))
        total.update(data)
    return total.hexdigest()[:32]


def _signature(states: List[Tuple[str, os.stat_result]]) -> str:
    """A sum over the files' names, times, sizes and numbers, without their bytes."""
    rows = (f"{path} {it.st_mtime_ns} {it.st_ctime_ns} {it.st_size} {it.st_ino}\n" for path, it in states)
    return hashlib.sha256("".join(rows).encode("utf-8", "surrogateescape")).hexdigest()


def _told_by(index: Path, signature: str) -> str:
    try:
        said = json.loads(index.read_text())
        return said["sum"] if said["signature"] == signature else ""
    except (OSError, ValueError, KeyError, TypeError):
        return ""


def _tell(index: Path, signature: str, said: str) -> None:
    part = index.with_suffix(f".{os.getpid()}")
    try:
        index.parent.mkdir(parents=True, exist_ok=True)
        part.write_text(json.dumps({"signature": signature, "sum": said}))
        os.replace(part, index)
    except OSError:
        # without it the next call reads the files again
        pass

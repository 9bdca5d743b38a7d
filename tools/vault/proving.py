"""Proves and builds programs and all crates below them by `rt ci`, in a copy of these crates.

`rt ci` proves as many crates at a time as processors and memory allow. It keeps each proof beside the kit, by the sums of all that it read:
so a run that was ended goes on where it was, and what the gate has proved on this machine is taken here, and the other way round. The copy has
no must-fail edits, which are no part of a proof; a source that is saved meanwhile plays no part."""
from __future__ import annotations

import os
import shutil
import tempfile
import time
from pathlib import Path
from typing import Dict, List, Sequence

from . import compilation, crates, gate_log, minutes, paths, processes, sources, store
from .crates import Crate
from .errors import NoProgram, Problem
from .progress import Progress, duration
from .store import Kept, Note

GIGABYTE = 1_000_000_000
# bytes of memory that have to be free, and the most that one process may take
MEMORY = 4 * GIGABYTE
MOST = 6 * GIGABYTE
# bytes of the disk that have to be free where `rt` keeps proofs, and where it works: what is proved takes 7, and `rt` leaves 5 free
DISK = 12 * GIGABYTE
# seconds between two looks
PAUSE = 0.5
# parts of a crate's folder that are no part of its proof
LEFT_OUT = ("out", "must-fail", "README.md")
# minutes of the table after which the time that these took tells how fast this machine is
TELLING = 2.0


def build(names: Sequence[str], progress: Progress) -> Dict[str, Kept]:
    """The proved programs of these names, of the sources as they are; what isn't proved yet is proved first."""
    told, kit = sources.sum_of_sources(), sources.kit_line()
    found = {name: store.read(store.folder(told, kit) / store.file_name(name, True)) for name in names}
    missing = [name for name, kept in found.items() if kept is None]
    if missing:
        compilation.require(missing)
        require_room()
        paths.make_cache()
        with compilation.lock(paths.cache() / "proving.lock", "proving crates", progress), processes.ended_by_signals():
            found.update(prove(missing, progress))
        if sources.sum_of_sources() != told:
            progress.note("sources were saved meanwhile: what is proved is their state at the beginning")
    return {name: kept for name, kept in found.items() if kept}


def keep_passed(told: str) -> Dict[str, Kept]:
    """Keeps as proved the programs that a run of the gate, which passed, has built from the sources of this sum."""
    if sources.sum_of_sources() != told:
        raise Problem("sources changed while the gate ran, so what it has built isn't kept")
    paths.make_cache()
    commit = sources.commit()
    built = [name for name in crates.programs() if program_in(paths.TOP, name).is_file()]
    return {name: keep(name, paths.TOP, commit, told) for name in built}


def require_room() -> None:
    """Stops if there is too little memory for one crate, or too little disk for what is proved."""
    free = processes.available_memory()
    if free < MEMORY:
        raise NoProgram(f"to prove the crates {MEMORY / GIGABYTE:.0f} GB of memory have to be free, and {free / GIGABYTE:.1f} GB are")
    for place in (kept_in(), existing(paths.cache())):
        free = shutil.disk_usage(place).free
        if free < DISK:
            raise NoProgram(f"to prove the crates {DISK / GIGABYTE:.0f} GB of disk have to be free in {place}, and {free / GIGABYTE:.0f} GB are")


def existing(folder: Path) -> Path:
    """This folder, or the nearest one above it that is there."""
    return next(it for it in (folder, *folder.parents) if it.exists())


def kept_in() -> Path:
    """The folder beside the kit, in which `rt ci` keeps what is proved."""
    kit = sources.kit()
    return kit.parent if kit else Path("/")


def words_on_keeping() -> str:
    """What the next call finds of a run that was ended."""
    if os.access(kept_in(), os.W_OK):
        return "the next call goes on from there"
    return f"the next call begins anew, since `rt` keeps what is proved in {kept_in()}, which can't be written"


def prove(names: Sequence[str], progress: Progress, most: int = MOST) -> Dict[str, Kept]:
    """Proves and builds these programs in a copy of their crates, and keeps them. No process may take more than `most` bytes."""
    for left in paths.cache().glob("proving-*"):
        # of a run that was killed: whoever has the lock is the only one at work
        shutil.rmtree(left, ignore_errors=True)
    with tempfile.TemporaryDirectory(prefix="proving-", dir=paths.cache()) as folder:
        top, told, commit = Path(folder), sources.sum_of_sources(), sources.commit()
        copied = copy_crates(names, top)
        if sources.sum_of_sources() != told:
            raise Problem("sources were saved while they were copied: begin again")
        progress.note(f"proving {len(copied)} crates; Ctrl-C ends it, and {words_on_keeping()}")
        run = Run(top, copied, progress, most)
        run.wait()
        progress.note(f"all is proved and built, after {duration(progress.gone)}; {run.words_on_memory()}")
        return {name: keep(name, top, commit, told) for name in names}


def copy_crates(names: Sequence[str], top: Path) -> Dict[str, Crate]:
    """Copies these crates and all below them, so that the folder `top` is a repository of these alone."""
    every, lines = crates.read(), crates.lines()
    wanted = crates.below(list(names), every)
    for name in wanted:
        for part in sorted(every[name].folder.iterdir()):
            to = top / "crates" / name / part.name
            to.parent.mkdir(parents=True, exist_ok=True)
            if part.name not in LEFT_OUT:
                (shutil.copytree if part.is_dir() else shutil.copy2)(part, to)
    (top / "crates.txt").write_text("".join(f"{lines[name]}\n" for name in wanted), encoding="utf-8")
    if (paths.TOP / "HANDLES").exists():
        shutil.copy2(paths.TOP / "HANDLES", top)
    # `rt ci` wants to stand at the top of a repository
    (top / ".git").mkdir()
    return crates.read(top)


def program_in(top: Path, name: str) -> Path:
    """Where `rt` builds a program."""
    return top / "crates" / name / "out" / name


def keep(name: str, top: Path, commit: str, told: str) -> Kept:
    """Keeps as proved a program that was built in the folder `top` of the sources of this sum."""
    made = paths.cache() / f"{name}.{os.getpid()}"
    shutil.copy2(program_in(top, name), made)
    return store.write(made, Note(name, True, commit, told, sources.kit_line(), time.time()))


class Run:
    """A run of `rt ci` over these crates, in the folder `top`."""

    def __init__(self, top: Path, listed: Dict[str, Crate], progress: Progress, most: int) -> None:
        self.top, self.listed, self.progress, self.most = top, listed, progress, most
        self.estimate = minutes.Estimate(listed, minutes.read(paths.TOP))
        self.session = processes.Session(["rt", "ci"], top, paths.cache() / "proving.log")
        self.log = gate_log.Log(self.session.log)
        # when the first crate was told of
        self.began = 0.0
        # bytes of the largest process, and the crate that it was for
        self.peak, self.peak_of = 0, ""

    def wait(self) -> None:
        """Returns once all is proved; stops where a crate isn't, or a process takes too much."""
        try:
            while not self.session.has_ended():
                self.look()
                time.sleep(PAUSE)
            self.look()
        finally:
            self.progress.clear()
            self.session.stop()
        self.peak = max(self.peak, self.session.peak)
        if self.session.status:
            raise self.refusal("rt ci failed", self.session.end_of_log())
        for note in self.log.notes:
            self.progress.note(f"rt: {note}")

    def refusal(self, what: str, said: str) -> NoProgram:
        """The error of a run that failed; the whole log stays."""
        said = said.replace(str(self.top), str(paths.TOP))
        return NoProgram(f"{what}; rt said\n{said}\nThe whole log is {self.session.log}")

    def look(self) -> None:
        """Reads on in the log, samples memory, and shows how far it is."""
        self.log.read_on()
        if self.log.failed:
            raise self.refusal(f"{self.log.failed} isn't proved", self.log.why)
        rows = processes.rows_of(self.session.number)
        for row in rows:
            if row.resident > self.peak:
                self.peak, self.peak_of = row.resident, crate_of(row.number)
        if self.peak > self.most:
            raise NoProgram(f"{self.words_on_memory()}, and one may take {self.most / GIGABYTE:.0f} GB; the log is {self.session.log}")
        self.began = self.began or self.log.has_begun * time.monotonic()
        self.progress.show(self.words(sorted({crate_of(row.number) for row in rows} - {""})))

    def words_on_memory(self) -> str:
        """What memory was taken."""
        return f"the largest process took {self.peak / GIGABYTE:.1f} GB" + (f", for {self.peak_of}" if self.peak_of else "")

    def words(self, busy: List[str]) -> str:
        """How far it is, and which crates are being proved."""
        now = f": {', '.join(busy)}" if busy else "" if self.log.has_begun else ": `rt` reads the crates"
        gone, left = duration(self.progress.gone), duration(self.seconds_left())
        return f"{len(self.log.done)} of {len(self.listed)} crates, {gone} gone, about {left} left{now}"

    def seconds_left(self) -> float:
        """The time until all is proved, by the table of minutes, and how this machine kept to it so far."""
        at_once = processes.processors()
        told = sum(self.estimate.minutes[name] for name in self.log.proved) / at_once
        pace = (time.monotonic() - self.began) / told if told > TELLING else 60.0
        return pace * self.estimate.left([name for name in self.listed if name not in self.log.done], at_once)


def crate_of(process: int) -> str:
    """The crate that a process proves or builds; nothing if it does neither."""
    words = processes.words_of(process).split(b"\0")
    at = words.index(b"--crate-name") + 1 if b"--crate-name" in words else len(words)
    return words[at].decode("utf-8", "replace") if at < len(words) else ""

"""Processes that are started for long work: which belong together, what memory they take, and how they are ended."""
from __future__ import annotations

import contextlib
import os
import signal
import subprocess
import sys
import time
from pathlib import Path
from typing import Dict, Iterator, List, NamedTuple, Sequence

# seconds that a process has to end its own children in
GRACE = 10.0
PAGE = os.sysconf("SC_PAGE_SIZE")


class Session:
    """A command in a session of its own, with no input, whose output goes into a file."""

    def __init__(self, words: Sequence[str], folder: Path, log: Path, **variables: str) -> None:
        self.log = log
        with open(log, "wb") as file:
            self._process = subprocess.Popen(
                list(words),
                cwd=folder,
                stdin=subprocess.DEVNULL,
                stdout=file,
                stderr=file,
                env={**os.environ, **variables},
                start_new_session=True,
            )
        self.began = time.monotonic()
        # bytes that the largest process took at its peak, as far as is known
        self.peak = 0

    @property
    def number(self) -> int:
        """The number of the process, which is that of its session too."""
        return self._process.pid

    def has_ended(self) -> bool:
        """Whether the command has ended. Its peak is known then."""
        if self._process.returncode is None:
            ended, status, used = os.wait4(self.number, os.WNOHANG)
            if ended:
                code = os.WEXITSTATUS(status) if os.WIFEXITED(status) else -os.WTERMSIG(status)
                self._process.returncode = code
                self.peak = max(self.peak, used.ru_maxrss * 1024)
        return self._process.returncode is not None

    @property
    def status(self) -> int:
        """The status of a command that has ended, or the negative number of the signal that ended it."""
        return self._process.returncode

    def end_of_log(self, lines: int = 20) -> str:
        """The last lines that the command wrote."""
        text = self.log.read_text(encoding="utf-8", errors="replace")
        return "\n".join(text.splitlines()[-lines:])

    def stop(self) -> None:
        """Ends the command and all that it started."""
        below = descendants(self.number)
        if not self.has_ended():
            self._process.send_signal(signal.SIGTERM)
            until = time.monotonic() + GRACE
            while not self.has_ended() and time.monotonic() < until:
                time.sleep(0.02)
        for number in {*below, *descendants(self.number)}:
            with contextlib.suppress(ProcessLookupError, PermissionError):
                os.kill(number, signal.SIGKILL)
        while not self.has_ended():
            time.sleep(0.02)


def descendants(session: int) -> List[int]:
    """The processes of a session, and those below one of them, which may have begun sessions of their own."""
    found, rows = {session}, list(_processes())
    for _ in rows:
        more = {it.number for it in rows if it.parent in found or it.session in found} - found
        if not more:
            break
        found |= more
    return sorted(found - {os.getpid()})


def rows_of(session: int) -> List[Row]:
    """The processes of a session as they are now."""
    return [it for it in _processes() if it.session == session]


class Row(NamedTuple):
    """A process: its number, its parent's, its session's, and its resident memory in bytes."""

    number: int
    parent: int
    session: int
    resident: int


def _processes() -> Iterator[Row]:
    """Each process that there is."""
    for name in os.listdir("/proc"):
        if name.isdigit():
            try:
                said = Path(f"/proc/{name}/stat").read_text(errors="replace")
            except OSError:
                continue
            # the command's name before the bracket may have anything in it
            fields = said.rpartition(")")[2].split()
            yield Row(int(name), int(fields[1]), int(fields[3]), int(fields[21]) * PAGE)


def children(process: int) -> List[int]:
    """The processes that this one started itself, if the system tells."""
    try:
        return [int(it) for it in Path(f"/proc/{process}/task/{process}/children").read_text().split()]
    except (OSError, ValueError):
        return []


def words_of(process: int) -> bytes:
    """The words of a process, each with a byte 0 behind it."""
    try:
        return Path(f"/proc/{process}/cmdline").read_bytes()
    except OSError:
        return b""


# of both versions of control groups: the limit on memory, and where it stands how much of it is taken and can't be given back
GROUPS = (
    ("/sys/fs/cgroup/memory.max", "/sys/fs/cgroup/memory.stat", "anon"),
    ("/sys/fs/cgroup/memory/memory.limit_in_bytes", "/sys/fs/cgroup/memory/memory.stat", "total_rss"),
)
# and the quota of processor time with its period
QUOTA = "/sys/fs/cgroup/cpu.max"


def available_memory() -> int:
    """The memory in bytes that processes can have without swapping, also within a container's limit; 0 if the system doesn't tell."""
    found = []
    with contextlib.suppress(OSError, ValueError, KeyError):
        found.append(_table("/proc/meminfo")["MemAvailable:"] * 1024)
    for limit, taken, row in GROUPS:
        with contextlib.suppress(OSError, ValueError, KeyError):
            found.append(int(Path(limit).read_text()) - _table(taken)[row])
    return max(0, min(found, default=0))


def _table(file: str) -> Dict[str, int]:
    """A file of the system with a name and a number in each line."""
    rows = (line.split() for line in Path(file).read_text().splitlines())
    return {row[0]: int(row[1]) for row in rows if len(row) > 1}


def processors() -> int:
    """How many processors this process may use: those that it may run on, or fewer by a container's quota."""
    count = len(os.sched_getaffinity(0))
    with contextlib.suppress(OSError, ValueError):
        quota, period = (int(it) for it in Path(QUOTA).read_text().split())
        count = min(count, max(1, quota // period))
    return count


@contextlib.contextmanager
def ended_by_signals() -> Iterator[None]:
    """Has a request to end run the `finally` blocks, which end the children."""

    def end(number: int, _: object) -> None:
        sys.exit(128 + number)

    were = {it: signal.signal(it, end) for it in (signal.SIGTERM, signal.SIGHUP)}
    try:
        yield
    finally:
        for it, was in were.items():
            signal.signal(it, was)

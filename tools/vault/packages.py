"""Packages of the proved program: a tarball and a Debian package, the same bytes from the same files, with their sums.

Formats: the tarball is of POSIX.1-2001 (ustar), the package of deb(5)."""
from __future__ import annotations

import gzip
import hashlib
import io
import os
import re
import tarfile
from pathlib import Path, PurePosixPath
from typing import Dict, Iterable, List, Set

from . import sources
from .errors import Problem
from .installation import Item
from .records import replace

ARCHITECTURE, PLATFORM = "amd64", "linux-x86_64"

CONTROL = """\
Package: vault
Version: {version}
Section: devel
Priority: optional
Architecture: {architecture}
Depends: python3 (>= 3.8)
Installed-Size: {kilobytes}
Maintainer: Telltalefig maintainers <maintainers@telltalefig.example>
Description: checks, runs and compiles programs in Vault
 Finds objects that are used in a wrong state, used after release, or never
 released, before anything runs. That accepted programs do none of these is
 proved of the checker's own code.
"""

CLOSING_LINES = 12
"""How many lines of what `rt ci` wrote go beside the packages."""

RESULT = re.compile(r"\d+ passed, \d+ failed")
"""The last line of `rt ci`, and that of the tools' tests after it."""


def archive(items: Iterable[Item], top: str, when: int) -> bytes:
    """A tar file of items below the folder `top`: in the order of their paths, all of root, and of the time `when`."""
    buffer = io.BytesIO()
    made: Set[PurePosixPath] = set()
    with tarfile.open(fileobj=buffer, mode="w", format=tarfile.USTAR_FORMAT) as tar:
        for item in sorted(items, key=lambda it: it.path):
            for folder in reversed(item.path.parents):
                if folder not in made:
                    made.add(folder)
                    tar.addfile(member(folder_name(top, folder), when, mode=0o755, kind=tarfile.DIRTYPE))
            name = f"{top}/{item.path}"
            if item.link:
                link = member(name, when, mode=0o777, kind=tarfile.SYMTYPE)
                link.linkname = item.link
                tar.addfile(link)
            else:
                file = member(name, when, mode=item.mode, kind=tarfile.REGTYPE)
                file.size = len(item.data)
                tar.addfile(file, io.BytesIO(item.data))
    return buffer.getvalue()


def folder_name(top: str, folder: PurePosixPath) -> str:
    """The name of a folder in a tar file; the empty path is the top itself."""
    return top if folder == PurePosixPath(".") else f"{top}/{folder}"


def member(name: str, when: int, mode: int, kind: bytes) -> tarfile.TarInfo:
    """The head of a member that says nothing of who made it."""
    head = tarfile.TarInfo(name)
    head.mtime, head.mode, head.type = when, mode, kind
    head.uname = head.gname = "root"
    return head


def zipped(data: bytes) -> bytes:
    """Data as gzip writes them, without a name and a time."""
    buffer = io.BytesIO()
    with gzip.GzipFile(filename="", fileobj=buffer, mode="wb", compresslevel=9, mtime=0) as file:
        file.write(data)
    return buffer.getvalue()


def tarball(items: List[Item], name: str, when: int) -> bytes:
    """The tarball: one folder, which has what is installed below a prefix."""
    return zipped(archive(items, name, when))


def debian_package(items: List[Item], version: str, when: int) -> bytes:
    """The Debian package: all items below /usr."""
    below_usr = [replace(item, path=PurePosixPath("usr") / item.path) for item in items]
    kilobytes = sum(len(item.data) for item in items) // 1024 + 1
    control = CONTROL.format(version=version, architecture=ARCHITECTURE, kilobytes=kilobytes)
    sums = "".join(f"{hashlib.md5(it.data).hexdigest()}  {it.path}\n" for it in below_usr if not it.link)
    about = [Item(PurePosixPath("control"), control.encode()), Item(PurePosixPath("md5sums"), sums.encode())]
    parts = {
        "debian-binary": b"2.0\n",
        "control.tar.gz": zipped(archive(about, ".", when)),
        "data.tar.gz": zipped(archive(below_usr, ".", when)),
    }
    return common_archive(parts, when)


def common_archive(parts: Dict[str, bytes], when: int) -> bytes:
    """An archive of ar(5)."""
    data = b"!<arch>\n"
    for name, part in parts.items():
        data += f"{name:<16}{when:<12}{0:<6}{0:<6}{100644:<8}{len(part):<10}`\n".encode()
        data += part + b"\n" * (len(part) % 2)
    return data


def closing_lines(log: Path) -> str:
    """The end of what `rt ci` wrote into a log of the gate, and the last line of the tools' tests if they ran; both have to say that
    nothing failed."""
    try:
        lines = log.read_text(encoding="utf-8", errors="replace").splitlines()
    except OSError as error:
        raise Problem(f"{log}: {error.strerror}")
    results = [number for number, line in enumerate(lines) if RESULT.fullmatch(line)]
    told = sorted({*results[:1], *results[-1:]})
    if not told or any(not lines[number].endswith(" passed, 0 failed") for number in told):
        raise Problem(f"{log}: it doesn't say 'N passed, 0 failed' of the proofs and of the tests, so this isn't the log of a gate that passed")
    end = told[0] + 1
    return "".join(f"{line}\n" for line in [*lines[max(0, end - CLOSING_LINES) : end], *(lines[number] for number in told[1:])])


def write_packages(items: List[Item], folder: Path, gate: str, suffix: str = "") -> List[Path]:
    """Writes the tarball, the package, the closing lines of the gate if there are any, and the sums of them all."""
    version, when = sources.version(), commit_time()
    name = f"vault-{version}-{PLATFORM}{suffix}"
    made = {
        f"{name}.tar.gz": tarball(items, name, when),
        f"vault_{version}_{ARCHITECTURE}{suffix}.deb": debian_package(items, version, when),
    }
    if gate:
        made["GATE"] = gate.encode()
    made["SHA256SUMS"] = "".join(f"{hashlib.sha256(data).hexdigest()}  {file}\n" for file, data in made.items()).encode()
    try:
        folder.mkdir(parents=True, exist_ok=True)
        for file, data in made.items():
            (folder / file).write_bytes(data)
    except OSError as error:
        raise Problem(f"{error.filename}: {error.strerror}", 3)
    return [folder / file for file in made]


def commit_time() -> int:
    """The time of the commit, in seconds since 1970, or what SOURCE_DATE_EPOCH says: so the same commit gives the same bytes."""
    told = os.environ.get("SOURCE_DATE_EPOCH", "")
    if told.isdigit():
        return int(told)
    return int(sources.ask_git("log", "-1", "--format=%ct") or 0)

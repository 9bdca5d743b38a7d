"""What is installed below a prefix: programs, the tools, man pages, completions, files of editors, and the runtime of C texts.

The layout is that of the Filesystem Hierarchy Standard: PREFIX/bin has the commands, PREFIX/lib/vault the programs, PREFIX/share/vault
everything that the tools read."""
from __future__ import annotations

import os
import subprocess
from pathlib import Path, PurePosixPath
from typing import Iterator, List, Optional, Sequence

import json

from . import completions, manual, paths, programs, sources, store
from .errors import NoProgram, Problem
from .records import dataclass, replace

PROGRAMS = ("vaultc", "vaultq")
"""The programs that are installed, those that these sources have."""

SHARED = ("VERSION", "README.md", "bin/vault", "bin/vaultc", "bin/vaultq", "tools/vault", "docs", "runtime", "build", "lib", "editors", "examples")
"""The files and folders of the repository that go to PREFIX/share/vault."""

LEFT_OUT = ("tools/vault/tests/",)

PLAIN, RUNNABLE = 0o644, 0o755


@dataclass(frozen=True)
class Item:
    """A file below the prefix: its path, its bytes and its mode; or, if `link` is told, a symbolic link to it."""

    path: PurePosixPath
    data: bytes = b""
    mode: int = PLAIN
    link: str = ""


def tracked_files() -> List[str]:
    """The files of the repository that are installed, relative to its top."""
    words = ["git", "-C", str(paths.TOP), "ls-files", "-z", "--", *SHARED]
    try:
        listed = subprocess.run(words, stdout=subprocess.PIPE, stderr=subprocess.PIPE, check=True).stdout
    except (OSError, subprocess.CalledProcessError):
        raise Problem(f"{paths.TOP} is no clone of the repository: git can't list its files")
    names = (os.fsdecode(name) for name in listed.split(b"\0") if name)
    return sorted(name for name in names if not name.startswith(LEFT_OUT))


def kept_programs(is_proved: bool) -> List[store.Kept]:
    """The programs of these sources: proved ones, or those without proofs."""
    names = [name for name in PROGRAMS if (paths.TOP / "crates" / name / "src" / "main.rt").is_file()]
    found = [programs.find(name) for name in names]
    lacking = [name for name, it in zip(names, found) if it is None or (is_proved and not it.note.proved)]
    if lacking:
        how = "'vault build --proved' makes it" if is_proved else "'vault build' makes it"
        raise NoProgram(f"no {'proved ' * is_proved}{' and no '.join(lacking)} of these sources is kept; {how}")
    return [it for it in found if it]


def program_items(kept: store.Kept) -> Iterator[Item]:
    """A program with its note, and the command that runs it."""
    name = kept.note.name
    at = PurePosixPath("lib/vault") / name
    yield Item(at, kept.path.read_bytes(), RUNNABLE)
    # the loader is the kit's, and another machine need not have it
    note = replace(kept.note, loader=tuple(kept.note.loader))
    yield Item(at.with_name(f"{name}.json"), (json.dumps(vars(note), indent=2) + "\n").encode())
    yield Item(PurePosixPath("bin") / name, link=f"../share/vault/bin/{name}" if kept.note.loader else f"../lib/vault/{name}")


def shared_items() -> Iterator[Item]:
    """What goes to PREFIX/share/vault."""
    share = PurePosixPath("share/vault")
    for name in tracked_files():
        file = paths.TOP / name
        mode = RUNNABLE if os.access(file, os.X_OK) else PLAIN
        yield Item(share / name, file.read_bytes(), mode)
    yield Item(share / "COMMIT", f"{sources.commit()}\n".encode())


def reading_items() -> Iterator[Item]:
    """Man pages, completions and files of Vim, where each program looks for them."""
    pages = {"vault.1": manual.text().encode()}
    pages.update({file.name: file.read_bytes() for file in sorted((paths.TOP / "docs").glob("*.1"))})
    for name, data in pages.items():
        yield Item(PurePosixPath("share/man/man1") / name, data)
    bash = PurePosixPath("share/bash-completion/completions")
    yield Item(bash / "vault", completions.text("bash").encode())
    for name in PROGRAMS:
        yield Item(bash / name, link="vault")
    yield Item(PurePosixPath("share/zsh/site-functions/_vault"), completions.text("zsh").encode())
    yield Item(PurePosixPath("share/fish/vendor_completions.d/vault.fish"), completions.text("fish").encode())
    vim = paths.TOP / "editors" / "vim"
    for file in sorted(vim.rglob("*.vim")):
        yield Item(PurePosixPath("share/vim/vimfiles") / file.relative_to(vim).as_posix(), file.read_bytes())


def items(kept: Sequence[store.Kept]) -> List[Item]:
    """All that is installed, in the order of paths."""
    found = [Item(PurePosixPath("bin/vault"), link="../share/vault/bin/vault"), *shared_items(), *reading_items()]
    for it in kept:
        found += program_items(it)
    return sorted(found, key=lambda it: it.path)


def put(item: Item, prefix: Path) -> None:
    """Puts an item below the prefix; it replaces what is there only once it is whole."""
    path = prefix / item.path
    part = path.with_name(f".{path.name}.{os.getpid()}")
    path.parent.mkdir(parents=True, exist_ok=True)
    if item.link:
        part.symlink_to(item.link)
    else:
        part.write_bytes(item.data)
        part.chmod(item.mode)
    os.replace(part, path)


def remove(prefix: Path, names: Sequence[PurePosixPath]) -> None:
    """Removes files below the prefix, and the folders that are empty then."""
    for name in names:
        path = prefix / name
        if path.is_symlink() or path.exists():
            path.unlink()
        for folder in path.parents:
            if folder == prefix or not folder.is_dir() or any(folder.iterdir()):
                break
            folder.rmdir()


LIST = PurePosixPath("share/vault/INSTALLED")
"""The list of all that was installed, a path a line."""


def install(prefix: Path, kept: Sequence[store.Kept]) -> int:
    """Installs everything, in the place of what an earlier call installed; how many files these are."""
    found = items(kept)
    try:
        old = installed(prefix)
        for item in found:
            put(item, prefix)
        put(Item(LIST, "".join(f"{item.path}\n" for item in [*found, Item(LIST)]).encode()), prefix)
        remove(prefix, sorted(set(old or ()) - {item.path for item in found} - {LIST}))
    except OSError as error:
        raise Problem(f"{error.filename}: {error.strerror}")
    return len(found) + 1


def installed(prefix: Path) -> Optional[List[PurePosixPath]]:
    """The paths that an earlier call installed; None if there was none."""
    try:
        return [PurePosixPath(line) for line in (prefix / LIST).read_text(encoding="utf-8").splitlines()]
    except FileNotFoundError:
        return None


def uninstall(prefix: Path) -> int:
    """Removes what was installed; how many files these were."""
    found = installed(prefix)
    if found is None:
        raise Problem(f"nothing is installed below {prefix}")
    try:
        remove(prefix, found)
    except OSError as error:
        raise Problem(f"{error.filename}: {error.strerror}")
    return len(found)

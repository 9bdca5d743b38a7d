"""Writes files, so that they are whole at each moment where they replace others."""
from __future__ import annotations

import os
import tempfile
from pathlib import Path

from .errors import OUTPUT_FAILED, Problem


def replace_file(path: Path, data: bytes) -> None:
    """Writes a text in the place of a file's; if that fails the file is as before."""
    path = Path(os.path.realpath(path))
    try:
        mode = path.stat().st_mode & 0o7777
        handle, part = tempfile.mkstemp(prefix=f".{path.name}.", dir=path.parent)
        try:
            with open(handle, "wb") as file:
                file.write(data)
            os.chmod(part, mode)
            os.replace(part, path)
        except BaseException:
            os.unlink(part)
            raise
    except OSError as error:
        raise Problem(f"{path}: {error.strerror}", OUTPUT_FAILED)


def write_file(path: Path, data: bytes) -> None:
    """Writes a file; its folder has to be there."""
    try:
        path.write_bytes(data)
    except OSError as error:
        raise Problem(f"{path}: {error.strerror}", OUTPUT_FAILED)

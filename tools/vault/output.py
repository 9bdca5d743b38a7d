"""Standard output that says by one exception that it takes no more."""
from __future__ import annotations

import io
import os
import sys

from .errors import OutputFailed


class _Output(io.FileIO):
    """The file behind standard output: an error of the system becomes OutputFailed, and then nothing is written any more."""

    def write(self, data):  # type: ignore[override]
        try:
            return super().write(data)
        except BrokenPipeError:
            self._drop()
            raise OutputFailed("")
        except OSError as error:
            self._drop()
            raise OutputFailed(f"standard output: {error.strerror}")

    def _drop(self) -> None:
        """Sends to nowhere what is still buffered, so that closing the file doesn't fail once more."""
        nowhere = os.open(os.devnull, os.O_WRONLY)
        os.dup2(nowhere, self.fileno())
        os.close(nowhere)


def tell(message: str) -> None:
    """Writes a line on standard error, if somebody reads it."""
    try:
        sys.stderr.write(f"vault: {message}\n")
        sys.stderr.flush()
    except OSError:
        pass


def guard() -> None:
    """Makes sys.stdout such a file: UTF-8, and bytes of file names that aren't, are written as they came."""
    if sys.stderr is None:
        # closed by the caller, as by `2>&-`
        sys.stderr = open(os.devnull, "w")
    try:
        file = _Output(1, "w", closefd=False)
    except OSError:
        sys.stdout = open(os.devnull, "w")
        return
    buffer = io.BufferedWriter(file)
    sys.stdout = io.TextIOWrapper(buffer, encoding="utf-8", errors="surrogateescape", line_buffering=file.isatty())

"""How far long work is, on standard error: a line that is written anew on terminals, else a line now and then."""
from __future__ import annotations

import shutil
import sys
import time
from typing import Optional, TextIO

# seconds between lines where standard error is no terminal
SELDOM = 30.0


def duration(seconds: float) -> str:
    """A time in words: `42 s`, `3 min 5 s` or `2 h 10 min`."""
    whole = int(seconds)
    if whole < 60:
        return f"{whole} s"
    if whole < 3600:
        return f"{whole // 60} min {whole % 60} s"
    return f"{whole // 3600} h {whole % 3600 // 60} min"


class Progress:
    """Lines on how far something is. `show` may be called often; `note` writes a line that stays."""

    def __init__(self, stream: Optional[TextIO] = None, seldom: float = SELDOM) -> None:
        self.stream = stream or sys.stderr
        self.is_terminal = self.stream.isatty()
        self.seldom = seldom
        self.began = time.monotonic()
        self._shown = ""
        self._last = self.began

    @property
    def gone(self) -> float:
        """Seconds since the beginning."""
        return time.monotonic() - self.began

    def show(self, text: str) -> None:
        """Shows this text until another one comes; where no terminal shows it, at most one text in `seldom` seconds is written."""
        if self.is_terminal:
            most = shutil.get_terminal_size().columns - 1
            text = f"vault: {text}"[:most]
            if text != self._shown:
                self._write("\r\033[K" + text)
                self._shown = text
        elif time.monotonic() - self._last >= self.seldom:
            self._last = time.monotonic()
            self._write(f"vault: {text}\n")

    def note(self, text: str) -> None:
        """Writes a line that stays."""
        self.clear()
        self._last = time.monotonic()
        self._write(f"vault: {text}\n")

    def clear(self) -> None:
        """Takes away what is shown."""
        if self._shown:
            self._write("\r\033[K")
            self._shown = ""

    def _write(self, text: str) -> None:
        try:
            self.stream.write(text)
            self.stream.flush()
        except OSError:
            # whoever read this has gone; the work goes on
            self.is_terminal, self.seldom = False, float("inf")

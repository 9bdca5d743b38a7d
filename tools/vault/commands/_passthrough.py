"""Commands of `vaultc` that are handed on as they are."""
from __future__ import annotations

from typing import NoReturn, Sequence

from .. import programs


def become(command: str, words: Sequence[str]) -> NoReturn:
    """Goes on as `vaultc COMMAND WORDS`: what it writes, its status and its signals are the caller's."""
    programs.take("vaultc").become([command, *words])

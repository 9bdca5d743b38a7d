"""What goes wrong in the tools themselves."""
from __future__ import annotations

UNREAD = 2
OUTPUT_FAILED = 3
NO_PROGRAM = 70


class Problem(Exception):
    """An error that ends a command: `message` is a line for standard error, `status` the status of the command."""

    def __init__(self, message: str, status: int = 1) -> None:
        super().__init__(message)
        self.message = message
        self.status = status


class NoProgram(Problem):
    """There is no program to ask, and none could be built."""

    def __init__(self, message: str) -> None:
        super().__init__(message, NO_PROGRAM)


class OutputFailed(Problem):
    """Standard output takes no more; the message is empty where its reader has gone, as `head` does."""

    def __init__(self, message: str) -> None:
        super().__init__(message, OUTPUT_FAILED)

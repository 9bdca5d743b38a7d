"""Work for several values side by side, in threads: programs are asked, and waited for. `concurrent.futures` would do, and takes longer to
import than a program to answer."""
from __future__ import annotations

import threading
from collections import deque
from typing import Callable, List, Sequence, TypeVar

Value = TypeVar("Value")
Found = TypeVar("Found")


def mapped(work: Callable[[Value], Found], values: Sequence[Value], jobs: int) -> List[Found]:
    """What the work gives for each value, at most `jobs` at a time; the first error is raised once all that has begun has ended."""
    if len(values) < 2 or jobs < 2:
        return [work(value) for value in values]
    left, found, errors = deque(range(len(values))), {}, {}

    def go_on() -> None:
        while left and not errors:
            try:
                number = left.popleft()
            except IndexError:
                return
            try:
                found[number] = work(values[number])
            except Exception as error:
                errors[number] = error

    threads = [threading.Thread(target=go_on) for _ in range(min(jobs, len(values)))]
    for thread in threads:
        thread.start()
    for thread in threads:
        thread.join()
    if errors:
        raise errors[min(errors)]
    return [found[number] for number in range(len(values))]

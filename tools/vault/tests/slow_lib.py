"""The four programs of lib/ under load: no leak by ASan, and memory that doesn't grow. VAULT_LOAD_SECONDS says for how many seconds each of them runs."""
from __future__ import annotations

import contextlib
import os
import random
import socket
import subprocess
import threading
import time
import unittest
from pathlib import Path
from typing import Callable, Iterator, List

from vault.tests import test_lib

SECONDS = float(os.environ.get("VAULT_LOAD_SECONDS", "5"))
GROWTH = 2 << 20  # bytes of resident memory in the last two thirds of a run
PAGE = os.sysconf("SC_PAGE_SIZE")
CLIENTS = 3


class Load(test_lib.Compiled):
    def test_the_copier(self) -> None:
        pipe = self.folder / "pipe"
        os.mkfifo(pipe)
        sent = 0

        def feed(_: subprocess.Popen) -> None:
            nonlocal sent
            piece = bytes(range(256)) * 64
            with open(pipe, "wb") as stream:
                for _ in ticks():
                    sent += stream.write(piece)

        self.assertEqual(self.run_for("copy", ["pipe", "/dev/null"], feed), [0])
        self.report("copy", f"{sent} bytes")

    def test_the_log(self) -> None:
        sent = 0

        def feed(process: subprocess.Popen) -> None:
            nonlocal sent
            assert process.stdin is not None
            lines = b"".join(b"%d %s\n" % (number, b"x" * (number % 100)) for number in range(2000))
            for _ in ticks():
                sent += process.stdin.write(lines)
                self.remove_old_files()
            process.stdin.close()

        size, files, error = self.run_for("log", ["1000000", "out"], feed)
        self.assertEqual((size, error), (sent, 0))
        self.report("log", f"{sent} bytes in {files} files")

    def remove_old_files(self) -> None:
        files = sorted(self.folder.glob("out.*"), key=lambda it: int(it.suffix[1:]))
        for file in files[:-2]:
            file.unlink()

    def test_the_echo_service(self) -> None:
        sent: List[int] = []

        def feed(process: subprocess.Popen) -> None:
            assert process.stdin is not None and process.stdout is not None
            process.stdin.write(b"0 1000000000 5000\n")
            process.stdin.close()
            address = ("127.0.0.1", int(process.stdout.readline()))
            clients = [threading.Thread(target=connect, args=(address, sent)) for _ in range(CLIENTS)]
            for client in clients:
                client.start()
            for client in clients:
                client.join()

        *served, failures = self.run_for("echo_blocks", [], feed)
        self.assertEqual((sum(served), failures), (sum(sent), 0))
        self.assertEqual(len(served), len(sent))
        self.report("echo_blocks", f"{len(sent)} connections, {sum(sent)} bytes sent back")

    def test_the_pool(self) -> None:
        chance = random.Random(1)
        lent = given = 0

        def feed(process: subprocess.Popen) -> None:
            nonlocal lent, given
            assert process.stdin is not None
            process.stdin.write(b"50 0\n")
            for _ in ticks():
                requests = [chance.randint(0, 1) for _ in range(1000)]
                given += len(requests)
                for request in requests:
                    lent = min(lent + 1, 50) if request else max(lent - 1, 0)
                process.stdin.write(" ".join(map(str, requests)).encode() + b"\n")
            process.stdin.close()

        free, out, refused, is_long_enough = self.run_for("pool", [], feed)
        self.assertEqual((free, out, is_long_enough), (50 - lent, lent, 1))
        self.report("pool", f"{given} requests, {refused} refused")

    def run_for(self, name: str, words: List[str], feed: Callable[[subprocess.Popen], None]) -> List[int]:
        """The numbers that a program prints which is fed for the time; its memory stays, and nothing is said of errors."""
        program = self.build(name)
        options = {"ASAN_OPTIONS": "quarantine_size_mb=1:detect_leaks=1", "UBSAN_OPTIONS": "print_stacktrace=1"}
        process = subprocess.Popen(
            [str(program), *words], cwd=self.folder, stdin=subprocess.PIPE, stdout=subprocess.PIPE, stderr=subprocess.PIPE,
            env={**test_lib.environment(None), **options},
        )
        self.addCleanup(process.kill)
        with resident(process) as sizes:
            feed(process)
        if process.stdin is not None and process.stdin.closed:
            process.stdin = None
        printed, errors = process.communicate(timeout=test_lib.LONGEST)
        self.assertEqual((process.returncode, errors), (0, b""))
        later = sizes[len(sizes) // 3 :]
        self.assertLess(later[-1] - later[0], GROWTH)
        self.most = max(sizes)
        return [int(line) for line in printed.split()]

    def report(self, name: str, what: str) -> None:
        print(f"{name}: {what} in {SECONDS:g} seconds, at most {self.most / 1e6:.1f} MB", flush=True)


def ticks() -> Iterator[None]:
    """Goes on until the time is over."""
    end = time.monotonic() + SECONDS
    while time.monotonic() < end:
        yield


def connect(address: "tuple[str, int]", sent: List[int]) -> None:
    """Connections one after another until the time is over, each with all its bytes sent back."""
    data = bytes(range(256)) * 160
    for _ in ticks():
        if test_lib.returned(address, data) == data:
            sent.append(len(data))


@contextlib.contextmanager
def resident(process: subprocess.Popen) -> Iterator[List[int]]:
    """The resident memory of a process, in bytes, taken again and again."""
    sizes: List[int] = []
    is_over = threading.Event()
    file = Path(f"/proc/{process.pid}/statm")

    def watch() -> None:
        while not is_over.wait(SECONDS / 50):
            with contextlib.suppress(OSError, IndexError):
                sizes.append(int(file.read_text().split()[1]) * PAGE)

    watcher = threading.Thread(target=watch)
    watcher.start()
    try:
        yield sizes
    finally:
        is_over.set()
        watcher.join()


if __name__ == "__main__":
    unittest.main()

"""The interfaces of lib/ and the programs that use them, compiled with sanitizers and run with failures."""
from __future__ import annotations

import contextlib
import errno
import io
import os
import shutil
import socket
import struct
import subprocess
import tempfile
import unittest
from pathlib import Path
from typing import Dict, List, Optional, Sequence, Set

from vault import cli, paths, programs

LIB = paths.TOP / "lib"
HOSTS = paths.TOP / "examples" / "hosts"
RUNTIME = paths.TOP / "runtime"
OWN = Path(__file__).parent / "lib"
DRIVERS = Path(__file__).parent / "drivers"
FAULTS = OWN / "faults.c"
WARNINGS = ["-std=c99", "-Wall", "-Wextra", "-pedantic", "-Werror"]
SANITIZE = ["-fsanitize=address,undefined", "-fno-sanitize-recover=all", "-g"]
THREADS = ["-fsanitize=thread", "-fno-sanitize-recover=all", "-g", "-O1"]
WRAPPED = ("read", "write", "recv", "send", "poll", "socket", "listen", "accept", "close", "malloc", "calloc", "getrandom", "nanosleep")
INTERFACES = ("word", "file", "block", "block_file", "socket", "block_socket", "random", "time", "mutex")
PROGRAMS = {
    "copy": ("file",),
    "log": ("word", "file", "block", "block_file"),
    "echo_blocks": ("block", "socket", "block_socket"),
    "pool": ("block", "random", "time", "mutex"),
}
LONGEST = 300  # seconds that a run may take on a busy machine


def joined(interfaces: Sequence[str], program: str) -> str:
    """The text of a program behind the interfaces that it uses."""
    return "".join((LIB / f"{name}.v").read_text(encoding="utf-8") for name in interfaces) + program


CALLED = """\
install: the library hasn't begun
average: p must be held@on
faster 0
average 107
remove: p must be held@off
stop: p must be held@on
trap 2
trap 2
92 blocks
"""

DRIVER = """\
stateset wire { idle, busy }
abstract port@wire;
struct job {
    int bytes;
}
extern tracked(P) port open_port() [new P@idle];
extern void start(tracked(P) port p, int bytes) [P@idle->busy];
extern int sent(tracked(P) port p) [P@busy->idle];
extern void shut(tracked(P) port p) [-P@idle];
void main() {
    tracked(P) port p = open_port();
    int left = 12;
    while (left > 0) {
        tracked(J) job j = new job { bytes: left };
        start(p, j.bytes);
        int count = sent(p);
        left = left - count;
        release j;
    }
    shut(p);
    left = 7 / LEFT;
}
"""


class Compiled(unittest.TestCase):
    """A folder for what is compiled, and the programs in it."""

    def setUp(self) -> None:
        if shutil.which("cc") is None:
            self.skipTest("there is no C compiler")
        folder = tempfile.TemporaryDirectory()
        self.addCleanup(folder.cleanup)
        self.folder = Path(folder.name)

    def bind(self, name: str, text: str) -> Path:
        """Writes the C text and the host's files of a program."""
        source, emitted = self.folder / f"{name}.v", self.folder / f"{name}.c"
        source.write_text(text, encoding="utf-8")
        answer = programs.take("vaultc").ask(["emit", str(source)])
        self.assertEqual(answer.status, 0, answer.output)
        emitted.write_text(answer.output, encoding="utf-8")
        with contextlib.redirect_stdout(io.StringIO()):
            self.assertEqual(cli.dispatch(["bind", "host", str(emitted), "--name", "lib", "--to", str(self.folder)]), 0)
        return emitted

    def build(self, name: str) -> Path:
        """Compiles a program of examples/hosts."""
        return self.build_from(HOSTS / f"{name}.v", PROGRAMS[name])

    def build_from(self, source: Path, interfaces: Sequence[str], *hosts: Path, sanitize: Sequence[str] = SANITIZE) -> Path:
        """Compiles a program behind interfaces, with the calls of the system through faults.c; `hosts` have its own externals."""
        emitted = self.bind(source.stem, joined(interfaces, source.read_text(encoding="utf-8")))
        files = [RUNTIME / it for it in ("vault_main.c", "vault_rt.c", "numbers.c", "vault_bind.c")]
        files += [self.folder / "lib_host.c", LIB / "common.c", FAULTS, *hosts, *(LIB / f"{it}.c" for it in interfaces)]
        words = ["cc", *WARNINGS, *sanitize, "-pthread", "-DVAULT_REUSE", f'-DVAULT_PROGRAM="{emitted}"', "-I", str(self.folder), "-I", str(RUNTIME), "-I", str(LIB)]
        words += [f"-Wl,--wrap={call}" for call in WRAPPED]
        program = self.folder / source.stem
        subprocess.run([*words, *map(str, files), "-o", str(program)], check=True)
        return program


class Library(Compiled):
    def output(self, program: Path, *words: str, given: str = "", faults: Optional[str] = None) -> List[int]:
        """The numbers that a program prints; it has to end with status 0."""
        done = subprocess.run(
            [str(program), *words], cwd=self.folder, input=given, stdout=subprocess.PIPE, stderr=subprocess.PIPE, universal_newlines=True,
            timeout=LONGEST, env=environment(faults),
        )
        self.assertEqual((done.returncode, done.stderr), (0, ""))
        return [int(line) for line in done.stdout.split()]

    def test_interfaces_go_together_and_compile(self) -> None:
        self.bind("all", joined(INTERFACES, "void main() {}\n"))
        for compiler in filter(shutil.which, ("gcc", "clang")):
            for name in ("common", *INTERFACES):
                with self.subTest(name, compiler=compiler):
                    words = [compiler, *WARNINGS, "-fsyntax-only", "-I", str(self.folder), "-I", str(RUNTIME), str(LIB / f"{name}.c")]
                    subprocess.run(words, check=True)

    def test_programs_are_laid_out(self) -> None:
        for name, interfaces in PROGRAMS.items():
            with self.subTest(name):
                source = self.folder / f"{name}.v"
                source.write_text(joined(interfaces, (HOSTS / f"{name}.v").read_text(encoding="utf-8")), encoding="utf-8")
                self.assertEqual(programs.take("vaultc").ask(["fmt", str(source)]).output, source.read_text(encoding="utf-8"))

    def test_the_table_of_programs(self) -> None:
        table = (LIB / "README.md").read_text(encoding="utf-8")
        for name, interfaces in PROGRAMS.items():
            lines = sum(len((LIB / f"{it}.c").read_text(encoding="utf-8").splitlines()) for it in ("common", *interfaces))
            self.assertIn(f"| [{name}.v](../examples/hosts/{name}.v) | {', '.join(interfaces)} | {lines} |", table)

    def test_the_log(self) -> None:
        program = self.build("log")
        lines = [f"{number} {'x' * (number % 40)}\n" for number in range(200)]
        text = "".join(lines)
        for faults in (None, "signals"):
            with self.subTest(faults=faults):
                size, files, error = self.output(program, "500", "out", given=text, faults=faults)
                self.assertEqual((size, error), (len(text), 0))
                written = [(self.folder / f"out.{number}").read_text() for number in range(1, files + 1)]
                self.assertEqual("".join(written), text)
                self.assertTrue(all(it.endswith("\n") and len(it) <= 500 for it in written))
        self.check_long_line(program)
        self.check_failures(program)

    def check_long_line(self, program: Path) -> None:
        """A line that is longer than a block and than a file stays in one file."""
        (self.folder / "from").write_text("a\n" + "y" * 10000 + "\nb\n")
        self.assertEqual(self.output(program, "100", "long", "from"), [10005, 3, 0])
        self.assertEqual((self.folder / "long.2").read_text(), "y" * 10000 + "\n")

    def check_failures(self, program: Path) -> None:
        (self.folder / "full.1").symlink_to("/dev/full")
        (self.folder / "later.2").symlink_to("/dev/full")
        self.assertEqual(self.output(program, "9", "full", given="a\n"), [0, 1, errno.ENOSPC])
        self.assertEqual(self.output(program, "1", "later", given="a\nb\n"), [2, 2, errno.ENOSPC])
        self.assertEqual(self.output(program, "9", "to", "nothing"), [0, 0, errno.ENOENT])
        self.assertEqual(self.output(program, "9", "to", "."), [0, 1, errno.EISDIR])
        self.assertEqual(self.output(program, "9", "none/to", given="a\n"), [0, 0, errno.ENOENT])
        self.assertEqual(self.output(program), [0, 0, errno.EINVAL])

    def test_the_echo_service(self) -> None:
        program = self.build("echo_blocks")
        with socket.socket() as taken:
            taken.bind(("127.0.0.1", 0))
            taken.listen(1)
            port = taken.getsockname()[1]
            self.assertEqual(self.output(program, given=f"{port} 1 50\n"), [-errno.EADDRINUSE, 0])
        self.assertEqual(self.output(program, given="65536 1 50\n"), [-errno.EINVAL, 0])
        self.assertEqual(self.output(program, given="0 1 50\n")[1:], [0])  # nobody comes
        for faults in (None, "signals"):
            with self.subTest(faults=faults):
                self.check_connections(program, faults)

    def test_bytes_over_sockets(self) -> None:
        program = self.build_from(OWN / "letters.v", ("socket",))
        for faults in (None, "signals"):
            with self.subTest(faults=faults):
                service = subprocess.Popen([str(program)], stdout=subprocess.PIPE, universal_newlines=True, env=environment(faults))
                self.addCleanup(service.kill)
                assert service.stdout is not None
                self.assertEqual(service.stdout.readline(), "-2\n")  # nobody is there yet
                address = ("127.0.0.1", int(service.stdout.readline()))
                self.assertEqual(returned(address, b"HAL\xff"), b"IBM\x00")
                self.assertEqual((service.communicate(timeout=LONGEST)[0], service.returncode), ("0\n", 0))

    def check_connections(self, program: Path, faults: Optional[str]) -> None:
        """Three clients: one has all its bytes back, one resets the connection, one says nothing."""
        data = bytes(range(256)) * (8 if faults else 2000)
        service = subprocess.Popen(
            [str(program)], stdin=subprocess.PIPE, stdout=subprocess.PIPE, stderr=subprocess.PIPE, universal_newlines=True, env=environment(faults)
        )
        self.addCleanup(service.kill)
        assert service.stdin is not None and service.stdout is not None
        service.stdin.write("0 3 5000\n")
        service.stdin.close()
        service.stdin = None
        address = ("127.0.0.1", int(service.stdout.readline()))
        self.assertEqual(returned(address, data), data)
        with socket.create_connection(address) as reset:
            reset.setsockopt(socket.SOL_SOCKET, socket.SO_LINGER, struct.pack("ii", 1, 0))
            reset.sendall(b"x" * 100)
        with socket.create_connection(address) as silent:
            silent.settimeout(LONGEST)
            self.assertEqual(silent.recv(1), b"")
        printed, errors = service.communicate(timeout=LONGEST)
        served = [int(line) for line in printed.split()]
        self.assertEqual((service.returncode, errors, served[0], served[-2:]), (0, "", len(data), [0, 2]))

    def test_the_copier(self) -> None:
        program = self.build("copy")
        data = bytes(range(256)) * 200
        (self.folder / "from").write_bytes(data)
        self.assertEqual(self.output(program, "from", "to", faults="signals"), [0])
        self.assertEqual((self.folder / "to").read_bytes(), data)
        self.assertEqual(self.output(program, "from", "/dev/full", faults="signals"), [errno.ENOSPC])

    def test_each_small_external(self) -> None:
        interfaces = ("word", "block", "random", "time", "mutex")
        program = self.build_from(OWN / "kit.v", interfaces, OWN / "waker.c")
        words = [3, -5, -1, -1, -1]
        block = [errno.EINVAL, 0, 1, 1, 0, 0, 44, 255, -1, -1, 220]
        others = [1, 1, -errno.EINVAL, 1, 2, 1, errno.EINVAL]  # random numbers, time, waits and a mutex that is gone
        for faults in (None, "signals"):
            with self.subTest(faults=faults):
                self.assertEqual(self.output(program, "-5", str(2**63), "1x", faults=faults), words + block + others)

    def test_the_pool(self) -> None:
        program = self.build("pool")
        for faults in (None, "signals"):
            with self.subTest(faults=faults):
                self.assertEqual(self.output(program, given="2 20  1 1 1 0 1 0 0 0 1", faults=faults), [1, 1, 1, 1])
        self.assertEqual(self.output(program, given="1 0  1", faults="random"), [-errno.ENOSYS, 0, 1, 0, 1])

    def test_threads(self) -> None:
        interfaces = ("word", "block", "random", "time", "mutex")
        contended = self.build_from(OWN / "contended.v", ("mutex",), OWN / "contenders.c", sanitize=THREADS)
        self.assertEqual(self.output(contended, given="500"), [2000])
        kit = self.build_from(OWN / "kit.v", interfaces, OWN / "waker.c", sanitize=THREADS)
        self.assertEqual(self.output(kit, "1")[-3:], [2, 1, errno.EINVAL])
        unlocked = self.build_from(OWN / "contended.v", ("mutex",), OWN / "contenders.c", sanitize=[*THREADS, "-DUNLOCKED"])
        _, _, errors = self.ending(unlocked, (), "500", "")
        self.assertIn("data race", errors)

    def test_calls_that_fail(self) -> None:
        echo = self.build("echo_blocks")
        failures = {"socket:1": [-errno.EMFILE, 0], "listen:1": [-errno.EADDRINUSE, 0]}
        for faults, printed in failures.items():
            with self.subTest(faults):
                self.assertEqual(self.output(echo, given="0 1 50\n", faults=faults), printed)
        for faults in ("accept:1", f"accept:1:{errno.ENFILE}", f"accept:1:{errno.ENOMEM}"):
            with self.subTest(faults):
                self.assertEqual(self.output(echo, given="0 1 50\n", faults=faults)[1:], [1])
        for faults in (f"accept:1:{errno.ECONNABORTED}", f"accept:1:{errno.EINTR}"):
            with self.subTest(faults):
                self.assertEqual(self.output(echo, given="0 1 50\n", faults=faults)[1:], [0])  # it goes on, and nobody comes
        self.assertEqual(self.output(echo, given="0 1 50\n", faults="poll:1")[1:], [1])
        log = self.build("log")
        self.assertEqual(self.output(log, "4", "out", given="a\nb\nc\nd\ne\n", faults="write:3"), [4, 2, errno.ENOSPC])
        self.assertEqual(self.output(log, "4", "out", given="a\nb\n", faults="read:1"), [0, 1, errno.EIO])
        self.assertEqual(self.output(log, "2", "out", given="a\nb\nc\n", faults="close:1"), [2, 1, errno.EIO])
        self.assertEqual(self.output(log, "2", "out", given="a\nb\nc\n", faults=f"close:1:{errno.EINTR}"), [6, 3, 0])

    def test_memory_that_ends(self) -> None:
        (self.folder / "from").write_text("a\nb\n")
        runs = {
            "copy": (("from", "to"), ""),
            "log": (("2", "out", "from"), ""),
            "echo_blocks": ((), "0 1 10\n"),
            "pool": ((), "2 1  1 1 1 0"),
        }
        for name, (words, given) in runs.items():
            with self.subTest(name):
                ends = self.endings(self.build(name), words, given)
                self.assertEqual({(status, errors) for status, _, errors in ends}, {(0, ""), (4, "")})
                told = [output for status, output, _ in ends if status == 0 and str(errno.ENOMEM) in output.replace("-", "").split()]
                self.assertTrue(told)

    def endings(self, program: Path, words: Sequence[str], given: str) -> List["tuple[int, str, str]"]:
        """The endings of runs in which the first call of `malloc` fails, the second, and so on, up to one more than there are in a whole run."""
        usual = self.ending(program, words, given, "")
        found = []
        for function in ("calloc", "malloc"):
            for number in range(1, 60):
                found.append(self.ending(program, words, given, f"{function}:{number}"))
                if found[-1] == usual:
                    break
        return found

    def ending(self, program: Path, words: Sequence[str], given: str, faults: str) -> "tuple[int, str, str]":
        """The status of a run, what it prints, and what it says of errors."""
        done = subprocess.run(
            [str(program), *words], cwd=self.folder, input=given, stdout=subprocess.PIPE, stderr=subprocess.PIPE, universal_newlines=True,
            timeout=LONGEST, env=environment(faults),
        )
        return done.returncode, done.stdout, done.stderr


class Freestanding(Compiled):
    def test_a_driver_needs_three_functions_and_a_host(self) -> None:
        given = {"vault_allocate", "vault_deallocate", "vault_end", "vault_host_ask", "vault_host_next"}
        for compiler in filter(shutil.which, ("gcc", "clang")):
            with self.subTest(compiler):
                compiled = self.compiled(compiler, DRIVER.replace("LEFT", "1"))
                self.assertEqual(self.undefined(compiled), given)
                self.assertEqual(self.run_driver(compiled), (0, "8 0\n"))
        self.assertEqual(self.run_driver(self.compiled("cc", DRIVER.replace("LEFT", "(left + 3)"))), (9, "trap 2\n"))

    def test_entry_functions_are_called(self) -> None:
        given = {"vault_allocate", "vault_deallocate", "vault_end", "vault_host_ask", "vault_host_next"}
        emitted = self.folder / "pump.c"
        emitted.write_text(programs.take("vaultc").ask(["emit", str(DRIVERS / "pump.v")]).output, encoding="utf-8")
        with contextlib.redirect_stdout(io.StringIO()):
            self.assertEqual(cli.dispatch(["bind", "library", str(emitted), "--to", str(self.folder)]), 0)
        for compiler in filter(shutil.which, ("gcc", "clang")):
            with self.subTest(compiler):
                compiled = self.library(compiler, "pump")
                self.assertEqual(self.undefined(compiled), given)
                self.assertEqual(self.run_driver(compiled, OWN / "kernel_library.c"), (0, CALLED))

    def library(self, compiler: str, name: str) -> Path:
        """The object file of a library with its runtime."""
        made = []
        for file in (self.folder / f"{name}_lib.c", RUNTIME / "vault_library.c", RUNTIME / "vault_free.c"):
            made.append(str(self.folder / f"{file.stem}.o"))
            words = [compiler, *WARNINGS, "-O2", "-ffreestanding", "-nostdlib", "-DVAULT_FREE", "-c", "-I", str(RUNTIME), "-I", str(self.folder)]
            subprocess.run([*words, str(file), "-o", made[-1]], check=True)
        subprocess.run(["ld", "-r", *made, "-o", str(self.folder / f"{name}.o")], check=True)
        return self.folder / f"{name}.o"

    def undefined(self, compiled: Path) -> Set[str]:
        """The names that an object file asks for."""
        listed = subprocess.run(["nm", "-u", str(compiled)], stdout=subprocess.PIPE, universal_newlines=True, check=True)
        return set(listed.stdout.split()) - {"U"}

    def compiled(self, compiler: str, text: str) -> Path:
        """The object file of a driver with its runtime."""
        emitted = self.bind("driver", text)
        words = [compiler, *WARNINGS, "-O2", "-ffreestanding", "-nostdlib", "-c", f'-DVAULT_PROGRAM="{emitted}"', "-I", str(RUNTIME)]
        subprocess.run([*words, str(RUNTIME / "vault_free.c"), "-o", str(self.folder / "driver.o")], check=True)
        return self.folder / "driver.o"

    def run_driver(self, compiled: Path, surroundings: Path = OWN / "kernel.c") -> "tuple[int, str]":
        """The status of a run, and what the surroundings print."""
        program = self.folder / "driver"
        words = ["cc", *WARNINGS, "-I", str(RUNTIME), "-I", str(self.folder), str(surroundings), str(compiled)]
        subprocess.run([*words, "-o", str(program)], check=True)
        done = subprocess.run([str(program)], stdout=subprocess.PIPE, universal_newlines=True, timeout=LONGEST)
        return done.returncode, done.stdout


def environment(faults: Optional[str]) -> Dict[str, str]:
    """The environment, with faults or without."""
    kept = {name: value for name, value in os.environ.items() if name != "VAULT_FAULTS"}
    return {**kept, "VAULT_FAULTS": faults} if faults else kept


def returned(address: "tuple[str, int]", data: bytes) -> bytes:
    """What a service sends back of data that is sent in pieces, each before the next one."""
    found = b""
    with socket.create_connection(address, timeout=LONGEST) as connection:
        for start in range(0, len(data), 8192):
            piece = data[start : start + 8192]
            connection.sendall(piece)
            got = len(found)
            while len(found) < got + len(piece):
                more = connection.recv(65536)
                if not more:
                    return found
                found += more
    return found


if __name__ == "__main__":
    unittest.main()

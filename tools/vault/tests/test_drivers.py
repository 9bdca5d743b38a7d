"""The programs of examples/drivers: each is accepted, laid out and compiled, each of its commands writes what is expected, each planted bug
is found where it is expected, each library in C does what `vaultc host` does, and each exploration tells what its page says."""
from __future__ import annotations

import contextlib
import difflib
import io
import json
import os
import shutil
import tempfile
import unittest
from dataclasses import dataclass
from pathlib import Path
from typing import Any, Iterator, List

from vault import cli, layout, modules, paths, programs
from vault.source import Source
from vault.tests import drivers_compiled

DRIVERS = paths.TOP / "examples" / "drivers"
EMITTED = "{emitted}"
HOSTED = "{hosted}"
SANITIZE = ("-O1", "-g", "-fsanitize=address,undefined", "-fno-sanitize-recover=all")
LISTS = 3


@dataclass(frozen=True)
class Command:
    """What `vaultc`, or for an exploration `vault`, is asked in the folder of a driver, and what it answers. The word `{emitted}` stands for a file with the
    C text, `{hosted}` for one with the text that a host calls."""

    words: List[str]
    status: int
    output: List[str]


@dataclass(frozen=True)
class Bug:
    """A source with one edit: the source that it is of, what `vaultc` is asked, and the status and first line of the answer."""

    name: str
    of: str
    words: List[str]
    status: int
    line: str


@dataclass(frozen=True)
class Driver:
    """A folder of examples/drivers. `emit` are the words whose answer is a C text with its certificate. A host calls the text that the files of `hosted`
    are joined to, an interface and its modules, or the only one."""

    folder: Path
    sources: List[str]
    hosted: List[str]
    emit: List[str]
    commands: List[Command]
    explored: Command
    bugs: List[Bug]

    @staticmethod
    def read(folder: Path) -> Driver:
        """The driver as the file expected.json of its folder has it."""
        fields: Any = json.loads((folder / "expected.json").read_text(encoding="utf-8"))
        commands = [Command(**it) for it in fields["commands"]]
        bugs = [Bug(**it) for it in fields["bugs"]]
        return Driver(folder, fields["sources"], fields["hosted"], fields["emit"], commands, Command(**fields["explored"]), bugs)

    def text(self, name: str) -> str:
        """The text of a file of the folder."""
        return (self.folder / name).read_text(encoding="utf-8")

    def hosted_text(self) -> bytes:
        """The text that a host calls."""
        first, *rest = (Source.read(str(self.folder / name)) for name in self.hosted)
        if not rest:
            return first.data
        view = modules.join(first, *rest)
        assert view is not None
        return view.source.data

    def host_calls(self) -> List[Command]:
        """The commands that are lists of calls."""
        return [it for it in self.commands if it.words[:2] == ["host", HOSTED]]


def drivers() -> List[Driver]:
    """All drivers, by name."""
    return [Driver.read(it.parent) for it in sorted(DRIVERS.glob("*/expected.json"))]


def edits(text: str, other: str) -> int:
    """How many runs of lines differ between two texts."""
    matcher = difflib.SequenceMatcher(None, text.splitlines(), other.splitlines(), autojunk=False)
    return sum(tag != "equal" for tag, *_ in matcher.get_opcodes())


class Drivers(unittest.TestCase):
    def setUp(self) -> None:
        self.vaultc = programs.take("vaultc")

    def test_each_folder_is_whole(self) -> None:
        folders = [it for it in sorted(DRIVERS.iterdir()) if it.is_dir()]
        self.assertTrue(folders)
        self.assertEqual([it.folder for it in drivers()], folders)
        for driver in drivers():
            with self.subTest(driver.folder.name):
                self.assertTrue((driver.folder / "README.md").is_file())
                self.assertTrue(driver.commands)
                self.assertTrue(driver.bugs)
                planted = sorted(it.stem for it in (driver.folder / "bugs").glob("*.v"))
                self.assertEqual(sorted(bug.name for bug in driver.bugs), planted)

    def test_sources_are_laid_out(self) -> None:
        for driver in drivers():
            for name in driver.sources:
                with self.subTest(f"{driver.folder.name}/{name}"):
                    answer = layout.lay_out_with_comments(self.vaultc, driver.text(name))
                    self.assertEqual((answer.status, answer.output), (0, driver.text(name)))

    def test_commands(self) -> None:
        for driver in drivers():
            with tempfile.TemporaryDirectory() as room:
                hosted = Path(room) / f"{driver.folder.name}.v"
                hosted.write_bytes(driver.hosted_text())
                for command in driver.commands:
                    if EMITTED not in command.words:
                        self.hold(driver, command, [str(hosted) if word == HOSTED else word for word in command.words])

    def test_bugs(self) -> None:
        for driver in drivers():
            for bug in driver.bugs:
                with self.subTest(f"{driver.folder.name}: {bug.name}"):
                    self.assertNotEqual(bug.status, 0)
                    self.assertEqual(edits(driver.text(bug.of), driver.text(f"bugs/{bug.name}.v")), 1)
                    answer = self.vaultc.ask(bug.words, folder=driver.folder)
                    self.assertEqual((answer.status, answer.lines[:1]), (bug.status, [bug.line]))

    def test_emitted_texts_are_verified(self) -> None:
        for driver in drivers():
            with self.subTest(driver.folder.name), tempfile.TemporaryDirectory() as room:
                emitted = self.vaultc.ask(driver.emit, folder=driver.folder)
                self.assertEqual(emitted.status, 0)
                file = Path(room) / "driver.c"
                file.write_text(emitted.output, encoding="utf-8")
                answer = self.vaultc.ask(["verify", str(file)])
                self.assertEqual((answer.status, answer.lines[0].split()[0]), (0, "verified"))
                for command in driver.commands:
                    if EMITTED in command.words:
                        self.hold(driver, command, [str(file) if word == EMITTED else word for word in command.words])

    def test_explorations(self) -> None:
        for driver in drivers():
            with self.subTest(driver.folder.name), within(driver.folder), contextlib.redirect_stdout(io.StringIO()) as said:
                status = cli.dispatch(driver.explored.words)
                self.assertEqual((status, said.getvalue().splitlines()), (driver.explored.status, driver.explored.output))

    @unittest.skipUnless(shutil.which("cc"), "there is no C compiler")
    def test_libraries_do_what_host_does(self) -> None:
        for driver in drivers():
            with self.subTest(driver.folder.name), tempfile.TemporaryDirectory() as room:
                source = Path(room) / f"d_{driver.folder.name}.v"
                source.write_bytes(driver.hosted_text())
                compiled = drivers_compiled.build(source, Path(room), [("cc", *SANITIZE)])
                self.assertTrue(driver.host_calls())
                for command in driver.host_calls():
                    self.same_as_host(compiled, driver.folder, command, Path(room))
                self.assertEqual(drivers_compiled.differences(compiled, LISTS, 60, Path(room)), [])

    def same_as_host(self, compiled: drivers_compiled.Driver, folder: Path, command: Command, room: Path) -> None:
        """Makes the calls of a command on a library, and compares what is written."""
        listed, *rest = command.words[2:]
        given = (folder / rest[1]).read_text(encoding="utf-8").split("\n")[:-1] if rest else []
        host, found = drivers_compiled.outcomes(compiled, (folder / listed).read_text(encoding="utf-8").splitlines(), given, room)
        self.assertEqual(host.splitlines(), [line for line in command.output if not line.startswith("held")])
        self.assertEqual(found, [host])

    def hold(self, driver: Driver, command: Command, words: List[str]) -> None:
        """Asks these words in the driver's folder, and holds the answer to that of the command."""
        with self.subTest(f"{driver.folder.name}: {' '.join(command.words)}"):
            answer = self.vaultc.ask(words, folder=driver.folder)
            self.assertEqual((answer.status, answer.lines), (command.status, command.output))


@contextlib.contextmanager
def within(folder: Path) -> Iterator[None]:
    """Works in a folder."""
    before = Path.cwd()
    os.chdir(folder)
    try:
        yield
    finally:
        os.chdir(before)


if __name__ == "__main__":
    unittest.main()

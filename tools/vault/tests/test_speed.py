"""The texts that `vault speed` measures are what they are called, and its tables have all their cells."""
from __future__ import annotations

import re
import shutil
import subprocess
import sys
import tempfile
import unittest
from pathlib import Path
from typing import List

from vault import programs, speed, speed_peers, speed_texts
from vault.errors import NoProgram
from vault.measure import Cost, Folder, count_instructions, each, run_once
from vault.speed import Bench


class WithProgram(unittest.TestCase):
    def setUp(self) -> None:
        try:
            self.program = programs.take("vaultc")
        except NoProgram as reason:
            self.skipTest(reason.message)
        self.folder = Folder(None)
        self.addCleanup(self.folder.close)

    def status(self, command: str, text: str) -> int:
        """The status of a command on a text."""
        return self.program.ask([command, self.folder.write("a.v", text)], folder=self.folder.path).status


class Texts(WithProgram):
    def test_texts_are_accepted(self) -> None:
        accepted = (
            speed_texts.loops(3),
            speed_texts.nested_loops(3),
            speed_texts.choices(3, 2, False),
            speed_texts.bound_choices(31, 2, 2, False),
            speed_texts.long_sums(2),
            speed_texts.statements(4),
            *(speed_texts.turns(5, turn.vault_declared, turn.vault) for turn in speed_peers.TURNS.values()),
        )
        self.assertEqual([self.status("check", text) for text in accepted], [0] * len(accepted))

    def test_texts_with_a_fault_are_refused_for_it(self) -> None:
        faulty = (speed_texts.choices(3, 2, True), speed_texts.bound_choices(31, 2, 2, True))
        self.assertEqual([self.status("check", text) for text in faulty], [8, 8])

    def test_texts_of_the_grammar_are_read(self) -> None:
        self.assertEqual([self.status("fmt", text) for text in (speed_texts.functions(2), speed_texts.one_list(3))], [0, 0])
        self.assertEqual(self.status("fmt", speed_texts.functions(1) + " #"), 6)

    def test_c_texts_are_run(self) -> None:
        ran = (speed_texts.c_functions(3, False), speed_texts.c_functions(3, True), speed_texts.c_variables(3), speed_texts.c_parameters(3))
        self.assertEqual([self.status("crun", text) for text in ran], [0] * len(ran))

    def test_a_function_has_so_many_bytes(self) -> None:
        self.assertEqual(len(speed_texts.functions(2)), 2 * 253)

    def test_turns_end_alike_in_all_languages(self) -> None:
        for what, turn in speed_peers.TURNS.items():
            with self.subTest(what):
                name = self.folder.write("t.v", speed_texts.turns(20, turn.vault_declared, turn.vault))
                own = self.program.ask(["run", name], folder=self.folder.path).output
                script = self.folder.write("t.py", speed_peers.python_turns(turn, 20))
                others: List[List[str]] = [[sys.executable, script]]
                if shutil.which("lua"):
                    others.append(["lua", self.folder.write("t.lua", speed_peers.lua_turns(turn, 20))])
                if shutil.which("gcc"):
                    subprocess.run(["gcc", "-O0", "-o", "t", self.folder.write("t.c", speed_peers.c_turns(turn, 20))], cwd=self.folder.path, check=True)
                    others.append(["./t"])
                for words in others:
                    self.assertEqual(subprocess.run(words, cwd=self.folder.path, stdout=subprocess.PIPE, check=True).stdout.decode(), own, words[0])


class Imagined(Bench):
    """A bench on which everything costs alike, so that no table takes time."""

    def vaultc(self, *words: str) -> Cost:
        return Cost(0, 0.1, 10 ** 9, 5_000_000)

    def tool(self, *words: str) -> Cost:
        return Cost(0, 0.1, 10 ** 9, 5_000_000)

    def emit(self, name: str) -> str:
        text = (self.folder.path / name).read_text(encoding="utf-8")
        return self.folder.write(name[: -len(".v")] + ".c", text)


class Tables(unittest.TestCase):
    def test_rows_have_all_cells(self) -> None:
        folder = Folder(None)
        self.addCleanup(folder.close)
        bench = Imagined(programs.Program("vaultc", Path("vaultc"), False, ("vaultc",)), folder, 8)
        for name, make in speed.TABLES.items():
            with self.subTest(name):
                table = make(bench)
                rows = list(table.rows)
                self.assertGreater(len(rows), 2)
                self.assertEqual({len(row) for row in rows}, {len(table.head)})
                self.assertNotIn("", [row[0] for row in rows])


class Peers(unittest.TestCase):
    """Each checker accepts what is right and says what is wrong."""

    def said(self, words: List[str], annotations: str, is_faulty: bool) -> str:
        if not shutil.which(words[0]):
            self.skipTest(f"{words[0]} isn't installed")
        with tempfile.TemporaryDirectory() as folder:
            Path(folder, "a.c").write_text(speed_peers.loops_in_c(3, annotations, is_faulty), encoding="utf-8")
            done = subprocess.run([*words, "a.c"], cwd=folder, stdout=subprocess.PIPE, stderr=subprocess.STDOUT)
            return done.stdout.decode()

    def test_gcc(self) -> None:
        self.assertEqual(self.said(["gcc", "-fsyntax-only", "-Wall"], speed_peers.PLAIN, False), "")

    def test_clang(self) -> None:
        words = ["clang", "-fsyntax-only", "-Wthread-safety"]
        self.assertEqual(self.said(words, speed_peers.THREAD_SAFETY, False), "")
        self.assertIn("still held", self.said(words, speed_peers.THREAD_SAFETY, True))

    def test_sparse(self) -> None:
        self.assertEqual(self.said(["sparse", "-Wcontext"], speed_peers.CONTEXTS, False), "")
        self.assertIn("context imbalance", self.said(["sparse", "-Wcontext"], speed_peers.CONTEXTS, True))


class Measures(unittest.TestCase):
    def test_a_run_has_its_status_and_its_time(self) -> None:
        cost = run_once([sys.executable, "-c", "import sys; sum(range(2000000)); sys.exit(5)"], Path("/"))
        self.assertEqual(cost.status, 5)
        self.assertGreater(cost.seconds, 0.0)
        self.assertGreater(cost.memory, 1 << 20)

    def test_instructions_of_all_processes_are_counted(self) -> None:
        if not shutil.which("valgrind"):
            self.skipTest("valgrind isn't installed")
        one, two = (count_instructions(["sh", "-c", script], Path("/")) for script in ("exec true", "/bin/true; /bin/true; exit 0"))
        self.assertGreater(one or 0, 10_000)
        self.assertGreater(two or 0, one or 0)

    def test_each_is_the_difference(self) -> None:
        self.assertEqual(each(Cost(0, 0.1, 1, 1000), Cost(0, 0.2, 1, 3000), 4), 500)
        self.assertIsNone(each(Cost(0, 0.1, 1), Cost(0, 0.2, 1), 4))

    def test_small_differences_are_none(self) -> None:
        self.assertEqual(speed.nanoseconds(Cost(0, 0.100, 1), Cost(0, 0.101, 1), 10), "too short to tell")
        self.assertEqual(speed.nanoseconds(Cost(0, 0.1, 1), Cost(0, 0.2, 1), 1000), "100,000 ns")

    def test_tables_are_markdown(self) -> None:
        table = speed.Table("Title", ["A", "B"], iter([["1", "2"]]))
        self.assertEqual(list(speed.lines_of(table)), ["### Title", "", "| A | B |", "|---|---|", "| 1 | 2 |", ""])


class Page(unittest.TestCase):
    def test_the_command_names_its_tables(self) -> None:
        from vault.commands import speed as command

        named = re.search(r"TABLE is one of (.*?);", command.__doc__.replace("\n", " "))  # type: ignore[union-attr]
        self.assertEqual(re.split(r", | and ", named.group(1)), list(speed.TABLES))  # type: ignore[union-attr]


if __name__ == "__main__":
    unittest.main()

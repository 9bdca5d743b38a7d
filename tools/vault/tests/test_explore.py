"""Exploration: ends that no rule excludes, and drivers of which all is tried."""
from __future__ import annotations

import contextlib
import io
import os
import pty
import re
import signal
import subprocess
import sys
import tempfile
import unittest
from pathlib import Path
from typing import List, Tuple

from vault import cli, paths, programs
from vault.declarations import Declarations
from vault.explore.choices import Held, after_call, answers, calls, numbers_of
from vault.explore.marks import mark
from vault.parser import parse
from vault.source import Source
from vault import syntax as s

DRIVERS = Path(__file__).parent / "drivers"

UNREACHED = """\
stateset heat { cold, warm, hot }
struct oven@heat {
    int n;
}
tracked(O) oven make() [new O@cold] {
    tracked(N) oven o = new oven { n: 0 };
    return o;
}
void warm(tracked(O) oven o, int n) [O@cold->warm] {
    become o@warm;
    print(n);
    if (n > 5) {
        print(5);
    }
}
void cool(tracked(O) oven o) [O@hot->cold] {
    become o@cold;
}
void main() {}
"""


def vault(*words: str) -> Tuple[int, List[str]]:
    with contextlib.redirect_stdout(io.StringIO()) as said:
        status = cli.dispatch(list(words))
    return status, said.getvalue().splitlines()


def heed_interrupts() -> None:
    signal.signal(signal.SIGINT, signal.SIG_DFL)


class Exploration(unittest.TestCase):
    def test_a_division_by_zero_is_found_with_its_shortest_list(self) -> None:
        with tempfile.TemporaryDirectory() as folder:
            status, lines = vault("explore", str(DRIVERS / "pump.v"), "--calls", "3", "--numbers", "0,1", "--objects", "1", "--to", folder)
            self.assertEqual(status, 9)
            at = lines.index("found trap 2 at average 25:5")
            self.assertEqual([line.split()[0] for line in lines[at + 1 : at + 4]], ["install", "start", "average"])
            listed, given = Path(folder) / "1.calls", Path(folder) / "1.answers"
            answer = programs.take("vaultc").ask(["host", str(DRIVERS / "pump.v"), str(listed), "--answers", str(given)])
            self.assertEqual((answer.status, answer.lines[-1]), (9, "trap 2"))

    def test_both_faults_of_a_driver_are_found_with_their_shortest_lists(self) -> None:
        status, lines = vault("explore", str(DRIVERS / "mixer.v"), "--calls", "4", "--objects", "1", "--numbers", "0,1")
        found = [number for number, line in enumerate(lines) if line.startswith("found ")]
        self.assertEqual([lines[number] for number in found], ["found trap 2 at average 23:5", "found budget fuel at drain 27:9"])
        self.assertEqual([line.strip() for line in lines[found[0] + 1 : found[1]]], ["install 0", "start #1", "average #1"])
        self.assertEqual([line.strip() for line in lines[found[1] + 1 :][:4]], ["install 0", "start #1", "add #1 1", "drain #1 0"])
        self.assertEqual(status, 9)

    def test_lists_are_written_for_host(self) -> None:
        with tempfile.TemporaryDirectory() as folder:
            vault("explore", str(DRIVERS / "mixer.v"), "--calls", "4", "--objects", "1", "--numbers", "0,1", "--to", folder)
            self.assertEqual(sorted(it.name for it in Path(folder).iterdir()), ["1.answers", "1.calls", "2.answers", "2.calls"])
            for number, end in (("1", "trap 2"), ("2", "budget fuel")):
                listed, given = (str(Path(folder) / f"{number}.{kind}") for kind in ("calls", "answers"))
                answer = programs.take("vaultc").ask(["host", str(DRIVERS / "mixer.v"), listed, "--answers", given, "--fuel", "2000"])
                self.assertEqual(answer.lines[-1], end)

    def test_what_was_never_called_or_reached_is_told(self) -> None:
        with tempfile.TemporaryDirectory() as folder:
            driver = Path(folder) / "driver.v"
            driver.write_text(UNREACHED)
            status, lines = vault("explore", str(driver), "--objects", "1", "--numbers", "0,1")
            self.assertEqual(lines[1:], ["never called cool", "never reached 13:9"])
            self.assertTrue(lines[0].endswith(", all"), lines[0])
            self.assertEqual(status, 0)

    def test_an_interrupt_tells_what_was_found(self) -> None:
        master, slave = pty.openpty()
        endless = ["explore", str(DRIVERS / "mixer.v"), "--calls", "1000", "--lists", "100000000", "--objects", "1", "--numbers", "0,1"]
        words = [sys.executable, str(paths.TOP / "bin" / "vault"), *endless]
        # a test in the background may have been told to ignore interrupts
        process = subprocess.Popen(words, stdout=subprocess.PIPE, stderr=slave, universal_newlines=True, preexec_fn=heed_interrupts)
        self.addCleanup(process.kill)
        os.close(slave)
        shown = ""
        while not re.search(r"[1-9]\d* found", shown):
            shown += os.read(master, 1000).decode()
        process.send_signal(signal.SIGINT)
        told = process.communicate(timeout=600)[0].splitlines()
        os.close(master)
        self.assertRegex(shown, r"\d+ lists, \d+ worlds, \d+ calls deep, \d+ found")
        self.assertRegex(told[0], r"explored \d+ lists, \d+ worlds, \d+ calls deep, cut")
        self.assertIn("found trap 2 at average 23:5", told)
        self.assertEqual(process.returncode, 9)

    def test_all_is_tried_of_a_driver_that_is_right(self) -> None:
        status, lines = vault("explore", str(DRIVERS / "switch.v"), "--objects", "1", "--calls", "9")
        self.assertEqual(status, 0)
        self.assertEqual(len(lines), 1, lines)
        # nothing is held, or a lamp that is off or on, warm or not; its turns are 0 only before it is lit
        self.assertRegex(lines[0], r"explored \d+ lists, \d+ worlds, \d calls deep, all")

    def test_a_refused_driver_has_the_line_of_check(self) -> None:
        with tempfile.TemporaryDirectory() as folder:
            wrong = Path(folder) / "wrong.v"
            wrong.write_text((DRIVERS / "switch.v").read_text().replace("    become l@off;\n", ""))
            status, lines = vault("explore", str(wrong))
            self.assertEqual((status, len(lines)), (8, 1))
            self.assertTrue(lines[0].startswith("protocol "))


class Choices(unittest.TestCase):
    def declarations(self, text: str) -> Declarations:
        program = parse(text)
        assert program is not None
        return Declarations(program)

    def test_calls_keep_types_states_and_keys_apart(self) -> None:
        declarations = self.declarations((DRIVERS / "pump.v").read_text())
        held = [Held(1, "pump", "off"), Held(2, "pump", "on")]
        found = list(calls(declarations, held, [5], 2))
        self.assertIn("start #1", found)
        self.assertNotIn("start #2", found)
        self.assertIn("is_faster #1 #2", found)
        self.assertNotIn("is_faster #1 #1", found)
        self.assertNotIn("install 5 0", found)

    def test_what_is_held_after_a_call(self) -> None:
        declarations = self.declarations((DRIVERS / "pump.v").read_text())
        held = [Held(1, "pump", "off"), Held(3, "pump", "on")]
        self.assertEqual(after_call(declarations, held, "start #1", 4), [Held(1, "pump", "on"), held[1]])
        self.assertEqual(after_call(declarations, held, "remove #1", 4), [held[1]])
        self.assertEqual(after_call(declarations, held, "install 1 0", 4), [*held, Held(4, "pump", "off")])
        self.assertIsNone(after_call(declarations, held, "is_faster #1 #3", 4))

    def test_answers_keep_the_clause(self) -> None:
        text = "stateset st { a, b, c }\nabstract o@st;\nvariant v<K: o> { 'A { K@{ a, c } }, 'B(int) }\n"
        text += "extern tracked v<K> f(tracked(K) o x, tracked(J) o y) [-K, J@a->{ b, c }];\nvoid main() {}\n"
        declarations = self.declarations(text)
        external = declarations.find("f", s.Function)
        assert external is not None
        self.assertEqual(answers(declarations, external, [7]), ["1 0 0", "1 0 2", "1 1 7", "2 0 0", "2 0 2", "2 1 7"])

    def test_numbers_are_those_of_the_text_and_their_neighbours(self) -> None:
        self.assertEqual(numbers_of("int x = 90;", 6), [0, 1, -1, 2, 89, 90])

    def test_marks_stand_before_statements(self) -> None:
        source = Source("a.v", (DRIVERS / "pump.v").read_bytes())
        marked = mark(source, self.declarations(source.text))
        self.assertEqual(programs.take("vaultc").ask(["check", "/dev/stdin"], input=marked.text).status, 0)


if __name__ == "__main__":
    unittest.main()

"""`vault build --proved`: what is copied and proved, what is kept, bounds on memory and disk, failures, and how far it is."""
from __future__ import annotations

import io
import os
import signal
import tempfile
import time
import unittest
from pathlib import Path
from unittest import mock

from vault import crates, gate_log, minutes, paths, processes, proving
from vault.errors import NoProgram
from vault.progress import Progress

from .small import PATIENCE, Small

BUILD = ("vault", "build", "--proved")


class Proved(unittest.TestCase):
    def setUp(self) -> None:
        self.small = Small()
        self.addCleanup(self.small.close)

    def test_program_is_proved_and_taken(self) -> None:
        ran = self.small.run(*BUILD)
        self.assertEqual(ran.returncode, 0, ran.stderr)
        self.assertEqual(self.small.calls("proofs"), ["low", "middle", "vaultc"])
        self.assertRegex("".join(self.small.calls()), r"\Aci proving-\w+\Z")
        self.assertIn("vault: proving 3 crates; Ctrl-C ends it", ran.stderr)
        self.assertIn("\nvault: rt: this is a stand-in\n", ran.stderr)
        self.assertRegex(ran.stderr, r"all is proved and built, after \d+ s; the largest process took 0\.\d GB\n\Z")
        self.assertRegex(self.small.run("vault", "status").stdout, r"\nvaultc: proved; of commit unknown, small-kit logic 1; built \d+ s ago; .*/vaultc\.proved\n")
        self.assertRegex(self.small.run("vaultc", "x").stdout, r"\Avaultc of \w{8}: x\n\Z")

    def test_nothing_is_done_twice(self) -> None:
        self.small.run(*BUILD)
        self.small.run(*BUILD)
        self.assertEqual(len(self.small.calls()), 1)
        self.small.source("middle").write_text("// another\n")
        self.small.run(*BUILD)
        self.assertEqual(self.small.calls("proofs"), ["low", "middle", "vaultc", "middle", "vaultc"])

    def test_only_what_is_proved_is_copied(self) -> None:
        (self.small.top / "HANDLES").write_text("Handles allowed: none.\n")
        low = self.small.top / "crates" / "low"
        for file in ("proofs/P.antt", "must-fail/wrong.edit", "out/left", "data/f.v", "README.md", "stdin"):
            (low / file).parent.mkdir(exist_ok=True)
            (low / file).touch()
        seen = self.small.base / "seen"
        tell = f"pathlib.Path({str(seen)!r}).write_text(' '.join(sorted(str(it.relative_to(here)) for it in here.rglob('*') if it.is_file())))"
        self.small.run(*BUILD, RT_DO=tell)
        low_files = "crates/low/data/f.v crates/low/proofs/P.antt crates/low/src/lib.rt crates/low/stdin"
        self.assertEqual(seen.read_text(), f"HANDLES crates.txt {low_files} crates/middle/src/lib.rt crates/vaultc/src/main.rt")

    def test_crate_that_fails_ends_the_run_and_the_rest_stays(self) -> None:
        good = self.small.source("middle").read_text()
        self.small.source("middle").write_text("// wrong\n")
        ran = self.small.run(*BUILD)
        self.assertEqual((ran.returncode, ran.stdout), (70, ""))
        said = f"== middle\n{self.small.top}/crates/middle/src: error: not proved\nThe whole log is "
        self.assertIn(f"vault: middle isn't proved; rt said\n{said}", ran.stderr)
        self.assertIn("rt: low proved\n", Path(ran.stderr.split("The whole log is ")[1].strip()).read_text())
        self.small.source("middle").write_text(good)
        self.assertEqual(self.small.run(*BUILD).returncode, 0)
        self.assertEqual(self.small.calls("proofs"), ["low", "middle", "middle", "vaultc"])

    def test_run_that_fails_for_another_reason_is_told(self) -> None:
        ran = self.small.run(*BUILD, RT_DO="print('rt: FAILED: vaultc (run)'); sys.exit(1)")
        self.assertEqual(ran.returncode, 70)
        self.assertIn("vault: rt ci failed; rt said\nrt: FAILED: vaultc (run)\nThe whole log is ", ran.stderr)

    def test_source_that_is_saved_meanwhile_plays_no_part(self) -> None:
        source, told = self.small.source("low"), self.small.run("vaultc", "x").stdout
        ran = self.small.run(*BUILD, RT_DO=f"pathlib.Path({str(source)!r}).write_text('// later')")
        self.assertEqual(ran.returncode, 0, ran.stderr)
        self.assertIn("what is proved is their state at the beginning", ran.stderr)
        self.assertIn("none of these sources", self.small.run("vault", "status").stdout)
        source.write_text("// low\n")
        self.assertIn("vaultc: proved;", self.small.run("vault", "status").stdout)
        self.assertEqual(self.small.run("vaultc", "x").stdout, told)

    def test_interrupt_ends_the_children_and_the_next_call_goes_on(self) -> None:
        mark = self.small.base / "rt"
        started = self.small.start(*BUILD, RT_DO=f"pathlib.Path({str(mark)!r}).write_text(str(os.getpid()))", RT_HANGS="middle")
        while self.small.calls("proofs") != ["low"]:
            time.sleep(0.02)
        started.send_signal(signal.SIGINT)
        started.communicate(timeout=PATIENCE)
        self.assertEqual(started.returncode, 130)
        with self.assertRaises(ProcessLookupError):
            os.kill(int(mark.read_text()), 0)
        self.assertEqual(self.small.kept(), [])
        self.assertEqual(self.small.run(*BUILD).returncode, 0)
        self.assertEqual(self.small.calls("proofs"), ["low", "middle", "vaultc"])


class Passed(unittest.TestCase):
    """What the gate has built is kept as proved, if no source changed while it ran."""

    def setUp(self) -> None:
        self.small = Small()
        self.addCleanup(self.small.close)
        self.sum = self.small.run("vault", "status", "--sum").stdout.strip()
        built = self.small.top / "crates" / "vaultc" / "out" / "vaultc"
        built.parent.mkdir()
        built.write_text('#!/bin/sh\necho of the gate "$@"\n')
        built.chmod(0o755)

    def test_programs_of_the_gate_are_taken(self) -> None:
        self.assertEqual(self.small.run("vault", "build", "--passed", self.sum).returncode, 0)
        self.assertEqual(self.small.run("vaultc", "x").stdout, "of the gate x\n")
        self.assertIn("\nvaultc: proved;", self.small.run("vault", "status").stdout)

    def test_changed_source_keeps_them_out(self) -> None:
        self.small.source("low").write_text("// changed\n")
        ran = self.small.run("vault", "build", "--passed", self.sum)
        self.assertEqual((ran.returncode, ran.stderr), (1, "vault: sources changed while the gate ran, so what it has built isn't kept\n"))
        self.assertIn("none of these sources", self.small.run("vault", "status").stdout)


class Memory(unittest.TestCase):
    def setUp(self) -> None:
        self.small = Small()
        self.addCleanup(self.small.close)

    def test_too_little_memory_is_refused_with_what_is_needed(self) -> None:
        with mock.patch.object(processes, "available_memory", return_value=1_200_000_000):
            with self.assertRaises(NoProgram) as caught:
                proving.require_room()
        self.assertEqual(caught.exception.status, 70)
        self.assertEqual(caught.exception.message, "to prove the crates 4 GB of memory have to be free, and 1.2 GB are")

    def test_too_little_disk_is_refused_with_what_is_needed(self) -> None:
        with mock.patch.object(proving.shutil, "disk_usage", return_value=mock.Mock(free=1_000_000_000)):
            with self.assertRaisesRegex(NoProgram, r"to prove the crates \d+ GB of disk have to be free in /.*, and 1 GB are"):
                proving.require_room()

    def test_process_beyond_the_bound_ends_the_run(self) -> None:
        environment = self.small.environment(RT_HANGS="middle")
        (self.small.cache / "vault").mkdir(parents=True)
        with mock.patch.dict(os.environ, environment), mock.patch.object(paths, "TOP", self.small.top):
            run = proving.Run(self.small.top, crates.read(self.small.top), Progress(io.StringIO()), most=1)
            with self.assertRaisesRegex(NoProgram, r"the largest process took 0\.0 GB, and one may take 0 GB; the log is /.*/proving\.log"):
                run.wait()
        self.assertTrue(run.session.has_ended())

    def test_largest_process_of_a_run_is_seen_with_its_crate(self) -> None:
        words = ["sh", "-c", "python3 -c 'import time; held = b\"x\" * 60_000_000; time.sleep(600)' --crate-name low; true"]
        session = processes.Session(words, self.small.base, self.small.base / "log")
        self.addCleanup(session.stop)
        until = time.monotonic() + PATIENCE
        while time.monotonic() < until:
            large = [row.number for row in processes.rows_of(session.number) if row.resident > 60_000_000]
            if large:
                self.assertEqual([proving.crate_of(number) for number in large], ["low"])
                return
            time.sleep(0.05)
        self.fail("no process of more than 60 MB was seen")


class Log(unittest.TestCase):
    """What `rt ci` says, in its own words."""

    SAID = """\
== vlt_ops
logic=proved functions=7 sum=dac8208d650f15bf
rt: vlt_ops proved
rt: vlt_ops: trying its must-fail edits (1)
== vlt_io: its tests
rt: vlt_io: its tests are proved
rt: vlt_base is kept: an earlier run on this machine proved the same files over the same libraries
rt: note: the disk fell below 5,000 MB during this run
== vlt_lexer
src/lib.rt:3:1: error: no proof
rt: vlt_lexer NOT PROVED
rt: vlt_syntax NOT PROVED: its library vlt_lexer failed
"""

    def read(self, said: str) -> gate_log.Log:
        with tempfile.NamedTemporaryFile("w", suffix=".log") as file:
            log = gate_log.Log(Path(file.name))
            for half in (said[:100], said[100:]):
                file.write(half)
                file.flush()
                log.read_on()
        return log

    def test_proved_kept_and_failed_crates_are_told_apart(self) -> None:
        log = self.read(self.SAID)
        self.assertEqual((log.done, log.proved), (["vlt_ops", "vlt_base"], ["vlt_ops"]))
        self.assertEqual((log.failed, log.why), ("vlt_lexer", "== vlt_lexer\nsrc/lib.rt:3:1: error: no proof"))
        self.assertEqual(log.notes, ["the disk fell below 5,000 MB during this run"])

    def test_tests_that_are_not_proved_fail_the_crate(self) -> None:
        log = self.read("== vlt_io: its tests\nerror\nrt: vlt_io: its tests are NOT PROVED\n")
        self.assertEqual((log.failed, log.why), ("vlt_io", "== vlt_io: its tests\nerror"))


class Minutes(unittest.TestCase):
    def test_what_is_left_is_no_less_than_the_longest_chain(self) -> None:
        listed = {name: crates.Crate(name, Path(name), tuple(uses)) for name, uses in {"a": "", "b": "a", "c": "a", "d": "b"}.items()}
        estimate = minutes.Estimate(listed, {"a": 1.0, "b": 2.0, "c": 4.0})
        self.assertEqual(estimate.chains, {"a": 5.0, "b": 3.0, "c": 4.0, "d": minutes.UNKNOWN})
        self.assertEqual(estimate.left(["a", "b", "c", "d"], 1), 8.0)
        self.assertEqual(estimate.left(["a", "b", "c", "d"], 4), 5.0)

    def test_table_of_the_gate_is_read(self) -> None:
        told = minutes.read(paths.TOP)
        self.assertEqual(set(told) - set(crates.read()), set())
        self.assertGreater(sum(told.values()), 100)


if __name__ == "__main__":
    unittest.main()

"""Which program is taken, when one is compiled, and what is said where there is none."""
from __future__ import annotations

import io
import os
import signal
import time
import unittest
from unittest import mock

from vault import compilation, errors, sources
from vault.progress import Progress

from .small import PATIENCE, Small

# seconds of a processor that a call of a kept program may take at most, also on a busy machine
SOON = 1.0


class Kept(unittest.TestCase):
    def setUp(self) -> None:
        self.small = Small()
        self.addCleanup(self.small.close)

    def test_first_call_compiles_and_second_one_does_not(self) -> None:
        first = self.small.run("vault", "load", "3")
        self.assertEqual(first.returncode, 0, first.stderr)
        self.assertRegex(first.stdout, r"\Avaultc of \w{8}: load 3\n\Z")
        self.assertIn("compiling vaultc without the proofs", first.stderr)
        second = self.small.run("vault", "load", "3")
        self.assertEqual((second.stdout, second.stderr), (first.stdout, ""))
        self.assertEqual(self.small.calls(), ["try vaultc"])

    def test_vaultc_compiles_as_vault_does_and_proves_nothing(self) -> None:
        self.assertEqual(self.small.run("vaultc", "--help").stdout.partition(" ")[0], "vaultc")
        self.assertEqual(self.small.run("vault", "load", "1").stderr, "")
        self.assertEqual(self.small.calls(), ["try vaultc"])

    def test_help_versions_and_wrong_words_compile_nothing(self) -> None:
        for words in (["--help"], ["--version"], ["check", "--help"], ["chek"], ["status"], []):
            self.small.run("vault", *words)
        self.assertEqual(self.small.calls(), [])

    def test_changed_source_is_compiled_anew(self) -> None:
        before = self.small.run("vaultc").stdout
        self.small.source("low").write_text("// changed\n")
        self.assertNotEqual(self.small.run("vaultc").stdout, before)
        self.small.source("low").write_text("// low\n")
        self.assertEqual(self.small.run("vaultc").stdout, before)
        self.assertEqual(self.small.calls(), ["try vaultc"] * 2)

    def test_source_that_is_saved_during_a_compilation_is_seen(self) -> None:
        source, mark = self.small.source("low"), self.small.base / "saved"
        save = f"pathlib.Path({str(mark)!r}).exists() or (pathlib.Path({str(source)!r}).write_text('// later'), pathlib.Path({str(mark)!r}).touch())"
        ran = self.small.run("vaultc", RT_DO=save)
        self.assertIn("a source was saved meanwhile", ran.stderr)
        self.assertEqual(self.small.calls(), ["try vaultc"] * 2)
        after = self.small.run("vaultc")
        self.assertEqual((after.stdout, after.stderr), (ran.stdout, ""))

    def test_second_call_waits_and_says_so(self) -> None:
        mark = self.small.base / "go"
        first = self.small.start("vaultc", "1", RT_DO=f"while not pathlib.Path({str(mark)!r}).exists(): time.sleep(0.05)")
        self.addCleanup(first.communicate)
        while not self.small.calls():
            time.sleep(0.02)
        second = self.small.start("vaultc", "2")
        self.assertEqual(second.stderr.readline(), f"vault: process {first.pid} is compiling; waiting for it\n")
        mark.touch()
        output, errors = second.communicate(timeout=PATIENCE)
        self.assertTrue(output.endswith(": 2\n"), output)
        self.assertEqual((errors, self.small.calls()), ("", ["try vaultc"]))

    def test_interrupt_ends_the_children_and_leaves_nothing(self) -> None:
        for number, status in ((signal.SIGINT, 130), (signal.SIGTERM, 143)):
            started = self.small.start("vault", "build", RT_DO=f"pathlib.Path({str(self.small.base / 'rt')!r}).write_text(str(os.getpid())); time.sleep(600)")
            while not (self.small.base / "rt").exists() or not (self.small.base / "rt").read_text():
                time.sleep(0.02)
            started.send_signal(number)
            started.communicate(timeout=PATIENCE)
            self.assertEqual(started.returncode, status)
            with self.assertRaises(ProcessLookupError):
                os.kill(int((self.small.base / "rt").read_text()), 0)
            (self.small.base / "rt").unlink()
            self.assertEqual(self.small.kept(), [])

    def test_failed_compilation_has_its_log(self) -> None:
        ran = self.small.run("vault", "load", "1", RT_DO="sys.exit('no such word')")
        self.assertEqual((ran.returncode, ran.stdout), (70, ""))
        self.assertIn("vaultc could not be compiled; rt said\nno such word\n", ran.stderr)
        log = ran.stderr.split("The whole log is ")[1].strip()
        with open(log) as file:
            self.assertEqual(file.read(), "no such word\n")

    def test_at_most_five_states_are_kept(self) -> None:
        for number in range(7):
            self.small.source("low").write_text(f"// {number}\n")
            self.small.run("vault", "build")
        self.assertEqual(len(self.small.kept()), 5)
        self.assertEqual(self.small.run("vaultc").stderr, "")


class NoProgram(unittest.TestCase):
    def setUp(self) -> None:
        self.small = Small()
        self.addCleanup(self.small.close)

    def test_no_rt_is_one_sentence(self) -> None:
        (self.small.kit / "bin" / "rt").unlink()
        for command in ("vault", "vaultc"):
            ran = self.small.run(command, "emit", "f.v")
            self.assertEqual((ran.returncode, ran.stdout), (70, ""))
            self.assertRegex(ran.stderr, r"\Avault: no vaultc is built of these sources, and there is no `rt` in the PATH: .* Rattle's kit.*\n\Z")

    def test_kept_program_serves_without_rt(self) -> None:
        before = self.small.run("vaultc", "x").stdout
        (self.small.kit / "bin" / "rt").unlink()
        ran = self.small.run("vaultc", "x")
        self.assertEqual((ran.returncode, ran.stdout, ran.stderr), (0, before, ""))

    def test_cache_that_cannot_be_made_is_told(self) -> None:
        (self.small.base / "file").write_text("")
        ran = self.small.run("vaultc", "x", XDG_CACHE_HOME=str(self.small.base / "file"))
        self.assertEqual((ran.returncode, ran.stdout), (70, ""))
        self.assertRegex(ran.stderr, r"\Avault: programs are kept in .*/file/vault: .*; XDG_CACHE_HOME may name another place\n\Z")

    def test_full_disk_is_told(self) -> None:
        full = OSError(28, "No space left on device", "/cache/part")
        where = mock.patch.dict(os.environ, {"XDG_CACHE_HOME": str(self.small.cache)})
        with where, mock.patch.object(sources, "kit", return_value=self.small.kit), mock.patch.object(compilation, "_compile", side_effect=full):
            with self.assertRaises(errors.NoProgram) as caught:
                compilation.keep(["vaultc"], Progress(io.StringIO()), asked=True)
        self.assertEqual(caught.exception.message, "/cache/part: No space left on device; XDG_CACHE_HOME may name another place")

    def test_installed_tool_has_no_sources(self) -> None:
        (self.small.top / "crates.txt").unlink()
        for words in (["build"], ["build", "--proved"], ["emit", "f.v"], ["status", "--sum"]):
            ran = self.small.run("vault", *words)
            self.assertIn((ran.returncode, ran.stdout, len(ran.stderr.splitlines())), ((70, "", 1), (1, "", 1)), ran.stderr)

    def test_variable_forbids_to_build(self) -> None:
        ran = self.small.run("vaultc", "check", "f.v", VAULTC_BUILD="no")
        self.assertEqual((ran.returncode, ran.stdout), (70, ""))
        self.assertRegex(ran.stderr, r"\Avault: no vaultc is built .* VAULTC_BUILD=no forbids it: 'vault build' .*\n\Z")
        self.assertEqual(self.small.calls(), [])

    def test_variable_names_the_program(self) -> None:
        ran = self.small.run("vaultc", "-n", "x", VAULTC="/bin/echo")
        self.assertEqual((ran.returncode, ran.stdout), (0, "x"))
        ran = self.small.run("vaultc", "x", VAULTC="/nowhere/vaultc")
        self.assertEqual((ran.returncode, ran.stderr), (70, "vault: VAULTC=/nowhere/vaultc: there is no program of this name that can be run\n"))

    def test_temporary_folder_that_is_not_there_does_not_matter(self) -> None:
        ran = self.small.run("vaultc", "x", TMPDIR="/nowhere")
        self.assertEqual((ran.returncode, ran.stdout[-4:]), (0, ": x\n"))


class AsVaultc(unittest.TestCase):
    """`bin/vaultc` is the program itself: its output as it comes, its status, its signals."""

    def setUp(self) -> None:
        self.small = Small()
        self.addCleanup(self.small.close)
        self.small.run("vault", "build")

    def test_status_is_the_programs(self) -> None:
        for status in (0, 3, 13):
            self.assertEqual(self.small.run("vaultc", "ends", str(status)).returncode, status)

    def test_output_comes_at_once_and_signals_arrive(self) -> None:
        started = self.small.start("vaultc", "sleep", "600")
        self.addCleanup(started.communicate)
        self.assertEqual(started.stdout.readline(), "began\n")
        started.send_signal(signal.SIGTERM)
        self.assertEqual(started.wait(PATIENCE), -signal.SIGTERM)

    def test_second_call_is_quick(self) -> None:
        began = os.times()
        self.small.run("vaultc", "x")
        ended = os.times()
        self.assertLess(ended.children_user + ended.children_system - began.children_user - began.children_system, SOON)


if __name__ == "__main__":
    unittest.main()

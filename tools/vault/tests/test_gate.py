"""`.ci/run`: the status is that of `rt ci` and of the tools' tests, and the last line of each can be read."""
from __future__ import annotations

import shutil
import subprocess
import unittest

from vault import paths

from .small import Small

BUILDS = """print('3 passed, 0 failed', flush=True)
pathlib.Path('crates/vaultc/out').mkdir(exist_ok=True)
shutil = __import__('shutil')
shutil.copy('/bin/echo', 'crates/vaultc/out/vaultc')
sys.exit(0)"""
FAILS = "print('2 passed, 1 failed', flush=True); sys.exit(1)"
PASSING = "import os, unittest\n\n\nclass T(unittest.TestCase):\n    def test(self):\n        self.assertIn('VAULTC', os.environ)\n"


class Gate(unittest.TestCase):
    def setUp(self) -> None:
        self.small = Small()
        self.addCleanup(self.small.close)
        (self.small.top / "crates" / "vaultc_tests" / "stdin").touch()
        (self.small.top / ".ci").mkdir()
        shutil.copy(paths.TOP / ".ci" / "run", self.small.top / ".ci")
        tests = self.small.top / "tools" / "vault" / "tests"
        tests.mkdir()
        (tests / "__init__.py").touch()
        self.test = tests / "test_one.py"
        self.test.write_text(PASSING)

    def run_gate(self, what: str) -> subprocess.CompletedProcess:
        environment = self.small.environment(CI="true", RT_DO=what)
        how = {"stdin": subprocess.DEVNULL, "stdout": subprocess.PIPE, "stderr": subprocess.STDOUT, "universal_newlines": True}
        return subprocess.run([str(self.small.top / ".ci" / "run")], env=environment, **how)

    def test_both_pass_and_the_program_is_taken_as_proved(self) -> None:
        ran = self.run_gate(BUILDS)
        self.assertEqual(ran.returncode, 0, ran.stdout)
        lines = ran.stdout.splitlines()
        self.assertEqual((lines[0], lines[-1]), ("3 passed, 0 failed", "1 passed, 0 failed"))
        self.assertIn("\nvaultc: proved;", self.small.run("vault", "status").stdout)
        self.assertEqual(self.small.calls(), ["ci top"])

    def test_failed_proof_fails(self) -> None:
        (self.small.top / "crates" / "vaultc" / "out").mkdir()
        shutil.copy("/bin/echo", self.small.top / "crates" / "vaultc" / "out" / "vaultc")
        ran = self.run_gate(FAILS)
        self.assertEqual(ran.returncode, 1, ran.stdout)
        self.assertTrue(ran.stdout.startswith("2 passed, 1 failed\n"), ran.stdout)
        self.assertTrue(ran.stdout.endswith("1 passed, 0 failed\n"), ran.stdout)
        self.assertIn("none of these sources", self.small.run("vault", "status").stdout)

    def test_failed_test_of_the_tools_fails(self) -> None:
        self.test.write_text(PASSING.replace("assertIn", "assertNotIn"))
        ran = self.run_gate(BUILDS)
        self.assertEqual((ran.returncode, ran.stdout.splitlines()[-1]), (1, "0 passed, 1 failed"))
        self.assertEqual(ran.stdout.count("0 passed, 1 failed"), 2)

    def test_part_that_passes_alone_passes(self) -> None:
        self.test.write_text(PASSING.replace("assertIn('VAULTC', os.environ)", "assertTrue(os.path.exists('seen') or open('seen', 'w').close())"))
        ran = self.run_gate(BUILDS)
        self.assertEqual((ran.returncode, ran.stdout.splitlines()[-1]), (0, "1 passed, 0 failed"))
        self.assertIn("0 passed, 1 failed", ran.stdout)


if __name__ == "__main__":
    unittest.main()

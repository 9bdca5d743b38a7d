"""The command line of `vault`: help, versions, words that are no command, and output that is taken by nobody."""
from __future__ import annotations

import ast
import os
import subprocess
import sys
import unittest
from typing import List

from vault import cli, paths

VAULT = paths.TOP / "bin" / "vault"


def vault(*words: str, **how) -> subprocess.CompletedProcess:
    """What `bin/vault` answers to these words."""
    how = {"stdout": subprocess.PIPE, "stderr": subprocess.PIPE, **how}
    return subprocess.run([str(VAULT), *words], universal_newlines=True, **how)


class CommandLine(unittest.TestCase):
    def test_help_names_each_command(self) -> None:
        ran = vault("--help")
        self.assertEqual((ran.returncode, ran.stderr), (0, ""))
        listed: List[str] = [line.split()[0] for line in ran.stdout.splitlines() if line.startswith("  ")]
        self.assertEqual(sorted(listed), cli.command_names())
        for name in listed:
            self.assertEqual(cli.line_of(name), (cli.module_of(name).__doc__ or "").partition("\n")[0])

    def test_no_words_give_the_help_as_an_error(self) -> None:
        ran = vault()
        self.assertEqual((ran.returncode, ran.stdout, ran.stderr), (1, "", vault("--help").stdout))

    def test_each_command_has_help(self) -> None:
        for name in cli.command_names():
            with self.subTest(name):
                ran = vault(name, "--help")
                self.assertEqual((ran.returncode, ran.stderr), (0, ""))
                self.assertIn(f"usage: vault {name}", ran.stdout)
                self.assertEqual(vault("help", name).stdout, ran.stdout)

    def test_version_has_version_commit_and_kit(self) -> None:
        ran = vault("--version")
        self.assertEqual(ran.returncode, 0)
        self.assertRegex(ran.stdout, r"\Avault \d+\.\d+\ncommit \w+\+?\n.+\n\Z")

    def test_nearest_command_is_named(self) -> None:
        ran = vault("chek")
        self.assertEqual((ran.returncode, ran.stdout), (1, ""))
        self.assertEqual(ran.stderr, "vault: there is no command 'chek'; did you mean 'check'?\n")
        ran = vault("--nonsense")
        self.assertEqual((ran.returncode, ran.stderr), (1, "vault: there is no command '--nonsense'; 'vault --help' lists the commands\n"))

    def test_unknown_option_has_status_1(self) -> None:
        ran = vault("build", "--nonsense")
        self.assertEqual((ran.returncode, ran.stdout), (1, ""))
        self.assertIn("vault: unrecognized arguments: --nonsense\n", ran.stderr)


class Output(unittest.TestCase):
    def test_reader_that_has_gone_ends_it_quietly(self) -> None:
        read, write = os.pipe()
        os.close(read)
        ran = vault("--help", stdout=write)
        os.close(write)
        self.assertEqual((ran.returncode, ran.stderr), (3, ""))

    def test_full_disk_is_status_3(self) -> None:
        with open("/dev/full", "w") as full:
            ran = vault("--help", stdout=full)
        self.assertEqual((ran.returncode, ran.stderr), (3, "vault: standard output: No space left on device\n"))

    def test_closed_output_and_errors_are_no_fault(self) -> None:
        self.assertEqual(subprocess.run(["sh", "-c", f"'{VAULT}' --version >&-"]).returncode, 0)
        self.assertEqual(subprocess.run(["sh", "-c", f"'{VAULT}' chek 2>&-"]).returncode, 1)

    def test_any_locale_will_do(self) -> None:
        ran = vault("chek\u00e4", env={**os.environ, "LC_ALL": "C", "PYTHONUTF8": "0", "PYTHONCOERCECLOCALE": "0"})
        self.assertEqual((ran.returncode, ran.stdout), (1, ""))
        self.assertTrue(ran.stderr.startswith("vault: there is no command"), ran.stderr)


class OldPython(unittest.TestCase):
    SCRIPTS = ("vault", "vaultc", "vaultq")

    def test_no_python_is_told(self) -> None:
        for name in self.SCRIPTS:
            how = {"stdout": subprocess.PIPE, "stderr": subprocess.PIPE, "universal_newlines": True, "env": {"PATH": "/nowhere"}}
            ran = subprocess.run(["/bin/sh", str(paths.TOP / "bin" / name)], **how)
            self.assertEqual((ran.returncode, ran.stdout), (70, ""))
            self.assertEqual(ran.stderr, f"{name}: this needs Python 3.8 or later, and there is no python3 in the PATH\n")

    def test_old_python_is_told_what_is_needed(self) -> None:
        for name in self.SCRIPTS:
            script = str(paths.TOP / "bin" / name)
            code = f"import sys; sys.version_info = (3, 7, 16, 'final', 0); exec(compile(open({script!r}).read(), {script!r}, 'exec'))"
            ran = subprocess.run([sys.executable, "-c", code], stdout=subprocess.PIPE, stderr=subprocess.PIPE, universal_newlines=True)
            self.assertEqual((ran.returncode, ran.stdout), (70, ""))
            self.assertEqual(ran.stderr, f"{name}: this needs Python 3.8 or later, and python3 here is 3.7\n")

    def test_scripts_are_read_by_old_ones(self) -> None:
        for name in self.SCRIPTS:
            ast.parse((paths.TOP / "bin" / name).read_text(), feature_version=(3, 4))

    def test_modules_are_of_python_3_8(self) -> None:
        for file in (paths.TOP / "tools").rglob("*.py"):
            with self.subTest(file.name):
                ast.parse(file.read_text(encoding="utf-8"), feature_version=(3, 8))


if __name__ == "__main__":
    unittest.main()

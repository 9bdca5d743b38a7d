"""Installing, removing, and packages; completions and the man page."""
from __future__ import annotations

import contextlib
import io
import os
import shutil
import subprocess
import tempfile
import time
import unittest
from pathlib import Path
from typing import Dict, List
from unittest import mock

from vault import cli, completions, installation, manual, packages, sources, store

SCRIPT = "#!/bin/sh\necho asked: \"$@\"\n"


class InstalledBelowAFolder(unittest.TestCase):
    """A script takes the place of each program: what is installed is asked, and nothing is compiled."""

    def setUp(self) -> None:
        folder = tempfile.TemporaryDirectory()
        self.addCleanup(folder.cleanup)
        self.top = Path(folder.name)
        changed = mock.patch.dict(os.environ, {"XDG_CACHE_HOME": str(self.top / "cache"), "DESTDIR": ""})
        changed.start()
        self.addCleanup(changed.stop)
        for name in ("VAULTC", "VAULTQ"):
            os.environ.pop(name, None)
        for name in installation.PROGRAMS:
            self.keep(name)

    def keep(self, name: str) -> None:
        at = store.folder(sources.sum_of_sources(), sources.kit_line())
        at.mkdir(parents=True, exist_ok=True)
        made = at / "made"
        made.write_text(SCRIPT)
        store.write(made, store.Note(name, True, "0", sources.sum_of_sources(), sources.kit_line(), time.time()))

    def files(self, prefix: Path) -> List[Path]:
        return sorted(path for path in prefix.rglob("*") if not path.is_dir())

    def vault(self, *words: str) -> str:
        said = io.StringIO()
        with contextlib.redirect_stdout(said):
            self.assertEqual(cli.dispatch(list(words)), 0)
        return said.getvalue()

    def test_what_is_installed_runs_and_is_removed(self) -> None:
        prefix = self.top / "usr"
        self.vault("install", "--prefix", str(prefix))
        environment: Dict[str, str] = {**os.environ, "PATH": os.environ["PATH"]}
        ran = subprocess.run([str(prefix / "bin/vault"), "verify", "a.c"], env=environment, stdout=subprocess.PIPE, universal_newlines=True)
        self.assertEqual((ran.stdout, ran.returncode), ("asked: verify a.c\n", 0))
        ran = subprocess.run([str(prefix / "bin/vaultc"), "check", "a.v"], env=environment, stdout=subprocess.PIPE, universal_newlines=True)
        self.assertEqual((ran.stdout, ran.returncode), ("asked: check a.v\n", 0))
        for name in ("share/man/man1/vault.1", "share/man/man1/vaultc.1", "share/zsh/site-functions/_vault", "share/vault/runtime/vault_rt.h"):
            self.assertTrue((prefix / name).is_file(), name)
        (prefix / "bin/other").write_text("stays")
        self.vault("install", "--remove", "--prefix", str(prefix))
        self.assertEqual(self.files(prefix), [prefix / "bin/other"])

    def test_packages_have_the_same_bytes_twice(self) -> None:
        log = self.top / "log"
        log.write_text("vlt_base proved\n130 passed, 0 failed\nRan 4 tests\n")
        self.vault("package", "--gate", str(log), "--to", str(self.top / "one"))
        self.vault("package", "--gate", str(log), "--to", str(self.top / "two"))
        names = sorted(path.name for path in (self.top / "one").iterdir())
        self.assertEqual([name for name in names if name.isupper()], ["GATE", "SHA256SUMS"])
        self.assertEqual(len(names), 4)
        for name in names:
            self.assertEqual((self.top / "one" / name).read_bytes(), (self.top / "two" / name).read_bytes(), name)
        self.assertEqual((self.top / "one/GATE").read_text(), "vlt_base proved\n130 passed, 0 failed\n")

    def test_the_package_is_read_by_dpkg(self) -> None:
        if shutil.which("dpkg-deb") is None:
            self.skipTest("dpkg-deb isn't installed")
        self.vault("package", "--unproved", "--to", str(self.top))
        package = next(self.top.glob("*.deb"))
        listed = subprocess.run(["dpkg-deb", "--contents", str(package)], stdout=subprocess.PIPE, check=True, universal_newlines=True).stdout
        self.assertIn("./usr/lib/vault/vaultc", listed)
        subprocess.run(["dpkg-deb", "--extract", str(package), str(self.top / "root")], check=True)
        ran = subprocess.run([str(self.top / "root/usr/bin/vaultc"), "fmt", "a.v"], stdout=subprocess.PIPE, universal_newlines=True)
        self.assertEqual(ran.stdout, "asked: fmt a.v\n")

    def test_a_log_of_a_gate_that_failed_is_refused(self) -> None:
        log = self.top / "log"
        for said in ("129 passed, 1 failed\n", "129 passed, 1 failed\ntools\n9 passed, 0 failed\n", "130 passed, 0 failed\n8 passed, 1 failed\n", ""):
            log.write_text(said)
            with self.subTest(said), self.assertRaisesRegex(packages.Problem, "isn't the log of a gate that passed"):
                cli.dispatch(["package", "--gate", str(log), "--to", str(self.top / "none")])

    def test_closing_lines_are_those_of_the_proofs_and_the_last_one_of_the_tests(self) -> None:
        log = self.top / "log"
        tools = "".join(f"passed 1.0 s tools: {number}\n" for number in range(20))
        log.write_text(f"rt: ok; every proof was done in this run\n137 passed, 0 failed\n{tools}58 passed, 1 failed\n{tools}59 passed, 0 failed\n")
        self.assertEqual(packages.closing_lines(log), "rt: ok; every proof was done in this run\n137 passed, 0 failed\n59 passed, 0 failed\n")


class Reading(unittest.TestCase):
    def test_completions_are_read_by_their_shells(self) -> None:
        for shell in completions.SHELLS:
            with self.subTest(shell):
                if shutil.which(shell) is None:
                    self.skipTest(f"{shell} isn't installed")
                subprocess.run([shell, "-n"], input=completions.text(shell).encode(), check=True)

    def test_completion_of_bash(self) -> None:
        script = completions.text("bash") + 'COMP_WORDS=(vault ch) COMP_CWORD=1; _vault; echo "${COMPREPLY[@]}"\n'
        said = subprocess.run(["bash"], input=script, stdout=subprocess.PIPE, check=True, universal_newlines=True).stdout
        self.assertEqual(said, "check\n")

    def test_the_man_page_has_each_command(self) -> None:
        page = manual.text()
        for name in cli.command_names():
            self.assertIn(f".SS vault {name}".replace("-", "\\-"), page)


if __name__ == "__main__":
    unittest.main()

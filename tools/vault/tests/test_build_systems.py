"""Rules for make, CMake and Bazel, each tried by its tool on examples/modules."""
from __future__ import annotations

import os
import shutil
import subprocess
import tempfile
import unittest
from pathlib import Path

from vault import paths

MODULES = paths.TOP / "examples" / "modules"
VAULT = paths.TOP / "bin" / "vault"


class BuildSystems(unittest.TestCase):
    def setUp(self) -> None:
        folder = tempfile.TemporaryDirectory()
        self.addCleanup(folder.cleanup)
        self.top = Path(folder.name)
        for name in ("build", "runtime", "examples/modules"):
            shutil.copytree(paths.TOP / name, self.top / name)
        self.modules = self.top / "examples" / "modules"

    def ran(self, *words: str, folder: Path, status: int = 0) -> str:
        """What a command writes to both outputs; its status is tested."""
        environment = {**os.environ, "VAULT": str(VAULT)}
        done = subprocess.run(words, cwd=folder, env=environment, stdout=subprocess.PIPE, stderr=subprocess.STDOUT, universal_newlines=True)
        self.assertEqual(done.returncode, status, done.stdout)
        return done.stdout

    def needs(self, tool: str) -> None:
        if shutil.which(tool) is None:
            self.skipTest(f"{tool} isn't installed")

    def break_a_module(self) -> None:
        shutil.copyfile(MODULES / "unstarted.v", self.modules / "user.v")

    def test_make_links_what_passes(self) -> None:
        self.needs("make")
        self.ran("make", "-j", folder=self.modules)
        self.assertIn("Nothing to be done", self.ran("make", folder=self.modules))
        self.ran("make", "program", folder=self.modules)
        self.assertEqual(self.ran("./program", folder=self.modules), "1\n")

    def test_make_leaves_nothing_of_what_fails(self) -> None:
        self.needs("make")
        self.break_a_module()
        self.ran("make", "-k", folder=self.modules, status=2)
        self.assertTrue((self.modules / "disk.tested").exists())
        self.assertFalse((self.modules / "user.tested").exists())
        self.assertEqual(list(self.modules.glob("program.c*")), [])

    def test_cmake_links_what_passes(self) -> None:
        self.needs("cmake")
        made = self.top / "made"
        self.ran("cmake", "-S", str(self.modules), "-B", str(made), f"-DVault_EXECUTABLE={VAULT}", folder=self.top)
        self.ran("cmake", "--build", str(made), folder=self.top)
        self.assertEqual(self.ran("./program", folder=made), "1\n")

    def test_cmake_stops_at_what_fails(self) -> None:
        self.needs("cmake")
        self.break_a_module()
        made = self.top / "made"
        self.ran("cmake", "-S", str(self.modules), "-B", str(made), f"-DVault_EXECUTABLE={VAULT}", folder=self.top)
        self.assertIn("protocol 3:5", self.ran("cmake", "--build", str(made), folder=self.top, status=2))
        self.assertEqual(list(made.glob("program.c*")), [])


if __name__ == "__main__":
    unittest.main()

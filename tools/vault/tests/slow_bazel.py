"""The rules of Bazel, tried on examples/modules; a server of Bazel has to start first."""
from __future__ import annotations

import shutil
import subprocess
import tempfile
import unittest
from pathlib import Path

from vault import paths, programs


class Bazel(unittest.TestCase):
    def setUp(self) -> None:
        if shutil.which("bazel") is None:
            self.skipTest("bazel isn't installed")
        folder = tempfile.TemporaryDirectory()
        self.addCleanup(folder.cleanup)
        self.top = Path(folder.name) / "workspace"
        self.output = Path(folder.name) / "output"
        shutil.copytree(paths.TOP / "build", self.top / "build")
        shutil.copytree(paths.TOP / "examples" / "modules", self.top / "examples" / "modules")
        (self.top / "WORKSPACE").write_text('workspace(name = "disks")\n')
        (self.top / "build/bazel/vaultc.BUILD").rename(self.top / "build/bazel/BUILD.bazel")
        (self.top / "examples/modules/bazel.BUILD").rename(self.top / "examples/modules/BUILD.bazel")
        program = self.top / "build/bazel/vaultc"
        program.write_text("#!/bin/sh\nexec %s \"$@\"\n" % " ".join(programs.take("vaultc").command))
        program.chmod(0o755)
        self.addCleanup(self.bazel, "shutdown")

    def bazel(self, *words: str) -> "subprocess.CompletedProcess[str]":
        command = ["bazel", f"--output_user_root={self.output}", *words]
        return subprocess.run(command, cwd=self.top, stdout=subprocess.PIPE, stderr=subprocess.STDOUT, universal_newlines=True)

    def test_modules_are_linked_and_verified(self) -> None:
        ran = self.bazel("build", "//...")
        self.assertEqual(ran.returncode, 0, ran.stdout)
        text = self.top / "bazel-bin/examples/modules/program.c"
        self.assertEqual(programs.take("vaultc").ask(["verify", str(text)]).status, 0)

    def test_a_refused_module_fails_the_build(self) -> None:
        modules = self.top / "examples" / "modules"
        shutil.copyfile(modules / "unstarted.v", modules / "user.v")
        ran = self.bazel("build", "//...")
        self.assertEqual(ran.returncode, 1)
        self.assertIn("protocol 3:5 K found held@off wanted held@on", ran.stdout)


if __name__ == "__main__":
    unittest.main()

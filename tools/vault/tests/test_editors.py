"""Editors' files, by the editors that are installed."""
from __future__ import annotations

import json
import os
import re
import shutil
import subprocess
import tempfile
import unittest
import zipfile
from pathlib import Path
from typing import List
from xml.etree import ElementTree

from vault import cli, paths, programs, vsix
from vault.ask import take
from vault.forms import gcc

from .golden import judged
from .test_server import INTERFACE, MODULE, PATIENCE

EDITORS = paths.TOP / "editors"
SESSIONS = Path(__file__).parent / "editors"
VAULT = paths.TOP / "bin" / "vault"


class Neovim(unittest.TestCase):
    def setUp(self) -> None:
        if shutil.which("nvim") is None:
            self.skipTest("nvim isn't installed")
        take()
        folder = tempfile.TemporaryDirectory()
        self.addCleanup(folder.cleanup)
        self.top = Path(folder.name)

    def nvim(self, *words: str, **environment: str) -> None:
        paths_of_run = f"set runtimepath+={EDITORS / 'vim'},{EDITORS / 'nvim'} | filetype plugin on | syntax on"
        command = ["nvim", "--headless", "-u", "NONE", "-i", "NONE", "--cmd", paths_of_run]
        command += ["--cmd", f"let g:vault_lsp_options = ['--seconds', '{PATIENCE}']", "--cmd", f"luafile {EDITORS / 'nvim/plugin/vault.lua'}", *words]
        # without a terminal and with a standard input that has ended, as from a shell in the background
        subprocess.run(command, env={**os.environ, **environment, "HOME": str(self.top)}, check=True, timeout=PATIENCE, stdin=subprocess.DEVNULL)

    def session(self, file: Path, module: Path) -> List[str]:
        seen = self.top / "seen"
        cache = str(paths.cache().parent)
        self.nvim("-c", f"luafile {SESSIONS / 'session.lua'}", SEEN=str(seen), FILE=str(file), MODULE=str(module), XDG_CACHE_HOME=cache)
        return seen.read_text(encoding="utf-8").split("\n")

    def test_a_session(self) -> None:
        file, module = self.top / "lock_kept.v", self.top / "disk.v"
        shutil.copyfile(paths.TOP / "examples" / "lock_kept.v", file)
        module.write_text(MODULE, encoding="utf-8")
        (self.top / "disk.vi").write_text(INTERFACE, encoding="utf-8")
        seen = self.session(file, module)
        self.assertEqual(seen[0], "filetype vault")
        self.assertTrue(seen[1].startswith("error 15:9 "), seen)
        self.assertRegex(seen[2], r"^hover .*cure: `unlock\(a\);` before this `return`$")
        self.assertIn("cure insert unlock(a); before this return", seen)
        self.assertEqual(seen.count("errors left 0"), 2)
        self.assertIn("edits of the layout 1", seen)
        self.assertIn("first lines // first||stateset latch { loose, shut }", seen)
        self.assertIn("cure insert start(d); before this brace", seen)
        self.assertNotIn("waited in vain", seen)
        if take().answers("keys"):
            self.assertIn("hint 13 L@shut", seen)

    def test_a_new_file_beside_vault_json_is_vaults(self) -> None:
        (self.top / "vault.json").write_text("{}")
        seen = self.top / "seen"
        self.nvim(str(self.top / "new.v"), "-c", f"call writefile([&filetype], '{seen}')", "-c", "qa!")
        self.assertEqual(seen.read_text(), "vault\n")


    def test_a_file_whose_first_line_says_so_is_vaults(self) -> None:
        file, seen = self.top / "one.v", self.top / "seen"
        file.write_text("// vault\n", encoding="utf-8")
        self.nvim(str(file), "-c", f"call writefile([&filetype], '{seen}')", "-c", "qa!")
        self.assertEqual(seen.read_text(), "vault\n")


class Vim(unittest.TestCase):
    def filetype(self, name: str, text: str, setup: bool) -> str:
        if shutil.which("vim") is None:
            self.skipTest("vim isn't installed")
        with tempfile.TemporaryDirectory() as folder:
            file, seen = Path(folder) / name, Path(folder) / "seen"
            if text:
                file.write_text(text, encoding="utf-8")
            if setup:
                (Path(folder) / "vault.json").write_text("{}", encoding="utf-8")
            words = ["vim", "-Nu", "NONE", "-i", "NONE", "-es", "--cmd", f"set runtimepath+={EDITORS / 'vim'} | filetype plugin on", str(file)]
            words += ["-c", f"call writefile([&filetype], '{seen}')", "-c", "qa!"]
            subprocess.run(words, stdin=subprocess.DEVNULL, stdout=subprocess.DEVNULL, timeout=PATIENCE, env={**os.environ, "TERM": "dumb"})
            return seen.read_text(encoding="utf-8").strip()

    def test_which_files_are_vaults(self) -> None:
        self.assertEqual(self.filetype("new.v", "", True), "vault")
        self.assertEqual(self.filetype("one.v", "// vault\n", False), "vault")
        self.assertEqual(self.filetype("two.v", "stateset power { off, on }\n", False), "vault")
        self.assertNotEqual(self.filetype("other.v", "module adder(input a, output b);\nendmodule\n", False), "vault")
        self.assertEqual(self.filetype("disk.vi", "abstract disk;\n", False), "vault")


class VsCode(unittest.TestCase):
    """The extension over a stand-in for the editor, and how it is packed."""

    def session(self) -> List[str]:
        if shutil.which("node") is None:
            self.skipTest("node isn't installed")
        take()
        with tempfile.TemporaryDirectory() as folder:
            file, other = Path(folder) / "lock_kept.v", Path(folder) / "two.v"
            shutil.copyfile(paths.TOP / "examples" / "lock_kept.v", file)
            shutil.copyfile(paths.TOP / "examples" / "point.v", other)
            words = ["node", SESSIONS / "session.js", EDITORS / "vscode", VAULT, PATIENCE, file, other]
            streams = {"stdin": subprocess.DEVNULL, "stdout": subprocess.PIPE}
            done = subprocess.run([str(word) for word in words], check=True, timeout=PATIENCE, **streams)
        return done.stdout.decode("utf-8").splitlines()

    def test_what_the_server_says_reaches_the_editor(self) -> None:
        seen = [line for line in self.session() if not line.startswith("hint ")]
        error = "`pay` ends with `a` in state `shut`, but its clause promises `loose`"
        self.assertEqual(seen[0], f"error 15:9 severity 0 vault protocol docs/LANGUAGE.md#keys {error}")
        self.assertEqual(seen[1], "related 12:44 the clause of `pay` promises this of `a`")
        self.assertIn("related 14:5 the condition is true", seen)
        self.assertTrue(any(re.match(r"hover .*cure: `unlock\(a\);` before this `return`$", line) for line in seen), seen)
        found = [
            "definition 6:6", "references 6", "highlights 6", "completion cents/4", "renamed 6",
            "symbols latch/9 account/22 acquire/11 unlock/11 pay/11 main/11",
            "refused the renamed text would be refused: text token 3:9",
            "action insert unlock(a); before this return quickfix true for 1",
            "layout // first||stateset latch { loose, s", "language vault", "without a server null",
        ]  # fmt: skip
        self.assertEqual([line for line in found if line not in seen], [])
        self.assertEqual([line for line in seen if line.startswith("errors ")], ["errors 1", "errors 0", "errors 0", "errors 0"])
        (told,) = [line for line in seen if line.startswith("told ")]
        self.assertRegex(told, "^told /no/such/program lsp: .*ENOENT; the setting vault.command says which program is started$")

    def test_held_keys_are_hints(self) -> None:
        if not take().answers("keys"):
            self.skipTest("there is no vaultq")
        self.assertIn("hint 13 L@shut", self.session())

    def test_files_of_vs_code_are_json(self) -> None:
        for file in [*EDITORS.glob("vscode/*.json"), *EDITORS.glob("vscode/syntaxes/*.json")]:
            json.loads(file.read_text(encoding="utf-8"))

    def test_the_extension_needs_no_package(self) -> None:
        """It is under 300 lines over the editor's own module and those of Node."""
        files = sorted((EDITORS / "vscode").glob("*.js"))
        text = "".join(file.read_text(encoding="utf-8") for file in files)
        self.assertLess(text.count("\n"), 300)
        self.assertEqual(set(re.findall(r'require\("([^"]+)"\)', text)), {"vscode", "./client", "fs", "path", "child_process"})
        self.assertNotIn("dependencies", json.loads((EDITORS / "vscode" / "package.json").read_text(encoding="utf-8")))

    def test_the_extension_is_packed(self) -> None:
        with tempfile.TemporaryDirectory() as folder:
            self.assertEqual(cli.main(["package", "--vsix", "--to", folder]), 0)
            (file,) = Path(folder).iterdir()
            self.assertEqual(file.read_bytes(), vsix.pack(EDITORS / "vscode"))
            with zipfile.ZipFile(file) as packed:
                self.assertIsNone(packed.testzip())
                said = json.loads(packed.read("extension/package.json").decode("utf-8"))
                manifest = ElementTree.fromstring(packed.read("extension.vsixmanifest"))
                names = packed.namelist()
        identity = next(it for it in manifest.iter() if it.tag.endswith("}Identity"))
        self.assertEqual((identity.get("Id"), identity.get("Publisher")), (said["name"], said["publisher"]))
        self.assertTrue(said["version"].startswith((paths.TOP / "VERSION").read_text(encoding="utf-8").strip()))
        has = said["contributes"]
        for part in (has["grammars"][0]["path"], has["languages"][0]["configuration"], said["main"], "./client.js"):
            self.assertIn("extension/" + part[2:], names)

    def test_the_problem_matcher_reads_the_lines_of_gcc(self) -> None:
        programs.take("vaultc")
        said = json.loads((EDITORS / "vscode" / "package.json").read_text(encoding="utf-8"))
        pattern = said["contributes"]["problemMatchers"][0]["pattern"]
        written = gcc.write([one for file in judged(["lock_kept.v"], paths.TOP / "examples") for one in file.pictures])
        for line in written.splitlines():
            met = re.match(pattern["regexp"], line)
            self.assertIsNotNone(met, line)
            self.assertEqual(met.group(pattern["file"]), "lock_kept.v")


class OtherEditors(unittest.TestCase):
    def test_each_editor_is_set_up_in_five_lines(self) -> None:
        text = (EDITORS / "README.md").read_text(encoding="utf-8")
        for name in ("Neovim", "Vim", "Emacs", "Helix", "VS Code"):
            block = text.partition(f"**{name}**")[2].partition("```\n")[2].partition("```")[0]
            self.assertTrue(0 < len(block.splitlines()) <= 5, name)


class Emacs(unittest.TestCase):
    """Emacs without a window; the language server by eglot, which is a package of its own before Emacs 29."""

    def setUp(self) -> None:
        if shutil.which("emacs") is None:
            self.skipTest("emacs isn't installed")
        folder = tempfile.TemporaryDirectory()
        self.addCleanup(folder.cleanup)
        self.top = Path(folder.name)

    def emacs(self, *words: str, **environment: str) -> str:
        command = ["emacs", "--batch", "-L", str(EDITORS / "emacs"), "-l", "vault-mode", *words]
        streams = {"stdin": subprocess.DEVNULL, "stdout": subprocess.PIPE, "stderr": subprocess.PIPE}
        done = subprocess.run(command, env={**os.environ, **environment}, timeout=PATIENCE, check=True, **streams)
        return done.stdout.decode("utf-8")

    def mode(self, name: str, text: str) -> str:
        """The mode of a file that has this text; of a new one if it has none."""
        file = self.top / name
        if text:
            file.write_text(text, encoding="utf-8")
        return self.emacs(str(file), "--eval", "(princ major-mode)")

    def test_which_files_are_vaults(self) -> None:
        self.assertEqual(self.mode("one.v", "// vault\n"), "vault-mode")
        self.assertEqual(self.mode("two.v", "stateset power { off, on }\n"), "vault-mode")
        self.assertEqual(self.mode("disk.vi", "abstract disk;\n"), "vault-mode")
        self.assertEqual(self.mode("three.v", MODULE), "vault-mode")
        self.assertNotEqual(self.mode("other.v", "module adder(input a, output b);\nendmodule\n"), "vault-mode")
        (self.top / "vault.json").write_text("{}", encoding="utf-8")
        self.assertEqual(self.mode("new.v", ""), "vault-mode")

    def test_a_session(self) -> None:
        if "t" not in self.emacs("--eval", "(princ (and (require 'eglot nil t) t))"):
            self.skipTest("eglot isn't installed")
        take()
        file, module, seen = self.top / "lock_kept.v", self.top / "disk.v", self.top / "seen"
        shutil.copyfile(paths.TOP / "examples" / "lock_kept.v", file)
        module.write_text(MODULE, encoding="utf-8")
        (self.top / "disk.vi").write_text(INTERFACE, encoding="utf-8")
        self.emacs("-l", str(SESSIONS / "session.el"), SEEN=str(seen), FILE=str(file), MODULE=str(module), VAULT=str(VAULT))
        lines = seen.read_text(encoding="utf-8").split("\n")
        # before the cure it says what is held, if there is a vaultq
        lines = [re.sub(r"^hover .*cure:", "hover cure:", line) for line in lines]
        self.assertEqual(
            lines,
            [
                "mode vault-mode",
                "error 15:9 vault [protocol]: `pay` ends with `a` in state `shut`, but its clause promises `loose`",
                "keyword font-lock-keyword-face",
                "hover cure: `unlock(a);` before this `return`",
                "cure insert unlock(a); before this return",
                "errors left 0",
                "first lines // first||stateset latch { loose, shut }|",
                "mode vault-mode",
                "error 3:1 vault [protocol]: `restart` ends with `d` in state `off`, but its clause promises `on`",
                "cure insert start(d); before this brace",
                "errors left 0",
            ],
        )


if __name__ == "__main__":
    unittest.main()

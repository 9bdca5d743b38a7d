"""Copies of C texts for debuggers: lines and names, and a session of gdb."""
from __future__ import annotations

import contextlib
import io
import re
import shutil
import subprocess
import tempfile
import unittest
from pathlib import Path

from vault import cli, paths, programs
from vault.bind.certificate import heads_of
from vault.debug.places import Places
from vault.debug.text import names_of
from vault.picture import View
from vault.source import Source

EXAMPLES = paths.TOP / "examples"
RUNTIME = paths.TOP / "runtime"


class Copies(unittest.TestCase):
    def setUp(self) -> None:
        folder = tempfile.TemporaryDirectory()
        self.addCleanup(folder.cleanup)
        self.folder = Path(folder.name)

    def copy(self, source: Path) -> Path:
        with contextlib.redirect_stdout(io.StringIO()):
            self.assertEqual(cli.dispatch(["debug", str(source), "--to", str(self.folder)]), 0)
        return self.folder / f"{source.stem}.debug.c"

    def test_lines_and_names_alone_differ_from_the_c_text(self) -> None:
        source = EXAMPLES / "echo.v"
        made = self.copy(source).read_text(encoding="utf-8")
        text = programs.take("vaultc").ask(["emit", str(source)]).output
        kept = [line for line in made.splitlines() if not line.startswith("#line")]
        own = text[: text.index("/*VAULT-CERT")].splitlines()
        self.assertEqual(len(kept), len(own))

        def shape(line: str) -> str:
            return re.sub(r"\b(v_\w+|ext_\w+|[nepf]\d+)\b", "x", line)

        self.assertEqual([shape(line) for line in kept], [shape(line) for line in own])

    def test_each_statement_has_its_line(self) -> None:
        source = Source("a.v", b"void f(int n) {\n    if (n > 1) {\n        print(1);\n    } else if (n > 0) {\n        print(2);\n    }\n}\nvoid main() {\n    f(1);\n}\n")
        declarations = View(source).declarations
        assert declarations is not None
        places = Places(programs.take("vaultc"), source, declarations)
        self.assertEqual(places.statement_lines(), [2, 3, 4, 5, 7, 9, 10])

    def test_slots_of_variants_have_numbers(self) -> None:
        heads = heads_of(programs.take("vaultc").ask(["emit", str(EXAMPLES / "echo.v")]).output)
        serve = next(it for it in heads.functions if it.name == "serve")
        names = names_of(heads, serve)
        self.assertEqual((names["n0"], names["n2"], names["n3"]), ("v_port", "v_bound", "v_bound_1"))

    def test_a_debugger_stops_in_the_text(self) -> None:
        if shutil.which("gdb") is None or shutil.which("cc") is None:
            self.skipTest("gdb or cc isn't installed")
        source = EXAMPLES / "tutorial" / "3_clauses.v"
        made = self.copy(source)
        program = self.folder / "program"
        files = [RUNTIME / name for name in ("vault_main.c", "vault_rt.c", "numbers.c", "replay.c")]
        words = ["cc", "-g", "-O0", f'-DVAULT_PROGRAM="{made}"', "-I", str(RUNTIME), *map(str, files), "-o", str(program)]
        subprocess.run(words, check=True)
        line = next(number for number, it in enumerate(source.read_text().splitlines(), 1) if "s.last = s.last + 1" in it)
        asked = [f"break 3_clauses.v:{line}", "run", "backtrace", "print v_limit"]
        gdb = ["gdb", "-batch", "-nx", *(word for it in asked for word in ("-ex", it)), str(program)]
        said = subprocess.run(gdb, stdout=subprocess.PIPE, stderr=subprocess.STDOUT, universal_newlines=True, timeout=600).stdout
        self.assertIn("s.last = s.last + 1;", said)
        self.assertRegex(said, r"#1 .* in v_main \(\) at .*3_clauses\.v")
        self.assertIn("$1 = 30", said)


if __name__ == "__main__":
    unittest.main()

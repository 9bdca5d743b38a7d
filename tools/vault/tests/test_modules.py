"""Modules beside their interface: pictures at the places of the files."""
from __future__ import annotations

import json
import shutil
import subprocess
import sys
import tempfile
import unittest
from pathlib import Path
from typing import Dict, List

from vault.forms import gcc, json_form, page, sarif, text
from vault.judge import Judged, Wishes
from vault.modules import join, judge_module
from vault.paths import TOP
from vault.source import Source

from .golden import WIDTH, GoldenCase, asker, folder
from .schema import sarif_schema

INTERFACE = "examples/modules/interface.v"
MODULES = {
    "lacks_states.v": "struct disk {\n    int size;\n}\n",
    "has_another_head.v": "void start(tracked(K) disk d) [K@on] {\n}\n",
    "names_no_state.v": "extern void spin(tracked(K) disk d) [K@onn];\n",
    "ends_too_early.v": "void f(int n) {\n",
    "forgets_to_remove.v": "void f() {\n    tracked(K) disk d = make(1);\n    start(d);\n}\n",
    "gives_a_disk.v": "extern tracked disk find();\n",
}


class Modules(GoldenCase):
    def judge(self, files: Dict[str, str]) -> List[Judged]:
        taken = asker()
        with tempfile.TemporaryDirectory() as name:
            where = Path(name)
            (where / "interface.v").write_bytes((TOP / INTERFACE).read_bytes())
            for file, written in files.items():
                (where / file).write_text(written, encoding="utf-8")
            with folder(where):
                return [judge_module("interface.v", file, taken, Wishes(True)) for file in files]

    def test_pictures(self) -> None:
        found = self.judge(MODULES)
        pictures = [picture for one in found for picture in one.pictures]
        self.assert_golden("modules.txt", "".join(text.write(one.pictures, text.Style(WIDTH)) + "\n" for one in found))
        self.assert_golden("modules.gcc", gcc.write(pictures))
        self.assert_golden("modules.json", json_form.write(found))
        self.assert_golden("modules.sarif", sarif.write(found))
        self.assert_golden("modules.html", page.write(pictures))
        self.assertEqual([one.status for one in found], [7, 7, 7, 6, 8, 7])

    def test_places_of_both_files_are_in_sarif(self) -> None:
        document = json.loads(sarif.write(self.judge({"has_another_head.v": MODULES["has_another_head.v"]})))
        self.assertEqual(sarif_schema().faults(document), [])
        (result,) = document["runs"][0]["results"]
        files = [
            [one["physicalLocation"]["artifactLocation"]["uri"] for one in result[part]] for part in ("locations", "relatedLocations")
        ]
        self.assertEqual(files, [["has_another_head.v"], ["interface.v"]])
        (region,) = [one["physicalLocation"]["region"] for one in result["relatedLocations"]]
        self.assertEqual(region, {"startLine": 4, "startColumn": 8, "endColumn": 49})

    def test_a_good_module(self) -> None:
        taken = asker()
        with folder(TOP):
            found = judge_module(INTERFACE, "examples/modules/disk.v", taken, Wishes())
        self.assertEqual((found.status, found.functions), (0, 4))

    def test_cures_change_the_module_alone(self) -> None:
        found = self.judge({"forgets_to_remove.v": MODULES["forgets_to_remove.v"]})[0]
        cure = found.pictures[0].cures[0]
        self.assertTrue(cure.tested)
        edit = cure.edits[0]
        source = found.source.text
        self.assertEqual(source[: edit.span.start] + edit.text + source[edit.span.end :], source[:-2] + "    remove(d);\n}\n")

    def test_the_view_has_each_part_once(self) -> None:
        view = join(Source.read(str(TOP / INTERFACE)), Source.read(str(TOP / "examples" / "modules" / "disk.v")))
        names = [one.name.text for one in view.declarations.program.declarations]
        self.assertEqual(names, ["power", "disk", "make", "start", "write", "remove", "main"])
        for piece in view.pieces[:-1]:
            length = piece.span.end - piece.span.start
            self.assertEqual(view.source.text[piece.at : piece.at + length], piece.source.text[piece.span.start : piece.span.end])
            self.assertEqual(view.origin(piece.at), (piece.source, piece.span.start))


class Links(unittest.TestCase):
    """`vault link`: what is refused is shown at its place, and what is written isn't touched."""

    def link(self, second: str, *words: str) -> "subprocess.CompletedProcess[str]":
        with tempfile.TemporaryDirectory() as name:
            (Path(name) / "second.v").write_text(second, encoding="utf-8")
            shutil.copyfile(TOP / INTERFACE, Path(name) / "interface.v")
            shutil.copyfile(TOP / "examples" / "modules" / "disk.v", Path(name) / "disk.v")
            command = [sys.executable, str(TOP / "bin" / "vault"), "link", *words, "interface.v", "disk.v", "second.v"]
            return subprocess.run(
                command, cwd=name, stdin=subprocess.DEVNULL, stdout=subprocess.PIPE, stderr=subprocess.PIPE, universal_newlines=True
            )

    def test_a_good_pair_is_written(self) -> None:
        done = self.link("void main() {\n    tracked(K) disk d = make(1);\n    remove(d);\n}\n")
        self.assertEqual((done.returncode, done.stderr), (0, ""))
        self.assertIn("vault_rt.h", done.stdout)

    def test_an_error_on_keys_has_its_path(self) -> None:
        done = self.link("void main() {\n    tracked(K) disk d = make(1);\n    if (1 > 0) {\n        write(d, 1);\n    }\n    remove(d);\n}\n")
        self.assertEqual((done.returncode, done.stdout), (8, ""))
        self.assertIn("second.v:4:9: error: `write` needs `d` in state `on`, but it is `off`", done.stderr)
        self.assertIn("the condition is true", done.stderr)
        self.assertIn("interface.v", done.stderr)

    def test_two_modules_with_one_name(self) -> None:
        done = self.link("void start(tracked(K) disk d) [K@off->on] {\n}\nvoid main() {\n}\n", "--format", "sarif")
        self.assertNotEqual(done.returncode, 0)
        self.assertEqual(json.loads(done.stdout)["runs"][0]["results"][0]["level"], "error")


if __name__ == "__main__":
    unittest.main()

"""The benchmark's cases are what they say of Vault, its adapters read what their tools write, and its scores follow the rules."""
from __future__ import annotations

import importlib
import json
import re
import shutil
import subprocess
import sys
import unittest

from vault import layout, paths, programs
from vault.errors import NoProgram

BENCH = paths.TOP / "bench"
sys.path.insert(0, str(BENCH))

clang, consumed, cppcheck, gcc, rustc, sparse, splint, thread_safety = (
    importlib.import_module(f"adapters.{name}") for name in ("clang", "consumed", "cppcheck", "gcc", "rustc", "sparse", "splint", "thread_safety")
)
large = importlib.import_module("large")
messages, scoring = importlib.import_module("messages"), importlib.import_module("scoring")
Diagnostic, Edit, ToolError, score = messages.Diagnostic, messages.Edit, messages.ToolError, scoring.score

CASES = sorted(file.parent for file in BENCH.glob("cases/*/case.json"))

GCC = """\
wrong.c: In function 'work':
wrong.c:5:5: warning: leak of 's' [CWE-401] [-Wanalyzer-malloc-leak]
wrong.c:3:23: note: (1) allocated here
../../include/sensor.h:9:5: warning: dereference of NULL '0' [CWE-476] [-Wanalyzer-null-dereference]
wrong.c:7:5: note: (2) here
wrong.c:6:5: warning: unused variable 'x' [-Wunused-variable]
"""

SPLINT = """\
wrong.c: (in function work)
wrong.c:5:14: Fresh storage s not released before return
  A memory leak has been detected. Storage allocated locally is not released
  before the last reference to it is lost. (Use -mustfreefresh to inhibit
  warning)
   wrong.c:3:40: Fresh storage s created
wrong.c:2:5: Function exported but not used outside wrong: work
  A declaration is exported. (Use -exportlocal to inhibit warning)
"""


def rustc_error(code: str, message: str) -> str:
    """What rustc writes, one value in JSON a line: an error on line 8 with a note and a suggestion on line 6, then its last word."""
    place = {"file_name": "wrong.rs", "line_end": 6, "column_start": 7, "column_end": 7}
    own = {**place, "line_start": 8, "is_primary": True}
    note = {**place, "line_start": 6, "is_primary": False}
    change = {**note, "suggested_replacement": ".clone()", "suggestion_applicability": "MaybeIncorrect"}
    error = {"level": "error", "code": {"code": code}, "message": message, "spans": [own, note], "children": [{"spans": []}, {"spans": [change]}]}
    return json.dumps(error) + "\n" + json.dumps({"level": "error", "code": None, "message": "aborting", "spans": [], "children": []}) + "\n"


class Cases(unittest.TestCase):
    def setUp(self) -> None:
        try:
            self.program = programs.take("vaultc")
        except NoProgram as reason:
            self.skipTest(reason.message)

    def test_vault_says_what_each_case_says(self) -> None:
        self.assertEqual(len(CASES), 45)
        for case in CASES:
            told = json.loads((case / "case.json").read_text(encoding="utf-8"))["vault"]
            for side in ("wrong", "right"):
                with self.subTest(f"{case.name}/{side}.v"):
                    self.assertEqual(self.program.ask(["check", f"{side}.v"], folder=case).status, told[side])

    def test_vault_texts_are_laid_out(self) -> None:
        for file in sorted(BENCH.glob("cases/*/*.v")):
            with self.subTest(file.relative_to(BENCH)):
                text = file.read_text(encoding="utf-8")
                self.assertEqual(layout.lay_out_with_comments(self.program, text).output, text)


class Texts(unittest.TestCase):
    def test_one_line_of_each_wrong_text_is_marked(self) -> None:
        for file in sorted(BENCH.glob("cases/*/wrong.*")):
            with self.subTest(file.relative_to(BENCH)):
                self.assertEqual(len(re.findall(r"(?m)(?:// fault|/\* fault \*/)$", file.read_text(encoding="utf-8"))), 1)

    def test_each_wrong_text_has_a_right_one(self) -> None:
        for file in sorted(BENCH.glob("cases/*/wrong.*")):
            self.assertTrue(file.with_name("right" + file.suffix).is_file(), file)

    def test_a_case_without_a_text_in_c_says_why(self) -> None:
        for case in CASES:
            told = json.loads((case / "case.json").read_text(encoding="utf-8"))
            self.assertLessEqual(set(told.get("by_design", {})), {"c", "cpp", "rs"})
            self.assertEqual((case / "wrong.c").is_file(), "c" not in told.get("not_applicable", {}), case.name)
            self.assertTrue((case / "wrong.cpp").is_file(), case.name)

    def test_a_large_text_has_its_function_so_many_times(self) -> None:
        for ending in ("c", "cpp", "rs", "v"):
            with self.subTest(ending):
                text = (BENCH / "cases" / large.MODEL / f"right.{ending}").read_text(encoding="utf-8")
                more = large.repeat(text, 3)
                self.assertEqual(re.findall(r"\bwork_\d+", more), ["work_1", "work_2", "work_3"])
                self.assertEqual(len(re.findall(r"\bwhile\b", more)), 3)


class Adapters(unittest.TestCase):
    def test_gcc(self) -> None:
        self.assertEqual(
            gcc.diagnostics(GCC, "wrong.c", 0),
            [
                Diagnostic("-Wanalyzer-malloc-leak", "leak of 's' [CWE-401]", 5, (3,)),
                Diagnostic("-Wanalyzer-null-dereference", "dereference of NULL '0' [CWE-476]", 7, (7,)),
            ],
        )

    def test_a_text_that_is_not_compiled_is_an_error_of_the_tool(self) -> None:
        with self.assertRaises(ToolError):
            gcc.diagnostics("wrong.c:2:1: error: unknown type name 'x'\n", "wrong.c", 1)

    def test_clang(self) -> None:
        said = "wrong.c:5:12: warning: Potential leak of memory pointed to by 's' [unix.Malloc]\n1 warning generated.\n"
        self.assertEqual(clang.diagnostics(said, "wrong.c", 0), [Diagnostic("unix.Malloc", "Potential leak of memory pointed to by 's'", 5)])

    def test_clang_over_cpp(self) -> None:
        said = "wrong.cpp:6:7: warning: invalid invocation of method 'drop' on object 's' while it is in the 'consumed' state [-Wconsumed]\n"
        said += "wrong.cpp:6:7: warning: releasing mutex 's' that was not held [-Wthread-safety-analysis]\nwrong.cpp:5:7: note: mutex released here\n"
        words = "invalid invocation of method 'drop' on object 's' while it is in the 'consumed' state"
        self.assertEqual(consumed.diagnostics(said, "wrong.cpp", 0), [Diagnostic("-Wconsumed", words, 6)])
        released = Diagnostic("-Wthread-safety-analysis", "releasing mutex 's' that was not held", 6, (5,))
        self.assertEqual(thread_safety.diagnostics(said, "wrong.cpp", 0), [released])

    def test_cppcheck(self) -> None:
        said = "wrong.c:5: warning: Resource leak: s [resourceLeak]\n"
        self.assertEqual(cppcheck.diagnostics(said, "wrong.c", 0), [Diagnostic("resourceLeak", "Resource leak: s", 5)])

    def test_sparse(self) -> None:
        said = "wrong.c:2:5: warning: context imbalance in 'work' - wrong count at exit\n"
        self.assertEqual([it.line for it in sparse.diagnostics(said, "wrong.c", 0)], [2])

    def test_rustc(self) -> None:
        moved = Diagnostic("E0382", "use of moved value: `s`", 8, (6,), (Edit((6, 7), (6, 7), ".clone()"),))
        self.assertEqual(rustc.diagnostics(rustc_error("E0382", "use of moved value: `s`"), "wrong.rs", 1), [moved])
        with self.assertRaises(ToolError):
            rustc.diagnostics(rustc_error("E0425", "cannot find value `x` in this scope"), "wrong.rs", 1)

    def test_splint(self) -> None:
        leak = Diagnostic("mustfreefresh", "Fresh storage s not released before return", 5, (3,))
        self.assertEqual(splint.diagnostics(SPLINT, "wrong.c", 1), [leak])

    def test_fix_its(self) -> None:
        said = "wrong.c:5:5: warning: leak of 's' [-Wanalyzer-malloc-leak]\nfix-it:\"wrong.c\":{5:1-5:1}:\"free(s);\\n\"\n"
        self.assertEqual([it.cure for it in gcc.diagnostics(said, "wrong.c", 0)], [(Edit((5, 1), (5, 1), "free(s);\n"),)])


class Scores(unittest.TestCase):
    LEAK = Diagnostic("leak", "leak of s", 5)

    def test_what_only_the_wrong_text_has_is_found(self) -> None:
        self.assertEqual(score([self.LEAK], [], 6).mark, "F")
        self.assertTrue(score([self.LEAK], [], 6).is_place_right)
        self.assertFalse(score([self.LEAK], [], 7).is_place_right)

    def test_what_the_right_text_has_too_is_a_false_alarm(self) -> None:
        self.assertEqual(score([self.LEAK], [Diagnostic("leak", "leak of s", 9)], 5).mark, "-!")
        self.assertEqual(score([self.LEAK, self.LEAK], [self.LEAK], 5).mark, "F!")

    def test_silence_is_not_found(self) -> None:
        self.assertEqual(score([], [], 5).mark, "-")

    def test_a_place_on_another_line_is_a_second_place_and_two_are_a_path(self) -> None:
        for notes, second, path in (((), False, False), ((5,), False, False), ((5, 3), True, False), ((3, 4), True, True)):
            with self.subTest(notes):
                told = score([Diagnostic("leak", "leak of s", 5, notes)], [], 5)
                self.assertEqual((told.has_second_place, told.has_path), (second, path))

    def test_edits_are_made_where_they_stand(self) -> None:
        edits = (Edit((1, 2), (1, 3), "xyz"), Edit((3, 1), (3, 1), "new\n"))
        self.assertEqual(messages.apply(edits, b"abc\ndef\nghi\n"), b"axyzc\ndef\nnew\nghi\n")


@unittest.skipUnless(shutil.which("clang++"), "clang++ isn't installed")
class Headers(unittest.TestCase):
    def test_cpp_texts_compile(self) -> None:
        files = map(str, sorted(BENCH.glob("cases/*/*.cpp")))
        words = ["clang++", "-std=c++17", "-fsyntax-only", "-Wall", "-Wextra", "-Werror", "-I", str(BENCH / "include"), *files]
        self.assertEqual(subprocess.run(words).returncode, 0)


class Words(unittest.TestCase):
    def test_an_adapter_or_a_case_that_is_not_there_is_an_error(self) -> None:
        for words in (["--tool", "nothing"], ["--case", "99"]):
            with self.subTest(words):
                ran = subprocess.run([str(BENCH / "run"), *words], stdout=subprocess.PIPE, stderr=subprocess.PIPE, universal_newlines=True)
                self.assertEqual((ran.returncode, ran.stdout), (2, ""))
                self.assertIn(f"'{words[1]}'; there are ", ran.stderr)


if __name__ == "__main__":
    unittest.main()

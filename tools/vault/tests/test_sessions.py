"""Sessions in pages, and the tutorial's excerpts of its files."""
from __future__ import annotations

import re
import tempfile
import unittest
from pathlib import Path

from vault import paths, programs, sessions

PAGE = """\
# A page

```console
$ vaultc check examples/point.v
accepted 1
$ echo one; echo two
one
two
```

Text, and `$ no command`.
"""


class Sessions(unittest.TestCase):
    def setUp(self) -> None:
        folder = tempfile.TemporaryDirectory()
        self.addCleanup(folder.cleanup)
        self.top = Path(folder.name)
        for name in sessions.LINKED:
            (self.top / name).symlink_to(paths.TOP / name)
        self.page = self.top / "page.md"
        self.program = programs.take("vaultc")

    def test_commands_have_their_lines(self) -> None:
        first, second = sessions.read_session(PAGE)
        self.assertEqual((first.line, first.typed, first.written), (4, "vaultc check examples/point.v", ["accepted 1"]))
        self.assertEqual((second.line, second.written), (6, ["one", "two"]))

    def test_a_right_page_has_no_difference(self) -> None:
        self.page.write_text(PAGE, encoding="utf-8")
        self.assertEqual(sessions.check_page(self.page, self.top, self.program), "")

    def test_a_wrong_line_is_a_difference_and_is_mended(self) -> None:
        self.page.write_text(PAGE.replace("accepted 1", "accepted 2"), encoding="utf-8")
        self.assertIn("page.md:4", sessions.check_page(self.page, self.top, self.program))
        sessions.update_page(self.page, self.top, self.program)
        self.assertEqual(self.page.read_text(encoding="utf-8"), PAGE)


class Tutorial(unittest.TestCase):
    def test_excerpts_stand_in_its_files(self) -> None:
        page = (paths.TOP / "docs" / "TUTORIAL.md").read_text(encoding="utf-8")
        files = [file.read_text(encoding="utf-8") for file in (paths.TOP / "examples" / "tutorial").glob("*.v")]
        excerpts = re.findall(r"(?ms)^```c\n(.*?)^```$", page)
        self.assertGreater(len(excerpts), 10)
        for excerpt in excerpts:
            with self.subTest(excerpt):
                self.assertTrue(any(excerpt in text for text in files))


if __name__ == "__main__":
    unittest.main()

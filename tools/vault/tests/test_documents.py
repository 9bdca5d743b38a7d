"""Links, words and tables of Markdown pages."""
from __future__ import annotations

import tempfile
import unittest
from pathlib import Path

from vault import documents

PAGE = """\
# A title: with signs!

[here](#a-title-with-signs) [there](other.md#part-two) [gone](none.md) [no part](other.md#three) [away](https://x.org/y) `[no](link.md)`

```
[neither](this.md)
```

| A | B |
|---|---|
| 1 | `x \\| y` |
| 2 | z |

| C |
|---|
| 3 |
"""


class Pages(unittest.TestCase):
    def setUp(self) -> None:
        folder = tempfile.TemporaryDirectory()
        self.addCleanup(folder.cleanup)
        self.top = Path(folder.name)
        (self.top / "page.md").write_text(PAGE, encoding="utf-8")
        (self.top / "other.md").write_text("## Part two\nWe utilize it.\n", encoding="utf-8")

    def test_broken_links_have_their_lines(self) -> None:
        self.assertEqual(documents.broken_links(self.top), ["page.md:3: nothing is at none.md", "page.md:3: nothing is at other.md#three"])

    def test_words_that_are_not_used_have_their_lines(self) -> None:
        words = self.top / documents.UNUSED_WORDS
        words.parent.mkdir(parents=True)
        words.write_text('# words\nutilize: "use"\n', encoding="utf-8")
        self.assertEqual(documents.used_words(self.top), ["other.md:2: 'utilize': write \"use\""])

    def test_the_first_table_below_a_heading_is_read(self) -> None:
        self.assertEqual(documents.table_rows(PAGE, "A title: with signs!"), [["1", "`x | y`"], ["2", "z"]])


if __name__ == "__main__":
    unittest.main()

"""Layouts that keep comments: examples by hand, and random texts."""
from __future__ import annotations

import random
import tempfile
import unittest
from pathlib import Path
from typing import List

from vault import cli, layout, paths, programs
from vault.layout import comments, tokens

MESSY = """\


// head
stateset s { a, // first
   b /* second */ , c }   // after


struct p@s { // aligned
    int x;     // the x
    int yy;    // the y

    // before release
    release a; }
void main(/*none*/) {

    /* make
       one */ tracked(K) p q = new p { x: 007, yy: 1 }; // made

    if (q.x < 3) { // small
    become q@a; } else /* or */ {}


    release q; /* one */ /* two */ // three
    // end of block
}
// end
"""

LAID_OUT = """\
// head
// first
stateset s { a, b /* second */, c }  // after

struct p@s {  // aligned
    int x;   // the x
    int yy;  // the y

    // before release
    release a;
}
void main(/*none*/) {
    /* make
       one */
    tracked(K) p q = new p { x: 7, yy: 1 };  // made

    if (q.x < 3) {  // small
        become q@a;
    } else /* or */ {}

    release q;  /* one */ /* two */ // three
    // end of block
}
// end
"""

BLANKS = (" ", "\n", "\n\n", "\n\n\n", "\t", "  ")
COMMENTS = ("// line\n", "/* block */", "/* two\n   lines */", "//\n", "/**/", "// ümlaut\n", "/*/ odd */")


def shaken(text: str, chance: random.Random) -> str:
    """A text with comments and blanks put between its tokens at random."""
    parts: List[str] = []
    end = 0
    for token in tokens(text):
        parts.append(text[end : token.start])
        if parts[-1] and chance.random() < 0.3:
            parts.append(chance.choice(COMMENTS) + chance.choice(BLANKS))
        parts.append(token.text)
        end = token.start + len(token.text)
    return "".join(parts) + chance.choice(("", "\n", "// end", "/* end */\n\n"))


class Layouts(unittest.TestCase):
    def setUp(self) -> None:
        self.program = programs.take("vaultc")

    def laid_out(self, text: str) -> str:
        answer = layout.lay_out_with_comments(self.program, text)
        self.assertEqual(answer.status, 0, answer.output)
        return answer.output

    def test_each_kind_of_place(self) -> None:
        self.assertEqual(self.laid_out(MESSY), LAID_OUT)

    def test_examples_are_in_their_layout(self) -> None:
        for file in sorted((paths.TOP / "examples").glob("*.v")):
            text = file.read_text("utf-8")
            if layout.lay_out(self.program, text).status == 0:
                with self.subTest(file.name):
                    self.assertEqual(self.laid_out(text), text)

    def test_random_comments_are_kept(self) -> None:
        chance = random.Random(58)
        files = sorted((paths.TOP / "examples").glob("*.v"))
        for turn in range(60):
            text = shaken(chance.choice(files).read_text("utf-8"), chance)
            if layout.lay_out(self.program, text).status != 0:
                continue
            with self.subTest(turn):
                # it raises NotKept unless comments and layout are the text's, and the result is stable
                self.assertEqual(comments(self.laid_out(text)), comments(text))


class Files(unittest.TestCase):
    def setUp(self) -> None:
        folder = tempfile.TemporaryDirectory()
        self.addCleanup(folder.cleanup)
        self.messy = Path(folder.name) / "messy.v"
        self.messy.write_text(MESSY, "utf-8")

    def test_check_names_the_file_and_leaves_it(self) -> None:
        self.assertEqual(cli.main(["fmt", "--check", str(self.messy)]), 1)
        self.assertEqual(self.messy.read_text("utf-8"), MESSY)

    def test_write_changes_it_once(self) -> None:
        self.assertEqual(cli.main(["fmt", "--write", str(self.messy)]), 0)
        self.assertEqual(self.messy.read_text("utf-8"), LAID_OUT)
        self.assertEqual(cli.main(["fmt", "--check", str(self.messy)]), 0)

    def test_refused_text_stays(self) -> None:
        self.messy.write_text("void main() { int x; } // no value\n", "utf-8")
        self.assertEqual(cli.main(["fmt", "--write", str(self.messy)]), 6)
        self.assertEqual(self.messy.read_text("utf-8"), "void main() { int x; } // no value\n")


if __name__ == "__main__":
    unittest.main()

"""Text of a terminal as an SVG drawing, for pages that show a picture in colour.

usage, in tools/: python3 -m vault.drawing FILE.v > PICTURE.svg      what `vault check FILE.v` shows on a terminal"""
from __future__ import annotations

import os
import re
import subprocess
import sys
from html import escape
from typing import Iterator, List, Tuple

from . import paths

COLUMNS = 88
WIDTH, HEIGHT, MARGIN, SIZE = 8, 19, 14, 14
"""Of a character and a line, around all, and of the letters, in pixels."""

COLOURS = {"31": "#ff7b72", "32": "#7ee787", "35": "#d2a8ff", "36": "#79c0ff", "2": "#8b949e"}
BLANK = "\u00a0"
"""A blank that stays one beside another."""

GROUND, INK = "#0d1117", "#e6edf3"

ESCAPE = re.compile(r"\x1b\[([\d;]*)m")


def runs(line: str) -> Iterator[Tuple[str, str]]:
    """The parts of a line that have one style each: the codes of the style, and the text."""
    codes, at = "", 0
    for met in ESCAPE.finditer(line):
        if met.start() > at:
            yield codes, line[at : met.start()]
        codes, at = met.group(1), met.end()
    if at < len(line):
        yield codes, line[at:]


def style(codes: str) -> str:
    """The attributes of a part of a line."""
    parts = codes.split(";")
    colour = next((COLOURS[part] for part in parts if part in COLOURS), "")
    return (f' fill="{colour}"' if colour else "") + (' font-weight="bold"' if "1" in parts else "")


def drawing(text: str, title: str) -> str:
    """The drawing of some lines; the text can be read in it as text."""
    lines = text.rstrip("\n").split("\n")
    width = max(len(ESCAPE.sub("", line)) for line in lines) * WIDTH + 2 * MARGIN + WIDTH
    height = len(lines) * HEIGHT + 2 * MARGIN
    found: List[str] = [
        f'<svg xmlns="http://www.w3.org/2000/svg" width="{width}" height="{height}" viewBox="0 0 {width} {height}" role="img">',
        f"<title>{escape(title)}</title>",
        f'<rect width="{width}" height="{height}" rx="8" fill="{GROUND}"/>',
        f'<g font-family="ui-monospace, Menlo, Consolas, monospace" font-size="{SIZE}" fill="{INK}" xml:space="preserve">',
    ]
    for number, line in enumerate(lines):
        spans, column = "", 0
        for codes, part in runs(line):
            shown_part = escape(part).replace(" ", BLANK)
            x, length = MARGIN + column * WIDTH, len(part) * WIDTH
            spans += f'<tspan x="{x}" textLength="{length}" lengthAdjust="spacingAndGlyphs"{style(codes)}>{shown_part}</tspan>'
            column += len(part)
        found.append(f'<text y="{MARGIN + SIZE + number * HEIGHT}">{spans}</text>')
    return "\n".join([*found, "</g>", "</svg>"]) + "\n"


def shown(words: List[str]) -> str:
    """What `vault` shows of these words on a terminal in colour."""
    environment = {**os.environ, "COLUMNS": str(COLUMNS)}
    command = [str(paths.TOP / "bin" / "vault"), *words, "--color", "always"]
    return subprocess.run(command, env=environment, cwd=paths.TOP, stdout=subprocess.PIPE, universal_newlines=True).stdout


def main(names: List[str]) -> int:
    """Writes the drawing of what is shown of a file."""
    sys.stdout.write(drawing(shown(["check", *names]), f"vault check {' '.join(names)}"))
    return 0


if __name__ == "__main__":
    sys.exit(main(sys.argv[1:]))

"""The Markdown files of the repository: their links, their words, and their tables."""

from __future__ import annotations

import re
import shutil
import subprocess
import urllib.parse
from pathlib import Path
from typing import Dict, Iterator, List, Set, Tuple

from .suite import Part, Skipped

LINK = re.compile(r"\[[^\]\[]*\]\(([^)\s]+)\)")

SPELT = "ba,te,crate,ot,fo"
"""Words that are right here and that codespell doesn't know."""

UNUSED_WORDS = "tools/vault/unused-words.txt"
"""The words that this repository doesn't use: a line each, `WORD: what is written in its place`."""


def markdown_files(top: Path) -> List[Path]:
    """All Markdown files, but those that were built."""
    return sorted(file for file in top.rglob("*.md") if not {"out", ".git"} & set(file.relative_to(top).parts))


def prose(text: str) -> Iterator[Tuple[int, str]]:
    """The lines of a page with their numbers, without blocks of code."""
    inside = False
    for number, line in enumerate(text.split("\n"), 1):
        if line.lstrip().startswith("```"):
            inside = not inside
        elif not inside:
            yield number, line


# ---- links


def anchors(text: str) -> Set[str]:
    """The anchors of a page's headings, as GitHub makes them."""
    found = set()
    for _, line in prose(text):
        if line.startswith("#"):
            title = re.sub(r"[^\w\- ]", "", line.lstrip("#").strip().lower())
            found.add(title.replace(" ", "-"))
    return found


def broken_links(top: Path) -> List[str]:
    """A line for each link of a page that leads to no file of the repository, or to no heading of a page."""
    broken = []
    for file in markdown_files(top):
        for number, line in prose(file.read_text(encoding="utf-8")):
            for target in LINK.findall(re.sub(r"`[^`]*`", "", line)):
                if "://" not in target and not leads_somewhere(file, target):
                    broken.append(f"{file.relative_to(top)}:{number}: nothing is at {target}")
    return broken


def leads_somewhere(page: Path, target: str) -> bool:
    """Whether a link of a page leads to a file, and to a heading if it names one."""
    name, _, anchor = urllib.parse.unquote(target).partition("#")
    file = page.parent / name if name else page
    if not file.exists():
        return False
    return not anchor or file.suffix != ".md" or anchor in anchors(file.read_text(encoding="utf-8"))


# ---- words


def read_unused_words(top: Path) -> Dict[str, str]:
    """The words that aren't used, with what is written in their place."""
    lines = (top / UNUSED_WORDS).read_text(encoding="utf-8").splitlines()
    rows = [line.partition(": ") for line in lines if line and not line.startswith("#")]
    return {word: better for word, _, better in rows}


def used_words(top: Path) -> List[str]:
    """A line for each place of a page that has a word which isn't used."""
    unused = read_unused_words(top)
    pattern = re.compile(r"\b(" + "|".join(map(re.escape, sorted(unused, key=len, reverse=True))) + r")\b", re.I)
    found = []
    for file in markdown_files(top):
        for number, line in prose(file.read_text(encoding="utf-8")):
            for word in pattern.findall(re.sub(r"`[^`]*`", "", line)):
                found.append(f"{file.relative_to(top)}:{number}: {word!r}: write {unused[word.lower()]}")
    return found


def misspelt_words(top: Path) -> str:
    """What codespell says of the pages, the code and the tools, but for the tools' tests, which misspell on purpose."""
    program = shutil.which("codespell")
    if program is None:
        raise Skipped("codespell isn't installed")
    files = [*markdown_files(top), *sorted(top.glob("crates/*/src/**/*.rt")), *sorted(top.glob("tools/vault/**/*.py"))]
    words = [program, "--ignore-words-list", SPELT, *(str(file) for file in files if file.parent.name != "tests")]
    done = subprocess.run(words, cwd=top, stdout=subprocess.PIPE, stderr=subprocess.STDOUT)
    return done.stdout.decode("utf-8", "replace").strip()


def document_parts(top: Path) -> List[Part]:
    """The parts that look at the pages."""
    return [
        Part("docs: links", lambda _: "\n".join(broken_links(top))),
        Part("docs: words", lambda _: "\n".join(used_words(top))),
        Part("docs: spelling", lambda _: misspelt_words(top), seconds=5.0),
    ]


# ---- tables


def table_rows(text: str, heading: str) -> List[List[str]]:
    """The rows of the first table below a heading, cell by cell, without its head."""
    lines = text.split("\n")
    below = lines[next(n for n, line in enumerate(lines) if line.lstrip("#").strip() == heading and line.startswith("#")) + 1 :]
    rows: List[List[str]] = []
    for line in below:
        if line.startswith("|"):
            rows.append(cells(line))
        elif rows or line.startswith("#"):
            break
    return rows[2:]


def cells(row: str) -> List[str]:
    """The cells of a row of a table. A bar after a backslash is part of its cell."""
    return [cell.strip().replace("\\|", "|") for cell in re.split(r"(?<!\\)\|", row.strip())[1:-1]]

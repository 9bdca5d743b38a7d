"""Runs the tests: examples, transcripts, the tools' own, and the documents.

usage: vault test [SECTION ..] [--all] [--slow] [--list] [--jobs N]

Each part has a line with its time. Of one that fails the first difference follows, with its place. SECTION is a part's name or a
piece of it; without any all parts are run but those that take too long on a program without proofs. The last line is
`N passed, M failed`; the status is 1 if a part failed."""
from __future__ import annotations

import argparse
import difflib
import os
import sys
from typing import List

from .. import documents, examples, paths, programs, sessions, suite, transcripts, unit_tests
from ..cli import Parser
from ..errors import Problem
from ..suite import Part


def configure(parser: Parser) -> None:
    """Sections, and which parts are run beside the usual ones."""
    parser.add_argument("sections", metavar="SECTION", nargs="*", help="a part's name, or a piece of it")
    parser.add_argument("--all", action="store_true", help="runs also the parts that take long on a program without proofs")
    parser.add_argument("--slow", action="store_true", help="runs also the tests of costs: time and memory over big inputs")
    parser.add_argument("--list", action="store_true", help="lists the parts, and runs none")
    parser.add_argument("--jobs", type=int, default=0, metavar="N", help="parts at a time; without it one for each processor")


def run(options: argparse.Namespace) -> int:
    """Runs the parts that the options say; 1 if one fails."""
    parts = chosen(all_parts(options.all, options.slow), options.sections)
    if options.list:
        for part in parts:
            print(part.title + (f": {part.skipped}" if part.skipped else ""))
        return 0
    needed = sorted({part.program for part in parts if part.program and not part.skipped})
    taken = programs.take_all(needed)
    return 0 if suite.run_parts(parts, taken, options.jobs or os.cpu_count() or 1, sys.stdout) else 1


def all_parts(everything: bool, slow: bool) -> List[Part]:
    """All parts; `everything` and `slow` say whether those that take long are run."""
    return [
        *examples.example_parts(paths.TOP),
        *transcripts.section_parts(paths.TOP, everything),
        *unit_tests.tool_parts(paths.TOP, slow),
        *documents.document_parts(paths.TOP),
        *sessions.session_parts(paths.TOP, documents.markdown_files(paths.TOP)),
    ]


def chosen(parts: List[Part], sections: List[str]) -> List[Part]:
    """The parts that some sections name, all of them if there is none. A part that is named is run, however long it takes."""
    if not sections:
        return parts
    found: List[Part] = []
    for section in sections:
        named = [part for part in parts if section.lower() in (word.lower() for word in (part.title, part.group(), part.topic()))]
        named = named or [part for part in parts if section.lower() in part.title.lower()]
        if not named:
            raise unknown(section, parts)
        found += [part.unskipped() for part in named]
    return list(dict.fromkeys(found))


def unknown(section: str, parts: List[Part]) -> Problem:
    """The error of a section that no part has."""
    near = difflib.get_close_matches(section, [part.topic() for part in parts], 1, 0.5)
    hint = f"did you mean '{near[0]}'?" if near else "'vault test --list' lists the parts"
    return Problem(f"there is no test '{section}'; {hint}")

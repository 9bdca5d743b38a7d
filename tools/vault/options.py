"""The options that the commands with pictures share, and how pictures are written in the form that is asked for."""
from __future__ import annotations

import argparse
import sys
from typing import Iterable, List, Sequence, Tuple

from .judge import Judged, counted
from .picture import Picture

FORMATS = ("text", "gcc", "sarif", "json", "html", "plain")


def add_options(parser: argparse.ArgumentParser) -> None:
    """The options on forms."""
    parser.add_argument(
        "--format", choices=FORMATS, default="text", help="text (the default), gcc, sarif, json, html, or plain: vaultc's own lines"
    )
    parser.add_argument(
        "--color", choices=("auto", "always", "never"), default="auto", help="colour; auto: on terminals, unless NO_COLOR is set"
    )


def summary(judged: Sequence[Judged]) -> str:
    """One line on several files."""
    wrong = [one for one in judged if any(picture.severity == "error" for picture in one.pictures)]
    errors = sum(picture.severity == "error" for one in judged for picture in one.pictures)
    warnings = sum(picture.severity == "warning" for one in judged for picture in one.pictures)
    words = (
        f"{counted(errors, 'error')} in {len(wrong)} of {counted(len(judged), 'file')}"
        if wrong
        else f"no errors in {counted(len(judged), 'file')}"
    )
    return words + (f", {counted(warnings, 'warning')}" if warnings else "")


def progress(judged: Iterable[Tuple[int, Judged]], total: int) -> List[Judged]:
    """Collects what is judged, and says on a terminal's standard error how far it is."""
    found: List[Judged] = []
    shows = total > 1 and sys.stderr.isatty()
    for number, one in judged:
        found.append(one)
        if shows:
            sys.stderr.write(f"\r{number} of {total} files")
            sys.stderr.flush()
    if shows:
        sys.stderr.write("\r\x1b[K")
    return found


def write_text(judged: Sequence[Judged], color: str) -> str:
    from .forms import text

    style = text.style_of(color)
    out = text.write(pictures_of(judged), style)
    return out + (f"\n{summary(judged)}\n" if len(judged) > 1 else "")


def pictures_of(judged: Sequence[Judged]) -> List[Picture]:
    return [picture for one in judged for picture in one.pictures]


def written(judged: Sequence[Judged], form: str, color: str) -> str:
    """What was judged, in this form."""
    if form == "text":
        return write_text(judged, color)
    # each form has a module of its own, and a call needs one of them
    from .forms import gcc, json_form, page, sarif

    if form == "gcc":
        return gcc.write(pictures_of(judged))
    if form == "html":
        return page.write(pictures_of(judged))
    return (sarif if form == "sarif" else json_form).write(judged)


def write_refusal(judged: Sequence[Judged], options: argparse.Namespace) -> int:
    """Writes errors of a command whose standard output is for something else: to standard error, but for the forms that are read by
    other programs."""
    stream = sys.stderr if options.format in ("text", "gcc") else sys.stdout
    stream.write(written(judged, options.format, options.color))
    return max(one.status for one in judged)


def write(judged: Sequence[Judged], options: argparse.Namespace) -> int:
    """Writes what was judged in the form that is asked for. The status is the greatest."""
    sys.stdout.write(written(judged, options.format, options.color))
    return max((one.status for one in judged), default=0)

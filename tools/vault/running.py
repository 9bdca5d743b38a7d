"""What the commands `run` and `host` share: options, lists that are cleaned, and pictures of how a run ended."""
from __future__ import annotations

import argparse
import subprocess
import sys
import tempfile
from pathlib import Path
from typing import Dict, List, Optional, Sequence, Tuple

from . import ask, options as shared
from .ask import Asker, Reply
from .judge import Judged, Wishes, pictures_of
from .lists import Cleaned, cleaned_files, read_list
from .picture import View
from .report import Report, read_line
from .runs import Run, is_end, read_frames, run_picture
from .source import Place, Source

REFUSED = (2, 5, 6, 7, 8)


def add_options(parser: argparse.ArgumentParser) -> None:
    """The options of a run, which are those of vaultc."""
    parser.add_argument("--fuel", metavar="N", help="how many turns of loops and calls the run may take: 1000000 if it isn't given")
    parser.add_argument("--heap", metavar="N", help="how many objects may be live at one time: 65536 if it isn't given")
    parser.add_argument("--depth", metavar="N", help="how many functions may run at one time: 1000 if it isn't given")
    parser.add_argument("--input", metavar="G", help="the file of the numbers that the run may read")
    parser.add_argument("--answers", metavar="A", help="the file of the host's answers, one a line; `//` begins a comment")
    shared.add_options(parser)


def budget_words(options: argparse.Namespace) -> List[str]:
    """The words of the budgets for vaultc."""
    words: List[str] = []
    for name in ("fuel", "heap", "depth"):
        value = getattr(options, name)
        words += [f"--{name}", value] if value is not None else []
    return words


def list_words(names: Dict[str, str]) -> List[str]:
    """The words of the lists for vaultc."""
    return [word for what in ("input", "answers") if what in names for word in (f"--{what}", names[what])]


class Running:
    """A command `run` or `host` with its files and options."""

    def __init__(self, command: str, options: argparse.Namespace, calls: Optional[str] = None) -> None:
        self.command = command
        self.options = options
        self.asker: Asker = ask.take()
        names = {"calls": calls, "input": options.input, "answers": options.answers}
        self.lists: Dict[str, Cleaned] = {what: read_list(name, what) for what, name in names.items() if name is not None}

    def words(self, names: Dict[str, str]) -> List[str]:
        calls = [names["calls"]] if "calls" in names else []
        return [self.command, self.options.file, *calls, *budget_words(self.options), *list_words(names)]

    def plain(self) -> None:
        """Goes on as vaultc, over the files as they are."""
        self.asker.vaultc.become(self.words({what: cleaned.source.name for what, cleaned in self.lists.items()}))

    def ask_calls(self, lines: Sequence[str]) -> Reply:
        """What the program says of other calls."""
        with tempfile.TemporaryDirectory(prefix="vault-") as folder, cleaned_files(self.lists) as names:
            path = Path(folder) / "calls"
            path.write_text("".join(line + "\n" for line in lines), encoding="utf-8")
            return ask.ask_words(self.asker.vaultc, self.words({**names, "calls": str(path)}))

    def stream(self, words: List[str]) -> Tuple[int, List[str]]:
        """Runs the program and writes its lines as they come, the last one aside; gives the status, and of the lines the events of
        externals and calls, what calls gave, and the last line."""
        kept: List[str] = []
        last = ""
        with subprocess.Popen([*self.asker.vaultc.command, *words], stdin=subprocess.DEVNULL, stdout=subprocess.PIPE) as program:
            for raw in program.stdout:
                if last:
                    sys.stdout.write(last)
                    kept += [last.rstrip("\n")] if last[0] in "@!=" else []
                last = raw.decode("utf-8", "surrogateescape")
        status = program.returncode if program.returncode >= 0 else 128 - program.returncode
        return status, [*kept, last.rstrip("\n")] if last else kept

    def run(self) -> int:
        """Runs the program, writes what it writes, and shows how it ended if that isn't its end."""
        with cleaned_files(self.lists) as names:
            status, lines = self.stream(self.words(names))
        last = read_line(lines[-1]) if lines else None
        ended = last is not None and is_end(last)
        if status in REFUSED and not ended:
            return self.refused(status, last)
        if last is not None and status not in REFUSED:
            sys.stdout.write(last.line + "\n")
        if last is None or status == 0 or not ended:
            return status
        sys.stdout.flush()
        run = Run(View(Source.read(self.options.file)), self.lists, lines, self.frames())
        picture = run_picture(run, last, self.ask_calls if self.command == "host" else None)
        return shared.write_refusal([Judged(picture.source, status, [picture])], self.options)

    def frames(self) -> Tuple[Tuple[str, Place], ...]:
        """The functions that were running when `main` ended, if `vaultq` can tell them."""
        if not self.asker.answers("where") or self.command != "run":
            return ()
        with cleaned_files(self.lists) as names:
            words = ["where", *self.words(names)[1:]]
            return read_frames(ask.ask_words(self.asker.vaultq, words).lines)

    def refused(self, status: int, last: Optional[Report]) -> int:
        """Shows why the program isn't run, as `check` does."""
        source = Source.read(self.options.file)
        reply = self.asker.faults(self.options.file)
        if reply.status != status:
            reply = Reply(status, [], [last] if last is not None else [])
        pictures = pictures_of(View(source), reply, self.asker, Wishes())
        return shared.write_refusal([Judged(source, status, pictures)], self.options)

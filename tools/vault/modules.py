"""Interfaces and modules: the view of an interface with a module as one text, and pictures of what is refused, at their places in the
files."""
from __future__ import annotations

import tempfile
from pathlib import Path
from typing import Dict, List, Optional, Sequence, Tuple

from . import syntax as s
from .ask import STANDARD_INPUT, Asker, Reply, ask_words
from .held import Table
from .judge import Judged, Wishes, accepted_words, picture_of, pictures_of
from .parser import parse
from .picture import Cure, Edit, Label, Picture, View, Way
from .records import dataclass, replace
from .report import Accepted, Clash, KeyFault, Report, RuleFault, read_reports
from .rules import all_rules
from .source import Source

MAIN = "void main() {\n}\n"
# rules on what a module gives; they aren't rules on the view as a text
OF_MODULES = (47, 48, 49, 50)
NOTHING = "an empty module"


@dataclass(frozen=True)
class Piece:
    """Characters of a file that stand in a view from `at` on."""

    at: int
    source: Source
    span: s.Span


@dataclass(frozen=True)
class JoinedView(View):
    """A text that is made of parts of several files."""

    pieces: Tuple[Piece, ...] = ()

    def origin(self, offset: int) -> Tuple[Source, int]:
        for piece in reversed(self.pieces):
            if piece.at <= offset:
                return piece.source, min(piece.span.start + offset - piece.at, piece.span.end)
        return self.pieces[0].source, 0

    def tables_at_home(self, tables: Sequence[Table], source: Source) -> List[Table]:
        """Tables of the view with their places in one of the files; the others are left out."""
        found = []
        for table in tables:
            lines = []
            for where, items in table.lines:
                file, offset = self.origin(self.offset(where))
                if file is source:
                    lines.append((source.place(offset), items))
            found.append(replace(table, lines=lines))
        return found

    def home(self, source: Source, picture: Picture) -> Picture:
        """A picture whose changes of the text are those of its own file; cures that change another keep their words alone."""
        repairs = [self.cure_at_home(source, cure) for cure in picture.repairs]
        cures = tuple(self.cure_at_home(source, cure) for cure in picture.cures)
        return replace(picture, cures=cures, repairs=tuple(cure for cure in repairs if cure.edits))

    def cure_at_home(self, source: Source, cure: Cure) -> Cure:
        edits: List[Edit] = []
        for edit in cure.edits:
            first, start = self.origin(edit.span.start)
            last, end = self.origin(edit.span.end)
            if first is not source or last is not source or end - start != edit.span.end - edit.span.start:
                return replace(cure, edits=())
            edits.append(Edit(s.Span(start, end), edit.text))
        return replace(cure, edits=tuple(edits))


def given(program: s.Program) -> Dict[str, s.Declaration]:
    """The declarations by name, the first of each."""
    found: Dict[str, s.Declaration] = {}
    for declaration in program.declarations:
        found.setdefault(declaration.name.text, declaration)
    return found


def gives(module: s.Declaration, interface: s.Declaration) -> bool:
    """Whether a module's declaration gives an interface's: a struct an abstract type, a function with a body an external."""
    if isinstance(interface, s.Abstract):
        return isinstance(module, s.Struct)
    return isinstance(interface, s.Function) and isinstance(module, s.Function) and not module.is_external


def join(interface: Source, *modules: Source) -> Optional[JoinedView]:
    """The view of an interface with modules; None if one of them isn't of the grammar. Where no function is called `main` one is
    added, since the view is asked of as a program."""
    outer, inners = parse(interface.text), [(module, parse(module.text)) for module in modules]
    if outer is None:
        return None
    own: Dict[str, Tuple[Source, s.Declaration]] = {}
    inner: List[Tuple[Source, s.Declaration]] = []
    for module, program in inners:
        if program is None:
            return None
        inner += [(module, one) for one in program.declarations]
        for name, one in given(program).items():
            own.setdefault(name, (module, one))
    order: List[Tuple[Source, s.Declaration]] = []
    for declaration in outer.declarations:
        other = own.get(declaration.name.text)
        is_given = other is not None and gives(other[1], declaration) and other not in order
        order.append(other if other is not None and is_given else (interface, declaration))
    return joined(modules[-1], order + [it for it in inner if it not in order])


def joined(last: Source, order: Sequence[Tuple[Source, s.Declaration]]) -> JoinedView:
    """The view of declarations of several files, in this order; a `main` that is added stands at the end of the last file."""
    text, pieces = "", []
    for source, declaration in order:
        pieces.append(Piece(len(text), source, declaration.span))
        text += source.text[declaration.span.start : declaration.span.end] + "\n"
    if not any(isinstance(one, s.Function) and one.name.text == "main" and not one.is_external for _, one in order):
        end = len(last.text.rstrip())
        pieces.append(Piece(len(text), last, s.Span(end, end)))
        text += MAIN
    return JoinedView(Source(last.name, text.encode("utf-8", "replace")), pieces=tuple(pieces))


def same_place(view: JoinedView, asked: Report, found: Report, name: str) -> bool:
    """Whether a report on a view is what was said of the file."""
    if type(asked) is not type(found) or not isinstance(found, (KeyFault, RuleFault)):
        return False
    source, offset = view.origin(view.offset(found.place))
    return source.name == name and source.place(offset) == asked.place


def refusal(asker: Asker, reply: Reply, interface: Source, modules: Sequence[Source], wishes: Wishes) -> List[Picture]:
    """The pictures of a refusal by `module` or `link`."""
    report = reply.reports[0] if reply.reports else Report("")
    named = {source.name: source for source in (interface, *modules)}
    source = named.get(report.file or "", modules[0])
    if isinstance(report, Clash):
        return [clash_picture(report, interface, modules)]
    if isinstance(report, RuleFault) and report.rule in OF_MODULES:
        return [rule_picture(report, source, interface)]
    if isinstance(report, (KeyFault, RuleFault)):
        module = source if source is not interface else modules[0]
        view = join(interface, module)
        if view is not None:
            asked = asker.faults(view.source.name, view.source.data)
            if asked.reports and same_place(view, report, asked.reports[0], source.name):
                pictures = pictures_of(view, asked, asker, wishes, view.source.data)
                pictures[0] = replace(pictures[0], report=report.line)
                return [view.home(picture.source, picture) for picture in pictures]
    return [picture_of(View(source), report, reply.status, None, asker)]


def judge_module(interface_name: str, name: str, asker: Asker, wishes: Wishes) -> Judged:
    """Judges a module beside an interface."""
    reply = ask_words(asker.vaultc, ["module", interface_name, name])
    return judged(asker, reply, Source.read(interface_name), Source.read(name), wishes)


def judged(asker: Asker, reply: Reply, interface: Source, module: Source, wishes: Wishes) -> Judged:
    """What a reply on a module beside an interface says."""
    first = reply.reports[0] if reply.reports else None
    if isinstance(first, Accepted):
        return Judged(module, reply.status, [accepted_words(module, first)], first.count)
    return Judged(module, reply.status, refusal(asker, reply, interface, [module], wishes))


def judge_texts(asker: Asker, interface: Source, module: Source, wishes: Wishes) -> Judged:
    """Judges texts that need not be those of their files. If both have one name, the text is an interface, which is judged by itself."""
    beside = Source(NOTHING, b"\n") if module.name == interface.name else module
    outer = module if beside is not module else interface
    return judged(asker, ask_texts(asker, outer, beside), outer, beside, wishes)


def ask_texts(asker: Asker, interface: Source, module: Source) -> Reply:
    """What the program says of texts that need not be those of their files; of an interface by itself if both have one name."""
    text = b"" if module.name == interface.name else module.data
    with tempfile.TemporaryDirectory() as folder:
        file = Path(folder) / "interface.v"
        file.write_bytes(interface.data)
        answer = asker.vaultc.ask(["module", str(file), STANDARD_INPUT], input=text or b"\n")
    lines = [at_home(line, {str(file): interface.name, STANDARD_INPUT: module.name}) for line in answer.lines]
    return Reply(answer.status, lines, read_reports(lines))


def at_home(line: str, names: Dict[str, str]) -> str:
    """A line with the name at its end as the person knows it."""
    for asked, name in names.items():
        if line.endswith(f" in {asked}"):
            return line[: -len(asked)] + name
    return line


# ---- the rules on what a module gives


def declared(view: View, name: str) -> Optional[Label]:
    one = view.declarations.by_name.get(name) if view.declarations else None
    return view.label(one[0].name.span, f"`{name}` is declared here") if one else None


def rule_picture(report: RuleFault, source: Source, interface: Source) -> Picture:
    """The picture of one of rules 47 to 50."""
    view, outer = View(source), View(interface)
    offset = view.offset(report.place)
    found = view.declarations.at(offset) if view.declarations else None
    name = found.name.text if found else ""
    other = outer.declarations.by_name.get(name, [None])[0] if outer.declarations else None
    message, others, cure = words_of(report.rule, name, found, other, view, outer)
    mark = view.label(found.name.span if found else s.Span(offset, offset + 1), "", "fault")
    rule = all_rules().get(report.rule)
    cures = (Cure(cure),) if cure else tuple(Cure(str(one)) for one in (rule.cures if rule else ()))
    ways = (Way("", tuple(others), False),) if others else ()
    return Picture(source, "error", f"rule-{report.rule}", report.line, message, mark, ways, (), cures, rule.link if rule else "")


def words_of(
    rule: int, name: str, found: Optional[s.Declaration], other: Optional[s.Declaration], view: View, outer: View
) -> Tuple[str, List[Label], str]:
    """The message, the other place, and the cure."""
    if rule == 47:
        return (
            f"the interface has a body: that of `{name}`",
            [],
            f"an interface says what a module gives: `extern` and the head of `{name}`, without a body",
        )
    if rule == 48 and isinstance(found, s.Function) and isinstance(other, s.Function):
        head = " ".join(outer.text_of(other.head).split())
        label = outer.label(other.head, "the head in the interface")
        return f"`{name}` has another head than in the interface", [label], f"write `{head}`, or change the interface"
    if rule == 49 and isinstance(found, s.Struct) and isinstance(other, s.Abstract):
        label = outer.label(
            other.name.span, f"its states are those of `{other.state_set}`" if other.state_set else "it has no states"
        )
        if found.header:
            return (
                f"the struct `{name}` has a header, and the interface's type has none",
                [label],
                f"write `struct {name}` without keys",
            )
        written = f"struct {name}@{other.state_set}" if other.state_set else f"struct {name}"
        return f"the struct `{name}` has other states than in the interface", [label], f"write `{written} {{ .. }}`"
    title = all_rules()[rule].title if rule in all_rules() else f"rule {rule}"
    return title[0].lower() + title[1:], [], ""


def clash_picture(report: Clash, interface: Source, modules: Sequence[Source]) -> Picture:
    """Two modules declare one name."""
    labels = [label for label in (declared(View(module), report.name) for module in modules) if label is not None]
    mark = replace(labels[-1], role="fault", text="here again") if labels else None
    ways = (Way("", tuple(labels[:-1]), False),) if len(labels) > 1 else ()
    message = f"two modules have the name `{report.name}`"
    return Picture(
        modules[-1],
        "error",
        "clash",
        report.line,
        message,
        mark,
        ways,
        (),
        (Cure("give one of them another name"),),
        "docs/RULES.md#rule-clash",
    )

"""Pictures as a page of HTML: the source with what is said beside it, for screens, phones and screen readers, without scripts."""
from __future__ import annotations

import html
import re
from typing import Dict, List, Sequence, Tuple

from ..picture import Label, Picture
from ..source import Source, printable
from ..tokens import scan
from .text import HARD, bracket

# lines that are shown around a marked one; others are folded
AROUND = 3
STYLE = """
:root { color-scheme: light dark; --paper: #fff; --ink: #1b1f24; --dim: #667; --line: #d8dee4; --fault: #b3261e; --step: #0b6b8a;
  --note: #2e6b34; --key: #7a3e9d; --number: #9a5b00; --shade: #f6f8fa; }
@media (prefers-color-scheme: dark) { :root { --paper: #14171b; --ink: #e3e6ea; --dim: #9aa4af; --line: #343b44; --fault: #ff8a80;
  --step: #6cc7e6; --note: #8fd19a; --key: #d0a3ee; --number: #e8b65f; --shade: #1c2127; } }
* { box-sizing: border-box; }
body { margin: 0 auto; max-width: 90em; padding: 1rem; background: var(--paper); color: var(--ink); font: 1rem/1.5 system-ui, sans-serif; }
h1 { font-size: 1.4rem; } h2 { font-size: 1.15rem; margin-bottom: .2rem; }
a { color: inherit; }
code, pre { font: .9rem/1.5 ui-monospace, monospace; tab-size: 8; }
article { border-top: 1px solid var(--line); margin-top: 1.5rem; }
.where { color: var(--dim); margin: 0 0 .6rem; }
.beside { display: grid; grid-template-columns: minmax(0, 3fr) minmax(15em, 2fr); gap: 1rem; align-items: start; }
h2 code, h3 code { font-weight: 600; }
.source { background: var(--shade); border: 1px solid var(--line); border-radius: .4rem; overflow-x: auto; }
.source pre { margin: 0; padding: .2rem 0; } .source summary { color: var(--dim); padding: 0 .6rem; cursor: pointer; }
.line { display: block; padding-right: .6rem; border-left: .25rem solid transparent; } .line:target { outline: 2px solid var(--step); }
.line.fault { border-color: var(--fault); } .line.step { border-color: var(--step); } .line.note { border-color: var(--note); }
.n { display: inline-block; width: 3.5em; padding-right: 1em; text-align: right; color: var(--dim); user-select: none; }
mark { background: none; color: inherit; text-decoration: underline wavy; text-underline-offset: .2em; }
mark.fault { text-decoration-color: var(--fault); } mark.step { text-decoration-color: var(--step); }
mark.note { text-decoration-color: var(--note); }
.key { color: var(--key); } .number { color: var(--number); } .comment { color: var(--dim); font-style: italic; }
h3 { font-size: 1rem; margin: .8rem 0 .2rem; } .beside h3:first-child { margin-top: 0; }
.said { margin: 0; padding-left: 2em; } .said li { margin-bottom: .4rem; }
.said .fault { color: var(--fault); font-weight: 600; } .said .step { color: var(--step); } .said .note { color: var(--note); }
.cure { border-left: .25rem solid var(--note); padding-left: .6rem; } .ok { color: var(--note); }
@media (max-width: 50em) {
  .beside { grid-template-columns: minmax(0, 1fr); } .said { padding-left: 1.4em; }
  .line { white-space: pre-wrap; overflow-wrap: anywhere; padding-left: 2.6em; text-indent: -2.6em; }
  .n { width: 2.6em; padding-right: .6em; text-indent: 0; }
}
"""
CLASSES = {"keyword": "key", "number": "number", "tick": "number", "comment": "comment"}


def prose(text: str) -> str:
    """Words with names in code."""
    return re.sub(r"`([^`]*)`", r"<code>\1</code>", html.escape(text))


# the characters from the first up to the second, and how they are shown; of marks also which item of the list tells of them
Piece = Tuple[int, int, str]
Mark = Tuple[int, int, str, str]


def coloured(source: Source) -> Dict[int, List[Piece]]:
    """The tokens of each line that have a colour."""
    found: Dict[int, List[Piece]] = {}
    for token in scan(source.text):
        if token.kind not in CLASSES:
            continue
        first, last = source.place(token.start).line, source.place(token.end).line
        for number in range(first, last + 1):
            start = max(token.start - source.starts[number - 1], 0)
            end = min(token.end - source.starts[number - 1], len(source.lines[number - 1]))
            found.setdefault(number, []).append((start, end, CLASSES[token.kind]))
    return found


def line_code(line: str, tokens: Sequence[Piece], marks: Sequence[Mark]) -> str:
    """A line with its tokens in colour and its marks. A screen reader tells of a mark what the list beside the source says."""
    cuts = sorted({0, len(line), *(at for piece in (*tokens, *marks) for at in (piece[0], min(piece[1], len(line))))})
    out = []
    for start, end in zip(cuts, cuts[1:]):
        text = html.escape(printable(line[start:end]))
        for first, last, kind in tokens:
            if first <= start and end <= last:
                text = f'<span class="{kind}">{text}</span>'
        mark = next((it for it in marks if it[0] <= start and end <= it[1]), None)
        out.append(f'<mark class="{mark[2]}" aria-describedby="{mark[3]}">{text}</mark>' if mark else text)
    return "".join(out)


class Page:
    """The part of a page that shows one picture; `number` tells it from others."""

    def __init__(self, picture: Picture, number: int) -> None:
        self.picture = picture
        self.number = number
        self.sources: Dict[str, Source] = {picture.source.name: picture.source}
        self.labels = list(picture.labels())
        for label in self.labels:
            self.sources.setdefault(label.source.name, label.source)
        self.order = {name: at for at, name in enumerate(self.sources)}

    def anchor(self, label: Label) -> str:
        return f"e{self.number}-{self.order[label.source.name]}-{label.place.line}"

    def words(self, number: int) -> str:
        """The id of the item that tells of a label."""
        return f"e{self.number}-said-{number}"

    def source(self, source: Source) -> List[str]:
        """The lines of a file, those folded that are far from a mark."""
        marks: Dict[int, List[Mark]] = {}
        roles: Dict[int, str] = {}
        for number in range(len(self.labels) - 1, -1, -1):
            label = self.labels[number]
            if label.source.name == source.name:
                start = source.characters(label.place)
                mark = (start, start + label.length, label.role, self.words(number))
                marks.setdefault(label.place.line, []).insert(0, mark)
                roles[label.place.line] = "fault" if label.role == "fault" else roles.get(label.place.line, label.role)
        colours = coloured(source)
        total = len(source.lines) - (source.lines[-1:] == [""])
        near = {line for at in marks for line in range(at - AROUND, at + AROUND + 1)} or set(range(1, total + 1))
        out, run = [], []
        for number in range(1, total + 2):
            if run and (number > total or (number in near) != (run[0][0] in near)):
                out += folded(run) if run[0][0] not in near else ["<pre>" + "".join(code for _, code in run) + "</pre>"]
                run = []
            if number <= total:
                code = line_code(source.lines[number - 1].rstrip("\r"), colours.get(number, []), marks.get(number, []))
                anchor = f"e{self.number}-{self.order[source.name]}-{number}"
                role = f" {roles[number]}" if number in roles else ""
                run.append(
                    (
                        number,
                        f'<span class="line{role}" id="{anchor}"><span class="n" aria-hidden="true">{number}</span>{code}\n</span>',
                    )
                )
        return out

    def said(self) -> List[str]:
        """What is said of the marked places, in order."""
        out = []
        for way in [one for one in self.picture.ways if one.is_path]:
            out += [f"<h3>{prose(way.title[:1].upper() + way.title[1:])}</h3>"] if way.title else []
            out += ['<ol class="said">', *(self.item(label) for label in way.labels), "</ol>"] if way.labels else []
        if self.picture.fault:
            out += ["<h3>And here:</h3>"] if any(one.title for one in self.picture.ways if one.is_path) else []
            out += ['<ul class="said">', self.item(self.picture.fault), "</ul>"]
        for way in [one for one in self.picture.ways if not one.is_path]:
            out += ['<ul class="said">', *(self.item(label) for label in way.labels), "</ul>"] if way.labels else []
        return out

    def item(self, label: Label) -> str:
        name = "" if label.source.name == self.picture.source.name else f"{html.escape(label.source.name)} "
        text = label.text or self.picture.message
        where = f'<a href="#{self.anchor(label)}">{name}line {label.place.line}</a>'
        number = next(number for number, one in enumerate(self.labels) if one is label)
        return f'<li class="{label.role}" id="{self.words(number)}">{where}: {prose(text)}</li>'

    def article(self) -> List[str]:
        picture = self.picture
        words = html.escape(bracket(picture).replace(HARD, " "))
        place = picture.fault
        where = f'<a href="#{self.anchor(place)}">{html.escape(place.source.name)}:{place.place}</a> ' if place else ""
        out = [f'<article aria-labelledby="e{self.number}">', f'<h2 id="e{self.number}">{prose(picture.message)}</h2>']
        out.append(f'<p class="where">{picture.severity}, {where}<code>{words}</code></p>')
        if place:
            out.append('<div class="beside">')
            for source in self.sources.values():
                name = html.escape(source.name)
                out += [
                    f'<div class="source" role="region" tabindex="0" aria-label="source of {name}">',
                    *self.source(source),
                    "</div>",
                ]
                if source is picture.source:
                    out += ["<div>", *self.said(), *self.cures(), "</div>"]
            out.append("</div>")
        else:
            out += self.cures()
        return [*out, "</article>"]

    def cures(self) -> List[str]:
        out = [f"<p>{prose(note)}</p>" for note in self.picture.notes]
        for number, cure in enumerate(self.picture.cures):
            tested = " (tested)" if cure.tested else ""
            out.append(f'<p class="cure"><strong>{"Or" if number else "Cure"}:</strong> {prose(cure.text)}{tested}</p>')
        return out


def folded(lines: Sequence[Tuple[int, str]]) -> List[str]:
    first, last = lines[0][0], lines[-1][0]
    name = f"line {first}" if first == last else f"lines {first} to {last}"
    return [f"<details><summary>{name}</summary><pre>" + "".join(code for _, code in lines) + "</pre></details>"]


def write(pictures: Sequence[Picture]) -> str:
    names = list(dict.fromkeys(picture.source.name for picture in pictures))
    title = html.escape(names[0] if len(names) == 1 else f"{len(names)} files")
    out = [
        "<!DOCTYPE html>", '<html lang="en">', '<meta charset="utf-8">', '<meta name="viewport" content="width=device-width, initial-scale=1">',
        f"<title>{title}</title>", f"<style>{STYLE}</style>", "<main>", f"<h1>{title}</h1>",
    ]  # fmt: skip
    for number, picture in enumerate(pictures, 1):
        if picture.severity == "ok":
            out.append(f'<p class="ok">{html.escape(picture.source.name)}: {prose(picture.message)}</p>')
        else:
            out += Page(picture, number).article()
    return "\n".join([*out, "</main>", "</html>"]) + "\n"

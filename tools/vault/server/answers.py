"""What the server answers of an open text: keys that are held, declarations, uses, names that fit, and layouts."""
from __future__ import annotations

from pathlib import Path
from typing import Any, Dict, Iterator, List, Optional, Set, Tuple

from .. import layout
from .. import syntax as s
from ..ask import Asker, Reply
from ..declarations import Declarations
from ..held import Table
from ..picture import Picture, View
from ..probes import held_before
from ..records import dataclass
from ..scope import Scope, scope_at
from ..tokens import KEYWORDS
from .documents import Document
from .names import Names, Symbol, fields_of, names_of
from .wire import REQUEST_FAILED, RpcError

# kinds of items of a completion, and of symbols, as the protocol numbers them
FUNCTION, FIELD, VARIABLE, ENUM, KEYWORD, MEMBER, STRUCT = 3, 5, 6, 13, 14, 20, 22
SYMBOL_KINDS = {"StateSet": 10, "Abstract": 5, "Struct": 23, "Variant": 10, "Function": 12}


# ---- what is held


@dataclass(frozen=True)
class Point:
    """A point of a function's body: a statement, and where what is known after it is told; None if nothing comes after it."""

    statement: s.Statement
    after: Optional[int]


def points(block: s.Block) -> Iterator[Point]:
    """The points of a block and of the blocks in it."""
    followers = [it.span.start for it in block.statements[1:]] + [block.close]
    for statement, follower in zip(block.statements, followers):
        yield Point(statement, follower)
        for inner in blocks_of(statement):
            yield from points(inner)


def blocks_of(statement: s.Statement) -> List[s.Block]:
    """The blocks in a statement, and those of the `if` after its `else`."""
    found = list(statement.blocks())
    if isinstance(statement, s.If) and isinstance(statement.else_part, s.If):
        found += blocks_of(statement.else_part)
    return found


def written(items: Dict[str, Any]) -> str:
    """What is held at a point, as `S@on, p`."""
    words = []
    for name, atoms in items.items():
        states = sorted(atom.partition("@")[2] for atom in atoms if atom.startswith("held@"))
        lent = "lent " if any(atom.startswith("lent") for atom in atoms) else ""
        maybe = "?" if "absent" in atoms and len(atoms) > 1 else ""
        at = f"@{states[0]}" if len(states) == 1 else f"@{{{','.join(states)}}}" if states else ""
        words.append(f"{lent}{name}{maybe}{at}")
    return ", ".join(words)


def held_at(document: Document, tables: List[Table], function: str, offset: int) -> str:
    """What is held before a character of a function, for each of its instances."""
    place = document.view.source.place(offset)
    found: List[Tuple[str, str]] = []
    for table in tables:
        items = table.at(place, last=True) if table.function == function else None
        if items is not None:
            found.append((table.state, written(items) or "nothing"))
    if len({text for _, text in found}) < 2:
        return found[0][1] if found else ""
    return " · ".join(f"{state}: {text}" for state, text in found)


def inlay_hints(document: Document, asker: Asker, wanted: Dict[str, Any]) -> List[Dict[str, Any]]:
    """At the end of each line of a range with a statement: what is held after it."""
    declarations = document.view.declarations
    if declarations is None:
        return []
    tables = document.tables(asker)
    hints: Dict[int, Dict[str, Any]] = {}
    for function in declarations.functions():
        for point in points(function.body) if function.body else ():
            if point.after is None or isinstance(point.statement, (s.Jump, s.Return)):
                continue
            end = end_of_line(document, point)
            line = document.position(end)["line"]
            text = held_at(document, tables, function.name.text, point.after)
            if text and wanted["start"]["line"] <= line <= wanted["end"]["line"]:
                hints[line] = {"position": document.position(end), "label": text, "paddingLeft": True, "tooltip": "held after this line"}
    return [hints[line] for line in sorted(hints)]


def end_of_line(document: Document, point: Point) -> int:
    """The end of the line on which a statement ends."""
    source = document.view.source
    number = source.place(point.statement.span.end).line - 1
    return source.starts[number] + len(source.lines[number].rstrip())


# ---- hover, definition, uses


def declaration_text(document: Document, symbol: Symbol) -> str:
    """The line of the text that declares a symbol, or the head of a function."""
    view = document.view
    declarations = view.declarations
    found = declarations.by_name.get(symbol.name, [None])[0] if declarations and symbol.kind == "global" else None
    if isinstance(found, s.Function):
        return view.text_of(found.head)
    return view.source.line(view.source.place(symbol.declared.start).line).strip()


def hover(document: Document, asker: Asker, offset: int) -> Optional[Dict[str, Any]]:
    """What a name stands for, what is held before the statement around a character, and what cures an error on its line."""
    parts: List[str] = []
    names = names_of(document.view)
    found = names.at(offset) if names else None
    if found and found[1]:
        parts.append(f"```vault\n{declaration_text(document, found[1])}\n```")
    elif found:
        outer = outer_declaration(document, found[0].text)
        parts += [f"```vault\n{outer[1]}\n```"] if outer else []
    scope = scope_at(names.declarations, offset) if names else None
    if scope and scope.statement and asker.answers("keys"):
        text = held_at(document, document.tables(asker), scope.function.name.text, scope.statement.span.start)
        parts.append(f"held before this statement: {text}" if text else "no path comes to this statement")
    elif scope and scope.statement and asker.answers("faults") and document.interface is None:
        path = str(document.path)
        held = written(held_before(document.view, lambda data: asker.places(path, data), scope.statement.span.start))
        parts += [f"held before this statement: {held}"] if held else []
    parts += cures_at(document, asker, offset)
    return {"contents": {"kind": "markdown", "value": "\n\n".join(parts)}} if parts else None


def cures_at(document: Document, asker: Asker, offset: int) -> List[str]:
    """What cures the errors on the line of a character."""
    line = document.view.source.place(offset).line
    name = document.view.source.name

    def is_here(picture: Picture) -> bool:
        return picture.fault is not None and picture.fault.source.name == name and picture.fault.place.line == line

    if not any(is_here(picture) for picture in document.errors(asker)):
        return []
    cures = [cure.text for picture in document.pictures(asker) if is_here(picture) for cure in picture.cures]
    return [f"cure: {text}" for text in dict.fromkeys(cures)]


def outer_declaration(document: Document, name: str) -> Optional[Tuple[s.Declaration, str]]:
    """The declaration that a module's interface has of a name, and its head or its first line."""
    view = document.outer
    found = view.declarations.by_name.get(name) if view is not None and view.declarations else None
    if not found or view is None:
        return None
    one = found[0]
    text = view.text_of(one.head if isinstance(one, s.Function) else one.span)
    return one, text.split("\n")[0]


def symbol_at(document: Document, offset: int) -> Optional[Tuple[Names, Symbol]]:
    names = names_of(document.view)
    found = names.at(offset) if names else None
    return (names, found[1]) if names and found and found[1] else None


def definition(document: Document, offset: int) -> Optional[Dict[str, Any]]:
    """Where a name is declared."""
    found = symbol_at(document, offset)
    if found:
        return {"uri": document.uri, "range": document.range(found[1].declared)}
    names = names_of(document.view)
    token = names.at(offset) if names else None
    outer = outer_declaration(document, token[0].text) if token else None
    if outer is None or document.interface is None:
        return None
    file = Document(Path(document.interface.name).resolve().as_uri(), document.interface.text)
    return {"uri": file.uri, "range": file.range(outer[0].name.span)}


def use_ranges(document: Document, offset: int) -> List[Dict[str, Any]]:
    """The ranges of all uses of a name."""
    found = symbol_at(document, offset)
    return [document.range(s.Span(it.start, it.end)) for it in found[0].uses(found[1])] if found else []


def references(document: Document, offset: int) -> List[Dict[str, Any]]:
    """All uses of a name."""
    return [{"uri": document.uri, "range": it} for it in use_ranges(document, offset)]


def rename(document: Document, asker: Asker, offset: int, name: str) -> Dict[str, Any]:
    """The edits that rename a symbol. Refused if the program answers otherwise of the renamed text."""
    found = symbol_at(document, offset)
    if found is None:
        raise RpcError(REQUEST_FAILED, "it isn't known what this name stands for")
    names, symbol = found
    tick = "'" if symbol.kind == "case" and not name.startswith("'") else ""
    spans = [s.Span(it.start, it.end) for it in names.uses(symbol)]
    text = document.view.source.text
    for span in reversed(spans):
        text = text[: span.start] + tick + name + text[span.end :]
    before, after = document.check(asker, document.data), document.check(asker, text.encode("utf-8", "replace"))
    if shape(before) != shape(after):
        raise RpcError(REQUEST_FAILED, f"the renamed text would be refused: {' '.join(after.lines[:1])}")
    edits = [{"range": document.range(span), "newText": tick + name} for span in spans]
    return {"changes": {document.uri: edits}}


def shape(reply: Reply) -> Tuple[Any, ...]:
    """What a reply says, without names and columns: those change where something is renamed."""
    first = reply.reports[0] if reply.reports else None
    place = getattr(first, "place", None)
    return reply.status, type(first), getattr(first, "rule", None), place.line if place else None


def document_symbols(document: Document) -> List[Dict[str, Any]]:
    """The declarations of a text."""
    declarations = document.view.declarations
    found = []
    for it in declarations.program.declarations if declarations else ():
        detail = document.view.text_of(it.head) if isinstance(it, s.Function) else ""
        found.append(
            {
                "name": it.name.text,
                "detail": detail,
                "kind": SYMBOL_KINDS.get(type(it).__name__, 13),
                "range": document.range(it.span),
                "selectionRange": document.range(it.name.span),
            }
        )
    return found


# ---- completion


def item(label: str, kind: int, detail: str = "") -> Dict[str, Any]:
    return {"label": label, "kind": kind, "detail": detail}


def completion(document: Document, good: Optional[Document], offset: int) -> List[Dict[str, Any]]:
    """What fits behind a character: fields after `.`, states after `@`, cases after a tick, else names and keywords. A text that isn't of the grammar
    just now is completed by the declarations of `good`, the last one that was."""
    text = document.view.source.text
    start = offset
    while start and (text[start - 1].isalnum() or text[start - 1] == "_"):
        start -= 1
    declarations = document.view.declarations or (good.view.declarations if good else None)
    if declarations is None:
        return [item(word, KEYWORD) for word in KEYWORDS]
    known = [declarations, *(one for one in document.known() if one is not declarations)]
    scope = scope_at(declarations, min(start, len(text)))
    before = text[:start].rstrip()
    if before.endswith("."):
        return fields_after(declarations, scope, before[:-1].rstrip())
    if before.endswith("@"):
        return [item(state.text, MEMBER, it.name.text) for one in known for it in one.all(s.StateSet) for state in it.states]
    if text[:start].endswith("'"):
        return [item(case.tick.text.lstrip("'"), MEMBER, it.name.text) for one in known for it in one.all(s.Variant) for case in it.cases]
    views = [document.view if document.view.declarations else good.view if good else document.view, document.outer]
    return list(known_names([view for view in views if view is not None and view.declarations], scope))


def fields_after(declarations: Declarations, scope: Optional[Scope], before: str) -> List[Dict[str, Any]]:
    """The fields of the variable that ends a text."""
    at = len(before)
    while at and (before[at - 1].isalnum() or before[at - 1] == "_"):
        at -= 1
    found = scope.find(before[at:]) if scope else None
    owners = [found.type.name] if found and found.type else [it.name.text for it in declarations.all(s.Struct)]
    return [item(it.name.text, FIELD, f"{it.type}{s.at_states(it.states)}") for owner in owners for it in fields_of(declarations, owner)]


def known_names(views: List[View], scope: Optional[Scope]) -> Iterator[Dict[str, Any]]:
    """Variables in scope, functions with their clauses, types, and keywords; what an interface has, too."""
    for variable in scope.variables if scope else ():
        yield item(variable.name.text, VARIABLE, str(variable.type or ""))
    seen: Set[str] = set()
    for view in views:
        for it in view.program.declarations if view.program else ():
            if it.name.text in seen:
                continue
            seen.add(it.name.text)
            if isinstance(it, s.Function):
                yield item(it.name.text, FUNCTION, view.text_of(it.head))
            else:
                yield item(it.name.text, ENUM if isinstance(it, s.StateSet) else STRUCT)
    for word in KEYWORDS:
        yield item(word, KEYWORD)


# ---- layout


def formatting(document: Document, asker: Asker) -> List[Dict[str, Any]]:
    """The edits that lay out a text, with its comments."""
    try:
        answer = layout.lay_out_with_comments(asker.vaultc, document.text)
    except layout.NotKept as problem:
        raise RpcError(REQUEST_FAILED, str(problem))
    if answer.status != 0:
        raise RpcError(REQUEST_FAILED, answer.output.strip())
    if answer.output == document.text:
        return []
    return [{"range": document.whole(), "newText": answer.output}]

"""Texts in C, Lua and Python that do what texts of `speed_texts` do, for the tools that are measured beside `vaultc`."""

from __future__ import annotations

from typing import Dict, NamedTuple

THREAD_SAFETY = """\
#define CELL __attribute__((capability("cell")))
#define HELD(x) __attribute__((requires_capability(x)))
#define MADE(x) __attribute__((acquire_capability(x)))
#define GONE(x) __attribute__((release_capability(x)))
"""
"""Annotations of clang: a cell is a capability, which who has its key holds."""

CONTEXTS = """\
#define CELL
#define HELD(x) __attribute__((context(x, 1, 1)))
#define MADE(x) __attribute__((context(x, 0, 1)))
#define GONE(x) __attribute__((context(x, 1, 0)))
"""
"""Annotations of sparse: a count that is 1 while the cell is held."""

PLAIN = "#define CELL\n#define HELD(x)\n#define MADE(x)\n#define GONE(x)\n"
"""No annotations: types alone."""


def loops_in_c(count: int, annotations: str, is_faulty: bool = False) -> str:
    """`speed_texts.loops` in C: so many functions with a loop, all called by `main`. The fault: the cell isn't given back."""
    heads = "struct CELL cell { long long v; };\nvoid make_cell(struct cell *x) MADE(*x);\nvoid drop_cell(struct cell *x) GONE(*x);\nvoid print(long long n);\n"
    body = "long long i = 0; while (i < n) { x->v = x->v + 1; i = i + 1; }"
    functions = "".join(
        f"void f{number}(struct cell *x, long long n) HELD(*x);\nvoid f{number}(struct cell *x, long long n) {{ {body} }}\n"
        for number in range(1, count + 1)
    )
    calls = "".join(f"f{number}(x, {number % 10});\n" for number in range(1, count + 1))
    drop = "" if is_faulty else "drop_cell(x); "
    return f"{annotations}{heads}{functions}void use(struct cell *x);\nvoid use(struct cell *x) {{ make_cell(x);\n{calls}print(x->v); {drop}}}\n"


class Turn(NamedTuple):
    """What a turn of a loop does, in each language; declarations stand before the loop."""

    vault_declared: str
    vault: str
    c_declared: str
    c: str
    lua_declared: str
    lua: str
    python_declared: str
    python: str


TURNS: Dict[str, Turn] = {
    "a product, a sum and a remainder": Turn(
        "", "s = (s * 31 + i) % 1000003;", "", "s = (s * 31 + i) % 1000003;", "", "s = (s * 31 + i) % 1000003", "", "s = (s * 31 + i) % 1000003"
    ),
    "a call of a function that does this": Turn(
        "int next(int s, int i) { return (s * 31 + i) % 1000003; }",
        "s = next(s, i);",
        "long long next(long long s, long long i) { return (s * 31 + i) % 1000003; }",
        "s = next(s, i);",
        "local function next(s, i) return (s * 31 + i) % 1000003 end",
        "s = next(s, i)",
        "def next(s, i):\n    return (s * 31 + i) % 1000003",
        "s = next(s, i)",
    ),
    "a new object, a field that is read, and its release": Turn(
        "struct cell { int v; }",
        "tracked(K) cell x = new cell { v: i }; s = s + x.v; release x;",
        "struct cell { long long v; };",
        "struct cell *x = malloc(sizeof *x); x->v = i; s = s + x->v; free(x);",
        "",
        "local x = { v = i }; s = s + x.v",
        "class Cell:\n    __slots__ = ('v',)\n    def __init__(self, v):\n        self.v = v",
        "x = Cell(i); s = s + x.v",
    ),
}
"""The turns of docs/SPEED.md, by what they do."""


def c_turns(turn: Turn, count: int) -> str:
    """The loop in C."""
    return (
        f"#include <stdio.h>\n#include <stdlib.h>\n{turn.c_declared}\n"
        f"int main(void) {{ long long i = 0; long long s = 1; while (i < {count}) {{ {turn.c} i = i + 1; }} printf(\"%lld\\n\", s); return 0; }}\n"
    )


def lua_turns(turn: Turn, count: int) -> str:
    """The loop in Lua."""
    return f"{turn.lua_declared}\nlocal i = 0\nlocal s = 1\nwhile i < {count} do {turn.lua}; i = i + 1 end\nprint(s)\n"


def python_turns(turn: Turn, count: int) -> str:
    """The loop in Python."""
    return f"{turn.python_declared}\ndef main():\n    i = 0\n    s = 1\n    while i < {count}:\n        {turn.python}\n        i = i + 1\n    print(s)\nmain()\n"

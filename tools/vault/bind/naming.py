"""Names of a program as names of C.

Letters beyond ASCII become `u` and their number in hexadecimal. A name that is a keyword of C or C++ or a macro that hosts often see, or that stands for something else in the same
place already, gets a `_` at its end, as often as it takes."""
from __future__ import annotations

import re
from pathlib import Path
from typing import Iterable, Set

KEYWORDS = frozenset(
    "alignas alignof and and_eq asm auto bitand bitor bool break case catch char class compl const constexpr continue decltype default delete do double "
    "dynamic_cast else enum explicit export extern false float for friend goto if inline int long mutable namespace new noexcept not not_eq nullptr "
    "operator or or_eq private protected public register reinterpret_cast restrict return short signed sizeof static static_assert static_cast struct "
    "switch template this thread_local throw true try typedef typeid typename union unsigned using virtual void volatile wchar_t while xor xor_eq".split()
)
MACROS = frozenset("EOF NULL assert errno linux offsetof setjmp stderr stdin stdout typeof unix".split())


def plain(name: str) -> str:
    """A name in the letters of C."""
    return re.sub(r"[^A-Za-z0-9_]", lambda met: f"u{ord(met.group()):x}", name)


def c_name(name: str, taken: Iterable[str] = ()) -> str:
    """A name of C for a name of a program, which is none of those that are taken."""
    made = plain(name) or "_"
    used = set(taken)
    while made in KEYWORDS or made in MACROS or made in used:
        made += "_"
    return made


class Scope:
    """Names of C that stand for different things in one place."""

    def __init__(self, *taken: str) -> None:
        self.taken: Set[str] = set(taken)

    def add(self, name: str) -> str:
        """A name of C for one more name."""
        made = c_name(name, self.taken)
        self.taken.add(made)
        return made


def base_name(path: Path) -> str:
    """The name of a program that its file says, as a prefix of names of C."""
    made = plain(path.stem)
    return made if re.match(r"[A-Za-z]", made) else f"v_{made}"

"""Where things are: the repository, or the folder in which the tool is installed, and the folder of kept programs."""
from __future__ import annotations

import os
import sys
from pathlib import Path

from .errors import NoProgram

# the repository, or PREFIX/share/vault
TOP = Path(os.path.realpath(__file__)).parent.parent.parent
# of an installed tool, the folder of its programs
INSTALLED = TOP.parent.parent / "lib" / "vault"
COMMANDS = Path(os.path.realpath(__file__)).parent / "commands"


def is_repository() -> bool:
    """Whether TOP has the sources from which programs are built."""
    return (TOP / "crates.txt").is_file()


def cache() -> Path:
    """The folder below which built programs are kept; it need not exist."""
    home = os.environ.get("XDG_CACHE_HOME", "")
    # the XDG specification has relative paths ignored
    base = Path(home) if os.path.isabs(home) else Path(os.path.expanduser("~")) / ".cache"
    return base / "vault"


def make_cache() -> None:
    """Makes that folder, if it isn't there; stops if it can't be made, or nothing can be written into it."""
    try:
        cache().mkdir(parents=True, exist_ok=True)
        usable = os.access(cache(), os.W_OK)
        why = "it can't be written"
    except OSError as error:
        usable, why = False, error.strerror
    if not usable:
        raise NoProgram(f"programs are kept in {cache()}: {why}; XDG_CACHE_HOME may name another place")


def keep_bytecode() -> None:
    """Has Python keep the compiled modules of the tool in its cache, also where it may write none beside them: without them each call
    would take twice as long."""
    sys.pycache_prefix = str(cache() / "bytecode")
    sys.dont_write_bytecode = False

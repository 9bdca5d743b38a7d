"""Which interface a file is judged beside: what `vault.json` in its folder says, or the interface that lies beside it.

`vault.json` names an interface and its modules: `{ "interface": "disk.v", "modules": ["drive.v", "user.v"] }`. Without one, a file that ends
with `.vi` is an interface, `disk.v` is a module of `disk.vi` beside it, and so is `disk_cache.v`."""
from __future__ import annotations

import json
import os
from pathlib import Path
from typing import Any, Optional

from .errors import Problem

SETUP = "vault.json"
ENDING = ".vi"


def interface_of(path: Path) -> Optional[Path]:
    """The interface that a file is judged beside, which may be the file itself; None if it is a program by itself. A `vault.json` that can't
    be understood is a Problem."""
    said = read_setup(path.parent / SETUP)
    if said is not None:
        interface = path.parent / said["interface"]
        named = [interface, *(path.parent / name for name in said["modules"])]
        if any(is_same(path, one) for one in named):
            return interface
    return path if path.suffix == ENDING else interface_beside(path)


def is_same(one: Path, other: Path) -> bool:
    return os.path.normpath(str(one)) == os.path.normpath(str(other))


def interface_beside(path: Path) -> Optional[Path]:
    """The interface in a file's folder whose name the file's begins with; the longest of several."""
    try:
        names = [name for name in os.listdir(path.parent) if name.endswith(ENDING)]
    except OSError:
        return None
    stems = [name[: -len(ENDING)] for name in names]
    found = [stem for stem in stems if stem and (path.stem == stem or path.stem.startswith(f"{stem}_"))]
    return path.parent / (max(found, key=len) + ENDING) if found else None


def read_setup(path: Path) -> Optional[Any]:
    """What a `vault.json` says; None if there is none, or it names no interface."""
    try:
        said = json.loads(path.read_text(encoding="utf-8"))
    except OSError:
        return None
    except ValueError as error:
        raise Problem(f"{path}: this isn't JSON: {error}")
    if not isinstance(said, dict):
        raise Problem(f"{path}: an object is expected, as {{ \"interface\": \"disk.v\", \"modules\": [\"drive.v\"] }}")
    if "interface" not in said:
        return None
    modules = said.get("modules", [])
    if not isinstance(said["interface"], str) or not isinstance(modules, list) or not all(isinstance(one, str) for one in modules):
        raise Problem(f"{path}: `interface` is the name of a file, `modules` a list of names")
    return {"interface": said["interface"], "modules": modules}

"""A thousand random lists of calls for each driver, on its library by several compilers and by `vaultc host`. VAULT_SEED is the seed of the lists, or 1;
VAULT_LISTS another number of lists."""
from __future__ import annotations

import os
import shutil
import tempfile
import unittest
from pathlib import Path
from typing import Dict

from vault import paths
from vault.tests import drivers_compiled as drivers
from vault.tests import test_drivers

DRIVERS = "tools/vault/tests/drivers"
FILES = ("examples/device.v", "examples/tutorial/10_driver.v", f"{DRIVERS}/pump.v", f"{DRIVERS}/switch.v", f"{DRIVERS}/valve.v")
SANITIZE = ("-g", "-fno-sanitize-recover=all")
COMPILERS = (
    ("gcc", "-O0"),
    ("gcc", "-O2"),
    ("gcc", "-O2", "-DVAULT_REUSE"),
    ("gcc", "-O1", *SANITIZE, "-fsanitize=address,undefined"),
    ("clang", "-O0"),
    ("clang", "-O2"),
    ("clang", "-O1", *SANITIZE, "-fsanitize=memory"),
)
LISTS = int(os.environ.get("VAULT_LISTS", "1000"))
SEED = int(os.environ.get("VAULT_SEED", "1"))


def sources() -> Dict[str, bytes]:
    """The texts of the drivers, by name."""
    found = {Path(name).stem: (paths.TOP / name).read_bytes() for name in FILES}
    return {**found, **{it.folder.name: it.hosted_text() for it in test_drivers.drivers()}}


class Libraries(unittest.TestCase):
    def test_a_thousand_lists(self) -> None:
        compilers = [it for it in COMPILERS if shutil.which(it[0])]
        if not compilers:
            self.skipTest("there is no C compiler")
        for name, text in sources().items():
            with self.subTest(name), tempfile.TemporaryDirectory() as folder:
                copied = Path(folder) / f"d_{name}.v"
                copied.write_bytes(text)
                driver = drivers.build(copied, Path(folder), compilers)
                self.assertEqual(drivers.differences(driver, LISTS, SEED, Path(folder), os.cpu_count() or 1), [])


if __name__ == "__main__":
    unittest.main()

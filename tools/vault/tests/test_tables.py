"""Tables of the pages are what they are made from: crates.txt, the code's constants, the usage line and the contracts."""
from __future__ import annotations

import re
import unittest
from typing import Dict, Iterator, List, Set, Tuple

from vault import believed, completions, crates, tables
from vault.documents import cells, table_rows
from vault.paths import TOP
from vault.suite import first_difference

DECLARED = re.compile(r"\b(?:fn|struct|enum|trait|mod|type|const|ensures)\s+([A-Za-z_]\w*)|^\s+([A-Z]\w*)(?:,| =|\(|\s\{)", re.M)


def read(name: str) -> str:
    return (TOP / name).read_text(encoding="utf-8")


def spans(text: str) -> List[str]:
    """The pieces of code of a text."""
    return re.findall(r"`([^`]+)`", text)


class Crates(unittest.TestCase):
    listed = crates.read()

    def rows(self, page: str) -> List[List[str]]:
        """The rows of a page's table whose first cell is one crate."""
        lines = [cells(line) for line in read(page).split("\n") if re.match(r"\| `\w+` \|", line)]
        return [row for row in lines if row[0].strip("`") in self.listed or re.match(r"`(vlt|c|cert|vaultc|vaultq)_", row[0])]

    def test_pages_are_as_they_are_made(self) -> None:
        for name, text in tables.renewed_pages(TOP).items():
            with self.subTest(name):
                self.assertEqual(first_difference(name, text.split("\n"), read(name).split("\n")), "", "run `vault tables --write`")

    def test_the_gate_says_what_each_edit_stands_for(self) -> None:
        named = {edit for row in table_rows(read("docs/GATE.md"), "Edits") for edit in spans(row[2])}
        there = {file.stem for file in TOP.glob("crates/*/must-fail/*.edit")}
        self.assertEqual(there - named - set(spans(read("docs/GATE.md"))), set())
        self.assertEqual(named - there, set())

    def resting(self) -> Dict[str, Tuple[Set[str], bool]]:
        """For each crate the crates that its rows of docs/ARCHITECTURE.md rest on, itself aside, and whether it has rows of parts."""
        found: Dict[str, Tuple[Set[str], bool]] = {}
        for line in read("docs/ARCHITECTURE.md").split("\n"):
            met = re.match(r"\| `(\w+)((?:::\w+)?)` \|", line)
            if met and met.group(1) in self.listed:
                name, part = met.groups()
                rests, has_parts = found.get(name, (set(), False))
                rests |= {span.split("::")[0] for span in spans(cells(line)[2])} - {name}
                found[name] = (rests, has_parts or bool(part))
        return found

    def test_architecture_has_a_row_for_each_crate(self) -> None:
        self.assertEqual({row[0].strip("`") for row in self.rows("docs/ARCHITECTURE.md")}, set(self.listed))

    def test_architecture_names_the_nearest_crates(self) -> None:
        for name, (rests, has_parts) in self.resting().items():
            with self.subTest(name):
                self.assertEqual(self.nearest(name) - rests, set())
                self.assertEqual(rests - (set(self.listed[name].uses) if has_parts else self.nearest(name)), set())

    def nearest(self, name: str) -> Set[str]:
        """The crates of a crate's line that no other crate of the line rests on."""
        uses = self.listed[name].uses
        return {it for it in uses if not any(it in crates.below([other], self.listed) for other in uses if other != it)}

    def test_groups_are_those_of_crates_txt(self) -> None:
        groups = [line[2:] for line in read("crates.txt").split("\n") if re.match(r"# \w+: ", line)]
        self.assertEqual(re.findall(r"^\| \*(\w+: .*)\* \| \| \|$", read("docs/ARCHITECTURE.md"), re.M), groups)


class Promises(unittest.TestCase):
    """The names of docs/PROMISES.md are declared in the crates that it says."""

    known: Dict[str, Set[str]] = {}

    def declared(self, crate: str) -> Set[str]:
        """The functions, types, modules and clauses of a crate."""
        if crate not in self.known:
            texts = [file.read_text(encoding="utf-8") for file in (TOP / "crates" / crate / "src").rglob("*.rt")]
            self.known[crate] = {one or other for text in texts for one, other in DECLARED.findall(text)}
        return self.known[crate]

    def unknown(self, cell: str) -> Iterator[str]:
        """The names of a cell that its crates don't have; a name without `::` is of the crate before it."""
        crate = ""
        for span in spans(cell):
            head, *rest = re.sub(r"\(.*", "", span).split("::")
            if (TOP / "crates" / head).is_dir():
                crate = head
            else:
                rest = [head, *rest]
            if crate:
                yield from (f"{crate}: {name}" for name in rest if name not in self.declared(crate))

    def test_names_of_the_tables_exist(self) -> None:
        for number, line in enumerate(read("docs/PROMISES.md").split("\n"), 1):
            if line.startswith("| "):
                for cell in cells(line)[1:]:
                    self.assertEqual(list(self.unknown(cell)), [], f"docs/PROMISES.md:{number}")

    def test_names_of_all_pages_exist(self) -> None:
        pages = [*sorted(TOP.glob("docs/*.md")), TOP / "README.md"]
        for page in pages:
            for number, line in enumerate(page.read_text(encoding="utf-8").split("\n"), 1):
                for span in spans(line):
                    if re.fullmatch(r"(vlt|c|cert|vaultc|vaultq)_\w+(::\w+)+", span):
                        self.assertEqual(list(self.unknown(f"`{span}`")), [], f"{page.relative_to(TOP)}:{number}")

    def test_each_clause_of_the_calls_has_a_row(self) -> None:
        for call in believed.PUBLIC_CALLS:
            with self.subTest(call):
                self.assert_rows(*call.split("::"))

    def assert_rows(self, crate: str, name: str) -> None:
        """The table of a public call has a row for each of its clauses, in their order."""
        contract = re.search(rf"pub fn {name}<.*?\n{{", read(f"crates/{crate}/src/lib.rt"), re.S)
        assert contract is not None
        clauses = re.findall(r"ensures (\w+)", contract.group())
        rows = table_rows(read("docs/PROMISES.md"), f"The public call: `{crate}::{name}`")
        self.assertEqual([row[1] for row in rows], [f"`{clause}`" for clause in clauses])


class Commands(unittest.TestCase):
    """Commands, options and statuses are the same on all pages."""

    @staticmethod
    def usage() -> List[Tuple[str, str]]:
        """The commands of the usage line with what each takes."""
        met = re.search(r'"usage: vaultc (.*)\\n"', read("crates/vaultc_runs/src/lines.rt"))
        assert met is not None
        return [(words.split(" ", 1)[0], words.split(" ", 1)[1]) for words in met.group(1).split(" | ")]

    def test_commands_lists_those_of_the_usage_line(self) -> None:
        rows = re.findall(r"^\| `vaultc (\w+) ([A-Z ]+)` \|", read("docs/COMMANDS.md"), re.M)
        self.assertEqual(sorted(rows), sorted(self.usage()))

    def test_commands_has_a_section_for_each(self) -> None:
        sections = re.findall(r"^## `vaultc (\w+) ([A-Z ]+)`", read("docs/COMMANDS.md"), re.M)
        self.assertEqual(sorted(sections), sorted(self.usage()))

    def test_the_man_page_lists_those_of_the_usage_line(self) -> None:
        described = re.findall(r'^\.BI (\w+) " ([A-Z ]+)"$', read("docs/vaultc.1").split(".SH OPTIONS")[0], re.M)
        self.assertEqual(sorted(described), sorted(self.usage()))

    def test_completions_have_those_of_the_usage_line(self) -> None:
        self.assertEqual(sorted(completions.OF_VAULTC), sorted(word for word, _ in self.usage()))

    def test_options_are_those_of_the_words(self) -> None:
        options = set(re.findall(r'"(--\w+)"', read("crates/vaultc_words/src/words.rt")))
        self.assertEqual(set(completions.RUN_OPTIONS), options)
        self.assertEqual(set(re.findall(r"^\| `(--\w+) [A-Z]`", read("docs/COMMANDS.md"), re.M)), options)
        self.assertEqual({"--" + word for word in re.findall(r'^\.BI \\-\\-(\w+) "', read("docs/vaultc.1"), re.M)}, options)

    def test_commands_that_take_options_say_so(self) -> None:
        self.assertEqual(set(completions.RUNS), {word for word, takes in self.usage() if takes.endswith("OPTIONS")})

    def test_statuses_are_those_of_the_code(self) -> None:
        statuses = set(re.findall(r"^pub const \w+: u8 = (\d+);", read("crates/vaultc_runs/src/status.rt"), re.M))
        man = set(re.findall(r"^\.TP\n\.B (\d+)$", read("docs/vaultc.1").split(".SH EXIT STATUS")[1], re.M))
        rows = [cells(line)[0] for line in read("docs/COMMANDS.md").split("\n") if re.match(r"\| \d", line)]
        self.assertEqual(man, statuses)
        self.assertEqual({status for row in rows for status in re.findall(r"\d+", row)}, statuses)


class Questions(unittest.TestCase):
    """The questions of `vaultq` are the same on all pages."""

    def test_pages_list_those_of_the_usage_line(self) -> None:
        met = re.search(r'"usage: vaultq (.*)\\n"', read("crates/vaultq_replies/src/replies.rt"))
        assert met is not None
        asked = sorted(words.split(" ")[0] for words in met.group(1).split(" | "))
        self.assertEqual(sorted(completions.OF_VAULTQ), asked)
        self.assertEqual(sorted(re.findall(r"^\| `vaultq (\w+) [A-Z ]+` \|", read("docs/COMMANDS.md"), re.M)), asked)
        self.assertEqual(sorted(re.findall(r'^\.BI (\w+) " [A-Z ]+"$', read("docs/vaultq.1").split(".SH OUTPUT")[0], re.M)), asked)


class Numbers(unittest.TestCase):
    """Numbers of rules, limits and edits are those of the code."""

    def test_rules_are_those_of_the_code(self) -> None:
        code = [number for crate in ("vlt_core", "vlt_iface") for number in re.findall(r"^pub const \w+: u8 = (\d+);", read(f"crates/{crate}/src/rules.rt"), re.M)]
        self.assertEqual(sorted(re.findall(r"^### (\d+)\. ", read("docs/RULES.md"), re.M), key=int), code)

    def test_limits_are_those_of_the_code(self) -> None:
        code = re.findall(r"^pub const \w+: u8 = (\d+);", read("crates/vlt_base/src/limits.rt"), re.M)
        pages = read("docs/COMMANDS.md") + read("docs/LANGUAGE.md")
        numbers = [number for row in table_rows(read("docs/LANGUAGE.md"), "Limits") for number in row[0].split(", ")]
        self.assertEqual(sorted(numbers, key=int), [number for number in code if number in numbers])
        self.assertEqual([number for number in code if number not in numbers and f"`limit {number} " not in pages], [])


if __name__ == "__main__":
    unittest.main()

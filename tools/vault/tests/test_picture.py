"""Pictures in all forms, of the examples and of a newcomer's mistakes, as they were judged one by one."""
from __future__ import annotations

import json
import os
import re
import sys
import tempfile
import unittest
from html.parser import HTMLParser
from pathlib import Path
from typing import Dict, List
from unittest import mock

from vault.forms import gcc, json_form, page, sarif, text
from vault.judge import Judged
from vault.paths import TOP
from vault.picture import Picture
from vault.rules import all_rules

from .golden import GOLDEN, MISTAKES, WIDTH, GoldenCase, judged
from .schema import sarif_schema

STYLE = text.Style(WIDTH)
# the rules that programs can break; others are on modules
ON_PROGRAMS = 46
REFUSED_TEXTS = {
    "text_token.v": b"void main() {\n    int n = ;\n}\n",
    "text_missing.v": b"void main() {\n    int n = 1\n}\n",
    "text_end.v": b"void main() {\n    print(1);\n",
    "text_byte.v": b"void main() {\n    print(1 ? 2 : 3);\n}\n",
    "text_utf8.v": b"// caf\xe9\nvoid main() {\n}\n",
    "text_mark.v": b"\xef\xbb\xbfvoid main() {\n}\n",
    "text_number.v": b"void main() {\n    print(9223372036854775808);\n}\n",
    "text_comment.v": b"void main() {\n}\n/* the end\n",
    "limit_5.v": b"stateset many { " + b", ".join(b"s%d" % number for number in range(33)) + b" }\nvoid main() {\n}\n",
    "limit_6.v": b"struct many {\n" + b"".join(b"    int f%d;\n" % number for number in range(33)) + b"}\nvoid main() {\n}\n",
}
# a fault of each form: held, absent, lent, a state, an owning variable that is full or empty, at a step, at an end, where paths meet
KEY_FAULTS = (
    "c01_leak.v", "c02_released_twice.v", "c06_wrong_state.v", "c07_released_on_one_path.v", "c08_lock_kept.v", "c10_clause_missing.v",
    "c13_released_in_a_loop.v", "c17_region_gone.v", "c18_lent_to_a_focus.v", "c21_owning_variable_used_twice.v",
    "c22_owning_variable_not_released.v", "c33_acquired_twice.v",
)  # fmt: skip
SHOWN = ["released_on_one_way.v", "lock_kept.v", "radio_started.v", "unfinished.v", "point.v"]


def shown(files: List[Judged]) -> str:
    return "".join(text.write(one.pictures, STYLE) + "\n" for one in files)


def pictures(files: List[Judged]) -> List[Picture]:
    return [picture for one in files for picture in one.pictures]


class Examples(GoldenCase):
    names = sorted(file.name for file in (TOP / "examples").glob("*.v"))

    def test_text(self) -> None:
        self.assert_golden("examples.txt", shown(judged(self.names, TOP / "examples")))

    def test_gcc(self) -> None:
        self.assert_golden("examples.gcc", gcc.write(pictures(judged(self.names, TOP / "examples"))))

    def test_sarif(self) -> None:
        self.assert_golden("examples.sarif", sarif.write(judged(SHOWN, TOP / "examples")))

    def test_json(self) -> None:
        self.assert_golden("examples.json", json_form.write(judged(SHOWN, TOP / "examples")))

    def test_html(self) -> None:
        self.assert_golden("examples.html", page.write(pictures(judged(SHOWN, TOP / "examples"))))


class Mistakes(GoldenCase):
    names = sorted(file.name for file in MISTAKES.glob("*.v"))
    files: List[Judged] = []

    @classmethod
    def setUpClass(cls) -> None:
        cls.files = judged(cls.names, MISTAKES)

    def test_text(self) -> None:
        self.assert_golden("mistakes.txt", shown(self.files))

    def test_each_has_cause_place_and_cure(self) -> None:
        for one in self.files:
            with self.subTest(one.source.name):
                self.assertEqual(len(one.pictures), 1)
                picture = one.pictures[0]
                self.assertEqual(picture.severity, "error")
                self.assertTrue(picture.message)
                self.assertIsNotNone(picture.fault)
                self.assertTrue(picture.cures, picture.message)

    def test_edits_are_within_the_text(self) -> None:
        for one in self.files:
            for cure in one.pictures[0].cures:
                for edit in cure.edits:
                    self.assertLessEqual(edit.span.start, edit.span.end)
                    self.assertLessEqual(edit.span.end, len(one.source.text))


class Kinds(GoldenCase):
    """One refusal of each kind in each form: all rules on programs, by their wrong programs in docs/RULES.md; texts, limits, a file that
    can't be read; faults on keys at steps and where paths meet."""

    files: List[Judged] = []

    @classmethod
    def setUpClass(cls) -> None:
        with tempfile.TemporaryDirectory() as name:
            where = Path(name)
            written = {f"rule_{number:02}.v": rule.programs[0].encode() for number, rule in all_rules().items() if number <= ON_PROGRAMS}
            written.update(REFUSED_TEXTS)
            for file in KEY_FAULTS:
                written[file] = (MISTAKES / file).read_bytes()
            for file, data in written.items():
                (where / file).write_bytes(data)
            cls.files = judged([*sorted(written), "no_file.v"], where)

    def test_each_kind_is_there(self) -> None:
        found = {picture.rule for picture in pictures(self.files)}
        wanted = {f"rule-{number}" for number in range(1, ON_PROGRAMS + 1)} | {"protocol", "read", "limit-5", "limit-6"}
        wanted |= {f"text-{what}" for what in ("token", "end", "byte", "number", "comment", "utf8")}
        self.assertEqual(found, wanted)
        self.assertEqual([one.source.name for one in self.files if len(one.pictures) != 1], [])

    def test_text(self) -> None:
        self.assert_golden("kinds.txt", shown(self.files))

    def test_gcc(self) -> None:
        self.assert_golden("kinds.gcc", gcc.write(pictures(self.files)))

    def test_sarif(self) -> None:
        self.assert_golden("kinds.sarif", sarif.write(self.files))

    def test_json(self) -> None:
        self.assert_golden("kinds.json", json_form.write(self.files))

    def test_html(self) -> None:
        self.assert_golden("kinds.html", page.write(pictures(self.files)))

    def test_sarif_fits_the_schema(self) -> None:
        self.assertEqual(sarif_schema().faults(json.loads(sarif.write(self.files))), [])


class Gcc(unittest.TestCase):
    def test_each_line_has_a_place_and_a_severity(self) -> None:
        files = judged(Mistakes.names[::7], MISTAKES)
        for line in gcc.write(pictures(files)).splitlines():
            self.assertRegex(line, r"^\w+\.v:\d+:\d+: (error|note): \S")

    def test_accepted_files_have_no_line(self) -> None:
        self.assertEqual(gcc.write(pictures(judged(["point.v"], TOP / "examples"))), "")


class Sarif(unittest.TestCase):
    """The parts of SARIF 2.1.0 that are written, by its schema and by what code scanning asks beyond it."""

    document: Dict = {}

    @classmethod
    def setUpClass(cls) -> None:
        cls.document = json.loads(sarif.write(judged([*SHOWN, "nofile.v"], TOP / "examples")))

    @property
    def results(self) -> List[Dict]:
        return self.document["runs"][0]["results"]

    def test_it_fits_the_schema(self) -> None:
        self.assertEqual(sarif_schema().faults(self.document), [])

    def test_the_golden_file_fits_the_schema(self) -> None:
        self.assertEqual(sarif_schema().faults(json.loads((GOLDEN / "examples.sarif").read_text(encoding="utf-8"))), [])

    def test_names_with_blanks_and_umlauts_are_uris(self) -> None:
        with tempfile.TemporaryDirectory() as name:
            (Path(name) / "größe 1.v").write_text("void main() {\n    print(y);\n}\n", encoding="utf-8")
            document = json.loads(sarif.write(judged(["größe 1.v", f"{name}/größe 1.v"], Path(name))))
        self.assertEqual(sarif_schema().faults(document), [])
        uris = [one["locations"][0]["physicalLocation"]["artifactLocation"]["uri"] for one in document["runs"][0]["results"]]
        self.assertEqual(uris[0], "gr%C3%B6%C3%9Fe%201.v")
        self.assertTrue(uris[1].startswith("file:///"), uris[1])

    def test_the_schema_is_known_to_refuse(self) -> None:
        for spoil in (
            lambda it: it.pop("version"),
            lambda it: it["runs"][0].pop("tool"),
            lambda it: it["runs"][0]["results"][0].pop("message"),
            lambda it: it["runs"][0]["results"][0]["locations"][0]["physicalLocation"]["region"].update(startLine=0),
            lambda it: it["runs"][0]["results"][0].update(level="fatal"),
            lambda it: it["runs"][0]["results"][0].update(line=3),
            lambda it: it["runs"][0]["tool"]["driver"].update(informationUri="README.md"),
            lambda it: it["runs"][0]["artifacts"][0]["location"].update(uri="a file.v"),
        ):
            document = json.loads(json.dumps(self.document))
            spoil(document)
            self.assertEqual(len(sarif_schema().faults(document)), 1)

    def test_version_and_tool(self) -> None:
        self.assertEqual(self.document["version"], "2.1.0")
        driver = self.document["runs"][0]["tool"]["driver"]
        self.assertEqual(driver["name"], "vault")
        self.assertEqual(driver["version"], (TOP / "VERSION").read_text(encoding="utf-8").strip())
        self.assertTrue(driver["informationUri"].startswith("file:///"))

    def test_several_files_are_one_run(self) -> None:
        (run,) = self.document["runs"]
        self.assertEqual([one["location"]["uri"] for one in run["artifacts"]], [*SHOWN, "nofile.v"])
        self.assertEqual(len({one["locations"][0]["physicalLocation"]["artifactLocation"]["uri"] for one in run["results"]}), 4)

    def test_rules_are_those_of_the_results(self) -> None:
        rules = self.document["runs"][0]["tool"]["driver"]["rules"]
        for result in self.results:
            self.assertEqual(rules[result["ruleIndex"]]["id"], result["ruleId"])

    def test_help_links_lead_to_parts_of_documents(self) -> None:
        for rule in self.document["runs"][0]["tool"]["driver"]["rules"]:
            path, _, anchor = rule["helpUri"].partition("#")
            page = Path(path[len("file://") :]).read_text(encoding="utf-8")
            headings = [re.sub(r"[^\w -]", "", line.lstrip("# ").lower()).replace(" ", "-") for line in page.split("\n") if line.startswith("#")]
            self.assertTrue(anchor in headings or f'<a id="{anchor}"></a>' in page, rule["helpUri"])

    def test_places_have_an_end(self) -> None:
        for result in self.results:
            for location in [*result["locations"], *result.get("relatedLocations", [])]:
                region = location["physicalLocation"]["region"]
                self.assertGreater(region["endColumn"], region["startColumn"])

    def test_related_locations_are_what_led_there(self) -> None:
        found = next(one for one in self.results if "lock_kept.v" in json.dumps(one["locations"]))
        self.assertEqual([one["id"] for one in found["relatedLocations"]], list(range(len(found["relatedLocations"]))))
        self.assertIn("the condition is true", [one["message"]["text"] for one in found["relatedLocations"]])

    def test_paths_are_flows(self) -> None:
        found = {one["locations"][0]["physicalLocation"]["artifactLocation"]["uri"]: one for one in self.results}
        self.assertEqual(len(found["released_on_one_way.v"]["codeFlows"]), 2)
        self.assertEqual(len(found["lock_kept.v"]["codeFlows"]), 1)

    def test_a_fix_is_a_change_that_was_tried(self) -> None:
        found = next(one for one in self.results if "lock_kept.v" in json.dumps(one["locations"]))
        change = found["fixes"][0]["artifactChanges"][0]
        self.assertEqual(change["artifactLocation"]["uri"], "lock_kept.v")
        self.assertEqual(change["replacements"][0]["insertedContent"]["text"], "        unlock(a);\n")

    def test_a_file_that_cannot_be_read_is_a_notification(self) -> None:
        invocation = self.document["runs"][0]["invocations"][0]
        self.assertFalse(invocation["executionSuccessful"])
        self.assertEqual(invocation["exitCode"], 8)
        self.assertEqual(len(invocation["toolExecutionNotifications"]), 1)


class Tags(HTMLParser):
    """Tests that tags are closed in order, and collects ids and links."""

    VOID = ("meta",)

    def __init__(self) -> None:
        super().__init__()
        self.open: List[str] = []
        self.ids: List[str] = []
        self.links: List[str] = []
        self.names: List[str] = []

    def handle_starttag(self, tag, attrs) -> None:
        self.names.append(tag)
        if tag not in self.VOID:
            self.open.append(tag)
        self.ids += [value for name, value in attrs if name == "id"]
        self.links += [value for name, value in attrs if name == "href"]

    def handle_endtag(self, tag) -> None:
        if not self.open or self.open.pop() != tag:
            raise AssertionError(f"</{tag}> closes another tag")


def luminance(colour: str) -> float:
    """How light a colour is, by WCAG 2.1."""
    digits = colour.lstrip("#")
    parts = [int(digit * 2 if len(digits) == 3 else digit, 16) / 255 for digit in re.findall("." if len(digits) == 3 else "..", digits)]
    red, green, blue = (part / 12.92 if part <= 0.03928 else ((part + 0.055) / 1.055) ** 2.4 for part in parts)
    return 0.2126 * red + 0.7152 * green + 0.0722 * blue


class Html(unittest.TestCase):
    written = ""

    @classmethod
    def setUpClass(cls) -> None:
        cls.written = page.write(pictures(judged([*SHOWN, "region_gone.v"], TOP / "examples")))
        cls.tags = Tags()
        cls.tags.feed(cls.written)

    def test_tags_ids_and_links(self) -> None:
        tags = self.tags
        self.assertEqual(tags.open, [])
        self.assertEqual(len(tags.ids), len(set(tags.ids)))
        self.assertLessEqual({link[1:] for link in tags.links}, set(tags.ids))
        for name in ("main", "h1", "h2", "details", "mark"):
            self.assertIn(name, tags.names)
        self.assertNotIn("script", tags.names)

    def test_what_is_said_stands_beside_the_source(self) -> None:
        """Each article has a grid: the source, and after it the steps in their order; each step leads to its line."""
        (article,) = re.findall(r"<article.*?</article>", page.write(pictures(judged(["lock_kept.v"], TOP / "examples"))), re.DOTALL)
        beside = article.index('<div class="beside">')
        self.assertLess(beside, article.index('<div class="source"'))
        self.assertLess(article.index('<div class="source"'), article.index('class="said"'))
        lines = [int(line) for line in re.findall(r'<li class="(?:step|fault)" id="[^"]*"><a href="#e1-0-(\d+)">', article)]
        self.assertEqual(lines, [14, 15])
        self.assertIn("grid-template-columns: minmax(0, 3fr) minmax(15em, 2fr)", page.STYLE)

    def test_a_phone_has_one_column_and_no_page_to_scroll_sideways(self) -> None:
        self.assertIn('<meta name="viewport" content="width=device-width, initial-scale=1">', self.written)
        narrow = page.STYLE.partition("@media (max-width: 50em) {")[2]
        self.assertIn(".beside { grid-template-columns: minmax(0, 1fr); }", narrow)
        # long lines go on below, so that each mark is seen
        self.assertIn(".line { white-space: pre-wrap;", narrow)
        self.assertIn("overflow-x: auto", page.STYLE)
        # nothing is wider than a window of 20em, but the grid of wide windows
        widths = [float(width) for width in re.findall(r"(?<!max-)width: ([\d.]+)em", page.STYLE)]
        self.assertLess(max(widths), 20)

    def test_screen_readers_have_a_structure_and_are_told_of_marks(self) -> None:
        self.assertIn('<html lang="en">', self.written)
        levels = [int(name[1]) for name in self.tags.names if re.fullmatch(r"h\d", name)]
        self.assertEqual(levels[0], 1)
        self.assertTrue(all(after - before <= 1 for before, after in zip(levels, levels[1:])), levels)
        for name in re.findall(r"<mark[^>]*>", self.written):
            self.assertIn(re.search(r'aria-describedby="([^"]*)"', name).group(1), self.tags.ids)
        for name in re.findall(r'<div class="source"[^>]*>', self.written):
            self.assertRegex(name, r'role="region" tabindex="0" aria-label="source of [^"]+\.v"')
        self.assertNotIn('<ol class="said">\n</ol>', self.written)

    def test_colours_are_readable_in_light_and_dark(self) -> None:
        for mode in re.findall(r"--paper: [^}]*", page.STYLE):
            colours = dict(re.findall(r"--(\w+): (#\w+);", mode))
            for ink in ("ink", "dim", "fault", "step", "note", "key", "number"):
                for paper in ("paper", "shade"):
                    light, dark = sorted((luminance(colours[ink]), luminance(colours[paper])), reverse=True)
                    self.assertGreaterEqual((light + 0.05) / (dark + 0.05), 4.5, (ink, paper, colours[ink]))

    def test_text_of_the_source_is_whole(self) -> None:
        written = page.write(pictures(judged(["lock_kept.v"], TOP / "examples")))
        bare = re.sub(r'<span class="n"[^>]*>\d+</span>|<[^>]+>', "", written)
        for line in (TOP / "examples" / "lock_kept.v").read_text(encoding="utf-8").splitlines():
            self.assertIn(line.replace("<", "&lt;").replace(">", "&gt;"), bare)


class Terminals(unittest.TestCase):
    """Colour and width of text, by what standard output is and what the environment says."""

    def style(self, choice: str = "auto", terminal: bool = True, **environment: str) -> text.Style:
        clean = {name: value for name, value in os.environ.items() if name not in ("NO_COLOR", "TERM", "COLUMNS")}
        with mock.patch.dict(os.environ, {**clean, "TERM": "xterm", **environment}, clear=True):
            with mock.patch.object(sys, "stdout", mock.Mock(isatty=lambda: terminal)):
                return text.style_of(choice)

    def test_colour_is_for_terminals(self) -> None:
        self.assertTrue(self.style().colour)
        self.assertFalse(self.style(terminal=False).colour)
        self.assertFalse(self.style(NO_COLOR="1").colour)
        self.assertFalse(self.style(TERM="dumb").colour)
        self.assertFalse(self.style("never").colour)
        self.assertTrue(self.style("always", False, NO_COLOR="1").colour)

    def test_text_is_wrapped_to_the_window(self) -> None:
        self.assertEqual(self.style(COLUMNS="63").width, 63)
        self.assertEqual(self.style(terminal=False, COLUMNS="63").width, 63)
        self.assertEqual(self.style(terminal=False).width, text.PIPE_WIDTH)


class Text(unittest.TestCase):
    def test_no_line_is_wider_than_the_window(self) -> None:
        for width in (60, 80, 110):
            for one in judged(Mistakes.names[::9], MISTAKES):
                for line in text.write(one.pictures, text.Style(width)).splitlines():
                    if " | " not in line[:9]:
                        self.assertLessEqual(len(line), width, line)

    def test_colour_is_only_added(self) -> None:
        for one in judged(Mistakes.names[::9], MISTAKES):
            coloured = text.write(one.pictures, text.Style(WIDTH, True))
            self.assertIn("\x1b[", coloured)
            self.assertEqual(re.sub(r"\x1b\[[\d;]*m", "", coloured), text.write(one.pictures, STYLE))


if __name__ == "__main__":
    unittest.main()

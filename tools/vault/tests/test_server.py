"""The language server, by messages as an editor sends them."""
from __future__ import annotations

import io
import json
import os
import subprocess
import tempfile
import time
import unittest
from pathlib import Path
from typing import Any, Dict, List, Optional

from vault import paths, programs
from vault.ask import take
from vault.server import answers
from vault.server.documents import MOST_BYTES, Document, units
from vault.server.loop import LONGEST, REST, Server

from .large import counted, small_functions, spent

VAULT = paths.TOP / "bin" / "vault"
EXAMPLES = paths.TOP / "examples"
# how long a busy machine may take for one step
PATIENCE = 600
INTERFACE = "stateset power { off, on }\nabstract disk@power;\nextern void start(tracked(K) disk d) [K@off->on];\nextern void stop(tracked(K) disk d) [K@on->off];\n"
MODULE = "void restart(tracked(K) disk d) [K@on] {\n    stop(d);\n}\n"


def has_vaultq() -> bool:
    return take().answers("keys")


class Client:
    """An editor: it sends messages, and reads the answers."""

    def __init__(self, seconds: float = PATIENCE, **environment: str) -> None:
        self.server = subprocess.Popen(
            [str(VAULT), "lsp", "--seconds", str(seconds)],
            stdin=subprocess.PIPE,
            stdout=subprocess.PIPE,
            stderr=subprocess.DEVNULL,
            env={**os.environ, **environment},
        )
        self.number = 0
        self.shown: List[str] = []

    def send_bytes(self, body: bytes) -> None:
        assert self.server.stdin
        self.server.stdin.write(b"Content-Length: %d\r\n\r\n" % len(body) + body)
        self.server.stdin.flush()

    def send(self, said: Dict[str, Any]) -> None:
        self.send_bytes(json.dumps({"jsonrpc": "2.0", **said}).encode())

    def receive(self) -> Dict[str, Any]:
        assert self.server.stdout
        length = 0
        while True:
            line = self.server.stdout.readline().strip()
            if not line:
                return json.loads(self.server.stdout.read(length))
            length = int(line.partition(b":")[2])

    def request(self, method: str, **params: Any) -> Any:
        self.number += 1
        self.send({"id": self.number, "method": method, "params": params})
        while True:
            said = self.receive()
            if said.get("method") == "window/showMessage":
                self.shown.append(said["params"]["message"])
            if said.get("id") == self.number:
                return said["result"] if "result" in said else said["error"]

    def notify(self, method: str, **params: Any) -> None:
        self.send({"method": method, "params": params})

    def open(self, uri: str, text: str) -> List[Dict[str, Any]]:
        """Opens a text, and gives its errors."""
        self.notify("textDocument/didOpen", textDocument={"uri": uri, "languageId": "vault", "version": 1, "text": text})
        return self.errors()

    def errors(self, uri: str = "") -> List[Dict[str, Any]]:
        """The next errors that are told, of a text if it is said which."""
        while True:
            said = self.receive()
            if said.get("method") == "textDocument/publishDiagnostics" and uri in ("", said["params"]["uri"]):
                return said["params"]["diagnostics"]

    def told(self) -> str:
        """The next message that is shown to the person."""
        while True:
            said = self.receive()
            if said.get("method") == "window/showMessage":
                return said["params"]["message"]

    def end(self) -> Optional[int]:
        self.request("shutdown")
        self.notify("exit")
        status = self.server.wait(PATIENCE)
        for stream in (self.server.stdin, self.server.stdout):
            if stream:
                stream.close()
        return status


def place(line: int, character: int) -> Dict[str, int]:
    return {"line": line - 1, "character": character - 1}


class OneFile(unittest.TestCase):
    def setUp(self) -> None:
        take()
        self.client = Client()
        self.client.request("initialize", capabilities={})
        self.addCleanup(self.client.end)
        self.file = EXAMPLES / "lock_kept.v"
        self.text = self.file.read_text(encoding="utf-8")
        self.uri = self.file.as_uri()
        self.found = self.client.open(self.uri, self.text)

    def ask(self, method: str, **params: Any) -> Any:
        return self.client.request(f"textDocument/{method}", textDocument={"uri": self.uri}, **params)

    def change(self, **change: Any) -> List[Dict[str, Any]]:
        self.client.notify("textDocument/didChange", textDocument={"uri": self.uri, "version": 2}, contentChanges=[change])
        return self.client.errors()

    def test_an_error_has_its_place_and_what_led_to_it(self) -> None:
        (error,) = self.found
        self.assertEqual(error["range"]["start"], place(15, 9))
        self.assertIn("its clause promises `loose`", error["message"])
        self.assertIn("the condition is true", [it["message"] for it in error["relatedInformation"]])

    def test_a_change_is_judged(self) -> None:
        fixed = self.change(range={"start": place(15, 9), "end": place(15, 9)}, text="unlock(a);\n        ")
        self.assertEqual(fixed, [])

    def test_a_cure_mends_the_error(self) -> None:
        actions = self.ask("codeAction", range={"start": place(15, 1), "end": place(15, 1)}, context={"diagnostics": []})
        self.assertEqual(actions[0]["title"], "insert unlock(a); before this return")
        (edit,) = actions[0]["edit"]["changes"][self.uri]
        self.assertEqual(self.change(range=edit["range"], text=edit["newText"]), [])

    def test_definition_and_uses(self) -> None:
        self.assertEqual(self.ask("definition", position=place(13, 6))["range"]["start"], place(6, 6))
        self.assertEqual(len(self.ask("references", position=place(3, 9))), 6)

    def test_an_error_leads_to_its_page(self) -> None:
        (error,) = self.found
        self.assertRegex(error["codeDescription"]["href"], r"docs/LANGUAGE\.md#keys$")
        self.assertEqual((error["severity"], error["source"], error["code"]), (1, "vault", "protocol"))

    def test_hover_tells_the_cure(self) -> None:
        said = self.ask("hover", position=place(15, 10))["contents"]["value"]
        self.assertIn("cure: `unlock(a);` before this `return`", said)

    def test_highlights_are_the_uses(self) -> None:
        self.assertEqual(len(self.ask("documentHighlight", position=place(3, 9))), 6)

    def test_renaming_is_refused_if_the_text_would_be(self) -> None:
        self.assertEqual(len(self.ask("rename", position=place(3, 9), newName="money")["changes"][self.uri]), 6)
        self.assertIn("would be refused", self.ask("rename", position=place(3, 9), newName="while")["message"])
        # a name that another function, or another variable of the function, has
        self.assertIn("would be refused", self.ask("rename", position=place(6, 6), newName="unlock")["message"])
        self.assertIn("would be refused", self.ask("rename", position=place(12, 29), newName="cents")["message"])

    def test_completion(self) -> None:
        self.assertEqual([it["label"] for it in self.ask("completion", position=place(17, 7))], ["cents"])
        self.change(range={"start": place(13, 5), "end": place(13, 5)}, text="become a@")
        self.assertEqual([it["label"] for it in self.ask("completion", position=place(13, 14))], ["loose", "shut"])

    def test_completion_has_functions_with_their_clauses(self) -> None:
        found = {it["label"]: it["detail"] for it in self.ask("completion", position=place(17, 5))}
        self.assertEqual(found["unlock"], "void unlock(tracked(L) account a) [L@shut->loose]")
        self.assertEqual(found["a"], "tracked(L) account")
        self.assertIn("release", found)

    def test_layout(self) -> None:
        self.change(text=self.text.replace("    acquire(a);", "  acquire ( a ) ;  // taken"))
        (edit,) = self.ask("formatting", options={})
        self.assertEqual(edit["newText"], self.text.replace("acquire(a);", "acquire(a);  // taken"))

    def test_symbols(self) -> None:
        self.assertEqual([it["name"] for it in self.ask("documentSymbol")], ["latch", "account", "acquire", "unlock", "pay", "main"])

    def test_hover_tells_what_is_held(self) -> None:
        if take().vaultq is None:
            self.skipTest("there is no vaultq")
        held = [self.ask("hover", position=place(line, 6))["contents"]["value"] for line in (13, 14)]
        self.assertIn("held before this statement: L@loose", held[0])
        self.assertIn("held before this statement: L@shut", held[1])

    def test_what_is_held(self) -> None:
        if not has_vaultq():
            self.skipTest("there is no vaultq")
        hints = self.ask("inlayHint", range={"start": place(1, 1), "end": place(40, 1)})
        self.assertIn((13, "L@shut"), [(it["position"]["line"] + 1, it["label"]) for it in hints])
        said = self.ask("hover", position=place(17, 5))["contents"]["value"]
        self.assertIn("held before this statement: L@shut", said)

    def test_a_text_without_the_grammars_form(self) -> None:
        errors = self.change(text=self.text.replace("return;", "return"))
        self.assertEqual(errors[0]["range"]["start"]["line"] + 1, 15)
        self.assertIsNone(self.ask("hover", position=place(3, 9)))
        self.assertEqual(self.ask("inlayHint", range={"start": place(1, 1), "end": place(9, 1)}), [])

    def test_what_is_no_message_is_answered_and_the_server_goes_on(self) -> None:
        self.client.send_bytes(b"abc")
        self.assertEqual(self.client.receive()["error"]["code"], -32700)
        self.client.send_bytes(b"[" * 100000)
        self.assertEqual(self.client.receive()["error"]["code"], -32700)
        for wrong in (b"[]", b"7", b'{"jsonrpc": "1.0", "method": "x"}', b'{"jsonrpc": "2.0", "method": 7, "id": 1}', b'{"jsonrpc": "2.0"}'):
            self.client.send_bytes(wrong)
            self.assertEqual(self.client.receive()["error"]["code"], -32600)
        self.assertEqual(self.client.request("no/method")["code"], -32601)
        self.assertEqual(self.ask("hover")["code"], -32602)
        self.assertEqual(len(self.ask("documentSymbol")), 6)


class Instances(unittest.TestCase):
    def test_each_instance_of_a_bound_entry_has_its_keys(self) -> None:
        if not has_vaultq():
            self.skipTest("there is no vaultq")
        file = EXAMPLES / "radio.v"
        document = Document(file.as_uri(), file.read_text(encoding="utf-8"))
        hints = answers.inlay_hints(document, take(), {"start": place(11, 1), "end": place(11, 1)})
        self.assertEqual([it["label"] for it in hints], ["off: R@off · idle: R@idle"])


class Modules(unittest.TestCase):
    """Files that are judged beside an interface."""

    def setUp(self) -> None:
        take()
        folder = tempfile.TemporaryDirectory()
        self.addCleanup(folder.cleanup)
        self.top = Path(folder.name).resolve()
        self.client = Client()
        self.client.request("initialize", capabilities={})
        self.addCleanup(self.client.end)

    def write(self, name: str, text: str) -> str:
        (self.top / name).write_text(text, encoding="utf-8")
        return (self.top / name).as_uri()

    def ask(self, uri: str, method: str, **params: Any) -> Any:
        return self.client.request(f"textDocument/{method}", textDocument={"uri": uri}, **params)

    def assert_is_module(self, uri: str) -> None:
        (error,) = self.client.open(uri, MODULE)
        self.assertEqual(error["range"]["start"], place(3, 1))
        self.assertIn("`restart` ends with `d` in state `off`", error["message"])
        (action, *_) = self.ask(uri, "codeAction", range={"start": place(3, 1), "end": place(3, 1)}, context={"diagnostics": []})
        self.assertEqual(action["title"], "insert start(d); before this brace")
        (edit,) = action["edit"]["changes"][uri]
        self.client.notify(
            "textDocument/didChange",
            textDocument={"uri": uri, "version": 2},
            contentChanges=[{"range": edit["range"], "text": edit["newText"]}],
        )
        self.assertEqual(self.client.errors(), [])

    def test_an_interface_beside_the_file(self) -> None:
        self.write("disk.vi", INTERFACE)
        self.assert_is_module(self.write("disk.v", MODULE))

    def test_a_longer_name_belongs_to_the_same_interface(self) -> None:
        self.write("disk.vi", INTERFACE)
        self.assert_is_module(self.write("disk_again.v", MODULE))

    def test_vault_json_names_interface_and_modules(self) -> None:
        self.write("vault.json", '{ "interface": "api.v", "modules": ["one.v"] }')
        self.write("api.v", INTERFACE)
        self.assert_is_module(self.write("one.v", MODULE))

    def test_a_file_that_vault_json_does_not_name_is_a_program(self) -> None:
        self.write("vault.json", '{ "interface": "api.v", "modules": ["one.v"] }')
        self.write("api.v", INTERFACE)
        (error,) = self.client.open(self.write("two.v", MODULE), MODULE)
        self.assertEqual(error["code"], "rule-1")

    def test_an_interface_is_judged_by_itself(self) -> None:
        uri = self.write("disk.vi", INTERFACE)
        self.assertEqual(self.client.open(uri, INTERFACE), [])
        self.client.notify(
            "textDocument/didChange", textDocument={"uri": uri, "version": 2}, contentChanges=[{"text": INTERFACE.replace("@on", "@onn")}]
        )
        (error,) = self.client.errors()
        self.assertIn("`onn` is no state of `disk`", error["message"])

    def test_a_module_follows_its_interface_as_it_is_typed(self) -> None:
        interface = self.write("disk.vi", INTERFACE)
        module = self.write("disk.v", MODULE.replace("stop(d);", "stop(d);\n    start(d);"))
        self.assertEqual(self.client.open(interface, INTERFACE), [])
        self.assertEqual(self.client.open(module, (self.top / "disk.v").read_text(encoding="utf-8")), [])
        self.client.notify(
            "textDocument/didChange", textDocument={"uri": interface, "version": 2}, contentChanges=[{"text": INTERFACE.replace("off->on", "off")}]
        )
        (error,) = self.client.errors(module)
        self.assertIn("`restart` ends", error["message"])

    def test_names_of_the_interface(self) -> None:
        interface = self.write("disk.vi", INTERFACE)
        module = self.write("disk.v", MODULE)
        self.client.open(module, MODULE)
        self.assertEqual(self.ask(module, "definition", position=place(2, 6))["uri"], interface)
        self.assertIn("void stop(tracked(K) disk d) [K@on->off]", self.ask(module, "hover", position=place(2, 6))["contents"]["value"])
        self.assertIn("start", [it["label"] for it in self.ask(module, "completion", position=place(2, 5))])

    def test_keys_of_a_module(self) -> None:
        if not has_vaultq():
            self.skipTest("there is no vaultq")
        self.write("disk.vi", INTERFACE)
        module = self.write("disk.v", MODULE)
        self.client.open(module, MODULE)
        hints = self.ask(module, "inlayHint", range={"start": place(1, 1), "end": place(9, 1)})
        self.assertEqual([(it["position"]["line"] + 1, it["label"]) for it in hints], [(2, "K@off")])

    def test_a_setup_that_cannot_be_read_is_told_once(self) -> None:
        self.write("vault.json", "{ interface: }")
        uri = self.write("one.v", "void main() {\n}\n")
        self.client.notify("textDocument/didOpen", textDocument={"uri": uri, "languageId": "vault", "version": 1, "text": "void main() {\n}\n"})
        self.assertIn("vault.json: this isn't JSON", self.client.told())
        self.assertEqual(self.client.errors(), [])
        self.client.shown.clear()
        self.ask(uri, "documentSymbol")
        self.assertEqual(self.client.shown, [])


class Programs(unittest.TestCase):
    """Programs that fail, and texts that are too long."""

    def client(self, seconds: float = PATIENCE, **environment: str) -> Client:
        client = Client(seconds, **environment)
        client.request("initialize", capabilities={})
        self.addCleanup(client.end)
        return client

    def script(self, text: str) -> str:
        folder = tempfile.TemporaryDirectory()
        self.addCleanup(folder.cleanup)
        path = Path(folder.name) / "vaultc"
        path.write_text(f"#!/bin/sh\n{text}\n", encoding="utf-8")
        path.chmod(0o755)
        return str(path)

    def open_twice(self, client: Client) -> str:
        """Opens a text and changes it; what is told the first time. That nothing is told again is seen by the answer to a request."""
        file = EXAMPLES / "lock.v"
        client.notify("textDocument/didOpen", textDocument={"uri": file.as_uri(), "version": 1, "text": "void main() {\n}\n"})
        told = client.told()
        client.shown.clear()
        for _ in range(2):
            client.request("textDocument/codeAction", textDocument={"uri": file.as_uri()}, range={"start": place(1, 1), "end": place(1, 1)})
        self.assertEqual(client.shown, [])
        self.assertEqual(len(client.request("textDocument/documentSymbol", textDocument={"uri": file.as_uri()})), 1)
        return told

    def test_a_program_that_dies_is_told_once(self) -> None:
        script = self.script("echo it broke >&2; kill -9 $$")
        told = self.open_twice(self.client(VAULTC=script, VAULTQ=script))
        self.assertRegex(told, r"ended with status 137")

    def test_a_program_without_a_word_is_told_once(self) -> None:
        told = self.open_twice(self.client(VAULTC="/bin/false", VAULTQ="/bin/false"))
        self.assertIn("/bin/false ended with status 1", told)

    def test_a_program_that_takes_too_long_is_ended_and_told(self) -> None:
        script = self.script("exec sleep 100000")
        told = self.open_twice(self.client(0.2, VAULTC=script, VAULTQ=script))
        self.assertIn("no answer within 0.2 seconds", told)

    def test_a_program_may_take_five_seconds(self) -> None:
        self.assertEqual(LONGEST, 5.0)

    def test_a_missing_program_is_told_once_with_the_way_to_build_it(self) -> None:
        self.assertIn("vault build", self.open_twice(self.client(VAULTC="/no/such/program")))

    def test_a_long_text_gets_its_errors_alone(self) -> None:
        programs.take("vaultc")
        client = self.client()
        file = EXAMPLES / "long.v"
        text = "// " + "x" * MOST_BYTES + "\nvoid main() {\n    print(y);\n}\n"
        (error,) = client.open(file.as_uri(), text)
        self.assertEqual((error["message"], error["range"]["start"]), ("kind 27 3:11", place(3, 11)))
        for method, more in (("hover", {"position": place(3, 11)}), ("documentSymbol", {}), ("formatting", {"options": {}})):
            self.assertIsNone(client.request(f"textDocument/{method}", textDocument={"uri": file.as_uri()}, **more))
        text = text.replace("print(y)", "print(1)")
        client.notify("textDocument/didChange", textDocument={"uri": file.as_uri(), "version": 2}, contentChanges=[{"text": text}])
        self.assertEqual(client.errors(), [])


class Rest(unittest.TestCase):
    """A text is judged once it has been at rest."""

    def test_changes_one_after_the_other_are_judged_once(self) -> None:
        programs.take("vaultc")
        written = io.BytesIO()
        server = Server(io.BytesIO(), written, PATIENCE)
        uri = "untitled:1"
        server.open({"textDocument": {"uri": uri, "text": "", "version": 1}})
        for version, text in enumerate(("v", "void", "void main() {\n}\n"), 2):
            server.change({"textDocument": {"uri": uri, "version": version}, "contentChanges": [{"text": text}]})
        server.due[uri] = time.monotonic() + PATIENCE
        server.judge_due()
        self.assertEqual(written.getvalue(), b"")
        self.assertGreater(server.wait() or 0, REST)
        server.due[uri] = time.monotonic()
        server.judge_due()
        said = json.loads(written.getvalue().partition(b"\r\n\r\n")[2].decode())
        self.assertEqual(said["params"], {"uri": uri, "version": 4, "diagnostics": []})
        self.assertEqual(server.due, {})


class Quick(unittest.TestCase):
    """What is asked of a text while it is typed: few questions, and none for cures."""

    def test_errors_take_few_questions(self) -> None:
        asker = counted(take())
        file = EXAMPLES / "lock_kept.v"
        document = Document(file.as_uri(), file.read_text(encoding="utf-8"))
        found = spent(lambda: self.assertEqual(len(document.errors(asker)), 1)).questions
        if asker.answers("keys"):
            self.assertEqual(found, ["paths", "keys"])
            self.assertLessEqual(len(spent(lambda: document.tables(asker)).questions), 1)
        else:
            # the places where the status may have come about are asked one by one
            self.assertLessEqual(len(found), 12)

    def test_500_lines_without_an_error_take_one_question(self) -> None:
        asker = counted(take())
        document = Document("untitled:large.v", small_functions())
        self.assertEqual(len(spent(lambda: document.errors(asker)).questions), 1)
        self.assertEqual(spent(lambda: document.errors(asker)).questions, [])

    def test_a_change_is_taken_without_reading_the_text(self) -> None:
        """The text is read once for many keys that are pressed, when errors are told or something is asked."""
        document = Document("untitled:large.v", small_functions())
        document.change(document.text.replace("cents", "coins"), 2)
        document.offset(place(3, 7))
        self.assertNotIn("program", vars(document.view))


class Positions(unittest.TestCase):
    def test_characters_beyond_16_bits_count_twice(self) -> None:
        document = Document("untitled:1", "// a𝄞b\nvoid main() {}\n")
        self.assertEqual(units("a𝄞b"), 4)
        self.assertEqual(document.position(5), {"line": 0, "character": 6})
        self.assertEqual(document.offset({"line": 0, "character": 6}), 5)
        self.assertEqual(document.path, Path("untitled.v"))


if __name__ == "__main__":
    unittest.main()

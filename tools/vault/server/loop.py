"""The server's loop: messages are read by a thread of their own and carried out one after another; errors are told once a text has been at rest."""
from __future__ import annotations

import queue
import threading
import time
from pathlib import Path
from typing import Any, BinaryIO, Callable, Dict, Optional, Set

from .. import ask, setups, sources
from ..ask import Asker
from ..errors import NoProgram, Problem
from ..programs import Answer, Program
from ..records import dataclass, replace
from ..source import Source
from . import answers, errors_shown
from .documents import Document
from .wire import INTERNAL_ERROR, INVALID_PARAMS, INVALID_REQUEST, METHOD_NOT_FOUND, REQUEST_FAILED, Ended, Message, RpcError, Wire

REST = 0.1
"""Seconds without a change before a text is judged."""

LONGEST = 5.0
"""Seconds after which a program is ended, if the command doesn't say another number."""

LINES = (0, 2, 5, 6, 7, 8)
"""Statuses with which a program has written what it has to say."""

INCREMENTAL = 2
ERROR = 1

CAPABILITIES = {
    "textDocumentSync": {"openClose": True, "change": INCREMENTAL, "save": False},
    "hoverProvider": True,
    "definitionProvider": True,
    "referencesProvider": True,
    "documentHighlightProvider": True,
    "documentSymbolProvider": True,
    "documentFormattingProvider": True,
    "renameProvider": True,
    "inlayHintProvider": True,
    "codeActionProvider": {"codeActionKinds": ["quickfix"]},
    "completionProvider": {"triggerCharacters": [".", "@", "'"]},
}


@dataclass(frozen=True)
class TimedProgram(Program):
    """A program that is ended if it takes longer than `longest` seconds. One that ends without a word is a Problem."""

    longest: float = LONGEST

    def ask(self, words, *, input=None, folder=None, timeout=None) -> Answer:  # type: ignore[override]
        answer = super().ask(words, input=input, folder=folder, timeout=timeout or self.longest)
        if answer.status not in LINES or answer.status and not answer.output:
            last = answer.errors.strip().rpartition("\n")[2]
            raise Problem(f"{self.path} ended with status {answer.status}" + (f": {last}" if last else ""))
        return answer


def timed(program: Optional[Program], longest: float) -> Optional[Program]:
    return TimedProgram(program.name, program.path, program.proved, program.command, longest) if program else None


@dataclass(frozen=True)
class Received:
    """A message, or what was wrong with it; neither at the end of the input."""

    message: Optional[Message] = None
    error: Optional[RpcError] = None


class Server:
    """A server over one connection."""

    def __init__(self, reader: BinaryIO, writer: BinaryIO, longest: float = LONGEST) -> None:
        self.wire = Wire(reader, writer)
        self.longest = longest
        self.documents: Dict[str, Document] = {}
        self.good: Dict[str, Document] = {}
        self.due: Dict[str, float] = {}
        self.inbox: "queue.Queue[Received]" = queue.Queue()
        self.asker: Optional[Asker] = None
        self.told: Set[str] = set()
        self.is_shut = False
        self.requests: Dict[str, Callable[[Any], Any]] = {
            "initialize": lambda _: {"capabilities": CAPABILITIES, "serverInfo": {"name": "vault", "version": sources.version()}},
            "shutdown": self.shut,
            "textDocument/hover": self.at(lambda it, offset: answers.hover(it, self.take(), offset)),
            "textDocument/definition": self.at(answers.definition),
            "textDocument/references": self.at(answers.references),
            "textDocument/documentHighlight": self.at(lambda it, offset: [{"range": one} for one in answers.use_ranges(it, offset)]),
            "textDocument/completion": self.at(lambda it, offset: answers.completion(it, self.good.get(it.uri), offset)),
            "textDocument/documentSymbol": self.of(lambda it, _: answers.document_symbols(it)),
            "textDocument/formatting": self.of(lambda it, _: answers.formatting(it, self.take())),
            "textDocument/inlayHint": self.of(lambda it, params: answers.inlay_hints(it, self.take(), params["range"])),
            "textDocument/codeAction": self.of(
                lambda it, params: errors_shown.actions(it, it.pictures(self.take()), params["range"])
            ),
            "textDocument/rename": self.rename,
        }
        self.notifications: Dict[str, Callable[[Any], None]] = {
            "textDocument/didOpen": self.open,
            "textDocument/didChange": self.change,
            "textDocument/didClose": self.close,
        }

    # ---- the loop

    def run(self) -> int:
        """Serves until the client says exit, or its input ends; 0 if it said shutdown before."""
        threading.Thread(target=self.receive, daemon=True).start()
        while True:
            try:
                received = self.inbox.get(timeout=self.wait())
            except queue.Empty:
                self.judge_due()
                continue
            if received.error:
                self.wire.refuse(None, received.error)
            elif received.message is None or received.message.method == "exit":
                return 0 if self.is_shut else 1
            else:
                self.carry_out(received.message)

    def receive(self) -> None:
        """Puts each message into the inbox."""
        while True:
            try:
                message = self.wire.read()
                self.inbox.put(Received(message))
                if message.method == "exit":
                    return
            except RpcError as error:
                self.inbox.put(Received(error=error))
            except (Ended, OSError, ValueError):
                self.inbox.put(Received())
                return

    def wait(self) -> Optional[float]:
        """How long the loop may wait for a message."""
        return max(0.0, min(self.due.values()) - time.monotonic()) if self.due else None

    def carry_out(self, message: Message) -> None:
        """Carries out a message, and answers it if it is a request."""
        try:
            if message.is_request:
                self.wire.answer(message.number, self.result(message))
            elif message.method in self.notifications:
                self.notifications[message.method](message.params)
        except RpcError as error:
            self.fail(message, error)
        except (KeyError, TypeError, IndexError, AttributeError) as error:
            self.fail(message, RpcError(INVALID_PARAMS, f"{message.method}: these parameters don't fit: {error!r}"))
        except Problem as problem:
            self.tell(problem)
            self.fail(message, RpcError(INTERNAL_ERROR, problem.message))
        except Exception as error:  # whatever goes wrong with one message, the server goes on
            self.tell(Problem(f"{message.method} failed: {error!r}"))
            self.fail(message, RpcError(INTERNAL_ERROR, f"{message.method} failed: {error!r}"))

    def result(self, message: Message) -> Any:
        if self.is_shut:
            raise RpcError(INVALID_REQUEST, f"{message.method} after shutdown")
        if message.method not in self.requests:
            raise RpcError(METHOD_NOT_FOUND, f"{message.method} isn't known here")
        return self.requests[message.method](message.params)

    def fail(self, message: Message, error: RpcError) -> None:
        if message.is_request:
            self.wire.refuse(message.number, error)

    def shut(self, _: Any) -> None:
        self.is_shut = True

    # ---- programs

    def take(self) -> Asker:
        """The programs that are asked. None is compiled here, since that takes minutes."""
        if self.asker is None:
            found = ask.find()
            vaultc, vaultq = timed(found.vaultc, self.longest), timed(found.vaultq, self.longest)
            self.asker = replace(found, vaultc=vaultc, vaultq=vaultq)  # type: ignore[arg-type]
        return self.asker

    def tell(self, problem: Problem) -> None:
        """Shows a problem to the person, the same one once."""
        if problem.message not in self.told:
            self.told.add(problem.message)
            how = "; 'vault build' in a terminal makes one" if isinstance(problem, NoProgram) else ""
            self.wire.notify("window/showMessage", {"type": ERROR, "message": f"vault: {problem.message}{how}"})

    # ---- texts

    def document(self, params: Any) -> Document:
        uri = params["textDocument"]["uri"]
        if uri not in self.documents:
            raise RpcError(INVALID_PARAMS, f"{uri} isn't open")
        document = self.documents[uri]
        document.put_beside(self.interface(document))
        return document

    def interface(self, document: Document) -> Optional[Source]:
        """The interface that a text is judged beside, as it is in the editor, or else in its file."""
        if not document.uri.startswith("file:"):
            return None
        try:
            path = setups.interface_of(document.path)
        except Problem as problem:
            self.tell(problem)
            return None
        if path is None:
            return None
        opened = next((it for it in self.documents.values() if it.uri.startswith("file:") and setups.is_same(it.path, path)), None)
        return Source(str(opened.path), opened.data) if opened else Source.read(str(path))

    def of(self, answer: Callable[[Document, Any], Any]) -> Callable[[Any], Any]:
        """A request about a text. A large one is answered by nothing."""

        def request(params: Any) -> Any:
            document = self.document(params)
            return None if document.is_large else answer(document, params)

        return request

    def at(self, answer: Callable[[Document, int], Any]) -> Callable[[Any], Any]:
        """A request about a position of a text."""
        return self.of(lambda document, params: answer(document, document.offset(params["position"])))

    def open(self, params: Any) -> None:
        said = params["textDocument"]
        self.documents[said["uri"]] = Document(said["uri"], said["text"], said.get("version", 0))
        self.judge_after(self.documents[said["uri"]], 0.0)

    def change(self, params: Any) -> None:
        document = self.document(params)
        good = document.last_good()
        if good is not None:
            self.good[document.uri] = good
        for change in params["contentChanges"]:
            text = change["text"]
            if "range" in change:
                start, end = document.offset(change["range"]["start"]), document.offset(change["range"]["end"])
                text = document.text[:start] + text + document.text[end:]
            document.change(text, params["textDocument"].get("version", 0))
        self.judge_after(document, REST)

    def judge_after(self, document: Document, seconds: float) -> None:
        """Has a text judged once it has been at rest, and after it the modules whose interface it is."""
        when = time.monotonic() + seconds
        self.due[document.uri] = when
        for other in self.documents.values():
            if other is not document and other.interface is not None and setups.is_same(Path(other.interface.name), document.path):
                self.due[other.uri] = when

    def close(self, params: Any) -> None:
        uri = params["textDocument"]["uri"]
        for known in (self.documents, self.due, self.good):
            known.pop(uri, None)  # type: ignore[attr-defined]
        self.wire.notify("textDocument/publishDiagnostics", {"uri": uri, "diagnostics": []})

    def judge_due(self) -> None:
        """Judges the texts that have been at rest, and tells their errors."""
        now = time.monotonic()
        for uri in [uri for uri, when in self.due.items() if when <= now]:
            del self.due[uri]
            try:
                self.publish(self.document({"textDocument": {"uri": uri}}))
            except Problem as problem:
                self.tell(problem)
            except Exception as error:  # whatever goes wrong with one text, the server goes on
                self.tell(Problem(f"{uri} can't be judged: {error!r}"))

    def publish(self, document: Document) -> None:
        found = errors_shown.diagnostics(document, document.errors(self.take()))
        said = {"uri": document.uri, "version": document.version, "diagnostics": found}
        self.wire.notify("textDocument/publishDiagnostics", said)

    def rename(self, params: Any) -> Dict[str, Any]:
        document = self.document(params)
        if document.is_large:
            raise RpcError(REQUEST_FAILED, "the text is too long")
        return answers.rename(document, self.take(), document.offset(params["position"]), params["newName"])


def serve(reader: BinaryIO, writer: BinaryIO, longest: float = LONGEST) -> int:
    """Serves one client; the status of the command."""
    return Server(reader, writer, longest).run()

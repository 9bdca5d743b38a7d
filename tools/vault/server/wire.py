"""Messages of JSON-RPC 2.0 as the Language Server Protocol frames them: a head with `Content-Length`, an empty line, and JSON."""
from __future__ import annotations

import json
import threading
from typing import Any, BinaryIO, Dict, Optional

from ..records import dataclass

PARSE_ERROR, INVALID_REQUEST, METHOD_NOT_FOUND, INVALID_PARAMS, INTERNAL_ERROR = -32700, -32600, -32601, -32602, -32603
REQUEST_FAILED = -32803

MOST_BYTES = 1 << 26
"""A message that says it is longer isn't read."""


class Ended(Exception):
    """The input has ended."""


class RpcError(Exception):
    """An error that answers a request: its code, and what is told of it."""

    def __init__(self, code: int, message: str) -> None:
        super().__init__(message)
        self.code = code
        self.message = message


@dataclass(frozen=True)
class Message:
    """A request if it has a number, else a notification; an answer to the server has no method."""

    method: str
    params: Any
    number: Optional[Any] = None

    @property
    def is_request(self) -> bool:
        return self.number is not None and bool(self.method)


class Wire:
    """Both directions of the connection. Writing may be done by several threads."""

    def __init__(self, reader: BinaryIO, writer: BinaryIO) -> None:
        self.reader = reader
        self.writer = writer
        self.turn = threading.Lock()

    def read(self) -> Message:
        """The next message. RpcError if it is none, Ended at the end of the input."""
        length = self._length()
        body = self.reader.read(length)
        if len(body) < length:
            raise Ended
        try:
            said = json.loads(body.decode("utf-8"))
        except (ValueError, RecursionError) as error:
            raise RpcError(PARSE_ERROR, f"this is no JSON: {error}")
        return message_of(said)

    def _length(self) -> int:
        """The length that the head of the next message says."""
        length: Optional[int] = None
        while True:
            line = self.reader.readline()
            if not line:
                raise Ended
            if not line.strip():
                if length is None:
                    continue
                return length
            name, _, value = line.decode("ascii", "replace").partition(":")
            if name.strip().lower() == "content-length" and value.strip().isdigit():
                length = min(int(value), MOST_BYTES)

    def write(self, said: Dict[str, Any]) -> None:
        """Sends a message."""
        body = json.dumps({"jsonrpc": "2.0", **said}, ensure_ascii=False).encode("utf-8", "replace")
        with self.turn:
            self.writer.write(b"Content-Length: %d\r\n\r\n" % len(body) + body)
            self.writer.flush()

    def answer(self, number: Any, result: Any) -> None:
        """Answers a request."""
        self.write({"id": number, "result": result})

    def refuse(self, number: Any, error: RpcError) -> None:
        """Answers a request, or what should have been one, by an error."""
        self.write({"id": number, "error": {"code": error.code, "message": error.message}})

    def notify(self, method: str, params: Any) -> None:
        """Tells the client something."""
        self.write({"method": method, "params": params})


def message_of(said: Any) -> Message:
    """The message that a JSON value is."""
    is_message = isinstance(said, dict) and said.get("jsonrpc") == "2.0"
    if not is_message or not isinstance(said.get("method", ""), str) or ("method" not in said and "id" not in said):
        raise RpcError(INVALID_REQUEST, "this is no message of JSON-RPC 2.0")
    return Message(said.get("method", ""), said.get("params"), said.get("id"))

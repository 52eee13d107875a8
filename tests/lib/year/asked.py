"""A request to the office, as an HTTP message and as a record of the second office."""

from __future__ import annotations

import json
from typing import Any, NamedTuple, Optional

from lib.served import DESK, message
from second_office.requests import Record

BODIES = {"plan": 2, "import": 1, "quote": 3}
"""The words whose arguments from that place on are the body, counted with the word."""


class Asked(NamedTuple):
    """A key, or none for the public; and the words of the record."""

    key: Optional[str]
    words: tuple[str, ...]

    @property
    def is_command(self) -> bool:
        return self.words[0] in BODIES

    def request(self) -> tuple[str, str, Optional[bytes]]:
        """Method, path and body over HTTP."""
        word, *arguments = self.words
        if word == "import":
            return "POST", "/import", arguments[0].encode()
        if word == "plan":
            return "PUT", f"/plan/{arguments[0]}", arguments[1].encode()
        if word == "quote":
            slot, month, *entry = arguments
            return "PUT", f"/quote/{slot}/{month}", ",".join(entry).encode()
        return "GET", "/" + "/".join(self.words), None

    def message(self) -> bytes:
        """The message over HTTP."""
        method, path, body = self.request()
        return message(f"{method} {path}", key=self.key, body=body)

    def record(self, now: int) -> Record:
        """The record, at a moment of the office's clock."""
        caller = "public" if self.key is None else "desk" if self.key == DESK else self.key
        return [str(now), caller, *self.words]


def reply_of(response: bytes) -> Any:
    """The reply in a response: an object, or a table as in the record's answer. None if the response isn't the
    office's."""
    head, found, body = response.partition(b"\r\n\r\n")
    fields = head.lower().split(b"\r\n")
    if not found or not fields[0].startswith(b"http/1.1 ") or f"content-length: {len(body)}".encode() not in fields:
        return None
    if b"content-type: application/json" in fields:
        return json.loads(body)
    if any(field.startswith((b"content-type: text/plain", b"content-type: text/csv")) for field in fields):
        return {"table": body.decode()}
    return None

"""One message of HTTP and its response, by docs/reference/FORMATS.md, over the second office."""

from __future__ import annotations

import csv
import io
import re

from . import limits, values
from .office import Office

TOKEN = rb"[!#$%&'*+\-.^_`|~0-9A-Za-z]+"
REQUEST_LINE = re.compile(rb"(" + TOKEN + rb") ([\x21-\x7e\x80-\xff]+) HTTP/1\.[01]")
FIELD = re.compile(rb"(" + TOKEN + rb"):([\t\x20-\x7e\x80-\xff]*)")
PHRASES = {
    200: "OK",
    400: "Bad Request",
    401: "Unauthorized",
    403: "Forbidden",
    404: "Not Found",
    409: "Conflict",
    413: "Payload Too Large",
    501: "Not Implemented",
    503: "Service Unavailable",
}
OF_REFUSALS = {10: 400, 11: 401, 12: 403, 20: 404, 21: 404, 30: 404, 90: 503}
TYPES = {"text": "text/plain; charset=utf-8", "csv": "text/csv; charset=utf-8", "json": "application/json"}

Field = tuple[bytes, bytes]
"""Name and value."""


class Cut(Exception):
    """The stream ends too early: nothing is done, and nothing written."""


class Bad(Exception):
    """A message that is refused before it is a record, with its status."""


def request_line(line: bytes) -> tuple[bytes, str]:
    match = REQUEST_LINE.fullmatch(line)
    if not match:
        raise Bad(400)
    try:
        return match[1], match[2].decode()
    except UnicodeDecodeError:
        raise Bad(400) from None


def field(line: bytes) -> Field:
    match = FIELD.fullmatch(line)
    if not match:
        raise Bad(400)
    return match[1].lower(), match[2].strip(b" \t")


def head_of(stream: bytes) -> tuple[bytes, str, list[Field], bytes]:
    """Method, target, fields, and the bytes behind the head; each line is judged when it ends."""
    start: tuple[bytes, str] | None = None
    at, fields = 0, list[Field]()
    while True:
        end = stream.find(b"\n", at) + 1
        if end == 0 or end not in limits.HEAD:
            if len(stream) >= limits.HEAD.most:
                raise Bad(400)
            raise Cut
        line = stream[at : end - 1].removesuffix(b"\r")
        at = end
        if start is None:
            start = request_line(line) if line else None
        elif not line:
            return *start, fields, stream[at:]
        else:
            fields.append(field(line))
            if len(fields) not in limits.FIELDS:
                raise Bad(400)


def all_of(fields: list[Field], name: bytes) -> list[bytes]:
    return [value for each, value in fields if each == name]


def body_of(fields: list[Field], rest: bytes) -> bytes:
    if all_of(fields, b"transfer-encoding"):
        raise Bad(501)
    lengths = all_of(fields, b"content-length")
    if not lengths:
        return b""
    if len(lengths) > 1 or not re.fullmatch(rb"[0-9]+", lengths[0]):
        raise Bad(400)
    length = lengths[0].lstrip(b"0") or b"0"
    if len(length) > 5 or int(length) not in limits.BODY:
        raise Bad(413)
    if len(rest) < int(length):
        raise Cut
    return rest[: int(length)]


def route(method: bytes, target: str) -> tuple[str, list[str]]:
    """The word of the record and its arguments from the path."""
    if not target.startswith("/"):
        raise Bad(404)
    first, *parts = target[1:].split("/")
    known = {
        (b"GET", "items"): [0],
        (b"GET", "tables"): [0],
        (b"GET", "table"): [2, 3],
        (b"GET", "work"): [1],
        (b"GET", "quotes"): [2],
        (b"PUT", "quote"): [2],
        (b"PUT", "plan"): [1],
        (b"POST", "import"): [0],
    }
    if len(parts) not in known.get((method, first), []) or "" in parts:
        raise Bad(404)
    return first, parts


def caller_of(fields: list[Field], desk_key: str) -> str:
    borne = all_of(fields, b"authorization")
    if not borne:
        return "public"
    match = re.fullmatch(rb"cpi-key +([0-9a-f]+)", borne[0], re.IGNORECASE)
    key = values.key(match[1].decode()) if match and len(borne) == 1 else None
    if key is None:
        raise Bad(400)
    return "desk" if key == desk_key else key


def arguments_of(word: str, parts: list[str], body: bytes) -> list[str]:
    if word not in ("quote", "plan", "import"):
        return parts
    # (bytes that are no UTF-8 spoil the field in which they stand, and so its row)
    text = body.decode(errors="surrogateescape")
    if word != "quote":
        return [*parts, text]
    rows = [row for row in csv.reader(io.StringIO(text.removeprefix("\ufeff"), newline="")) if row]
    if len(rows) != 1:
        raise Bad(400)
    return [*parts, *rows[0]]


def response(status: int, body: str, kind: str = "json") -> bytes:
    data = body.encode()
    challenge = "WWW-Authenticate: CPI-Key\r\n" if status == 401 else ""
    head = f"HTTP/1.1 {status} {PHRASES[status]}\r\nContent-Type: {TYPES[kind]}\r\n"
    return f"{head}Content-Length: {len(data)}\r\nConnection: close\r\n{challenge}\r\n".encode() + data


def answered(office: Office, stream: bytes, now: int, desk_key: str) -> bytes:
    """The response to the message at the front of a stream that then ends; nothing where it is cut."""
    try:
        method, target, fields, rest = head_of(stream)
        body = body_of(fields, rest)
        word, parts = route(method, target)
        caller = caller_of(fields, desk_key)
        record = [str(now), caller, word, *arguments_of(word, parts, body)]
    except Cut:
        return b""
    except Bad as fault:
        return response(fault.args[0], '{"refused":10}\n')
    reply = office.reply(record)
    if "table" in reply:
        return response(200, reply["table"], record[4])
    status = OF_REFUSALS.get(reply["refused"], 409) if "refused" in reply else 200
    return response(status, office.written(reply) + "\n")

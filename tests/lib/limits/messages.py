"""Limits of HTTP messages: heads, fields, bodies, and the numbers in a path."""

from __future__ import annotations

from collections.abc import Callable, Iterator
from functools import partial
from typing import Any, Optional

from ..open_office import KA, KC, RICE
from ..served import message, padded, refused, response
from .bodies import ROWS, told_rows
from .limit import BAD as BAD_ROW
from .limit import Limit, count_of, month_of
from .numbers import FAR, MONTH, OF_PLACES, PRICE, REVISION, YEAR
from .places import PLAN
from .texts import KEY

HEAD = "longer than 8,192 bytes with its empty line, or has more than 64 fields"
BODY = "it is above 65,536: the body isn't read"
BAD = refused("400 Bad Request", 10).decode()
TOO_LONG = refused("413 Payload Too Large", 10).decode()
UNKNOWN = response("401 Unauthorized", '{"refused":11}\n', more="WWW-Authenticate: CPI-Key\r\n").decode()
ITEMS, NO_ROWS = RICE.decode(), response("200 OK", '{"rows":[]}\n').decode()


def unended(size: int) -> bytes:
    """So many bytes of a head that goes on: cut while it could still end in time, and else too long."""
    return padded(size + 100)[:size]


def of_fields(count: int) -> bytes:
    """A message of so many fields."""
    return message("GET /items", *["X: y"] * count)


def of_body(size: int) -> bytes:
    """An import of so many empty lines."""
    return message("POST /import", key=KA, body=b"\n" * size)


def announced(size: int) -> bytes:
    """An import of so many empty lines, with leading zeros in the length that it announces."""
    return message("POST /import", f"Content-Length: 00{size}", key=KA) + b"\n" * size


def of_rows(count: int) -> bytes:
    """An import of so many rows without a valid form."""
    return message("POST /import", key=KA, body=b"x\n" * count)


def told_of_rows(count: int) -> str:
    """The answer to such an import."""
    return response("200 OK", told_rows(BAD_ROW, count) + "\n").decode()


def of_lengths(count: int) -> bytes:
    """A message that gives the length of its body so many times."""
    return message("GET /items", *["Content-Length: 0"] * count)


def of_keys(count: int) -> bytes:
    """A message that bears a key so many times."""
    return message("GET /items", *[f"Authorization: CPI-Key {KC}"] * count)


def of_spaces(count: int) -> bytes:
    """A message with so many spaces before its key."""
    return message("GET /items", f"Authorization: CPI-Key{' ' * count}{KC}")


def of_version(number: int) -> bytes:
    """A message of HTTP/1.0, of HTTP/1.1 and so on."""
    return f"GET /items HTTP/1.{number}\r\n\r\n".encode()


def told_by_keys(count: int) -> str:
    """The answer to a message without a key, and to one with a key that nobody has."""
    return UNKNOWN if count else ITEMS


def asked_at(line: str, body: Optional[str], spelled: Callable[[int], str], value: int) -> bytes:
    """A message with a key that nobody has, and with the value in place of `?`."""
    text = spelled(value)
    return message(line.replace("?", text), key=KC, body=body.replace("?", text).encode() if body else None)


def by_key(count: int) -> bytes:
    """A message with a key of so many characters."""
    return message("GET /items", key="c" * count)


def placed(line: str, least: int, most: int, said: str, body: Optional[str] = None, **others: Any) -> Limit[bytes]:
    """A limit of a part of a path or of a body, in a message from an unknown sender."""
    asked = partial(asked_at, line, body, others.pop("spelled", str))
    return Limit(f"{line} {body or ''}".strip(), least, most, asked, UNKNOWN, BAD, BAD, said, **others)


def counts() -> Iterator[Limit[bytes]]:
    """Counts that the documents give in words, and the versions of HTTP."""
    counted: dict[str, Any] = {"floor": 0, "is_said": False}
    said = "`Content-Length` isn't one field"
    yield Limit("fields Content-Length", None, 1, of_lengths, ITEMS, "", BAD, said, **counted)
    said = "`Authorization` stands twice"
    yield Limit("fields Authorization", None, 1, of_keys, told_by_keys, "", BAD, said, **counted)
    said = "one or more spaces and a key"
    yield Limit("spaces before a key", 1, None, of_spaces, UNKNOWN, BAD, "", said, **counted)
    said = "version 1.0 or 1.1"
    yield Limit("the version of HTTP", 0, 1, of_version, ITEMS, "", BAD, said, floor=0)


def limits() -> Iterator[Limit[bytes]]:
    """All limits of messages."""
    yield Limit("bytes of a head", None, 8192, padded, ITEMS, "", BAD, HEAD, "HEAD")
    yield Limit("bytes of a head without an end", None, 8191, unended, "", "", BAD, HEAD, "HEAD", is_said=False)
    yield Limit("fields of a head", None, 64, of_fields, ITEMS, "", BAD, HEAD, "FIELDS")
    for asked in (of_body, announced):
        yield Limit(f"bytes of a body, {asked.__name__}", None, 65_536, asked, NO_ROWS, "", TOO_LONG, BODY, "BODY")
    yield Limit("characters of a key", 32, 32, by_key, UNKNOWN, BAD, BAD, KEY, "CHARACTERS_OF_KEY")
    yield Limit("rows of an import", None, 20_000, of_rows, told_of_rows, "", BAD, ROWS, "ROWS_OF_IMPORT")
    yield from counts()
    months = {"spelled": month_of, "rule": "YEAR"}
    for line, body in (
        ("GET /work/?", None),
        ("GET /quotes/?/2100-01", None),
        ("GET /quotes/2100-01/?", None),
        ("GET /table/?/text", None),
        ("PUT /quote/1/?", "price,5"),
    ):
        yield placed(line, count_of("2000-01"), count_of("2199-12"), MONTH, body, **months)
    yield placed("PUT /quote/?/2026-01", 1, 400, OF_PLACES, "price,5", rule="SLOT", more=FAR)
    yield placed("PUT /quote/1/2026-01", 1, 100_000_000, PRICE, "price,?", rule="PRICE", more=FAR)
    yield placed("GET /table/2026-01/csv/?", 1, 9, REVISION, rule="REVISION", more=FAR)
    yield placed("PUT /plan/?", 2000, 2199, YEAR, PLAN, rule="YEAR_OF_PLAN", more=FAR)


LIMITS = [*limits()]

"""Gives `cpi` words that it refuses, words that ask for help, and words of each job.

- Words that are refused: numbers past their ranges, options that are left out, have no value or exclude each other, and
  words that are none. Status 2, and the reason on standard error. Help and the version that are asked for: status 0,
  and all of it on standard output.
- A zone, a key or a month that is none: its line, and status 1. The numbers beside it are at the ends of their ranges.
- A file with the desk's key: what of it is the key, and what is none.
- A table of a file that isn't there: `no table`, and the file isn't made.
- Words of jobs that are done: what they print, their line and their status. The zone is UTC0 if none is given, and
  options come in any order.

In all but the last nothing is read from standard input, and no file is made.
"""

from __future__ import annotations

import os
import re
import tempfile
from collections.abc import Sequence
from pathlib import Path
from typing import Any, Union

import pytest

from lib.program import Program, Ran, failed

Words = Sequence[Union[str, bytes]]

# December closes as the year begins: at the second 1767225600 in UTC, at 1767243600 by a clock five hours behind it.
RECORDS = b"""0,desk,calendar,2025-12,0,2026-01-01T00:00,2026-01-01T00:00
1767243599,desk,freeze,2025-12
1767243600,desk,freeze,2025-12
"""
IN_UTC = Ran(0, b'{"done":true}\n{"done":true}\n{"refused":50}\n', b"")
FIVE_HOURS_BEHIND = Ran(0, b'{"done":true}\n{"refused":47}\n{"done":true}\n', b"")
FIRST_TABLE = Ran(0, b"CPI 2025-12\n", b"")
JOBS = ["replay", "serve", "table"]


def serve(port: str = "8080", limit: str = "1", key: str = "--desk-key") -> list[str]:
    return ["serve", "--db", "F", "--port", port, key, "KA", "--limit", limit]


def table(db: str = "F", month: str = "2025-12", form: str = "text", at: str = "9999999999") -> list[str]:
    return ["table", "--db", db, "--month", month, "--form", form, "--at", at]


def without_each(words: list[str]) -> list[list[str]]:
    """The words without each of their options, and without the last one's value."""
    return [*(words[:at] + words[at + 2 :] for at in range(1, len(words), 2)), words[:-1]]


REFUSED: list[Words] = [
    *([], ["report"], ["Replay"], ["--db", "F"], ["serve"], ["table"]),
    *(["replay", "F"], ["replay", "--db"], ["replay", "--zone"], ["replay", "--port", "1"]),
    *(serve(port=port) for port in ("0", "65536", "-1", "x", "")),
    *(serve(limit=limit) for limit in ("0", "1000001", "-1", "x", "")),
    *(table(form=form) for form in ("json", "Text", "")),
    *(table(at=at) for at in ("10000000000", "-1", "x", "")),
    *([*table(), "--revision", number] for number in ("0", "10", "256", "-1", "x", "")),
    *without_each(serve()),
    *without_each(serve(key="--desk-key-file")),
    *without_each(table()),
    [*serve(), "--desk-key-file", "K"],
    [*table(), "--revision"],
    [b"\xff"],
    ["replay", "--zone", b"UTC0\xff"],
]

VERSION = [["--version"], ["-V"]]
HELP = [["--help"], *([job, "--help"] for job in JOBS), *(["help", job] for job in JOBS)]

NO_ZONES = ("", "UTC0 ", "Europe/Berlin")
BAD = [
    *(([*words, "--zone", zone], "zone") for words in (["replay"], serve()) for zone in NO_ZONES),
    (["replay", "--db", "F", "--zone", "Europe/Berlin"], "zone"),
    ([*serve(key="--desk-key-file"), "--zone", "Europe/Berlin"], "zone"),
    (serve(key="--desk-key-file"), "key"),
    *((serve(port, limit), "key") for port in ("1", "65535") for limit in ("1", "1000000")),
    *((table(month=month, at=at), "month") for month in ("2026-13", "") for at in ("0", "9999999999")),
]

KEY = b"0123456789abcdef" * 2

# What a file with the desk's key holds. White space at the ends is none of the key, and 1,024 bytes are read.
KEYS = {
    "the key": KEY,
    "the key and the end of its line": KEY + b"\n",
    "the key between white space": b" \t\r\n" + KEY + b"\n\n",
    "the key in 1,024 bytes": KEY + b"\n" * 992,
    "the key in 2,032 bytes": KEY + b"\n" * 2000,
    "the key at the end of 1,024 bytes": b"\n" * 992 + KEY,
}
NO_KEYS = {
    "nothing": b"",
    "an empty line": b"\n",
    "31 digits": KEY[1:],
    "33 digits": KEY + b"0",
    "capital letters": KEY.upper(),
    "the key and a byte of 0": KEY + b"\0",
    "the key and a byte of no text": KEY + b"\xff",
    "two keys": KEY + b"\n" + KEY,
    "the key past 1,024 bytes": b"\n" * 993 + KEY,
}

REPLAYS = [
    (["replay"], IN_UTC),
    (["replay", "--zone", "EST5"], FIVE_HOURS_BEHIND),
    (["replay", "--db", "utc.db"], IN_UTC),
    (["replay", "--db", "other.db", "--zone", "EST5"], FIVE_HOURS_BEHIND),
]
TABLES = [
    (table("utc.db", at="1767225599"), failed("no table")),
    (table("utc.db", at="1767225600"), FIRST_TABLE),
    (table("utc.db", form="csv"), Ran(0, b"", b"")),
    (table("other.db", at="1767243599"), failed("no table")),
    *(([*table("other.db", at="1767243600"), "--revision", number], FIRST_TABLE) for number in ("1", "+1", "01")),
    ([*table("other.db", at="1767243600"), "--revision", "9"], failed("no table")),
    (["table", "--at", "1767243600", "--revision", "2", *table("other.db")[1:-2]], failed("no table")),
]


def name_of(words: Words) -> str:
    """Words as the name of a test."""
    return " ".join(word if word and isinstance(word, str) else repr(word) for word in words) or "no words"


def names_of(pairs: Sequence[tuple[Words, object]]) -> list[str]:
    """The words of pairs as names of tests."""
    return [name_of(words) for words, _ in pairs]


def run(program: Program, room: str, words: Words, **streams: Any) -> tuple[Ran, int]:
    """A run over the records, and how many bytes of these it read."""
    with tempfile.TemporaryFile() as given:
        given.write(RECORDS)
        given.seek(0)
        ran = program.run(*words, stdin=given, cwd=room, seconds=60, **streams)
        return ran, os.lseek(given.fileno(), 0, os.SEEK_CUR)


def run_without_a_job(program: Program, room: str, words: Words, **streams: Any) -> Ran:
    """A run that begins no job: it reads no record, and makes no file."""
    before = os.listdir(room)
    ran, count = run(program, room, words, **streams)
    assert (count, os.listdir(room)) == (0, before)
    return ran


@pytest.mark.parametrize("words", REFUSED, ids=name_of)
def test_words_that_are_refused(program: Program, room: str, words: Words) -> None:
    ran = run_without_a_job(program, room, words)
    assert (ran.status, ran.out) == (2, b"")
    assert ran.err.endswith(b"\n")


@pytest.mark.parametrize("words", HELP, ids=name_of)
def test_a_help(program: Program, room: str, words: Words) -> None:
    ran = run_without_a_job(program, room, words)
    assert (ran.status, ran.err) == (0, b"")
    assert b"\nExit status:\n" in ran.out


@pytest.mark.parametrize("words", VERSION, ids=name_of)
def test_the_version(program: Program, room: str, words: Words) -> None:
    ran = run_without_a_job(program, room, words)
    assert (ran.status, ran.err) == (0, b"")
    assert re.fullmatch(rb"cpi \d+\.\d+(-dev)?\n", ran.out)


def ran_with_key_file(program: Program, room: str, text: bytes) -> Ran:
    """A run that is given a file of the desk's key. If this holds a key, the next fault is that F is a folder."""
    Path(room, "F").mkdir()
    Path(room, "KA").write_bytes(text)
    return run_without_a_job(program, room, serve(key="--desk-key-file"))


@pytest.mark.parametrize("text", KEYS.values(), ids=KEYS)
def test_a_file_of_the_key(program: Program, room: str, text: bytes) -> None:
    assert ran_with_key_file(program, room, text) == failed("database failed")


@pytest.mark.parametrize("text", NO_KEYS.values(), ids=NO_KEYS)
def test_a_file_of_no_key(program: Program, room: str, text: bytes) -> None:
    assert ran_with_key_file(program, room, text) == failed("bad key")


def test_a_table_of_a_file_that_is_not_there(program: Program, room: str) -> None:
    assert run_without_a_job(program, room, table("none.db")) == failed("no table")


def test_a_table_in_a_folder_that_is_not_there(program: Program, room: str) -> None:
    assert run_without_a_job(program, room, table("none/office.db")) == failed("database failed")


def test_a_log_that_cannot_be_looked_at_is_refused_before_a_file_is_made(program: Program, room: str) -> None:
    os.symlink("none.db-wal", Path(room, "none.db-wal"))
    assert run_without_a_job(program, room, ["replay", "--db", "none.db"]) == failed("database failed")


def test_the_usage_of_serve_has_both_ways_to_give_the_key(program: Program, room: str) -> None:
    usage = run_without_a_job(program, room, ["serve", "--help"]).out.partition(b"\n\nOptions:")[0]
    assert b"<--desk-key-file <desk-key-file>|--desk-key <desk-key>>" in usage


WITHOUT_JOB = [
    (serve()[:5] + serve()[7:], "give either --desk-key-file or --desk-key"),
    ([*serve(), "--desk-key-file", "K"], "give either --desk-key-file or --desk-key"),
    (table(form="json"), "a form is text or csv"),
]


@pytest.mark.parametrize("words, text", WITHOUT_JOB, ids=["no key", "two keys", "no form"])
def test_values_that_give_no_job_are_refused_with_what_is_wanted(
    program: Program, room: str, words: Words, text: str
) -> None:
    ran = run_without_a_job(program, room, words)
    assert (ran.status, ran.out) == (2, b"") and ran.err.startswith(f"error: {text}\n".encode())


@pytest.mark.parametrize("words, name", BAD, ids=names_of(BAD))
def test_a_zone_a_key_or_a_month_that_is_none(program: Program, room: str, words: Words, name: str) -> None:
    assert run_without_a_job(program, room, words) == failed(f"bad {name}")


def test_words_are_refused_though_that_cannot_be_told(program: Program, room: str) -> None:
    with open("/dev/full", "wb") as full:
        assert run_without_a_job(program, room, ["replay", "F"], stderr=full) == Ran(2, b"", b"")


def test_a_help_that_cannot_be_written_is_a_fault(program: Program, room: str) -> None:
    with open("/dev/full", "wb") as full:
        assert run_without_a_job(program, room, ["--help"], stdout=full) == failed("write failed")


@pytest.mark.parametrize("words, wanted", REPLAYS, ids=names_of(REPLAYS))
def test_a_replay(program: Program, room: str, words: Words, wanted: Ran) -> None:
    assert run(program, room, words)[0] == wanted


@pytest.fixture(scope="module")
def files(program: Program, tmp_path_factory: pytest.TempPathFactory) -> str:
    """A folder with the files of the replays."""
    room = str(tmp_path_factory.mktemp("files"))
    for words, _ in REPLAYS:
        run(program, room, words)
    return room


@pytest.mark.parametrize("words, wanted", TABLES, ids=names_of(TABLES))
def test_a_table(program: Program, files: str, words: Words, wanted: Ran) -> None:
    assert run(program, files, words)[0] == wanted

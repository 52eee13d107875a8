"""Limits that aren't in the table, with the file that tests them, or the reason why nothing reaches them."""

from __future__ import annotations

from typing import NamedTuple, Optional


class Elsewhere(NamedTuple):
    """The words of the documents, the file that tests the limit, and the reason."""

    said: str
    file: Optional[str]
    why: str


ELSEWHERE = [
    Elsewhere(
        "| records of one replay | 1,000,000 |",
        "tests/test_long_input.py",
        "1,000,000 records take seconds, and the second office answers a record at a time",
    ),
    Elsewhere(
        "| series in all | at most 3,999,600 |",
        None,
        "this is 9,999 collectors with 400 slots each: one more series needs a collector or a slot past its own limit",
    ),
    Elsewhere(
        "at most 80,000 calls of `read`",
        "crates/cpi_tests/src/endless.rt",
        "no peer of a program decides how its bytes are cut into calls",
    ),
    Elsewhere(
        "to the end of the message | 10 seconds |",
        "tests/test_http_peers.py",
        "a deadline is met to a second or so",
    ),
    Elsewhere(
        "takes nothing of the response | 5 seconds |",
        "tests/test_http_peers.py",
        "a deadline is met to a second or so",
    ),
    Elsewhere(
        "to its last | 10 seconds |",
        "tests/test_http_peers.py",
        "a deadline is met to a second or so",
    ),
    Elsewhere(
        "up to 4 MB | 1 second |",
        "tests/test_http_peers.py",
        "a deadline is met to a second or so",
    ),
    Elsewhere(
        "the rule of a clock as POSIX writes it",
        "tests/test_civil_times.py",
        "the numbers in a rule are those of POSIX",
    ),
]

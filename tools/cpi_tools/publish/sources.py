"""The sources from which a tool reads published tables: an office's file at a moment, or an office that is served."""

from __future__ import annotations

import argparse
from collections.abc import Iterator
from pathlib import Path

from ..guard.watch.probe import address
from ..office.program import Cpi, add_program
from ..office.public import Published, read_file, read_url
from ..text.terminal import Progress, ToolWords, at_least


def add_source(words: ToolWords) -> None:
    """The words `--url`, `--db`, `--at` and `--program` of a tool."""
    source = words.add_mutually_exclusive_group(required=True)
    source.add_argument("--url", type=address, help="the address of a served office, to read the tables published now")
    source.add_argument("--db", type=Path, metavar="FILE", help="an office's file, which is only read")
    at = "with --db: read the tables published by this time, in seconds since 1970"
    words.add_argument("--at", type=at_least(0), metavar="SECONDS", help=at)
    add_program(words)


def test_source(chosen: argparse.Namespace) -> None:
    """Refuses a file without a moment, and a moment without a file."""
    if (chosen.db is None) != (chosen.at is None):
        chosen.words.error("--db and --at go together")


def read_source(chosen: argparse.Namespace, progress: Progress) -> Iterator[Published]:
    """The published tables one after the other, by the way that the words name. Raises Fault."""

    def report(done: int, of: int) -> None:
        progress.now(f"tables, {done} of {of}")

    progress.now("the list of tables")
    if chosen.url:
        return read_url(chosen.url, report)
    return read_file(Cpi(chosen.program), chosen.db, chosen.at, report)

"""A random run of records, whose lines are compared with the second office's."""

from __future__ import annotations

import json
import random
import tempfile
from collections.abc import Callable, Iterable, Iterator
from functools import partial

from second_office.office import Office, month_text
from second_office.records import Records, text_of
from second_office.requests import Record
from second_office.values import Month
from second_office.years import Years

from .fault import Fault
from .isolation import (
    Again,
    Run,
    with_others_changed,
    with_others_changed_at_the_end,
    without_last_freeze,
    without_others,
)
from .kinds import kind_of, replies_of
from .offices import LAST
from .program import Program
from .records import first_difference

RECORDS = 600

Way = Callable[[random.Random, Run, Again, set[str]], Fault]
"""A further test of a run."""


def answered(records: Records | Years) -> Run:
    """The records of a run, and the second office's lines for them; a life of an office is sent the reply to each."""
    office, run, script = Office(), Run([], []), iter(records)
    record: Record | None = next(script)
    while record is not None:
        run.records.append(record)
        run.lines.append(office.line(record))
        try:
            record = script.send(json.loads(run.lines[-1]))
        except StopIteration:
            record = None
    return run


def replayed(program: Program, end: str, records: Iterable[Record], db: str | None = None) -> list[str]:
    """The lines that the program writes."""
    ran = program.replay(text_of(records, end).encode(), db)
    if ran.status:
        raise ChildProcessError(f"{ran}")
    return ran.out.decode().split("\n")[:-1]


def over_a_file(program: Program, run: Run, end: str, place: int) -> Fault:
    """The difference between two runs over one new file, cut before the record at that place, or in its tables
    afterwards."""
    with tempfile.TemporaryDirectory() as room:
        parts, path = (run.records[:place], run.records[place:]), f"{room}/office.db"
        filed = [line for part in parts for line in replayed(program, end, part, path)]
        return first_difference(run.records, filed, run.lines) or printed_otherwise(program, path, run.records)


def printed_otherwise(program: Program, path: str, records: Iterable[Record]) -> Fault:
    """The table of the file that is printed in another way than the second office prints it, if any."""
    office = Office()
    for record in records:
        office.reply(record)
    for month, form, *revision in tables_of(office):
        words = ["--db", path, "--month", month_text(month), "--form", form, "--at", str(LAST)]
        ran = program.run("table", *words, *(["--revision", str(revision[0])] if revision else []))
        if ran.out.decode() != office.printed_table(LAST, month, form, *revision)["table"]:
            return f"cpi table {' '.join(words)}: {ran}"
    return None


def tables_of(office: Office) -> Iterator[tuple[Month, str] | tuple[Month, str, int]]:
    """Month and form of each month that is frozen, and with each of its revisions."""
    for month, revisions in sorted(office.tables.items()):
        yield month, "text"
        yield from ((month, "csv", revision) for revision in range(1, len(revisions) + 1))


def drawn_run(drawn: random.Random, seed: int) -> tuple[Records | Years, list[Way]]:
    """The records that are sent, and the further tests of the run."""
    if seed % 4 == 0:
        return Records(drawn, RECORDS, False), [without_others, with_others_changed]
    if seed % 4 == 2:
        return Records(drawn, RECORDS, True), [with_others_changed]
    return Years(drawn), [with_others_changed_at_the_end, without_last_freeze]


def fault_of(program: Program, seed: int, met: set[str]) -> Fault:
    """The first difference in one run, if any; the kinds of replies that occurred are added to `met`."""
    drawn = random.Random(seed)
    records, ways = drawn_run(drawn, seed)
    run = answered(records)
    end = drawn.choice(["\n", "\r\n"])
    met.update(kind_of(*reply) for pair in zip(*run) for reply in replies_of(*pair))
    again = partial(replayed, program, end)
    fault = first_difference(run.records, again(run.records), run.lines)
    if seed % 10 < 2:
        filed = over_a_file(program, run, end, drawn.randrange(1, len(run.records)))
        fault = fault or (filed and f"over a file: {filed}")
    for way in ways:
        fault = fault or way(drawn, run, again, met)
    return fault

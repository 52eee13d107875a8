"""`cpi-tools gaps FILE (--receipts LIST | --records LIST)`: which prices or records an office doesn't have."""

from __future__ import annotations

import argparse
import csv
import io
import re
import sys
from collections.abc import Callable, Iterable, Iterator, Mapping
from pathlib import Path
from typing import NamedTuple, Optional, TypeVar

from ..office.copying import private_copy
from ..office.program import Cpi, add_program
from ..office.stored import REASONS, StoredOffice, read_copy
from ..sheets.cells import Origin
from ..sheets.judge import moments_of
from ..sheets.known_rows import Known, known_of
from ..sheets.record_rows import FIELDS, Sent as SentRow
from ..text.terminal import Fault, Progress, ToolWords, because_of, month_text, write_count
from ..text.text_files import Writer, add_safe_csv
from .gaps_of_offices import (
    HEADS,
    Entry,
    Lacking,
    because_of_entry,
    entries_of,
    lacking,
    lines_of,
    rows_by_person,
    write_folder,
    write_records,
)
from .next_open import other_log_of


# ==== `cpi-tools gaps FILE --records LIST`: which records of the desk an office doesn't have
#
# The list has the rows of an import, as the desk keeps the files that it sends. After a second copy was promoted, or a
# backup restored, the records that the desk sent since the moment of that copy are missing. A row that is missing is
# written as it was sent, in the order of the list, so that the output can be sent as it is.

WORDS = ("item", "outlet", "collector", "assign", "handover", "calendar", "plan", "freeze")
"""The words of the records that the desk sends."""

WIDTHS = {word: 1 + len(FIELDS[word]) for word in WORDS if word != "plan"} | {"plan": 3, "freeze": 2}
"""The number of fields of each record, its word included; a freeze can have more."""

LATER_WINS = {"item": 2, "outlet": 2, "collector": 2, "calendar": 2, "plan": 2}
"""The kinds of records that replace an earlier one, and how many fields they share with it then."""


class Record(NamedTuple):
    """A record of a list: its fields, and the line on which it ends."""

    fields: tuple[str, ...]
    line: int

    @property
    def word(self) -> str:
        """Its word."""
        return self.fields[0]


def records_in(text: str, name: str) -> list[Record]:
    """The records of a list, without moment and caller. Raises Fault, which names the line, if one is none of the
    desk."""
    rows = csv.reader(io.StringIO(text.lstrip("\ufeff"), newline=""), strict=True)
    records = [Record(tuple(row), rows.line_num) for row in rows if row]
    for record in records:
        if fault := _form_fault(record):
            raise Fault(f"{name}, line {record.line}: {fault}")
    if not records:
        raise Fault(f"{name} has no record")
    return records


def _form_fault(record: Record) -> str:
    """Why the desk can't have sent a record; empty if it can."""
    if record.word not in WORDS:
        return f"the record is {record.word!r}: wanted is one of {', '.join(WORDS)}"
    has, wanted = len(record.fields), WIDTHS[record.word]
    if has < wanted or (has > wanted and record.word != "freeze"):
        return f"the record {record.word} has {has} fields, and {wanted} are wanted"
    return ""


def missing_records(cpi: Cpi, records: Iterable[Record], stored: StoredOffice, zone: str) -> list[Record]:
    """The records that an office lacks, in their order. Civil times of a calendar are read by the program, with the
    clock of a zone."""
    last = {_place_of(record): record for record in records}
    times = [cell for record in last.values() if record.word == "calendar" for cell in record.fields[2:]]
    moments, known = moments_of(cpi, times, zone), known_of(stored)
    return [record for record in last.values() if not _is_there(record, known, moments)]


def _place_of(record: Record) -> tuple[str, ...]:
    """The shared fields of two records, only the later one of which counts."""
    return record.fields[: LATER_WINS.get(record.word, len(record.fields))]


def _is_there(record: Record, known: Known, moments: Mapping[str, int]) -> bool:
    """Whether an office has a record exactly so."""
    first, *others = record.fields[1:]
    if record.word == "calendar":
        return known.windows.get(first) == tuple(str(moments.get(cell, cell)) for cell in others)
    if record.word == "handover":
        return (first, *others) in known.handovers
    if record.word == "plan":
        rows = csv.reader(io.StringIO(others[0].lstrip("\ufeff"), newline=""))
        return known.plans.get(first) == frozenset(tuple(row) for row in rows if row)
    if record.word == "freeze":
        return any(month == first and release.carry == {*others} for (month, _), release in known.releases.items())
    return known.has(SentRow([*record.fields], Origin("", record.line), ()))


# ==== `cpi-tools gaps FILE --receipts LIST`: which prices somebody has a receipt for, and the office doesn't have. With
# `--records` it checks the desk's sent records in the same way, with `--office` the whole content
# of the office's old file (`gaps_of_offices`).
#
# After a copy was promoted, or a backup restored, the office knows less than those who sent to it. A receipt counts for
# each collector from 1, so the office gives the same numbers again: an existing receipt may belong to another price. So
# a row isn't missing if its slot and month have this mark and value, or a receipt that is later than the row's under
# which the price has been corrected since.

MISSING = 3
"""The exit status if anything is missing. A fault has 1, and so has Python if a module isn't there."""

MOST_BYTES = 1 << 26
"""Bytes of a list that are read: more than a million rows."""

MARKS = ("price", "comparable", "other", "missing")
"""The marks of an entry; `missing` has a reason as its value."""


class Sent(NamedTuple):
    """A row of a list: a price in minor units, or the reason why it is missing, and the receipt of it."""

    collector: int
    slot: int
    month: int
    mark: str
    value: str
    receipt: int


class Gap(NamedTuple):
    """A row that the office lacks, and the row that it has instead."""

    sent: Sent
    because: str


Listed = TypeVar("Listed")
"""A row of a list."""

Stored = Mapping[tuple[int, int, int], Entry]
"""Mark, value and receipt of each stored quote, by collector, slot and month."""


# ---- the list


def sent_in(text: str, name: str) -> list[Sent]:
    """The rows of a list, a CSV file with the heads of `HEADS` in any order. Raises Fault, which names the line, if
    one isn't a row."""
    rows = csv.reader(io.StringIO(text.lstrip("\ufeff"), newline=""))
    heads = [head.strip().lower() for head in next(rows, [])]
    if lacks := [head for head in HEADS if head not in heads]:
        raise Fault(f"{name}: its first line has no column {lacks[0]}: wanted are {', '.join(HEADS)}")
    at = [heads.index(head) for head in HEADS]
    found = []
    for row in rows:
        if row:
            cells = [row[each].strip() if each < len(row) else "" for each in at]
            found.append(_read_sent(cells, f"{name}, line {rows.line_num}"))
    if not found:
        raise Fault(f"{name} has no row below its heads")
    return found


def _read_sent(cells: list[str], where: str) -> Sent:
    """A row. Raises Fault if it is none."""
    collector, slot, month, mark, value, receipt = cells
    for head, cell in (("collector", collector), ("slot", slot), ("receipt", receipt)):
        if not re.fullmatch("[1-9][0-9]{0,6}", cell):
            raise Fault(f"{where}: {head} is {cell!r}: wanted is a number from 1 on")
    if not re.fullmatch(r"2[01][0-9]{2}-(0[1-9]|1[0-2])", month):
        raise Fault(f"{where}: month is {month!r}: wanted is a month like 2026-01")
    if mark not in MARKS:
        raise Fault(f"{where}: mark is {mark!r}: wanted is one of {', '.join(MARKS)}")
    is_value = value in REASONS if mark == "missing" else re.fullmatch("[1-9][0-9]{0,9}", value)
    if not is_value:
        wanted = f"one of {', '.join(REASONS)}" if mark == "missing" else "a price in minor units, like 210"
        raise Fault(f"{where}: value is {value!r}: wanted is {wanted}")
    return Sent(int(collector), int(slot), int(month[:4]) * 100 + int(month[5:]), mark, value, int(receipt))


def read_list(path: Path, read: Callable[[str, str], list[Listed]]) -> list[Listed]:
    """The rows of a file as `read` finds them in its text; `-` is standard input. Raises Fault."""
    try:
        if str(path) == "-":
            text, name = sys.stdin.buffer.read(MOST_BYTES + 1), "standard input"
        else:
            with path.open("rb") as file:
                text, name = file.read(MOST_BYTES + 1), str(path)
    except OSError as fault:
        raise Fault(because_of(fault)) from fault
    if len(text) > MOST_BYTES:
        raise Fault(f"{name} has more than {MOST_BYTES:,} bytes: cut it in pieces")
    try:
        return read(text.decode(), name)
    except UnicodeDecodeError as fault:
        raise Fault(f"{name} isn't UTF-8: save it as CSV in UTF-8") from fault
    except csv.Error as fault:
        raise Fault(f"{name} isn't CSV: {fault}") from fault


# ---- what is missing


def stored_quotes(file: Path) -> Stored:
    """The stored quotes of an office's file, read from a private copy. Raises Fault."""
    with private_copy(file) as copy, read_copy(copy) as office:
        return entries_of(office)


def last_of_each(sent: Iterable[Sent]) -> Iterator[Sent]:
    """Of each slot and month the row with the greatest receipt: those before it were put right by it."""
    last = dict[tuple[int, int, int], Sent]()
    for row in sent:
        if row[:3] not in last or last[row[:3]].receipt < row.receipt:
            last[row[:3]] = row
    yield from last.values()


def gaps(sent: Iterable[Sent], stored: Stored) -> list[Gap]:
    """The rows that the office doesn't have."""
    return [Gap(row, because) for row in last_of_each(sent) if (because := _because(row, stored.get(row[:3])))]


def _because(row: Sent, there: Optional[Entry]) -> str:
    """The office's row in place of a row; empty if it has the row, or a later one."""
    if there and (there[:2] == (row.mark, row.value) or there.receipt > row.receipt):
        return ""
    return because_of_entry(there)


# ---- words

DESCRIPTION = """\
Compares a list of prices that have receipts with an office's file, and writes a CSV row for each
price that the office doesn't have. After a second copy has been promoted, or a backup restored,
these prices have to be sent again. The tool only reads FILE, and cpi may be serving it.

LIST is a CSV file with a header row: collector, slot, month, mark, value, receipt. The mark is
price, comparable or other, with a price in minor units as its value, or missing, with its reason.
If a slot and month have several rows, the one with the greatest receipt counts.

After a promotion, receipt numbers are given out again. So a row counts as present if the office
has the same mark and value for its slot and month, or a later receipt because the price has been
corrected since. Sending the same price again is safe: a stored one keeps its receipt.

With --records, LIST contains what the desk sent: records without time and caller, as in the rows
of an import. Records that the office doesn't have are written as they were sent, so the desk can
send the output. For an item, an outlet, a key, a calendar row or a plan, only the last record in
LIST counts.

With --office, OLD is a file of the same office, with its log: the file of a machine that was cut
off, or a file that was put aside. Both files are only read. Each row that only OLD contains is
written as it has to be sent, grouped by sender: the desk's records, the prices by collector, and
the freezes last. With --to FOLDER, each sender gets a file. If both contain a row, but it differs,
a line says so. A price's receipt shows whether OLD or FILE contains the later price. If it
doesn't, or if nothing can be sent for the row, a person has to decide, and the row is in
different.csv.
"""

EPILOG = """\
example: cpi-tools gaps office.db --receipts sent.csv > missing.csv
         cpi-tools gaps office.db --records calendar.csv --zone CET-1CEST,M3.5.0,M10.5.0/3
         cpi-tools gaps office.db --office aside/office.db --to missing

exit status: 0 if nothing is missing; 1 if LIST, FILE or OLD can't be read; 2 if the arguments are
refused; 3 if something is missing or differs
"""


def add_words(tools: argparse._SubParsersAction[ToolWords]) -> None:
    """The tool `gaps`."""
    words = tools.add_parser(
        "gaps",
        help="List prices that have a receipt but are missing from the office",
        description=DESCRIPTION,
        epilog=EPILOG,
    )
    words.add_argument("file", type=Path, metavar="FILE", help="the office's file, which is only read")
    lists = words.add_mutually_exclusive_group(required=True)
    lists.add_argument("--receipts", type=Path, metavar="LIST", help="prices with receipts (-: standard input)")
    lists.add_argument("--records", type=Path, metavar="LIST", help="records of the desk (-: standard input)")
    lists.add_argument("--office", type=Path, metavar="OLD", help="the old file of the same office")
    words.add_argument("--to", type=Path, metavar="FOLDER", help="with --office: write files to this new folder")
    words.add_argument("--zone", default="UTC0", metavar="Z", help="the clock for civil times, as for cpi (UTC0)")
    add_program(words)
    add_safe_csv(words)
    words.set_defaults(run=run, tool="gaps", words=words)


def run(chosen: argparse.Namespace) -> int:
    """Runs the tool by its words; its exit status."""
    if chosen.to and not chosen.office:
        chosen.words.error("--to goes with --office")
    if chosen.office:
        return _run_of_offices(chosen)
    wanted, rows = _compared_records(chosen) if chosen.records else _compared_prices(chosen)
    out = Writer(sys.stdout)
    for row in rows:
        out.writerow(row)
    count = len(rows) if chosen.records else max(0, len(rows) - 1)
    text = f"{count:,} of {write_count(wanted, 'row')}" if count else f"nothing of {write_count(wanted, 'row')}"
    print(f"cpi-tools gaps: {text} {'are' if count > 1 else 'is'} missing in {chosen.file}", file=sys.stderr)
    return MISSING if count else 0


def _compared_prices(chosen: argparse.Namespace) -> tuple[int, list[tuple[object, ...]]]:
    """The number of prices in a list, and the lines about those that are missing, with their heads. Raises Fault."""
    sent = read_list(chosen.receipts, sent_in)
    with Progress("cpi-tools gaps") as progress:
        progress.now(f"reading {chosen.file}")
        found = gaps(sent, stored_quotes(chosen.file))
    rows = list[tuple[object, ...]]([(*HEADS, "because")] if found else [])
    for row, because in found:
        rows.append((row.collector, row.slot, month_text(row.month), row.mark, row.value, row.receipt, because))
    return len(sent), rows


def _compared_records(chosen: argparse.Namespace) -> tuple[int, list[tuple[object, ...]]]:
    """The number of records in a list, and those that are missing. Raises Fault."""
    sent = read_list(chosen.records, records_in)
    with Progress("cpi-tools gaps") as progress:
        progress.now(f"reading {chosen.file}")
        with private_copy(chosen.file) as copy, read_copy(copy) as office:
            records = missing_records(Cpi(chosen.program), sent, office, chosen.zone)
    return len(sent), [record.fields for record in records]


def _run_of_offices(chosen: argparse.Namespace) -> int:
    """Compares an office with its old file; the exit status. Raises Fault."""
    with Progress("cpi-tools gaps") as progress:
        progress.now(f"reading {chosen.office}")
        lacks = compared_offices(Cpi(chosen.program), chosen.file, chosen.office)
    if chosen.to is None:
        write_records(sys.stdout, rows_by_person(lacks))
    elif lacks.to_send or lacks.different:
        try:
            write_folder(chosen.to, lacks)
        except OSError as fault:
            raise Fault(because_of(fault)) from fault
    for line in lines_of(lacks, chosen.office, chosen.file):
        print(f"cpi-tools gaps: {line}", file=sys.stderr)
    return MISSING if lacks.to_send or lacks.different else 0


def compared_offices(cpi: Cpi, file: Path, old: Path) -> Lacking:
    """The gaps of an office compared with its old file; both are read from private copies. Raises Fault."""
    try:
        if (other := other_log_of(old)) and other.is_sure:
            raise Fault(f"the log next to {old} isn't its own: {other.because}")
        with private_copy(old) as copy, private_copy(file) as here:
            # (the old file may be one of an earlier program)
            cpi.open(copy, old)
            with read_copy(copy) as before, read_copy(here) as office:
                return lacking(before, office)
    except OSError as fault:
        raise Fault(because_of(fault)) from fault

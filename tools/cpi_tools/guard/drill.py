"""`cpi-tools drill COPY`: checks whether a copy of an office's file is a whole office, and reports its faults.

It works on a copy of the copy, so it never changes the copy itself. It compares the bytes with the note's SHA-256.
`cpi` and SQLite's C library open the file, and `cpi` tests each row. The tool then computes every table of every
revision from the frozen quotes, and compares it with the stored table and with the one that `cpi` prints.
"""

from __future__ import annotations

import argparse
import csv
import io
import os
import sqlite3
import sys
from collections.abc import Iterator
from pathlib import Path
from typing import NamedTuple, Optional

from ..office.frozen_quotes import Computed, Months, differing
from ..office.copying import has_frames, log_beside, private_copy
from ..office.program import LAST_MOMENT, Cpi, CpiFailed, Reply, add_program, record
from ..office.folders import new_room
from ..office.stored import Level, Release, StoredOffice, stored_office
from ..text.terminal import Fault, Progress, ToolWords, because_of, month_text, time_text, write_count
from .backup import BackupFailed, Note, hash_of, note_beside, read_note, remove_log
from .copies.desk_files import desk_beside, read_desk

MOST_TOLD = 20
"""The most faults that are printed, each on a line; the others are only counted."""

Printed = dict[tuple[int, int], str]
"""The CSV that the program prints, by month and revision."""


class Drilled(NamedTuple):
    """The results of a drill: counts, the note if there is one, and a line for each fault and each warning.
    `collectors` is None if the file can't be read."""

    tables: int
    rows: int
    carried: int
    quotes: int
    other_quotes: int
    collectors: Optional[int]
    note: Optional[Note]
    faults: tuple[str, ...]
    warnings: tuple[str, ...] = ()


class Counts:
    """The extent of the checks so far."""

    def __init__(self) -> None:
        self.tables = self.rows = self.carried = self.quotes = self.other_quotes = 0
        self.collectors: Optional[int] = None


def drill(cpi: Cpi, path: Path, progress: Optional[Progress] = None) -> Drilled:
    """Checks a copy of an office's file, with its log if there is one next to it.

    Raises CopyFailed or another Fault if the copy can't be checked; the faults of the copy are in the result.
    """
    now = progress.now if progress else lambda _: None
    counts, faults = Counts(), list[str]()
    now("comparing it with its note")
    note = note_of(path, faults)
    if note and note.desk:
        faults += desk_faults_of(path, note.desk)
    with private_copy(path) as copy:
        now("cpi opens a copy")
        printed = _print_tables(cpi, copy, faults)
        now("the C library looks at it")
        try:
            with stored_office(copy) as office:
                faults += office.find_faults()
                faults += _stored_faults(office, counts)
                for each in computed_faults(office, printed, counts):
                    now(f"computing tables anew ({counts.tables})")
                    faults += each
        except sqlite3.Error as fault:
            faults.append(f"the C library can't read it: {fault}")
    drills = (counts.tables, counts.rows, counts.carried, counts.quotes, counts.other_quotes, counts.collectors)
    return Drilled(*drills, note, tuple(faults), tuple(warnings_of(path, counts)))


def warnings_of(path: Path, counts: Counts) -> Iterator[str]:
    """Why a file without a fault may still lack what its office had. A note says that file and log were copied as one,
    so a copy with a note is complete, even if its office has no survey yet."""
    note, log = note_beside(path), log_beside(path)
    if os.path.lexists(note):
        return
    if not log.exists():
        yield (
            f"neither a note ({note.name}) nor a log ({log.name}) is next to it: if it was copied without its log, it"
            " lacks the answered commands that were only in the log"
        )
    if counts.collectors == 0:
        yield "no collector is registered in it: either its office has no survey yet, or its data stayed in a log"


def note_of(path: Path, faults: list[str]) -> Optional[Note]:
    """The note next to a copy; adds a fault if it isn't for these bytes, or isn't a note. A backup is one file, so if a
    log next to it contains data, the note describes another state."""
    try:
        note = read_note(path)
        if note and note.sha256 != hash_of(path):
            faults.append(f"its bytes aren't those of its note {note_beside(path).name}")
        if note and has_frames(path):
            faults.append(f"{log_beside(path).name} beside it has something in it, of which its note doesn't tell")
    except BackupFailed as fault:
        faults.append(str(fault))
        return None
    except OSError as fault:
        raise Fault(because_of(fault)) from fault
    return note


def desk_faults_of(path: Path, wanted: str) -> list[str]:
    """The faults of the desk's folder next to a backup; `wanted` is the folder's checksum in the note."""
    archive = desk_beside(path)
    try:
        if hash_of(archive) != wanted:
            return [f"the bytes of {archive.name} aren't those of its note"]
        with new_room("cpi-tools-") as room:
            read_desk(archive, room)
    except OSError as fault:
        return [because_of(fault)]
    except Fault as fault:
        return [str(fault)]
    return []


# ---- the program


def _print_tables(cpi: Cpi, copy: Path, faults: list[str]) -> Optional[Printed]:
    """Each listed table as the program prints it; None, and a fault, if the program doesn't open the file.

    The tables are read as of the last possible moment, which includes those under embargo. They are compared, never
    shown.
    """
    try:
        with cpi.session(copy) as session:
            listed = session.ask(record(LAST_MOMENT, "public", "tables"))
            printed = {}
            for month, revision, _ in _tables_of(listed):
                reply = session.ask(record(LAST_MOMENT, "public", "table", month, "csv", revision))
                printed[int(month[:4]) * 100 + int(month[5:]), revision] = str(reply.get("table", reply))
        remove_log(copy)
    except CpiFailed as fault:
        faults.append(str(fault))
        return None
    return printed


def _tables_of(reply: Reply) -> list[tuple[str, int, int]]:
    """The list of published tables in a reply."""
    if "tables" not in reply:
        raise CpiFailed(f"cpi doesn't list the tables: {reply}")
    return [(month, revision, publishes) for month, revision, publishes in reply["tables"]]


def figures_of(text: str) -> tuple[dict[str, Level], dict[str, str]]:
    """The figures and the titles of a table that the program printed as CSV, by code.

    Raises ValueError if the text isn't such a table.
    """
    levels, titles = {}, {}
    for code, weight, within, chained, on_month, on_year, imputed, title in csv.reader(io.StringIO(text, newline="")):
        levels[code] = Level(
            int(weight), _digits(within, 6), _digits(chained, 6), _digits(on_month, 1), _change(on_year), int(imputed)
        )
        titles[code] = title
    return levels, titles


def _digits(text: str, decimals: int) -> int:
    """`-0.3` with one decimal is -3. Raises ValueError if the text has another number of decimals."""
    whole, _, part = text.partition(".")
    if len(part) != decimals:
        raise ValueError(f"{text} hasn't {decimals} decimals")
    return int(whole + part)


def _change(text: str) -> Optional[int]:
    return _digits(text, 1) if text else None


# ---- what is stored


def _stored_faults(office: StoredOffice, counts: Counts) -> Iterator[str]:
    """Counts collectors and quotes, and compares the quotes with those that were frozen."""
    counts.collectors = len(office.keys())
    counts.quotes = office.count_of_quotes()
    lost, counts.other_quotes = office.quotes_beside_frozen()
    if lost:
        yield f"{write_count(lost, 'quote')} that a month was frozen with and that no slot has"


def computed_faults(office: StoredOffice, printed: Optional[Printed], counts: Counts) -> Iterator[list[str]]:
    """Recomputes each release, compares it, and yields its faults."""
    releases, months = office.releases(), Months(office)
    if printed is not None and [*printed] != [release[:2] for release in releases]:
        yield [f"{write_count(len(releases), 'release')} stored, {write_count(len(printed), 'table')} listed by cpi"]
    for turn, release in enumerate(releases):
        is_latest = turn + 1 == len(releases) or releases[turn + 1].month != release.month
        frozen = office.frozen(release)
        try:
            wanted = months.compute(release, frozen, is_latest)
        except (ArithmeticError, LookupError, TypeError, ValueError) as fault:
            yield [f"{_name_of(release)}: can't be computed from what is stored ({type(fault).__name__}: {fault})"]
            return
        counts.tables += 1
        counts.rows += len(wanted.levels)
        counts.carried += len(wanted.carried)
        yield [f"{_name_of(release)}: {each}" for each in differences(office, wanted, printed)]


def _name_of(release: Release) -> str:
    return f"{month_text(release.month)} revision {release.revision}"


def differences(office: StoredOffice, wanted: Computed, printed: Optional[Printed]) -> Iterator[str]:
    """The stored and printed figures of a release that differ from the computed ones."""
    release = wanted.release
    if found := differing(office.read_carried(release), wanted.carried):
        series = f"{found[0][0]}/{found[0][1]}"
        yield f"{write_count(len(found), 'carried price')} other than its quotes give, the first of series {series}"
    stored = office.levels(release)
    if found := differing(stored, wanted.levels):
        yield f"{write_count(len(found), 'row')} of its table other than its quotes give, the first at {found[0]}"
    titles = office.titles(release)
    if wanted.levels and titles != office.planned_titles(release.month // 100):
        yield "the titles aren't those of the year's plan"
    if printed is not None and release[:2] in printed:
        try:
            levels, names = figures_of(printed[release[:2]])
        except ValueError:
            yield "cpi prints no table of it"
            return
        if levels != stored or names != titles:
            yield "cpi prints it in another way than it is stored"


# ---- words

DESCRIPTION = """\
Checks whether a copy of an office's file is a whole office. Its bytes must match its note
COPY.sha256, if there is one. cpi must open it. Every table of every revision, with each carried
price, must follow from its frozen quotes, and cpi must print the same. The C library of SQLite
must find no fault (integrity_check, foreign_key_check). One line gives the result and how much was
checked; each fault is a line on standard error. The drill works on a copy of COPY, so COPY never
changes. A log next to COPY, COPY-wal, belongs to it. You can also drill an office that is being
served. If the note says that the backup includes the desk's folder, COPY.desk.tar must be there
and match its checksum.

After a kill, most of an office can be in its log. Without the log, the file is then a sound but
older office, perhaps an empty one. So a warning on standard error names a COPY that has neither a
note nor a log, and an office that has neither a note nor a collector. With its note, an office
without a collector is a correct backup of an office before its survey.
"""

EPILOG = """\
example: cpi-tools drill backup/office.db

exit status: 0 if nothing is wrong; 1 if something is wrong, or COPY can't be read; 2 if the
arguments are refused; 3 if nothing is wrong, but a warning says why COPY may lack a part of its
office
"""

WARNED = 3
"""The exit status if nothing is wrong, and there is a warning."""


def add_words(tools: argparse._SubParsersAction[ToolWords]) -> None:
    """The tool `drill`."""
    words = tools.add_parser(
        "drill",
        help="Check that a copy of an office's file is a whole office",
        description=DESCRIPTION,
        epilog=EPILOG,
    )
    words.add_argument("copy", type=Path, metavar="COPY", help="a backup, or any copy of an office's file and log")
    add_program(words)
    words.set_defaults(run=run, tool="drill", words=words)


def told_line(path: Path, found: Drilled) -> str:
    """The line that reports a drill."""
    counts = [
        write_count(len(each), one) for each, one in ((found.faults, "fault"), (found.warnings, "warning")) if each
    ]
    state = " and ".join(counts) or "nothing is wrong"
    of_note = f"copied {time_text(found.note.copied)}" if found.note else "no note of its SHA-256"
    looked = (
        f"{write_count(found.tables, 'table')} with {write_count(found.rows, 'row')} and"
        f" {write_count(found.carried, 'carried price')} computed anew, {write_count(found.quotes, 'quote')}"
    )
    if found.other_quotes:
        looked += f" ({found.other_quotes:,} of them not as frozen last)"
    if found.collectors == 0:
        looked += ", no collector"
    return f"{path}: {state}; {looked}; {of_note}"


def run(chosen: argparse.Namespace) -> int:
    """Runs the tool with its arguments; returns its exit status."""
    with Progress("cpi-tools drill") as progress:
        found = drill(Cpi(chosen.program), chosen.copy, progress)
    for fault in found.faults[:MOST_TOLD]:
        print(f"cpi-tools drill: {chosen.copy}: {fault}", file=sys.stderr)
    if len(found.faults) > MOST_TOLD:
        print(f"cpi-tools drill: {chosen.copy}: and {len(found.faults) - MOST_TOLD:,} more", file=sys.stderr)
    for warning in found.warnings:
        print(f"cpi-tools drill: {chosen.copy}: warning: {warning}", file=sys.stderr)
    print(told_line(chosen.copy, found))
    return 1 if found.faults else WARNED if found.warnings else 0

"""`cpi-tools take-out FILE FOLDER`: writes an office's file as the spreadsheets that `take-in` reads, so that no office
is locked in.

Prices are in minor units, weights in parts per million, moments in seconds since 1970 UTC. Each quote names the first
revision whose freeze took it; a quote that came after the last freeze names the next revision. All prices that could
have been outside the tolerance are confirmed: they were accepted once.
"""

from __future__ import annotations

import argparse
import os
import sqlite3
import sys
from collections.abc import Iterable, Iterator, Sequence
from pathlib import Path

from ..office.copying import private_copy
from ..office.folders import new_room, write_rows
from ..office.program import Cpi, add_program
from ..office.stored import Assignment, Quote, Release, Series, Slot, StoredOffice, Window, stored_office
from ..text.terminal import Fault, Progress, ToolWords, because_of, month_text
from .record_rows import SHEETS
from .price_cells import COMPARABLE, MISSING, PRICE, REASONS

Line = Sequence[object]
Held = dict[Series, list[Assignment]]
"""The assignments of each series, from its first holder to its last."""


def held_by(stored: StoredOffice) -> Held:
    """The holder of each series, one after the other."""
    holding: Held = {}
    for assignment in stored.assignments():
        holding.setdefault(assignment.series, []).append(assignment)
    return holding


# ---- what was registered


def rows_of_series(held: Held) -> Iterator[Line]:
    """The series that each slot was first given, up to the last month of all collectors who have the series."""
    rows = [
        (first.collector, first.slot, first.outlet, first.item, first.first_month, own[-1].last_month)
        for own in held.values()
        for first in own[:1]
    ]
    yield from ((*row[:4], month_text(row[4]), month_text(row[5])) for row in sorted(rows))


def rows_of_handovers(held: Held) -> Iterator[Line]:
    """Each hand-over, by month."""
    pairs = [pair for own in held.values() for pair in zip(own, own[1:])]
    for former, it in sorted(pairs, key=lambda pair: (pair[1].first_month, pair[0].collector, pair[0].slot)):
        yield month_text(it.first_month), former.collector, former.slot, it.collector, it.slot


def rows_of_classification(stored: StoredOffice) -> Iterator[Line]:
    """Titles and weights as they were sent; a node above has no own weight."""
    for plan in stored.plans():
        weights = plan.aggregates()
        yield from ((plan.year, code, title, weights.get(code, "")) for code, title in plan.titles.items())


def rows_of_places(stored: StoredOffice) -> Iterator[Line]:
    """The aggregate of each item, by year."""
    return ((plan.year, item, code) for plan in stored.plans() for item, code in plan.places.items())


def rows_of_plans(stored: StoredOffice) -> Iterator[Line]:
    """The reference month of each plan, if it has one."""
    return ((plan.year, month_text(plan.reference) if plan.reference else "") for plan in stored.plans())


def rows_of_calendar(stored: StoredOffice) -> Iterator[Line]:
    """The current windows."""
    return ((month_text(it.month), *it[1:]) for it in stored.calendar())


# ---- months


def window_of(frozen_at: int, publishes: int, now: Window) -> tuple[int, int]:
    """The times at which the window of a revision opens and closes, so that it is frozen at its time: the calendar's
    current times, or earlier ones if the revision was frozen or published earlier. The calendar of that time isn't
    stored."""
    closes = min(now.closes, frozen_at, publishes)
    return min(now.opens, closes - 1), closes


def rows_of_releases(stored: StoredOffice) -> Iterator[Line]:
    """The freezes of each month with their carry lists."""
    windows = {it.month: it for it in stored.calendar()}
    moments = stored.frozen_moments()
    for month, revision, carry in stored.releases():
        frozen_at, publishes = moments[month, revision]
        opens, closes = window_of(frozen_at, publishes, windows[month])
        yield month_text(month), revision, opens, closes, publishes, frozen_at, " ".join(carry)


def rows_of_prices(stored: StoredOffice, held: Held) -> Iterator[Line]:
    """Every quote, by month and revision."""
    series = {(it.collector, it.slot): it.series for own in held.values() for it in own}
    releases = stored.releases()
    for month in sorted({*stored.months_of_quotes(), *(release.month for release in releases)}):
        own = [release for release in releases if release.month == month]
        for revision, slot, quote in quotes_of(stored, month, own, held, series):
            mark, value = told_quote(quote)
            confirm = "confirm" if mark in (PRICE, COMPARABLE) else ""
            yield month_text(month), *slot, mark, value, confirm, revision


def told_quote(quote: Quote) -> tuple[str, object]:
    """A quote's mark and its price, or `missing` and the reason."""
    return (MISSING, quote.mark) if quote.mark in REASONS else (quote.mark, quote.value)


def quotes_of(
    stored: StoredOffice, month: int, releases: Sequence[Release], held: Held, series: dict[Slot, Series]
) -> Iterator[tuple[int, Slot, Quote]]:
    """Revision, slot and quote: the quotes that each freeze took and the freeze before didn't, and then the stored
    quotes that no freeze took."""
    before: dict[Series, Quote] = {}
    for release in releases:
        for own, frozen in sorted(stored.frozen(release).items()):
            quote = Quote(frozen.mark, frozen.value)
            if before.get(own) != quote:
                before[own] = quote
                yield release.revision, slot_in(held[own], month), quote
    for slot, quote in sorted(stored.quotes(month).items()):
        if before.get(series[slot]) != quote:
            yield len(releases) + 1, slot, quote


def slot_in(own: Sequence[Assignment], month: int) -> Slot:
    """The slot of a series in a month."""
    (slot,) = [assignment for assignment in own if assignment.first_month <= month <= assignment.last_month]
    return slot.collector, slot.slot


# ---- files

Table = tuple[str, Sequence[str], Iterable[Line]]
"""A file's name, its columns, its rows."""


def tables(stored: StoredOffice) -> Iterator[Table]:
    """Each sheet of an office."""
    held = held_by(stored)
    rows: dict[str, Iterable[Line]] = {
        "items": stored.items(),
        "outlets": stored.outlets().items(),
        "collectors": stored.keys().items(),
        "series": rows_of_series(held),
        "classification": rows_of_classification(stored),
        "places": rows_of_places(stored),
        "plans": rows_of_plans(stored),
        "handovers": rows_of_handovers(held),
        "calendar": rows_of_calendar(stored),
        "prices": rows_of_prices(stored, held),
        "releases": rows_of_releases(stored),
    }
    yield from ((name, COLUMNS[name], own) for name, own in rows.items())


COLUMNS: dict[str, Sequence[str]] = {
    **{name: (*columns.needed, *columns.others) for name, columns in SHEETS.items()},
    "items": SHEETS["items"].needed,
    "series": ("collector", "slot", "outlet", "item", "first", "last"),
    "prices": ("month", "collector", "slot", "mark", "value", "confirm", "revision"),
}
"""The columns of each file, in the order in which they are written."""


def write_files(stored: StoredOffice, folder: Path) -> dict[str, int]:
    """Writes the files of mode 0600 into a folder; returns the number of rows in each."""
    counts = {}
    for name, columns, rows in tables(stored):
        counts[name] = 0

        def counting(own: Iterable[Line], name: str = name) -> Iterator[Line]:
            for row in own:
                counts[name] += 1
                yield row

        write_rows(folder / f"{name}.csv", columns, counting(rows))
    return counts


def take_out(cpi: Cpi, file: Path, folder: Path) -> dict[str, int]:
    """Writes a new folder of an office's files, completely or not at all; returns the number of rows in each.

    FILE is copied, and not a byte of it changes. Raises Fault if no right copy can be made, or if it isn't an office.
    """
    if os.path.lexists(folder):
        raise Fault(f"{folder} is there already: name a folder that isn't")
    folder.parent.mkdir(parents=True, exist_ok=True)
    with private_copy(file) as copy, new_room(".cpi-take-out-", folder.parent) as room:
        # (the program opens it first, so it is an office, and of the schema that is read here)
        cpi.open(copy, file)
        made = room / "files"
        made.mkdir(mode=0o700)
        with stored_office(copy) as stored:
            counts = write_files(stored, made)
        made.rename(folder)
    return counts


# ---- words

DESCRIPTION = """\
Writes an office's file to a new folder as CSV files that cpi-tools take-in reads: items, outlets,
collectors, series, classification, places, plans, handovers, calendar, prices, releases. Prices
are in minor units, weights in parts per million, and times in seconds since 1970 UTC. Taken in
again, they give the same tables, in all revisions. The tool copies FILE, whether cpi is running or
not, and doesn't change it.

collectors.csv contains the collectors' keys, and prices.csv all prices: the files have mode 0600.
"""

EPILOG = """\
example: cpi-tools take-out office.db spreadsheets

exit status: 0 if the files were written; 1 if they weren't, and nothing is left (one line says
why); 2 if the arguments are refused
"""


def add_words(tools: argparse._SubParsersAction[ToolWords]) -> None:
    """Adds the tool `take-out`."""
    says = "Write an office's file as the spreadsheets that take-in reads"
    words = tools.add_parser("take-out", help=says, description=DESCRIPTION, epilog=EPILOG)
    words.add_argument("file", type=Path, metavar="FILE", help="the office's file, which is only read")
    words.add_argument("folder", type=Path, metavar="FOLDER", help="a folder that doesn't exist yet")
    add_program(words)
    words.set_defaults(run=run, tool="take-out", words=words)


def run(chosen: argparse.Namespace) -> int:
    """Runs the tool with its arguments; returns its exit status."""
    try:
        with Progress("cpi-tools take-out") as progress:
            progress.now(f"writing {chosen.folder}")
            counts = take_out(Cpi(chosen.program), chosen.file, chosen.folder)
    except OSError as fault:
        raise Fault(because_of(fault)) from fault
    except sqlite3.Error as fault:
        raise Fault(f"{chosen.file} can't be read: {fault}") from fault
    print(f"cpi-tools take-out: {chosen.folder / 'collectors.csv'} has the collectors' keys", file=sys.stderr)
    print(f"{chosen.folder}: " + ", ".join(f"{name} {count:,}" for name, count in counts.items()))
    return 0

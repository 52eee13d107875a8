"""`cpi-tools quality`: who answered, as counts of each published release by division, from a copy of an office's file.

What is written has no price, no outlet and no collector in it, and the rule of `figures/survey_rows.py` holds: it can be
published. `cpi-tools publish` takes the file, which the configuration names.
"""

from __future__ import annotations

import argparse
import csv
import io
import sys
import time
from collections import defaultdict
from collections.abc import Iterable, Iterator, Mapping, Sequence
from pathlib import Path
from typing import NamedTuple

from ..office.copying import private_copy
from ..office.program import Cpi, add_program, record
from ..office.public import Listed, listed_in
from ..office.stored import COMPARABLE, OBSERVED, REASONS, Assignment, Release, StoredOffice, read_copy
from ..text.exact import ALL_ITEMS
from ..text.terminal import Fault, Progress, ToolWords, at_least, because_of, month_text, time_text, write_count
from ..text.text_files import read_rows, write_whole
from .figures.config import read_least_outlets
from .figures.survey_rows import COUNTS, LEAST_OUTLETS, BadCounts, Cell, Choice, Figures, choice_of, read_counts


REPLACED = tuple(mark for mark in OBSERVED if mark != COMPARABLE[0])
"""The marks of a replacement's price."""


class Seen(NamedTuple):
    """A slot or a series of a release: its division and outlet, and a count for each figure except the number of
    outlets."""

    division: str
    outlet: int
    counts: tuple[int, ...]


Choices = Mapping[tuple[str, int], Choice]
"""The figures that releases show, by month and revision."""


# ---- a release


class Counts(NamedTuple):
    """The counts of a release, whatever it shows: the outlets of each division, and the other figures of divisions and of all
    items."""

    month: str
    revision: int
    outlets: Mapping[str, frozenset[int]]
    sums: Mapping[str, Sequence[int]]

    @property
    def of(self) -> tuple[str, int]:
        """Its month and revision."""
        return self.month, self.revision

    def cells(self, choice: Choice) -> Iterator[Cell]:
        """Its rows, all items first, with the figures that it shows."""
        everybody = frozenset[int]().union(*self.outlets.values())
        for division, counts in sorted(self.sums.items()):
            is_shown = choice.has_total if division == ALL_ITEMS else division not in choice.hidden
            figures = Figures(len(self.outlets.get(division, everybody)), *counts) if is_shown else None
            yield Cell(self.month, self.revision, division, figures)


def counts_of_release(
    office: StoredOffice, release: Release, slots: Iterable[Assignment], places: dict[str, str]
) -> Counts:
    """The counts of a release by its slots and the aggregates of items."""
    outlets, sums = defaultdict[str, set[int]](set), dict[str, list[int]]()
    for seen in _list_seen(office, release, slots, places):
        outlets[seen.division].add(seen.outlet)
        for division in (ALL_ITEMS, seen.division):
            before = sums.get(division, [0] * len(seen.counts))
            sums[division] = [one + other for one, other in zip(before, seen.counts)]
    own = {division: frozenset(numbers) for division, numbers in outlets.items()}
    return Counts(month_text(release.month), release.revision, own, sums)


def _list_seen(
    office: StoredOffice, release: Release, slots: Iterable[Assignment], places: dict[str, str]
) -> Iterator[Seen]:
    """The slots of a release whose items are in the index, with their frozen quotes, and the prices in the index."""
    frozen, carried = office.frozen(release), office.read_carried(release)
    for slot in slots:
        if slot.item in places:
            mark = frozen[slot.series].mark if slot.series in frozen else ""
            sample = carried.get(slot.series)
            yield Seen(
                places[slot.item][:2],
                slot.outlet,
                (1, mark in OBSERVED, mark in REPLACED, mark in REASONS, not mark)
                + (sample is not None, sample is not None and bool(sample.imputed)),
            )


def counts_of_office(office: StoredOffice, published: Sequence[Listed]) -> Iterator[Counts]:
    """The counts of each release that is published and has a table with rows, in the order in which they were published."""
    moments = {(int(listing.month.replace("-", "")), listing.revision): listing.moment for listing in published}
    releases = [release for release in office.releases() if release[:2] in moments and office.titles(release)]
    assignments, plans = office.assignments(), {plan.year: plan.places for plan in office.plans()}
    for release in sorted(releases, key=lambda release: (moments[release[:2]], release[:2])):
        own = [slot for slot in assignments if slot.first_month <= release.month <= slot.last_month]
        yield counts_of_release(office, release, own, plans[release.month // 100])


def shown_cells(counts: Iterable[Counts], least: int, known: Choices) -> list[Cell]:
    """The rows of releases in the order in which they were published, by month and revision; known releases show the
    same figures as before."""
    choices = dict(known)
    cells = list[Cell]()
    for count in counts:
        if count.of not in choices:
            choices[count.of] = choice_of(count.outlets, least, choices.values())
        cells += count.cells(choices[count.of])
    return sorted(cells, key=lambda cell: cell[:3])


def read_office(cpi: Cpi, path: Path, at: int, least: int, known: Choices = {}) -> list[Cell]:
    """The counts of what an office's file has published at a moment; the file is copied, and not changed. Raises Fault."""
    with private_copy(path) as copy:
        with cpi.session(copy) as asked:
            published = listed_in(asked.ask(record(at, "public", "tables")))
        with read_copy(copy) as office:
            return shown_cells(counts_of_office(office, published), least, known)


# ---- the file


def read_known(to: Path, least: int) -> dict[tuple[str, int], Choice]:
    """The figures that the releases of an existing file show; none if there is no file. Raises Fault if it isn't a
    file of counts, or shows divisions with fewer outlets."""
    if not to.exists():
        return {}
    _rows_of(to)
    cells: dict[tuple[str, int], list[Cell]] = {}
    for cell in read_counts(to, 0):
        cells.setdefault(cell.of, []).append(cell)
        if cell.figures and cell.figures.outlets < least:
            raise Fault(
                f"{to} has {cell.division} of {cell.month}, revision {cell.revision}, with {cell.figures.outlets} outlets,"
                f" and least_outlets is {least}: take the file away first if that is meant"
            )
    return {of: _choice(own) for of, own in cells.items()}


def _rows_of(to: Path) -> list[tuple[str, ...]]:
    """The rows of a file, the first with the column names. Raises Fault if it isn't a file of counts."""
    rows = read_rows(to, lambda lines: [tuple(line) for line in lines], BadCounts)
    if rows[:1] != [COUNTS]:
        raise Fault(f"{to} is there already, and is no file of counts: give the counts a name of their own")
    return rows


def _choice(cells: Sequence[Cell]) -> Choice:
    """The figures that the rows of a release show."""
    divisions = frozenset(cell.division for cell in cells) - {ALL_ITEMS}
    shown = {cell.division for cell in cells if cell.figures}
    return Choice(divisions, divisions - shown, ALL_ITEMS in shown)


def write_counts(cells: Sequence[Cell], to: Path) -> None:
    """Writes a file of counts, whole or not at all, with mode 0644. Raises Fault, and leaves an existing file, if
    that isn't such a file, or if its rows of a release differ from the new ones."""
    rows = [cell.texts for cell in cells]
    _refuse_others(to, rows)
    text = io.StringIO()
    csv.writer(text, lineterminator="\n").writerows([COUNTS, *rows])
    try:
        write_whole(to, text.getvalue().encode(), 0o644)
    except OSError as fault:
        raise Fault(because_of(fault)) from fault


def _refuse_others(to: Path, rows: Sequence[Sequence[str]]) -> None:
    """Raises Fault if the new rows don't continue an existing file."""
    if not to.exists():
        return
    before = {row: None for row in _rows_of(to)[1:]}
    known, releases = {tuple(row): None for row in rows}, {row[:2] for row in before}
    others = [row for row in before if row not in known]
    others += [row for row in known if row[:2] in releases and row not in before]
    if others:
        month, revision, division = others[0][:3]
        raise Fault(
            f"{to} has another row of {month}, revision {revision}, division {division}, than this office has now: it is of"
            " another office or moment, or was changed by hand; take it away first if that is meant"
        )


def untold(cells: Iterable[Cell]) -> Iterator[str]:
    """A line that says why, if the newest release shows no figures of all items."""
    totals = [cell for cell in cells if cell.division == ALL_ITEMS]
    if totals and not totals[-1].figures:
        last = totals[-1]
        yield (
            f"all items have no figures in {last.month}, revision {last.revision}: else those of a hidden division would be"
            " theirs less the others, there or in another release"
        )


# ---- words

DESCRIPTION = f"""\
Counts, by division, what each published release of an office is based on: outlets, and prices that
were due, collected, replaced, missing and imputed. The file goes into the pack of cpi-tools
publish if the configuration contains quality = FILE. It contains no price, outlet or collector,
and nothing from a table that isn't published at the time of --at.

A division with fewer outlets than least_outlets in the configuration (by default {LEAST_OUTLETS})
has no figures. So that nobody can derive them by subtraction, even between releases, some other
divisions, always the same, have none either. If another division later has too few outlets, the
total of all items has no figures in that release.

The tool copies OFFICE, whether cpi is running or not, and doesn't change it. It writes the file
whole or not at all, and continues the existing one, whose releases keep showing what they showed.
"""

EPILOG = """\
example: cpi-tools quality --db office.db --at $(date +%s) --config office.ini --out counts.csv

exit status: 0 if the file was written; 1 if it wasn't (one line says why); 2 if the arguments are
refused
"""


def add_words(tools: argparse._SubParsersAction[ToolWords]) -> None:
    """The tool `quality`."""
    words = tools.add_parser(
        "quality", help="Count who answered, by release and division", description=DESCRIPTION, epilog=EPILOG
    )
    add = words.add_argument
    add("--db", type=Path, required=True, metavar="OFFICE", help="an office's file, which is only read")
    add(
        "--at",
        type=at_least(0),
        required=True,
        metavar="SECONDS",
        help="use the tables published by this time, in seconds since 1970",
    )
    add("--config", type=Path, metavar="FILE", help="the configuration of cpi-tools publish, for its least_outlets")
    add("--out", type=Path, required=True, metavar="FILE", help="where to write the counts")
    add_program(words)
    words.set_defaults(run=run, tool="quality", words=words)


def run(chosen: argparse.Namespace) -> int:
    """Runs the tool with its arguments; returns its exit status."""
    if chosen.at > time.time():
        raise Fault(
            f"--at {chosen.at} is {time_text(chosen.at)}, which is still to come: its tables may be under embargo now"
        )
    least = read_least_outlets(chosen.config) if chosen.config else LEAST_OUTLETS
    with Progress("cpi-tools quality") as progress:
        progress.now("counts")
        known = read_known(chosen.out, least)
        cells = read_office(Cpi(chosen.program), chosen.db, chosen.at, least, known)
        write_counts(cells, chosen.out)
    releases = len({cell.of for cell in cells})
    hidden = sum(cell.figures is None for cell in cells)
    print(f"{chosen.out}: {write_count(releases, 'release')}, {write_count(hidden, 'row')} of {len(cells)} hidden")
    for line in untold(cells):
        print(f"cpi-tools quality: {line}", file=sys.stderr)
    return 0

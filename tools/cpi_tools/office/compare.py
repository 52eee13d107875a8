"""`cpi-tools compare`: the index that other formulas would give, for judging the method.

The published index has Dutot in each elementary aggregate. Jevons and Carli take its place here, over the same samples
with the same carried prices and the same weights in use, from the first December on; each formula is chained by itself.
Nothing of it is published as an index.
"""

from __future__ import annotations

import argparse
import sys
from collections.abc import Iterator
from pathlib import Path
from typing import NamedTuple, Optional

from ..text.exact import decimal, points
from ..text.terminal import Fault, Progress, ToolWords, a_month, because_of, month_text, write_count
from . import recompute
from .frozen_quotes import Computed, Months, differing
from .copying import private_copy
from .price_rules import FORMULAS, ONE, Pairs
from .folders import write_rows
from .program import Cpi, add_program
from .stored import Level, Release, Series, StoredOffice, read_copy

PUBLISHED = "Dutot"

WHOLE: Series = (0, 0)
"""The one series of an aggregate whose index is known: it moves by this index."""

SHOWN = 10
"""The number of aggregates in the text."""

Table = dict[str, Level]
"""The figures of a month by node."""


class Comparison(NamedTuple):
    """A release by each formula: its tables by the formula's name, the size of each sample, and the titles."""

    release: Release
    tables: dict[str, Table]
    sizes: dict[str, int]
    titles: dict[str, str]
    weights: dict[str, int]


def pairs_of(computed: Computed, code: str) -> Pairs:
    """The current prices of an aggregate's sample, and its bases."""
    bases = computed.bases[code]
    return [(price[0], bases[series][0]) for series, price in computed.kept[code].items()]


def table_of(computed: Computed, formula: str, levels: recompute.Levels) -> Table:
    """The table of a release by a formula, which continues that formula's own levels."""
    indices = {code: FORMULAS[formula](pairs_of(computed, code)) for code in computed.weights}
    bases: dict[str, recompute.Kept] = {code: {WHOLE: (ONE, 1, 1, 0)} for code in indices}
    moved: dict[str, recompute.Kept] = {code: {WHOLE: (index, 1, 1, 0)} for code, index in indices.items()}
    rows = recompute.table(computed.release.month, computed.weights, bases, moved, levels) if indices else {}
    return {code: Level(*row) for code, row in rows.items()}


def compare(office: StoredOffice, month: int, revision: Optional[int] = None) -> Comparison:
    """A release, its month's latest revision if none is named, by each formula. Raises Fault if there is none, or if
    the file has other figures than its frozen quotes give."""
    releases = office.releases()
    revisions = [release.revision for release in releases if release.month == month]
    if not revisions or revision not in (None, *revisions):
        named = f"{month_text(month)}{f' revision {revision}' if revision else ''}"
        raise Fault(f"{named} isn't frozen, so there is nothing to compare")
    wanted = (month, revision or revisions[-1])
    levels: dict[str, recompute.Levels] = {name: {} for name in FORMULAS}
    months = Months(office)
    for release in releases:
        latest = max(each.revision for each in releases if each.month == release.month)
        computed = months.compute(release, office.frozen(release), release.revision == latest)
        tables = {name: table_of(computed, name, levels[name]) for name in FORMULAS}
        if release[:2] == wanted:
            return _comparison(office, computed, tables)
        if release.revision == latest:
            for name, table in tables.items():
                levels[name][release.month] = {code: row.chained for code, row in table.items()}
    raise AssertionError(wanted)


def _comparison(office: StoredOffice, computed: Computed, tables: dict[str, Table]) -> Comparison:
    release = computed.release
    if differing(office.levels(release), computed.levels):
        raise Fault(
            f"the table of {month_text(release.month)} in the file isn't what its quotes give: ask cpi-tools drill"
        )
    if not computed.levels:
        raise Fault(f"{month_text(release.month)} has no table: it is the first December, or its year has no plan")
    sizes = {code: len(sample) for code, sample in computed.kept.items()}
    return Comparison(release, {PUBLISHED: computed.levels, **tables}, sizes, office.titles(release), computed.weights)


# ---- telling


def write_change(level: Level) -> str:
    """The annual change in percent, as it is printed; empty if there is none."""
    return "" if level.year_change is None else decimal(level.year_change, 10, 1)


def heads() -> list[str]:
    """The columns of the file."""
    names = [PUBLISHED, *FORMULAS]
    return ["code", "title", "weight", "series"] + [
        f"{name}_{what}" for what in ("index", "level", "annual_change") for name in names
    ]


def rows_of(comparison: Comparison) -> Iterator[list[object]]:
    """A row for each node: indices within the year and chained levels in points, annual changes in percent. `series` is
    the size of the sample of an elementary aggregate."""
    for code, title in sorted(comparison.titles.items()):
        rows = [table[code] for table in comparison.tables.values()]
        figures = [points(row.within) for row in rows] + [points(row.chained) for row in rows]
        yield [code, title, rows[0].weight, comparison.sizes.get(code, ""), *figures, *map(write_change, rows)]


def shifts(comparison: Comparison, formula: str) -> list[tuple[int, str]]:
    """The effect of each aggregate on the index of all items if a formula replaces the published one, in millionths of
    a point within the year, the largest first."""
    total = sum(comparison.weights.values())
    own, other = comparison.tables[PUBLISHED], comparison.tables[formula]
    moves = [
        (recompute.round_ratio(weight * abs(gap), total) * (1 if gap > 0 else -1), code)
        for code, weight in comparison.weights.items()
        if (gap := other[code].within - own[code].within)
    ]
    return sorted(moves, key=lambda each: (-abs(each[0]), each[1]))


def lines_of(comparison: Comparison) -> Iterator[str]:
    """The text: all items by each formula, and the aggregates that make the differences."""
    release = comparison.release
    yield f"{month_text(release.month)}, revision {release.revision}. {PUBLISHED} is the published index; the others are"
    yield "for judging the method, over the same samples, carried prices and weights."
    yield f"{'all items':12} {'index':>12} {'level':>12} {'on the year':>12}"
    for name, table in comparison.tables.items():
        row = table["00"]
        yield f"{name:12} {points(row.within):>12} {points(row.chained):>12} {write_change(row) and write_change(row) + ' %':>12}"
    for name in FORMULAS:
        moves = shifts(comparison, name)
        if moves:
            yield f"{name} in the place of {PUBLISHED} moves all items most, in points within the year, in:"
        for move, code in moves[:SHOWN]:
            text = points(move)
            yield f"  {'' if move < 0 else '+'}{text} {code} {comparison.titles[code]} ({comparison.sizes[code]} series)"


# ---- words

DESCRIPTION = """\
Computes the index of a frozen month with Jevons (the geometric mean of price ratios) and with
Carli (their arithmetic mean) instead of Dutot (the ratio of sums), which the office publishes.
Samples, carried prices and weights are those of the published index; each formula is chained
separately, from the first December on. The text shows all items with each formula, and the
elementary aggregates that cause the differences: an aggregate with a wide gap may not be
homogeneous. These figures are for judging the method. They aren't the office's index, and those of
an unpublished month are under the same embargo as its table.
"""

EPILOG = """\
example: cpi-tools compare office.db 2026-02 --out out/formulas.csv

exit status: 0 if the text was written; 1 if it wasn't (one line says why); 2 if the arguments are
refused
"""


def add_words(tools: argparse._SubParsersAction[ToolWords]) -> None:
    """The tool `compare`."""
    words = tools.add_parser(
        "compare", help="Compute the index of a month with other formulas", description=DESCRIPTION, epilog=EPILOG
    )
    words.add_argument("file", type=Path, metavar="FILE", help="the office's file, which is only read")
    words.add_argument("month", type=a_month, metavar="MONTH", help="a frozen month, such as 2026-02")
    words.add_argument("--revision", type=int, choices=range(1, 10), metavar="N", help="its revision (else the latest)")
    words.add_argument(
        "--out", type=Path, metavar="FILE", help="also write a CSV file of all nodes, which only its owner can read"
    )
    add_program(words)
    words.set_defaults(run=run, tool="compare", words=words)


def run(chosen: argparse.Namespace) -> int:
    """Runs the tool by its words; its exit status."""
    with Progress("cpi-tools compare") as progress:
        progress.now("copying the file")
        with private_copy(chosen.file) as copy:
            progress.now("cpi opens a copy")
            Cpi(chosen.program).open(copy, chosen.file)
            with read_copy(copy) as office:
                progress.now("computing")
                comparison = compare(office, chosen.month, chosen.revision)
    if chosen.out:
        try:
            write_rows(chosen.out, heads(), rows_of(comparison))
        except OSError as fault:
            raise Fault(because_of(fault)) from fault
    sys.stdout.writelines(f"{line}\n" for line in lines_of(comparison))
    if chosen.out:
        print(f"{chosen.out}: {write_count(len(comparison.titles), 'node')}")
    return 0

"""CSV files of all nodes and of special aggregates: UTF-8, RFC 4180, a row of names first, lines ended by LF."""

from __future__ import annotations

from collections.abc import Callable, Iterable, Iterator, Mapping, Sequence
from itertools import groupby, repeat
from pathlib import Path
from typing import Optional

from ...office.table_rows import NO_CHANGE, Rows
from ...office.tables import Row, Series, Table, iso
from ...text import text_files
from ...text.exact import ALL_ITEMS, Ratio, decimal, depth_of, parent_of, tenths
from ..figures.figures import GIVEN_MONTH, GIVEN_YEAR, LEVEL, MONTH_CHANGE, PRINTED, SHARE, YEAR_CHANGE, Known
from ..figures.measures import Contribution, Contributions, average, average_change, full_years, twelve_month_rate
from ..figures.shown_figures import Shown
from .pack_before import NOTHING_KEPT, KeptLines


# ==== CSV files: UTF-8, RFC 4180, a row of names first, lines ended by LF, figures with a fixed number of decimals

HEAD = ("month", "revision", "published", "code", "depth", "title", "weight", "index", "chained", "month_change",
        "year_change", "imputed", "base", "break")  # fmt: skip
"""The columns of cpi.csv, of vintages.csv and of each node's file: `base` is the month in which the level is 100, and
`break` is 1 if the level isn't linked to those of the months before, or if other elementary aggregates are in it."""


NO_LINES: Mapping[str, Sequence[str]] = {}

PROVISIONAL = "provisional"
"""The last column of printed.csv if the office has months that it may still revise: 1 in these."""

PRINTED_HEAD = ("month", "code", "title", "reference", "index", "month_change", "year_change", "share_per_mille")
AVERAGE_HEAD = ("code", "title", "year", "average", "change", "reference", "chained_average")


def write_rows(path: Path, head: Sequence[str], rows: Iterable[Sequence[object]]) -> None:
    """Writes a CSV file."""
    with path.open("w", encoding="utf-8", newline="") as file:
        writer = text_files.Writer(file)
        writer.writerow(head)
        writer.writerows(rows)


def write_ratio(value: Optional[Ratio], digits: int) -> str:
    """A ratio with some decimals; empty if there is none."""
    return "" if value is None else decimal(value.over, value.under, digits)


def figure_row(series: Series, table: Table, row: Row) -> Sequence[object]:
    """A node in a month, with the columns of HEAD, in the digits that the program printed."""
    depth = "" if row.code in series.specials else depth_of(row.code)
    named = table.month, table.revision, iso(table.moment), row.code, depth, row.title
    is_break = table.month in series.marks(row.code)
    return (*named, *row.texts, series.base_of(table.month, row.code), int(is_break))


class Lines:
    """The rows as lines of CSV, made from the columns of tables."""

    def __init__(self, series: Series):
        self._series, self._titles = series, text_files.Cells()
        self._tenths = {NO_CHANGE: ""}
        self._tables: dict[tuple[str, int], str] = {}

    def look_at(self, titles: Iterable[str]) -> None:
        """Checks titles, also of kept lines, since a spreadsheet may take one for a formula."""
        for title in titles:
            self._titles[title]

    def of_node(self, tables: Iterable[Table], code: str, ends: Iterable[Sequence[str]] = repeat(())) -> str:
        """The lines of a node in some tables, with further cells at the end of each."""
        series, marks, depth = self._series, frozenset(self._series.marks(code)), depth_of(code)
        is_whole = len(series.starts(code)) == 1
        base, node = series.base_of(series.every[-1], code), []
        for table, end in zip(tables, ends):
            place = table.rows.place(code)
            if place is not None:
                more = ",".join(("", *end))
                head = self._tables.get(table[:2]) or self._head(table)
                its_base = base if is_whole else series.base_of(table.month, code)
                is_break = "1" if table.month in marks else "0"
                node.append(f"{head}{code},{depth},{self.figures(table.rows, place)},{its_base},{is_break}{more}\n")
        return "".join(node)

    def of_table(self, table: Table) -> str:
        """The lines of all nodes of a table."""
        return "".join(map(self.line, repeat(table), table.rows.named.codes, range(len(table.rows))))

    def line(self, table: Table, code: str, place: int) -> str:
        """The line of a node, which is at a place of the table."""
        month = table.month
        head = self._tables.get(table[:2]) or self._head(table)
        is_break = "1" if month in self._series.marks(code) else "0"
        figures = self.figures(table.rows, place)
        return f"{head}{code},{depth_of(code)},{figures},{self._series.base_of(month, code)},{is_break}\n"

    def figures(self, rows: Rows, place: int) -> str:
        """Title and figures of a row."""
        title, within, chained = self._titles[rows.named.titles[place]], rows.within[place], rows.chained[place]
        monthly, annual = self._change(rows.month_change[place]), self._change(rows.year_change[place])
        return (
            f"{title},{rows.weight[place]},{within // 1_000_000}.{within % 1_000_000:06},"
            f"{chained // 1_000_000}.{chained % 1_000_000:06},{monthly},{annual},{rows.is_imputed[place]}"
        )

    def write_gone(self, table: Table, code: str) -> str:
        """The line, without figures, of a node that only an earlier revision of the month contains."""
        title = self._titles[self._series.title(code)] if code in self._series.titles else ""
        return f"{self._head(table)}{code},{depth_of(code)},{title}{',' * 8}\n"

    def _head(self, table: Table) -> str:
        """The cells that are the same in all lines of a table."""
        text = self._tables[table[:2]] = f"{table.month},{table.revision},{iso(table.moment)},"
        return text

    def _change(self, value: int) -> str:
        tenth = self._tenths.get(value)
        if tenth is None:
            tenth = self._tenths[value] = tenths(value)
        return tenth


def write_lines(path: Path, head: Sequence[str], lines: Iterable[str], kept: Optional[str] = None) -> None:
    """Writes a CSV file of lines, each with its end, after those that are kept with their head."""
    with path.open("w", encoding="utf-8", newline="") as file:
        file.write(text_files.line_of(head) + "\n" if kept is None else kept)
        file.writelines(lines)


def write_months(known: Known, folder: Path, kept: KeptLines = NOTHING_KEPT) -> None:
    """The CSV files with rows for months, except the files of SDMX, of special aggregates and of the nodes."""
    series, shown = known.series, known.shown
    rereferenced = ("month", "code", "title", "reference", "rereferenced")
    printed = (*PRINTED_HEAD, PROVISIONAL) if shown.provisional else PRINTED_HEAD
    files: list[tuple[str, Sequence[str], Callable[[Known, Sequence[str]], Iterable[str]]]] = [
        ("cpi.csv", HEAD, _cpi_lines),
        ("contributions.csv", CONTRIBUTION_HEAD, _contribution_lines),
        ("printed.csv", printed, _printed_lines),
        ("twelve-month-rates.csv", ("month", "code", "title", "twelve_month_rate"), _rate_lines),
        *([("rereferenced.csv", rereferenced, _rereferenced_lines)] if shown.reference else []),
    ]
    for name, head, lines in files:
        # (which months are provisional changes with each one)
        found = None if PROVISIONAL in head else kept.read(name)
        months = series.months if found is None else kept.later(series.months)
        write_lines(folder / name, head, lines(known, months), found)


def write_whole(
    series: Series,
    shown: Shown,
    folder: Path,
    kept: KeptLines = NOTHING_KEPT,
    sets: Mapping[str, Sequence[str]] = NO_LINES,
) -> None:
    """The CSV files that are of all years: each publication, what revisions changed, and averages; `sets` are by month the
    lines of special aggregates that were changed."""
    releases = (
        (vintage.month, vintage.revision, iso(vintage.moment), len(vintage.rows), vintage.sha256)
        for vintage in series.vintages
    )
    write_rows(folder / "releases.csv", ("month", "revision", "published", "rows", "sha256"), releases)
    write_lines(folder / "vintages.csv", HEAD, _vintage_lines(series, sets))
    write_lines(folder / "averages.csv", AVERAGE_HEAD, _average_lines(shown, kept))


def _cpi_lines(known: Known, months: Sequence[str]) -> Iterator[str]:
    """All lines of tables."""
    lines, latest = Lines(known.series), known.series.latest
    for month in known.series.months:
        lines.look_at(latest[month].rows.named.titles)
    yield from (lines.of_table(latest[month]) for month in months)


def _vintage_lines(series: Series, sets: Mapping[str, Sequence[str]]) -> Iterator[str]:
    """The lines of the nodes that a further revision changed: as they were at first, and as each revision that changed
    them has them, with those of sets after them. All others are in `cpi.csv` and `aggregates.csv`."""
    lines = Lines(series)
    for month, found in groupby(series.vintages, key=lambda vintage: vintage.month):
        tables = [*found]
        for code in sorted(_find_revised(tables)):
            earlier = ""
            for table in tables:
                place = table.rows.place(code)
                text = "" if place is None else lines.figures(table.rows, place)
                if text != earlier:
                    yield lines.line(table, code, place) if place is not None else lines.write_gone(table, code)
                earlier = text
        yield from sets.get(month, ())


def _find_revised(tables: Sequence[Table]) -> set[str]:
    """The nodes whose figures or titles differ between two revisions of a month."""
    found: set[str] = set()
    for old, new in zip(tables, tables[1:]):
        found |= old.rows.keys() ^ new.rows.keys()
        found |= {code for code in old.rows.keys() & new.rows.keys() if old.rows[code] != new.rows[code]}
    return found


CONTRIBUTION_HEAD = ("month", "code", "of", "contribution_month", "contribution_year")


def contribution_row(month: str, contribution: Contribution) -> Sequence[object]:
    """Percentage points with six decimals."""
    return (
        month,
        contribution.code,
        contribution.of,
        write_ratio(contribution.to_month, 6),
        write_ratio(contribution.to_year, 6),
    )


def _contribution_lines(known: Known, months: Sequence[str]) -> Iterator[str]:
    """The contributions of each node to all items, and to the node above it if that is another one."""
    above = [(code, parent_of(code)) for code in known.series.titles]
    parents = dict.fromkeys(parent for _, parent in above if parent is not None and parent != ALL_ITEMS)
    for month in months:
        given = (known.texts_of_month(figure, month) for figure in (GIVEN_MONTH, GIVEN_YEAR))
        both = {parent: known.contributions.both(month, parent) for parent in parents}
        for (code, parent), to_month, to_year in zip(above, *given):
            if to_month or to_year:
                yield f"{month},{code},{ALL_ITEMS},{to_month},{to_year}\n"
            if parent in both:
                of_month, of_year = both[parent]
                monthly, annual = of_month(code), of_year(code)
                if monthly is not None or annual is not None:
                    yield f"{month},{code},{parent},{write_ratio(monthly, 6)},{write_ratio(annual, 6)}\n"


def _printed_lines(known: Known, months: Sequence[str]) -> Iterator[str]:
    """The figures on the pages: the index with one decimal place, the changes in percent, and the share of the total
    weight."""
    titles, provisional = text_files.Cells(), known.shown.provisional
    for month in months:
        end = f",{int(month in provisional)}" if provisional else ""
        columns = (known.texts_of_month(figure, month) for figure in (PRINTED, MONTH_CHANGE, YEAR_CHANGE, SHARE))
        for (code, title), index, *others in zip(known.titles.items(), *columns):
            if index:
                yield f"{month},{code},{titles[title]},{known.shown.find_reference(month, code)},{index},{','.join(others)}{end}\n"


def _average_lines(shown: Shown, kept: KeptLines) -> Iterator[str]:
    """Averages in points with six decimals, as shown and of chained levels; their change in percent with one."""
    series, titles = shown.series, text_files.Cells()
    earlier, years = kept.by_code("averages.csv", series.all_titles.values()), full_years(series)
    if earlier:
        years = [int(month[:4]) for month in kept.later(f"{year:04}-12" for year in years)]
    for code, title in series.all_titles.items():
        cell = titles[title]
        yield earlier.get(code, "")
        for year in years:
            chained = average(series, code, year)
            if chained is not None:
                mean, hundred = shown.mean(chained, code, year), shown.find_reference(f"{year:04}-01", code)
                changed = write_ratio(average_change(series, code, year), 1)
                yield f"{code},{cell},{year},{write_ratio(mean, 6)},{changed},{hundred},{write_ratio(chained, 6)}\n"


def _rate_lines(known: Known, months: Sequence[str]) -> Iterator[str]:
    """Percent with one decimal."""
    series, titles = known.series, text_files.Cells()
    for month in months:
        for code, title in series.all_titles.items():
            rate = twelve_month_rate(series, month, code)
            if rate is not None:
                yield f"{month},{code},{titles[title]},{write_ratio(rate, 1)}\n"


def _rereferenced_lines(known: Known, months: Sequence[str]) -> Iterator[str]:
    """Points with six decimals; a node without a level in the whole reference period, or a link to it, has no row."""
    titles, shown = text_files.Cells(), known.shown
    for month in months:
        for (code, title), level in zip(known.titles.items(), known.texts_of_month(LEVEL, month)):
            if level and shown.is_rereferenced(month, code):
                yield f"{month},{code},{titles[title]},{shown.reference},{level}\n"


# ==== the CSV files of special aggregates: their figures, the elementary aggregates in them, and contributions

FIGURES, MEMBERS, GIVEN = "aggregates.csv", "aggregate-members.csv", "aggregate-contributions.csv"


def write_specials(series: Series, contributions: Contributions, folder: Path) -> None:
    """Writes the three files, if there are special aggregates."""
    if series.specials:
        write_rows(folder / FIGURES, HEAD, _figures(series))
        write_rows(folder / MEMBERS, ("id", "title", "year", "code", "weight"), _members(series))
        given = (
            contribution_row(month, contribution)
            for month in series.months
            for contribution in _list_contributions(contributions, month)
        )
        write_rows(folder / GIVEN, CONTRIBUTION_HEAD, given)


def _figures(series: Series) -> Iterator[Sequence[object]]:
    """The rows of all months, with the columns of cpi.csv; `depth` is empty."""
    for month in series.months:
        for it in series.specials.values():
            if month in it.rows:
                yield figure_row(series, series.latest[month], it.rows[month])


def _members(series: Series) -> Iterator[Sequence[object]]:
    """The elementary aggregates of each year with their weights in use."""
    first = {month[:4]: month for month in reversed(series.months)}
    for name, it in series.specials.items():
        for year, members in it.members.items():
            if year in first:
                rows = series.latest[first[year]].rows
                yield from ((name, it.title, year, code, rows[code].weight) for code in members)


def _list_contributions(contributions: Contributions, month: str) -> Iterator[Contribution]:
    """The contributions of each set to all items, and of each elementary aggregate to the sets that it is or was in."""
    for name, it in contributions.series.specials.items():
        years = [it.members.get(year, ()) for year in (month[:4], f"{int(month[:4]) - 1:04}")]
        members = sorted({code for year in years for code in year})
        pairs = [(name, ALL_ITEMS), *((code, name) for code in members)]
        found = (contributions.of(month, code, to) for code, to in pairs)
        yield from (each for each in found if each.to_month is not None or each.to_year is not None)

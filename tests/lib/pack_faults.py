"""Compares each figure in the forms of a pack of `cpi-tools publish` with the figures that were computed here.

A fault is a line; there is none if a form contains each figure, with the digits that DATA names, and nothing else.
"""

from __future__ import annotations

import datetime
import hashlib
from collections.abc import Callable, Iterable, Iterator, Mapping
from decimal import Decimal
from fractions import Fraction
from functools import cache
from itertools import zip_longest
from pathlib import Path
from typing import Optional, TypeVar

from .by_the_manual import Id, Month
from .by_the_manual import Row as ByTheManual
from .nation import published_at, revisions
from .pack_figures import ALL, Figures, Given, Line, december_before, depth, lines_of_sets, months_of
from .pack_forms import Attributes, px_cells, read_json_stat, read_sdmx_ml, read_sheets, rows_of_csv
from .px_format import read_strictly
from .pack_vintages import by_moment, reasons, rows_by_code

Row = Mapping[str, str]
Key = TypeVar("Key")


def text(number: Optional[Fraction], digits: int) -> str:
    """A number with some decimals, rounded once, halves away from zero; a number that rounds to zero has no sign."""
    if number is None:
        return ""
    size = (2 * abs(number.numerator) * 10**digits + number.denominator) // (2 * number.denominator)
    whole = f"{size // 10**digits}.{size % 10**digits:0{digits}}" if digits else str(size)
    return f"-{whole}" if size and number < 0 else whole


@cache
def moment(month: str, revision: int = 1) -> str:
    """The publication time of a revision of a month, in UTC."""
    at = datetime.datetime.fromtimestamp(published_at(month, revision), datetime.timezone.utc)
    return at.strftime("%Y-%m-%dT%H:%M:%SZ")


def latest_of(month: str) -> int:
    """The number of a month's last revision."""
    return revisions(month)[-1]


def differing(name: str, wrote: Iterable[Row], wanted: Iterable[Row]) -> Iterator[str]:
    """The rows of a file that differ from the wanted ones, in their order."""
    for own, want in zip_longest(wrote, wanted):
        if own != want:
            yield f"{name}: wrote {own}, wanted {want}"


def apart(name: str, wrote: Mapping[Key, object], wanted: Mapping[Key, object]) -> Iterator[str]:
    """The figures of a form, by their names, that differ from the wanted ones."""
    for key in wrote.keys() | wanted.keys():
        if wrote.get(key) != wanted.get(key):
            yield f"{name}: {key} is {wrote.get(key)}, wanted {wanted.get(key)}"


# ---- CSV


def line_row(known: Figures, month: str, code: str, line: Line, revision: int) -> Row:
    """A row of cpi.csv."""
    return {
        "month": month, "revision": str(revision), "published": moment(month, revision), "code": code,
        "depth": "" if code in known.sets else str(depth(code)), "title": known.titles[code],
        "weight": str(line.weight), "index": text(line.within, 6), "chained": text(line.level, 6),
        "month_change": text(line.monthly, 1), "year_change": text(line.annual, 1),
        "imputed": str(int(line.is_imputed)), "base": line.base, "break": str(int(line.is_break)),
    }  # fmt: skip


def table_rows(known: Figures, codes: Iterable[str]) -> Iterator[Row]:
    """The rows of some items, by month."""
    own = [*codes]
    for month in known.months:
        for code in own:
            line = known.line(code, month)
            if line:
                yield line_row(known, month, code, line, latest_of(month))


Reopened = Mapping[Id, Mapping[str, ByTheManual]]
"""The tables of the months that were revised, their rows by code."""


def earlier_row(known: Figures, tables: Reopened, month: str, revision: int, code: str) -> Row:
    """The row of an item in a revision, which has the same items as the last one."""
    row = tables[month, revision][code]
    figures = row.weight, row.within, row.level, row.monthly, row.annual, row.is_imputed
    now = known.lines[code][month]
    return line_row(known, month, code, Line(*figures, now.base, now.is_break), revision)


def vintage_rows(known: Figures, tables: Reopened, all_tables: Mapping[Id, Month]) -> Iterator[Row]:
    """The rows that a revision changed, before and after; in each month the rows of sets come last."""
    of_sets = set_vintages(known, all_tables)
    for month in sorted({month for month, _ in [*known.first, *of_sets]}):
        for code in sorted(code for at, code in known.first if at == month):
            yield from (earlier_row(known, tables, month, revision, code) for revision in (1, 2))
        for at, name in sorted(of_sets):
            yield from of_sets[at, name] if at == month else ()


def set_vintages(known: Figures, tables: Mapping[Id, Month]) -> dict[tuple[str, str], list[Row]]:
    """By month and set the rows that a later publication changed, as they were in each publication."""
    vintages, last, revision_of = dict[tuple[str, str], list[Row]](), dict[str, Month](), dict[str, int]()
    for (month, revision), table in by_moment(tables):
        last[month], revision_of[month] = table, revision
        for name, lines in lines_of_sets(last, known.sets).items():
            for at, line in lines.items():
                row = {**line_row(known, at, name, line, revision_of[at]), "published": moment(month, revision)}
                rows = vintages.setdefault((at, name), [])
                if not rows or any(rows[-1][of] != row[of] for of in OF_A_FIGURE):
                    rows.append(row)
    return {of: rows for of, rows in vintages.items() if len(rows) > 1}


OF_A_FIGURE = ("weight", "index", "chained", "month_change", "year_change", "imputed")
"""The columns that a revision of prices can change."""


def earlier_rows(known: Figures, tables: Reopened, code: str) -> Iterator[Row]:
    """The rows of an item in the tables that a later revision replaced."""
    for month, revision in sorted(tables):
        if revision < latest_of(month) and code in tables[month, revision]:
            yield earlier_row(known, tables, month, revision, code)


def reason_rows() -> Iterator[Row]:
    """The reasons for the revisions of months."""
    for (month, revision), reason in sorted(reasons().items()):
        own = {"month": month, "revision": str(revision), "added": moment(month, revision)}
        yield from ({**own, **said} for said in reason)


ADDED = ("shown_month_change", "shown_year_change", "contribution_month", "contribution_year")
"""The columns in the file of an item for the changes on its pages and for its contributions, in percent and points."""


def item_rows(known: Figures, code: str) -> Iterator[Row]:
    """The rows of the file of an item: its contributions to all items (all items contribute their own change to
    themselves), the changes on pages, and the letters of its notes."""
    for row in table_rows(known, [code]):
        changes = [text(change, 1) for change in known.changes(code, row["month"])]
        given = known.given(row["month"], code, ALL)
        added = (*changes, text(given.to_month, 6), text(given.to_year, 6))
        yield {**row, **dict(zip(ADDED, added)), "notes": known.notes(code, row["month"])}


def given_rows(known: Figures, pairs: Callable[[str], Iterable[tuple[str, str]]]) -> Iterator[Row]:
    """The contributions of pairs of items, by month."""
    for month in known.months:
        for code, to in pairs(month):
            it = known.given(month, code, to)
            if it != Given(None, None):
                own = {"contribution_month": text(it.to_month, 6), "contribution_year": text(it.to_year, 6)}
                yield {"month": month, "code": code, "of": to, **own}


def member_rows(known: Figures) -> Iterator[Row]:
    """The elementary aggregates of sets, by year."""
    for name, (_, is_in) in known.sets.items():
        for month in (month for month in known.months if month.endswith("-01")):
            for code in known.nodes:
                line = known.line(code, month)
                if line and "-" in code and is_in(code):
                    own = {"code": code, "weight": str(line.weight)}
                    yield {"id": name, "title": known.titles[name], "year": month[:4], **own}


def full_years(known: Figures) -> list[str]:
    return [month[:4] for month in known.months if month.endswith("-12")]


def mean_rows(known: Figures) -> Iterator[Row]:
    """The means over a year of shown levels and of chained levels."""
    for code in known.lines:
        for year in full_years(known):
            mean, changed = known.mean(code, year), known.mean_change(code, year)
            if mean:
                base = known.lines[code][f"{year}-01"].base
                own = {"average": text(known.shown(code, base, mean), 6), "change": text(changed, 1)}
                named = {"code": code, "title": known.titles[code], "year": year, **own}
                yield {**named, "reference": known.hundred(code, base), "chained_average": text(mean, 6)}


def rate_rows(known: Figures) -> Iterator[Row]:
    """The rates of twelve months over the twelve before."""
    for month in known.months[23:]:
        for code in known.lines:
            rate = known.rate(code, month)
            if rate is not None:
                yield {"month": month, "code": code, "title": known.titles[code], "twelve_month_rate": text(rate, 1)}


def level_rows(known: Figures) -> Iterator[Row]:
    """The levels that are 100 in the reference year."""
    for month in known.months:
        for code in known.lines:
            line = known.line(code, month)
            if line and known.scale(code, line.base):
                shown = text(known.shown(code, line.base, line.level), 6)
                named = {"month": month, "code": code, "title": known.titles[code]}
                yield {**named, "reference": known.year, "rereferenced": shown}


def printed_rows(known: Figures) -> Iterator[Row]:
    """The index with one decimal, and changes."""
    for month in known.months:
        for code in known.lines:
            line = known.line(code, month)
            if line:
                monthly, annual = known.changes(code, month)
                own = {"reference": known.hundred(code, line.base), "index": text(known.printed(code, month), 1)}
                told = {"month_change": text(monthly, 1), "year_change": text(annual, 1)}
                told["share_per_mille"] = text(per_mille(known, line, month), 6)
                yield {"month": month, "code": code, "title": known.titles[code], **own, **told}


def per_mille(known: Figures, line: Line, month: str) -> Fraction:
    """The share of all weight of an item in a month."""
    return Fraction(1000 * line.weight, known.lines[ALL][month].weight)


def release_rows(known: Figures, tables: Path) -> Iterator[Row]:
    """Each publication: the first December has no rows."""
    for month in [december_before(known.months[0]), *known.months]:
        rows = sum(month in known.lines[code] for code in known.nodes)
        for revision in revisions(month):
            sha = hashlib.sha256((tables / table_name(month, revision)).read_bytes()).hexdigest()
            own = {"month": month, "revision": str(revision), "published": moment(month, revision)}
            yield {**own, "rows": str(rows), "sha256": sha}


def table_name(month: str, revision: int) -> str:
    """The file of a table in the folder that the example's run writes."""
    return f"{month}.csv" if revision == 1 else f"{month}-r{revision}.csv"


def reopened_of(tables: Mapping[Id, Month]) -> Reopened:
    """The tables of the months that were revised."""
    return {of: rows_by_code(table) for of, table in tables.items() if latest_of(of[0]) > 1}


def rows_of_files(known: Figures, tables: Mapping[Id, Month], folder: Path) -> dict[str, Iterator[Row]]:
    """The rows of all CSV files of the folder `data` except those for SDMX, by their names; the folder contains the
    tables as the program printed them."""
    return {
        "cpi": table_rows(known, known.nodes),
        "vintages": vintage_rows(known, reopened_of(tables), tables),
        "revision-reasons": reason_rows(),
        "aggregates": table_rows(known, known.sets),
        "contributions": given_rows(known, lambda _: known.pairs()),
        "aggregate-contributions": given_rows(known, known.pairs_of_sets),
        "aggregate-members": member_rows(known),
        "averages": mean_rows(known),
        "twelve-month-rates": rate_rows(known),
        "rereferenced": level_rows(known),
        "printed": printed_rows(known),
        "releases": release_rows(known, folder),
    }


def csv_faults(site: Path, known: Figures, tables: Mapping[Id, Month], folder: Path) -> Iterator[str]:
    """The faults of all CSV files except those for SDMX."""
    reopened, wanted = reopened_of(tables), rows_of_files(known, tables, folder)
    wrote = {path.stem for path in (site / "data").glob("*.csv")}
    if wrote != {*wanted, "cpi.sdmx"}:
        yield f"the pack has {sorted(wrote)}"
    for name, rows in wanted.items():
        yield from differing(f"{name}.csv", rows_of_csv(site / f"data/{name}.csv"), rows)
    for code in known.lines:
        yield from differing(f"{code}.csv", rows_of_csv(site / f"node/{code}.csv"), item_rows(known, code))
        earlier, wanted_rows = site / f"node/{code}-earlier.csv", [*earlier_rows(known, reopened, code)]
        if earlier.exists() != bool(wanted_rows):
            yield f"{earlier.name} is {'there' if earlier.exists() else 'missing'}, wanted {len(wanted_rows)} rows"
        elif wanted_rows:
            yield from differing(earlier.name, rows_of_csv(earlier), wanted_rows)


# ---- SDMX

DIMENSIONS = ("FREQ", "MEASURE", "UNIT_MEASURE", "COICOP18", "TRANSFORMATION", "TIME_PERIOD")
ATTRIBUTES = ("OBS_VALUE", "BASE_PER", "DECIMALS", "OBS_STATUS", "IMPUTED_PRICES", "REVISION", "EMBARGO_TIME")
Observations = dict[tuple[str, ...], tuple[str, ...]]
"""By FREQ, MEASURE, UNIT_MEASURE, COICOP18, TRANSFORMATION and TIME_PERIOD: the value and the attributes."""


def item_id(code: str) -> str:
    """An item in SDMX."""
    return code if not code[0].isdigit() else "_T" if code == ALL else "CP" + code.replace(".", "")


def observations(known: Figures) -> Observations:
    """All figures in the form of SDMX."""
    observations: Observations = {}
    for code, lines in known.lines.items():
        for month in known.months:
            line, given = lines.get(month), known.given(month, code, ALL) if code != ALL else Given(None, None)
            for measure, unit, kind, digits, value in figures_of(known, code, month, given):
                if value is not None:
                    status = "B" if line and line.is_break and unit == "IX" else "A"
                    period = period_of(known, code, line, measure) if line and unit == "IX" else ""
                    imputed = str(int(line.is_imputed)) if line else ""
                    key, number = ("M", measure, unit, item_id(code), kind, month), latest_of(month)
                    of = imputed, str(number), moment(month, number)
                    observations[key] = text(value, digits), period, str(digits), status, *of
        for year in full_years(known):
            mean, changed = known.mean(code, year), known.mean_change(code, year)
            if mean:
                base = lines[f"{year}-01"].base
                shown = text(known.shown(code, base, mean), 6)
                status = "B" if lines[f"{year}-01"].is_break else "A"
                last = status, "", "", max(moment(month, latest_of(month)) for month in months_of(year))
                observations["A", "CPI", "IX", item_id(code), "N", year] = shown, known.hundred(code, base), "6", *last
                if changed is not None:
                    observations["A", "CPI", "PC", item_id(code), "G1", year] = text(changed, 1), "", "1", *last
    return observations


def period_of(known: Figures, code: str, line: Line, measure: str) -> str:
    """The period in which a level is 100."""
    return known.hundred(code, line.base) if measure == "CPI" else line.base


def figures_of(
    known: Figures, code: str, month: str, given: Given
) -> Iterator[tuple[str, str, str, int, Optional[Fraction]]]:
    """Measure, unit, transformation, decimals and value of the figures of an item in a month."""
    line = known.line(code, month)
    if line:
        yield "CPI", "IX", "N", 6, known.shown(code, line.base, line.level)
        yield "CPI", "PC", "G1", 1, line.monthly
        yield "CPI", "PC", "GY", 1, line.annual
        yield "CPIC", "IX", "N", 6, line.level
        yield "CPIW", "WU", "N", 0, Fraction(line.weight)
        yield "CPIS", "PM", "N", 6, per_mille(known, line, month)
    yield "CTR", "PP", "G1", 6, given.to_month
    yield "CTR", "PP", "GY", 6, given.to_year


def observed(rows: Iterable[Attributes]) -> Observations:
    """The observations of a form; a missing attribute is empty."""
    return {tuple(row[name] for name in DIMENSIONS): tuple(row.get(name, "") for name in ATTRIBUTES) for row in rows}


def sdmx_faults(site: Path, known: Figures) -> Iterator[str]:
    """The faults of SDMX-CSV and SDMX-ML."""
    wanted = observations(known)
    yield from apart("cpi.sdmx.csv", observed(rows_of_csv(site / "data/cpi.sdmx.csv")), wanted)
    yield from apart("cpi.sdmx.xml", observed(read_sdmx_ml(site / "data/cpi.sdmx.xml")), wanted)
    if sum(it[3] == "B" for it in wanted.values()) < 10:
        yield "there is no break"
    divisions = [code for code in known.nodes if len(code) == 2 and code != ALL]
    for month in known.months:
        shares = [per_mille(known, line, month) for code in divisions if (line := known.line(code, month))]
        if sum(shares) != 1000:
            yield f"{month}: the divisions' shares add up to {sum(shares)}"


# ---- cubes

Cells = dict[tuple[str, ...], Decimal]
"""By item, figure and month."""


def cells(known: Figures) -> Cells:
    """All figures in the form of cubes."""
    fractions: dict[tuple[str, str, str], Optional[Fraction]] = {}
    for code, lines in known.lines.items():
        for month, line in lines.items():
            fractions[code, "index", month] = known.shown(code, line.base, line.level)
            fractions[code, "chained", month] = line.level
            fractions[code, "month_change", month] = line.monthly
            fractions[code, "year_change", month] = line.annual
            fractions[code, "weight", month] = Fraction(line.weight)
            fractions[code, "share", month] = per_mille(known, line, month)
            fractions[code, "imputed", month] = Fraction(line.is_imputed)
        if code != ALL:
            for month in known.months:
                fractions[code, "contribution", month] = known.given(month, code, ALL).to_year
    digits = {"index": 6, "chained": 6, "contribution": 6, "share": 6}
    return {
        key: Decimal(text(fraction, digits.get(key[1], 1)))
        for key, fraction in fractions.items()
        if fraction is not None
    }


def cube_faults(site: Path, known: Figures) -> Iterator[str]:
    """The faults of JSON-stat with the statuses of levels, and of PX, in which a break is a note."""
    wanted = cells(known)
    read_strictly((site / "data/cpi.px").read_text(encoding="utf-8"))
    px: Cells = {key: Decimal(cell) for key, cell in px_cells(site / "data/cpi.px").items()}
    yield from apart("cpi.px", px, wanted)
    data, places = read_json_stat(site / "data/cpi.jsonstat.json")
    values: Cells = {key: data["value"][at] for key, at in places.items() if data["value"][at] is not None}
    yield from apart("cpi.jsonstat.json", values, {key: it for key, it in wanted.items() if key[1] != "imputed"})
    statuses = {key: data["status"].get(str(at), "") for key, at in places.items() if key[1] in ("index", "chained")}
    for (code, _, month), status in statuses.items():
        line = known.line(code, month)
        if status != ("b" * line.is_break + "i" * line.is_imputed if line else ""):
            yield f"cpi.jsonstat.json: {code} in {month} has the status {status!r}, wanted {line}"


# ---- the workbook

CHANGES = ("Monthly change", "Annual change")
SHEETS = ("Index", *CHANGES, "Weights", "Shares", "Contributions", "Chained level")

AFTER_BREAK = 5
"""The style of a level after a break, with a line to its left."""


def column(number: int) -> str:
    """The letters of a column: `A` for 0, `Z` for 25, `AA` for 26."""
    return (column(number // 26 - 1) if number > 25 else "") + chr(ord("A") + number % 26)


def sheet_cells(known: Figures, figure: str) -> Iterator[tuple[str, str]]:
    """Place and text of each cell of a sheet of figures, below the months and next to codes and titles."""
    for at, head in enumerate(["Code", "Title", *known.months]):
        yield f"{column(at)}1", head
    for row, (code, lines) in enumerate(known.lines.items(), 2):
        yield f"A{row}", code
        yield f"B{row}", known.titles[code]
        for at, month in enumerate(known.months, 2):
            value = sheet_value(known, figure, code, month, lines.get(month))
            if value:
                yield f"{column(at)}{row}", value


def break_cells(known: Figures) -> Iterator[str]:
    """The places of the levels after a break."""
    for row, lines in enumerate(known.lines.values(), 2):
        for at, month in enumerate(known.months, 2):
            if month in lines and lines[month].is_break:
                yield f"{column(at)}{row}"


def sheet_value(known: Figures, figure: str, code: str, month: str, line: Optional[Line]) -> str:
    """A figure of a sheet; the contribution of an item that left to the annual change is given without a level."""
    if figure == "Contributions":
        return "" if code == ALL else text(known.given(month, code, ALL).to_year, 6)
    if not line:
        return ""
    if figure in CHANGES:
        return text(known.changes(code, month)[CHANGES.index(figure)], 1)
    if figure == "Weights":
        return str(line.weight)
    if figure == "Shares":
        return text(per_mille(known, line, month), 6)
    return text(known.shown(code, line.base, line.level) if figure == "Index" else line.level, 6)


def workbook_faults(site: Path, known: Figures, sheets: Iterable[str] = SHEETS) -> Iterator[str]:
    """The faults of some sheets of figures, and of the marks of breaks."""
    all_cells = read_sheets(site / "data/cpi.xlsx")
    for name in sheets:
        wrote = {place: value for place, (value, _) in all_cells[name].items()}
        yield from apart(f"cpi.xlsx, {name}", wrote, {place: value for place, value in sheet_cells(known, name)})
        marked = {place for place, (_, style) in all_cells[name].items() if style == AFTER_BREAK}
        if name in ("Index", "Chained level") and marked != {*break_cells(known)}:
            yield f"cpi.xlsx, {name}: {sorted(marked)} are marked, wanted {sorted(break_cells(known))}"

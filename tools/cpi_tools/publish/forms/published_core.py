"""The core measures of a pack: as cubes of their own, and whether those that were published before stay."""

from __future__ import annotations

import csv
import json
from collections.abc import Iterator, Mapping, Sequence
from pathlib import Path
from typing import Any, NamedTuple, Optional

from ...office.public import MONTH
from ...office.tables import CoreMeasure, CoreRow, Series, Table, iso
from ...text.languages import Speech, mark_text
from ...text.terminal import Fault
from ..figures.aggregated import CoreComputed, by_moment, measures_of, published_again
from ..figures.announcements import Reasons, definition_of
from ..figures.config import JSON_STAT, PX, Config
from ..figures.figures import Known
from ..figures.specials import FROM, ID, CoreDefinition
from .artefacts import Tongue, first_of, others_of
from .cubes import BREAK, NONE, PERCENT, PROVISIONAL, REVISABLE, in_languages, list_texts, moment_of, quote
from .manifest import Manifest, SetSum, core_sum
from .pack_before import read_told
from .published_sets import latest_of, line_with
from .sdmx import open_text
from .tidy import HEAD, write_rows


# ==== analytical core inflation as cubes of their own, JSON-stat 2.0 and PX, and as rows of a sheet of the workbook
#
# Each cube contains the measures, the changes from which they are computed (monthly and annual), and months. Figures
# are in percent with one decimal. In JSON-stat a figure has `b` in the January from which its measure changes, and `p`
# in a month that can still be revised; PX says both in notes.

JSON_NAME, PX_NAME = "core.jsonstat.json", "core.px"

MONTHLY, ANNUAL = "monthly", "annual"
CHANGES = {
    MONTHLY: mark_text("From the monthly changes"),
    ANNUAL: mark_text("From the annual changes"),
}
"""The changes of elementary aggregates that a figure is computed from."""

NAME = mark_text("Analytical core inflation")
ABOUT = mark_text(
    "Computed from published tables: from the changes in elementary aggregates before rounding, and from the weights"
    " in use."
)
OTHER = mark_text("Break: the measure changes from this month on")


def write_core_cubes(known: Known, config: Config, folder: Path) -> None:
    """Writes both files, if the office has such measures and such forms."""
    if not known.series.core:
        return
    if config.has(JSON_STAT):
        with open_text(folder / JSON_NAME) as file:
            file.write(json.dumps(_json_stat(known, config), ensure_ascii=False, indent=1) + "\n")
    if config.has(PX):
        with open_text(folder / PX_NAME) as file:
            file.writelines(f"{keyword}={value};\n" for keyword, value in _keywords(known, config))
            file.write("DATA=\n")
            for _, _, texts in cells_of(known.series):
                file.write(" ".join(text or NONE for text in texts) + "\n")
            file.write(";\n")


def cells_of(series: Series) -> Iterator[tuple[str, str, list[str]]]:
    """By measure and change, the figures of all months; empty texts if there is none."""
    for name, measure in series.core.items():
        for at, change in enumerate(CHANGES):
            yield name, change, [
                measure.rows[month].texts[at] if month in measure.rows else "" for month in series.months
            ]


def title_of(tongue: Tongue, name: str, measure: CoreMeasure) -> str:
    """The title of a measure in a language; the title in the office's file, if the language has none."""
    return tongue.titles.get(name, measure.title)


# ---- JSON-stat


def _json_stat(known: Known, config: Config) -> dict[str, Any]:
    series, first = known.series, first_of(config)
    cells = [*cells_of(series)]
    others = {tongue.tag: _spoken(known, tongue) for tongue in others_of(config)}
    return {
        "version": "2.0",
        "class": "dataset",
        **_spoken(known, first),
        "updated": iso(series.moment),
        "id": ["measure", "change", "month"],
        "size": [len(series.core), len(CHANGES), len(series.months)],
        "role": {"time": ["month"]},
        "extension": {
            "status": {"label": {BREAK: first.speech.t(OTHER), PROVISIONAL: first.speech.t(REVISABLE)}},
            **({"languages": others} if others else {}),
        },
        "status": _statuses(known, cells),
        "value": [float(text) if text else None for _, _, texts in cells for text in texts],
    }


def _statuses(known: Known, cells: list[tuple[str, str, list[str]]]) -> dict[str, str]:
    """The statuses by the places of figures, counted from 0."""
    series, statuses = known.series, dict[str, str]()
    for at, (name, _, texts) in enumerate(cells):
        for place, (month, text) in enumerate(zip(series.months, texts), at * len(series.months)):
            status = BREAK if month in series.core[name].changes else ""
            status += PROVISIONAL if month in known.shown.provisional else ""
            if text and status:
                statuses[str(place)] = status
    return statuses


def _spoken(known: Known, tongue: Tongue) -> dict[str, Any]:
    """The texts of the dataset in a language."""
    series, t = known.series, tongue.speech.t
    titles = {name: title_of(tongue, name, measure) for name, measure in series.core.items()}
    unit = {"label": t(PERCENT), "decimals": 1}
    measure = {"index": [*titles], "label": titles, "unit": {name: unit for name in titles}}
    change = {"index": [*CHANGES], "label": {name: t(text) for name, text in CHANGES.items()}}
    return {
        "label": t("{title}: analytical core inflation", title=tongue.config.title),
        "source": tongue.config.office,
        "note": [t(ABOUT)],
        "dimension": {
            "measure": {"label": t("Measure"), "category": measure},
            "change": {"label": t("Change"), "category": change},
            "month": {"label": t("Month"), "category": {"index": series.months}},
        },
    }


# ---- PX


def _keywords(known: Known, config: Config) -> Iterator[tuple[str, str]]:
    """The keywords before the data, in the order that the format asks for."""
    first, others = first_of(config), others_of(config)
    moment = moment_of(known.series.moment)
    yield "CHARSET", '"ANSI"'
    yield "AXIS-VERSION", '"2013"'
    yield "CODEPAGE", '"utf-8"'
    yield "LANGUAGE", quote(first.tag)
    if others:
        yield "LANGUAGES", ",".join(quote(tongue.tag) for tongue in (first, *others))
    yield "CREATION-DATE", f'"{moment}"'
    yield "DECIMALS", "1"
    yield "SHOWDECIMALS", "1"
    yield "MATRIX", '"CORE"'
    yield "AGGREGALLOWED", "NO"
    yield "SUBJECT-CODE", '"CPI"'
    yield from in_languages((first, *others), lambda tongue: _in_language(known, tongue, moment))


def _in_language(known: Known, tongue: Tongue, moment: str) -> Iterator[tuple[str, str]]:
    """The keywords with texts, or with the names of variables, in a language."""
    series, t, speech = known.series, tongue.speech.t, tongue.speech
    measure, change, month = (quote(t(name)) for name in ("Measure", "Change", "Month"))
    titles = {name: f"{name} {title_of(tongue, name, measure)}" for name, measure in series.core.items()}
    yield "SUBJECT-AREA", quote(tongue.config.title)
    yield "TITLE", quote(t("{title}: analytical core inflation", title=tongue.config.title))
    yield "CONTENTS", quote(t(NAME))
    yield "UNITS", quote(t(PERCENT))
    yield "STUB", f"{measure},{change}"
    yield "HEADING", month
    yield f"VALUES({measure})", list_texts(titles.values())
    yield f"VALUES({change})", list_texts(map(t, CHANGES.values()))
    yield f"VALUES({month})", list_texts(map(speech.month, series.months))
    yield f"TIMEVAL({month})", "TLIST(M1),\n" + list_texts(each.replace("-", "") for each in series.months)
    yield f"CODES({measure})", list_texts(titles)
    yield f"CODES({change})", list_texts(CHANGES)
    yield f"CODES({month})", list_texts(each.replace("-", "M") for each in series.months)
    yield "LAST-UPDATED", f'"{moment}"'
    if tongue.config.contact:
        yield "CONTACT", quote(tongue.config.contact)
    yield "SOURCE", quote(tongue.config.office)
    yield "NOTE", quote(t(ABOUT))
    yield from _notes(known, speech, titles, measure, month)


def _notes(known: Known, speech: Speech, titles: dict[str, str], measure: str, month: str) -> Iterator[tuple[str, str]]:
    """The notes about provisional months, and about measures that change from a month on."""
    for each in known.series.months:
        if each in known.shown.provisional:
            yield f"VALUENOTE({month},{quote(speech.month(each))})", quote(speech.t(REVISABLE))
    for name, own in known.series.core.items():
        if own.changes:
            months = speech.row([speech.month(each) for each in own.changes])
            says = speech.t("Break: the measure changes in {months}", months=months)
            yield f"VALUENOTE({measure},{quote(titles[name])})", quote(says)


# ==== the core measures of a pack that was written before: whether their figures stay, and those that a later
# publication changed
#
# `data/core.csv` has all figures of all months. They are computed once more from the tables of that pack and by the
# office's definitions now: another figure, or none, is what the office's file changed. What was published stays in
# `vintages.csv`.

CORE = "core.csv"
CORE_HEAD = ("month", "revision", "published", "id", "title", "measure", "monthly", "annual", "break")
"""The columns of the file. `monthly` and `annual` are computed from monthly and annual changes; `break` is 1 in the
January from which the measure changes."""

Cells = dict[str, str]
"""A row of a file, by the names of its columns."""


class NoCoreFile(Fault):
    """A file of core measures that can't be read; one line."""


class OtherCore(Fault):
    """Published figures of core measures that would change now; one line."""


class KeptCore(NamedTuple):
    """The core measures of a pack: the rows of its file by id and month, their lines in `vintages.csv`, and which
    definition holds by the reasons that it has."""

    rows: Mapping[str, Mapping[str, Cells]] = {}
    vintages: Mapping[str, Mapping[str, Sequence[Cells]]] = {}
    definitions: Mapping[str, int] = {}


NO_CORE = KeptCore()


def kept_core(pack: Path) -> KeptCore:
    """The core measures of a folder. Raises NoCoreFile or BadReasons."""
    path = pack / "data" / CORE
    if not path.is_file():
        return NO_CORE
    rows = _by_id(path, "id", CORE_HEAD)
    reasons, superseded = read_told(pack), _by_id(pack / "data" / "vintages.csv", "code", HEAD)
    first = {name: {month: lines[-1] for month, lines in months.items()} for name, months in rows.items()}
    return KeptCore(first, superseded, {name: definition_of(name, reasons) for name in rows})


def _by_id(path: Path, column: str, head: Sequence[str]) -> dict[str, dict[str, list[Cells]]]:
    """The rows of a file with some columns that have an id in one of them, by that and by month."""
    rows: dict[str, dict[str, list[Cells]]] = {}
    try:
        with path.open(encoding="utf-8", newline="") as file:
            for row in csv.DictReader(file, strict=True):
                if [*row] != [*head]:
                    raise ValueError(f"its columns are {', '.join(map(str, row))}")
                if ID.fullmatch(row[column]) and MONTH.fullmatch(row["month"]):
                    rows.setdefault(row[column], {}).setdefault(row["month"], []).append(row)
    except (OSError, KeyError, ValueError, TypeError, csv.Error) as fault:
        raise NoCoreFile(f"{path} can't be read: {' '.join(str(fault).split())}") from fault
    return rows


# ---- whether figures stay


def refuse_changed_core(
    before: Manifest, series: Series, definitions: Sequence[CoreDefinition], given: Reasons, kept: KeptCore
) -> None:
    """Raises OtherCore if figures of a measure changed, or are gone, to which the office gave no further definition since.
    `before` is the manifest of the pack that `kept` is of."""
    names = dict.fromkeys([*before.core, *kept.rows])
    rows = _rows_by(definitions, latest_of(before, series)) if names else {}
    for name in names:
        says = _find_change(name, before.core.get(name), kept.rows.get(name, {}), rows.get(name, {}), series)
        definition = kept.definitions.get(name, 1)
        if says and definition_of(name, given) <= definition:
            raise OtherCore(
                f"{says}: a row of `core` with a January in its column `{FROM}` dates another definition, or ends the"
                f" measure; one that holds for all months needs its reason in `revisions` ({name},{definition + 1},..)"
            )


def _rows_by(definitions: Sequence[CoreDefinition], tables: Mapping[str, Table]) -> dict[str, dict[str, CoreRow]]:
    """The figures of all measures by some tables, by id and month."""
    measures, computed = measures_of(definitions), CoreComputed(tables)
    rows: dict[str, dict[str, CoreRow]] = {}
    for month in sorted(tables):
        for name, row in computed.rows(measures, month).items() if tables[month].rows else ():
            rows.setdefault(name, {})[month] = row
    return rows


def _find_change(
    name: str, known: Optional[SetSum], file: Mapping[str, Cells], rows: Mapping[str, CoreRow], series: Series
) -> str:
    """The sentence about the first figure of a measure that differs; empty if all are the published ones."""
    if known and core_sum(rows) == known:
        return ""
    for month, cells in sorted(file.items()):
        row = rows.get(month)
        now = ("", "") if row is None else row.texts
        for of, then, figure in zip(("monthly", "annual"), (cells["monthly"], cells["annual"]), now):
            if then != figure:
                was, is_now = (f"{of} {text}" if text else f"no {of} figure" for text in (then, figure))
                return f"{name}, {month}: {was} was published, and {is_now} is computed now"
    return f"{name}, {known.first} to {known.last}: its figures aren't those that were published" if known else ""


# ---- the file, and what is superseded


def write_core(series: Series, folder: Path) -> None:
    """Writes the figures of all months into the folder `data`, if the office has such measures."""
    if series.core:
        write_rows(folder / CORE, CORE_HEAD, _rows(series))


def _rows(series: Series) -> Iterator[Sequence[object]]:
    for month in series.every:
        table = series.latest[month]
        for name, measure in series.core.items():
            if month in measure.rows:
                named = month, table.revision, iso(table.moment), name, measure.title, measure.measures[month]
                yield (*named, *measure.rows[month].texts, int(month in measure.changes))


def core_lines(
    series: Series, definitions: Sequence[CoreDefinition], given: Reasons, kept: KeptCore
) -> dict[str, list[str]]:
    """By month the lines of measures in `vintages.csv`, in the order of ids and of publications."""
    by_month: dict[str, list[str]] = {}
    computed = _vintages(series, definitions) if series.core else {}
    for name in sorted(series.core):
        moments = [reason.moment for of, reasons in given.items() if of[0] == name for reason in reasons]
        if definition_of(name, given) > 1:
            rows = _of_redefined(series, name, max(moments), kept)
        else:
            rows = (each for each in computed.get(name, {}).values())
        for cells in (line for lines in rows for line in lines):
            by_month.setdefault(str(cells[0]), []).append(line_with(cells))
    return by_month


def _cells(series: Series, name: str, table: Table, moment: int, row: Optional[CoreRow]) -> Sequence[object]:
    """A line with the columns of HEAD; without figures if there are no longer any."""
    texts = ("", "") if row is None else row.texts
    named = table.month, table.revision, iso(moment), name, "", series.core[name].title
    return (*named, "", "", "", *texts, *[""] * (len(HEAD) - 11))


def _vintages(series: Series, definitions: Sequence[CoreDefinition]) -> dict[str, dict[str, list[Sequence[object]]]]:
    """By id and month the lines of figures that a later table changed, as each publication had them."""
    measures, again = measures_of(definitions), published_again(series)
    known: dict[tuple[str, str], list[CoreRow]] = {}
    lines: dict[str, dict[str, list[Sequence[object]]]] = {}
    latest: dict[str, Table] = {}
    for moment, tables in by_moment(series):
        first = min(table.month for table in tables)
        for table in tables:
            if table.month not in latest or latest[table.month].revision < table.revision:
                latest[table.month] = table
        computed = CoreComputed(latest)
        for month in (revised for revised in again if first <= revised and revised in latest and latest[revised].rows):
            for name, row in computed.rows(measures, month).items():
                rows = known.setdefault((name, month), [])
                if name in series.core and (not rows or rows[-1] != row):
                    rows.append(row)
                    cells = _cells(series, name, latest[month], moment, row)
                    lines.setdefault(name, {}).setdefault(month, []).append(cells)
    return {name: {month: own for month, own in months.items() if len(own) > 1} for name, months in lines.items()}


def _of_redefined(series: Series, name: str, moment: int, kept: KeptCore) -> Iterator[list[Sequence[object]]]:
    """The lines of a measure that got another definition: the superseded ones of the previous pack, its own figures
    that differ now, and the figures that replace them. `moment` is that of the office's last reason."""
    earlier, rows = kept.vintages.get(name, {}), kept.rows.get(name, {})
    for month in sorted({*earlier, *rows}):
        lines, cells, table = earlier.get(month, []), rows.get(month), series.latest[month]
        superseded: list[Sequence[object]] = [[line[column] for column in HEAD] for line in lines]
        now = series.core[name].rows.get(month)
        if cells and (now is None or now.texts != (cells["monthly"], cells["annual"])):
            then = [cells[column] for column in ("month", "revision", "published", "id")]
            then += ["", cells["title"], "", "", "", cells["monthly"], cells["annual"], *[""] * (len(HEAD) - 11)]
            if not superseded or [*superseded[-1]][9:11] != then[9:11]:
                superseded.append(then)
            superseded.append(_cells(series, name, table, max(table.moment, moment), now))
        yield superseded

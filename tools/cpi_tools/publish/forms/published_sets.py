"""The special aggregates and the adjusted series of a pack that was written before, and whether their figures stay."""

from __future__ import annotations

import csv
import io
from collections.abc import Iterator, Mapping, Sequence
from pathlib import Path
from typing import NamedTuple, Optional

from ...office.public import MONTH
from ...office.tables import Row, Series, Table, before, iso
from ...text import text_files
from ...text.exact import points
from ...text.terminal import Fault
from ..figures.aggregated import Computed, Vintage, vintages_of
from ..figures.announcements import SEASONAL, Reasons, definition_of
from ..figures.specials import FROM, ID
from .manifest import Manifest, SetSum, set_sum
from .pack_before import read_told
from .tidy import HEAD, figure_row, write_rows


# ==== seasonally adjusted figures as files of the pack, and whether those that a pack published before stay
#
# `data/seasonal.csv` has the figures of now. Each time that a series is adjusted, figures of the last months change: so
# many as the window of the series says may do so without a word once a later table is out. If another figure changes,
# or one is gone, `publish` refuses that, or has the office's reason. What was published before is in
# `data/seasonal-vintages.csv`, with the moments at which it was published and superseded; only packs know it, so each
# pack takes it from the one before.

SEASONAL_FILE, VINTAGES = "seasonal.csv", "seasonal-vintages.csv"
MADE_BY = ("method", "software", "version", "settings", "window")
SEASONAL_HEAD = ("month", "published", "code", "title", "index", "adjusted", "month_change", *MADE_BY)
"""The columns of figures; `index` is the level that was adjusted."""

VINTAGES_HEAD = (*SEASONAL_HEAD[:2], "superseded", *SEASONAL_HEAD[2:])
"""The columns of figures that were published before."""

Cells = Mapping[str, str]
"""A row of a file by the names of its columns."""


class OtherSeasonal(Fault):
    """Published adjusted figures that would change now, or a file of them that can't be read; one line."""


class KeptSeasonal(NamedTuple):
    """The adjusted series of a pack: its figures by code and month, the figures that they superseded, how many
    reasons for changed figures the office has given, plus 1, and the moment of its last table."""

    rows: Mapping[tuple[str, str], Cells] = {}
    vintages: Sequence[Cells] = ()
    corrections: int = 1
    moment: str = ""

    @property
    def is_there(self) -> bool:
        """Whether it contains any figures, current or superseded ones."""
        return bool(self.rows or self.vintages)


NO_SEASONAL = KeptSeasonal()


def kept_seasonal(pack: Path, manifest: Manifest) -> KeptSeasonal:
    """The adjusted figures of a pack. Raises OtherSeasonal or BadReasons if a file of it can't be read."""
    path = pack / "data" / SEASONAL_FILE
    if manifest.seasonal and not path.is_file():
        raise OtherSeasonal(
            f"{path} isn't there, and its manifest names adjusted series: --previous names a whole pack"
        )
    rows = {(row["code"], row["month"]): row for row in _read_rows(path, SEASONAL_HEAD)}
    superseded = _read_rows(pack / "data" / VINTAGES, VINTAGES_HEAD)
    last = max((published for published, _ in manifest.tables.values()), default="")
    return KeptSeasonal(rows, superseded, definition_of(SEASONAL, read_told(pack)), last)


def _read_rows(path: Path, head: Sequence[str]) -> list[Cells]:
    """The rows of a file with some columns; none if it doesn't exist. Raises OtherSeasonal."""
    if not path.is_file():
        return []
    try:
        with path.open(encoding="utf-8", newline="") as file:
            reader = csv.DictReader(file, strict=True)
            if tuple(reader.fieldnames or ()) != tuple(head):
                raise ValueError(f"its columns are {', '.join(reader.fieldnames or ())}")
            rows: list[Cells] = [*reader]
        for row in rows:
            int(row["window"])
    except (OSError, ValueError, TypeError, csv.Error) as fault:
        raise OtherSeasonal(f"{path} can't be read: {' '.join(str(fault).split())}") from fault
    return rows


# ---- whether figures stay


def refuse_changed_seasonal(series: Series, given: Reasons, kept: KeptSeasonal) -> None:
    """Raises OtherSeasonal if a figure of a pack changed without a reason that it needs, or is gone."""
    if definition_of(SEASONAL, given) > kept.corrections:
        return
    last = {code: kept.rows[code, month] for code, month in sorted(kept.rows)}
    for (code, month), then in kept.rows.items():
        now = _texts(series, code, month)
        if now != (then["adjusted"], then["month_change"]):
            why = _why(month, now, last[code], is_later=kept.moment < iso(series.moment))
            if why:
                is_now = f"{now[0]} is given now" if now else "no figure is given now"
                raise OtherSeasonal(
                    f"{code}, {month}: {then['adjusted']} was published as adjusted, and {is_now}: {why}; put it back, or"
                    f" say why in `revisions` ({SEASONAL},{kept.corrections + 1},..)"
                )


def _texts(series: Series, code: str, month: str) -> Optional[tuple[str, str]]:
    """An adjusted figure and its change as texts; None if there are none."""
    it = series.seasonal.get(code)
    row = it.rows.get(month) if it else None
    return row.texts if row else None


def _why(month: str, now: Optional[tuple[str, str]], last: Cells, is_later: bool) -> str:
    """The reason why a published figure of a month can't change; empty if it can. `last` is the row of the last
    month that was published."""
    if now is None:
        return "a published figure stays"
    if not is_later:
        return "no later table is out"
    window = int(last["window"])
    if month <= before(last["month"], window):
        return f"it isn't of the last {window} months, which was the window"
    return ""


# ---- the files


def _moment(series: Series, given: Reasons) -> str:
    """The publication time of current figures: the moment of the last table, or of the office's last reason if that
    is later."""
    return iso(max([series.moment, *(it.moment for of, its in given.items() if of[0] == SEASONAL for it in its)]))


def write_seasonal(series: Series, folder: Path, given: Reasons, kept: KeptSeasonal) -> None:
    """Writes the figures, and those that they superseded, into the folder `data`, if there are any."""
    moment = _moment(series, given)
    if series.seasonal:
        write_rows(folder / SEASONAL_FILE, SEASONAL_HEAD, _rows(series, kept, moment))
    superseded = [*_list_superseded(series, kept, moment)]
    if superseded:
        write_rows(folder / VINTAGES, VINTAGES_HEAD, superseded)


def _rows(series: Series, kept: KeptSeasonal, moment: str) -> Iterator[Sequence[str]]:
    """The rows of all months. Of a figure that a pack has, that says when it was published, and what made it then."""
    for code, it in series.seasonal.items():
        for month, row in it.rows.items():
            then = kept.rows.get((code, month))
            if then and (then["adjusted"], then["month_change"]) == row.texts:
                published, made_by = then["published"], tuple(then[name] for name in MADE_BY)
            else:
                published, made_by = moment, it.made_by
            yield month, published, code, it.title, points(row.level), *row.texts, *made_by


def _list_superseded(series: Series, kept: KeptSeasonal, moment: str) -> Iterator[Sequence[str]]:
    """The rows that packs superseded, and the rows of the last pack that differ now."""
    for row in kept.vintages:
        yield [row[name] for name in VINTAGES_HEAD]
    for (code, month), then in kept.rows.items():
        if _texts(series, code, month) != (then["adjusted"], then["month_change"]):
            yield [then[name] if name != "superseded" else moment for name in VINTAGES_HEAD]


# ==== the special aggregates of a pack that was written before, and whether their figures stay
#
# A set's figure is what the office says belongs to it, over tables that are published. So the figures of a pack are
# computed once more, from its tables and by what belongs to the sets now: another figure, or none, is what the office's
# file changed.

FIGURES = ("weight", "index", "chained", "month_change", "year_change", "imputed")
"""The columns of a set's file that tables and the office's choice make."""


class NoSetFile(Fault):
    """The file of a set that can't be read; one line."""


class OtherSets(Fault):
    """Published figures of sets that would change now; one line."""


class SetRow(NamedTuple):
    """A published figure of a set: the row of its file, and its figures in the order of FIGURES."""

    cells: dict[str, str]
    figures: tuple[str, ...]


SetRows = dict[str, dict[str, SetRow]]
"""By id and month."""


def read_sets(pack: Path) -> SetRows:
    """The figures of all sets of a pack, by the files of its folder `node`. Raises NoSetFile."""
    return {path.stem: _read(path) for path in sorted((pack / "node").glob("[A-Z]*.csv")) if ID.fullmatch(path.stem)}


def _read(path: Path) -> dict[str, SetRow]:
    try:
        with path.open(encoding="utf-8", newline="") as file:
            rows = [*csv.DictReader(file, strict=True)]
        set_rows = {row["month"]: SetRow(row, tuple(row[name] for name in FIGURES)) for row in rows}
    except (OSError, KeyError, ValueError, csv.Error) as fault:
        raise NoSetFile(f"{path} can't be read: {' '.join(str(fault).split())}") from fault
    if not all(MONTH.fullmatch(month) for month in set_rows):
        raise NoSetFile(f"{path} isn't the file of a special aggregate")
    return set_rows


class KeptSets(NamedTuple):
    """The special aggregates of a pack: their figures, the lines of its `vintages.csv`, and which definition holds
    by the reasons that it has."""

    rows: SetRows = {}
    vintages: Mapping[str, Mapping[str, list[dict[str, str]]]] = {}
    definitions: Mapping[str, int] = {}


NO_SETS = KeptSets()


def kept_sets(pack: Path) -> KeptSets:
    """The special aggregates of a folder. Raises NoSetFile or BadReasons."""
    rows, reasons, path = read_sets(pack), read_told(pack), pack / "data" / "vintages.csv"
    definitions = {name: definition_of(name, reasons) for name in rows}
    # (the figures of an earlier definition are nowhere else)
    is_needed = any(definition > 1 for definition in definitions.values())
    return KeptSets(rows, _vintages(path) if is_needed or path.is_file() else {}, definitions)


def _vintages(path: Path) -> dict[str, dict[str, list[dict[str, str]]]]:
    """The lines of sets in a file of superseded figures, by id and month."""
    vintages: dict[str, dict[str, list[dict[str, str]]]] = {}
    try:
        with path.open(encoding="utf-8", newline="") as file:
            for row in csv.DictReader(file, strict=True):
                if ID.fullmatch(row["code"]):
                    vintages.setdefault(row["code"], {}).setdefault(row["month"], []).append(row)
    except (OSError, KeyError, ValueError, csv.Error) as fault:
        raise NoSetFile(f"{path} can't be read: {' '.join(str(fault).split())}") from fault
    return vintages


class Changed(NamedTuple):
    """The first figure of a set that isn't the published one: its month, or months; the figure then, and now; empty if
    there is none, or if it isn't known."""

    id: str
    month: str
    then: str
    now: str

    @property
    def text(self) -> str:
        """The sentence about the difference."""
        if not self.then:
            return f"{self.id}, {self.month}: its figures aren't those that were published"
        return f"{self.id}, {self.month}: {self.then} was published, and {self.now or 'no figure'} is computed now"


def changed_sets(before: Manifest, series: Series, kept: KeptSets) -> list[Changed]:
    """The first changed figure of each set in the pack of this manifest, whose sets are kept, or only named by the
    manifest."""
    then = latest_of(before, series)
    names = dict.fromkeys([*before.sets, *kept.rows])
    changes = (_find_change(name, before.sets.get(name), kept.rows.get(name, {}), series, then) for name in names)
    return [change for change in changes if change]


def refuse_changed(changes: list[Changed], given: Reasons, before: KeptSets) -> None:
    """Raises OtherSets if figures of a set changed to which the office has given no further definition since."""
    for change in changes:
        definition = before.definitions.get(change.id, 1)
        if definition_of(change.id, given) <= definition:
            raise OtherSets(
                f"{change.text}: a row of `aggregates` with a January in its column `{FROM}` dates another definition, or ends"
                f" the set; one that holds for all months needs its reason in `revisions` ({change.id},{definition + 1},..)"
            )


def latest_of(before: Manifest, series: Series) -> Mapping[str, Table]:
    """The tables of an earlier pack, the latest revision of each month."""
    return {vintage.month: vintage for vintage in series.vintages if (vintage.month, vintage.revision) in before.tables}


def _find_change(
    name: str, known: Optional[SetSum], file: Mapping[str, SetRow], series: Series, tables: Mapping[str, Table]
) -> Optional[Changed]:
    """The first changed figure of a set."""
    rows = rows_by(series, name, tables)
    if known and set_sum(rows, tables) == known:
        return None
    for month, it in sorted(file.items()):
        row = rows.get(month)
        if row is None or row.texts != it.figures:
            return Changed(name, month, *_differing(it.figures, row))
    return Changed(name, f"{known.first} to {known.last}", "", "") if known else None


def rows_by(series: Series, name: str, tables: Mapping[str, Table]) -> dict[str, Row]:
    """The rows of a set by other tables than the latest; by these, those that are known."""
    rows = series.specials.get(name)
    if rows is None:
        return {}
    if all(series.latest[month] is table for month, table in tables.items()):
        return {month: row for month, row in rows.rows.items() if month in tables}
    computed = Computed(name, rows.title, rows.members, tables)
    return {month: row for month in sorted(tables) if (row := computed.row(month))}


def _differing(then: tuple[str, ...], row: Optional[Row]) -> tuple[str, str]:
    """The level, or the first changed figure with the name of its column, before and now."""
    level = FIGURES.index("chained")
    if row is None or points(row.chained) != then[level]:
        return then[level], "" if row is None else points(row.chained)
    at = next(at for at, (one, other) in enumerate(zip(then, row.texts)) if one != other)
    return f"{FIGURES[at]} {then[at] or 'empty'}", f"{FIGURES[at]} {row.texts[at] or 'empty'}"


# ==== the lines of special aggregates in `vintages.csv`: their figures that a later publication changed, as each one
# had them
#
# What revisions of tables changed is computed from these tables. If the office gave a set another definition that holds
# for all months, the figures of the earlier one are those of the pack before, which has them from then on.

VintageRow = Sequence[object]
"""A row of the file, with the columns of HEAD."""


def set_lines(series: Series, given: Reasons, kept: KeptSets) -> dict[str, list[str]]:
    """By month the lines of all sets, in the order of ids and of publications; `given` are the reasons of the office, `kept`
    is what the pack before has."""
    computed, lines = vintages_of(series), dict[str, list[str]]()
    for name in sorted(series.specials):
        moments = [reason.moment for of, reasons in given.items() if of[0] == name for reason in reasons]
        if definition_of(name, given) > 1:
            rows = _of_redefined(series, name, max(moments), kept)
        else:
            rows = ((it.table.month, _cells(series, it)) for found in computed[name].values() for it in found)
        for month, cells in rows:
            lines.setdefault(month, []).append(line_with(cells))
    return lines


def line_with(cells: VintageRow) -> str:
    """A line of the file, with an apostrophe before what a spreadsheet would take for a formula if the office wants that."""
    text = io.StringIO()
    text_files.Writer(text).writerow(cells)
    return text.getvalue()


def _cells(series: Series, vintage: Vintage) -> VintageRow:
    """A figure as a publication had it."""
    cells = figure_row(series, vintage.table, vintage.row)
    return (*cells[:2], iso(vintage.moment), *cells[3:])


def _of_redefined(series: Series, name: str, moment: int, kept: KeptSets) -> Iterator[tuple[str, VintageRow]]:
    """The figures of a set that got another definition: the superseded ones of the previous pack, its own that
    differ now, and the ones that replace them. `moment` is that of the office's last reason."""
    earlier, rows = kept.vintages.get(name, {}), kept.rows.get(name, {})
    for month in sorted({*earlier, *rows}):
        lines, row, table = earlier.get(month, []), rows.get(month), series.latest[month]
        yield from ((month, [line[name] for name in HEAD]) for line in lines)
        now = series.specials[name].rows.get(month)
        if row and (now is None or now.texts != row.figures):
            if not lines or tuple(lines[-1][name] for name in FIGURES) != row.figures:
                yield month, [row.cells[name] for name in HEAD]
            published = iso(max(table.moment, moment))
            yield month, _now(series, month, published, name)


def _now(series: Series, month: str, published: str, name: str) -> VintageRow:
    """The current row of a figure; without figures if there are no longer any."""
    table, row = series.latest[month], series.specials[name].rows.get(month)
    if row is None:
        return [month, table.revision, published, name, "", series.specials[name].title, *[""] * (len(HEAD) - 6)]
    cells = figure_row(series, table, row)
    return (*cells[:2], published, *cells[3:])

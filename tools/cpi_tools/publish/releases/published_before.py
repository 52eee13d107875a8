"""What packs published before, and whether it stays: quality in figures, average prices, and the pages of releases."""

from __future__ import annotations

import csv
import re
from collections.abc import Collection, Iterable, Iterator, Mapping, Sequence
from pathlib import Path
from typing import NamedTuple, Optional

from ...office.price_rules import FEWEST_OUTLETS
from ...office.tables import Series
from ...text.terminal import Fault
from ..figures.announcements import QUALITY, Reasons, definition_of, page_of_release
from ..figures.config import Config
from ..figures.survey_rows import HEAD, SUPERSEDED, Average, BadAverages, find_current, read_averages
from ..forms.manifest import TableId
from ..forms.pack_before import read_told
from ..forms.site_texts import AVERAGE_PRICES
from ..forms.tidy import write_rows


# ==== quality figures that a pack published before, and whether they stay
#
# A figure of a release, such as how many of its prices came, is published once. If the figure differs or is missing
# now, the office's counts, its calendar or its configuration have changed: `publish` refuses that, or has the office's
# reason. With a reason the earlier figure stays in `quality.csv`, where its status is `superseded`, unless the office
# hides it now.

CSV = "quality.csv"
"""The file in the folder `data`."""

HIDDEN_FIGURE, SUPERSEDED_FIGURE = "hidden", "superseded"
"""The status of a hidden figure, and of a superseded one; otherwise the status is empty."""

LAST = "imputed_weight"
"""The indicator of the last table only, so a later pack no longer contains it for that release."""


class OtherQuality(Fault):
    """Published quality figures that would change now, or a file of them that can't be read; one line."""


class Figure(NamedTuple):
    """A row: `of` is the change that it is about, month and revision name its release, and code its division."""

    section: str
    indicator: str
    of: str
    month: str
    revision: str
    published: str
    code: str
    value: str
    unit: str
    status: str

    @property
    def key(self) -> tuple[str, ...]:
        """The key of the figure: all that identifies it."""
        return self.section, self.indicator, self.of, self.month, self.revision, self.code

    @property
    def text(self) -> str:
        """The figure in a message."""
        return "a hidden figure" if self.status == HIDDEN_FIGURE else self.value or "an empty figure"


class KeptQuality(NamedTuple):
    """The quality figures of a pack: its figures of releases, the figures that others superseded, and how many
    reasons for changed figures the office has given, plus 1."""

    folder: Path
    figures: Sequence[Figure] = ()
    superseded: Sequence[Figure] = ()
    corrections: int = 1

    @property
    def is_there(self) -> bool:
        """Whether the pack contains quality figures."""
        return (self.folder / "data" / CSV).is_file()


def kept_quality(pack: Path) -> KeptQuality:
    """The quality figures of a pack. Raises OtherQuality or BadReasons if a file of it can't be read."""
    kept = KeptQuality(pack)
    if not kept.is_there:
        return kept
    path = pack / "data" / CSV
    try:
        with path.open(encoding="utf-8", newline="") as file:
            rows = csv.reader(file, strict=True)
            if (head := tuple(next(rows, ()))) != Figure._fields:
                raise ValueError(f"its first row is {','.join(head)}")
            figures = [Figure(*row) for row in rows]
    except (OSError, TypeError, ValueError, csv.Error) as fault:
        raise OtherQuality(f"{path} can't be read: {' '.join(str(fault).split())}") from fault
    return kept._replace(
        figures=[figure for figure in figures if figure.month and figure.status != SUPERSEDED_FIGURE],
        superseded=[figure for figure in figures if figure.status == SUPERSEDED_FIGURE],
        corrections=definition_of(QUALITY, read_told(pack)),
    )


def superseded_by(figures: Iterable[Figure], packs: Iterable[KeptQuality], given: Reasons) -> list[Figure]:
    """The figures of packs that differ from the current ones, each once. Raises OtherQuality if the office gave no
    reason since the pack that has them."""
    now, found = {figure.key: figure for figure in figures}, dict[Figure, None]()
    for pack in packs:
        found.update(dict.fromkeys(pack.superseded))
        for then in _find_changes(pack, now):
            if definition_of(QUALITY, given) <= pack.corrections:
                raise OtherQuality(_refusal(then, now.get(then.key), pack.corrections + 1))
            if then.status != HIDDEN_FIGURE and not _is_hidden(now.get(then.key)):
                found[then._replace(status=SUPERSEDED_FIGURE)] = None
    return [*found]


def refuse_none(packs: Iterable[KeptQuality]) -> None:
    """Raises OtherQuality if a pack contains quality figures, and the new one won't."""
    for pack in packs:
        if pack.is_there:
            raise OtherQuality(f"{pack.folder} has quality in figures: `quality` has to stay in the configuration")


def _find_changes(pack: KeptQuality, now: Mapping[tuple[str, ...], Figure]) -> Iterator[Figure]:
    """The figures of a pack that differ now, or are missing."""
    for then in pack.figures:
        other = now.get(then.key)
        if then != other and not (other is None and then.indicator == LAST):
            yield then


def _is_hidden(now: Optional[Figure]) -> bool:
    return now is not None and now.status == HIDDEN_FIGURE


def _refusal(then: Figure, now: Optional[Figure], number: int) -> str:
    """The reason why a figure that differs from the published one is refused."""
    name = f"{then.indicator} of {then.month}, revision {then.revision}, {then.code}"
    return (
        f"{name}: {then.text} was published, and {now.text if now else 'no figure'} is made now: put back what it is made of"
        f" (the counts, the calendar, the configuration), or say why in `revisions` ({QUALITY},{number},..)"
    )


# ==== average prices in a pack: the file `average-prices.csv`, and whether what packs published before stays
#
# A published average stays, also if its month is revised: two averages of one month can tell a price. The file of the
# office has another one only with a reason. `publish` refuses one without, and one of a month that isn't published.


class OtherAverages(BadAverages):
    """Published averages that would change now; one line."""


class KeptAverages(NamedTuple):
    """The average prices of a pack, in its folder."""

    folder: Path
    rows: Sequence[Average] = ()


def read_kept_averages(pack: Path, digits: int) -> KeptAverages:
    """The average prices of a pack, for money with some decimals; none if the pack contains no such file. Raises
    BadAverages."""
    path = pack / "data" / AVERAGE_PRICES
    return KeptAverages(pack, read_averages(path, digits, FEWEST_OUTLETS) if path.is_file() else ())


def write_averages(series: Series, config: Config, folder: Path, packs: Iterable[KeptAverages]) -> None:
    """Writes the file into the folder `data` if the office names one. Raises OtherAverages if a published row
    differs or is missing now, or BadAverages if a row belongs to a release that isn't published."""
    for pack in packs:
        if pack.rows and not config.has_averages:
            raise OtherAverages(f"{pack.folder} has average prices: `average_prices` has to stay in the configuration")
        for then in find_changed_averages(pack.rows, config.averages):
            raise OtherAverages(_say_refusal(then, config))
    if not config.has_averages:
        return
    out = {(table.month, table.revision) for table in series.vintages if table.rows}
    for row in config.averages:
        if (row.month, row.revision) not in out:
            raise BadAverages(
                f"the average of {row.item} is of {row.month}, revision {row.revision}, which isn't published with a table:"
                " wanted a file that cpi-tools average-prices made of this office, at this moment or earlier"
            )
    write_rows(folder / AVERAGE_PRICES, HEAD, (row.texts(config.minor_digits) for row in config.averages))


def find_changed_averages(before: Sequence[Average], now: Sequence[Average]) -> Iterator[Average]:
    """The rows of a pack that differ now, or are missing, without a correction that the pack lacks."""
    known, its_now = {(*row.key, row.reason) for row in before}, find_current(now)
    earlier = {row.figures for row in now if row.status == SUPERSEDED}
    for then in sorted(before, key=lambda row: row.status == SUPERSEDED):
        its = its_now.get(then.key)
        if its is None:
            yield then
            continue
        is_superseded = then.status == SUPERSEDED
        # (a correction that hides a row leaves no earlier one, and there is none of a row that was hidden)
        is_kept = then.figures in earlier or its.mean is None or then.mean is None
        is_corrected = is_superseded or (its.reason != "" and (*its.key, its.reason) not in known)
        if (is_superseded or its.figures != then.figures) and not (is_corrected and is_kept):
            yield then


def _say_refusal(then: Average, config: Config) -> str:
    """The reason why a row that differs from the published one is refused."""
    now = None if then.status == SUPERSEDED else find_current(config.averages).get(then.key)
    none = "no such superseded row" if then.status == SUPERSEDED else "no row"
    says = [row.texts(config.minor_digits)[7] or "a hidden average" if row else none for row in (then, now)]
    return (
        f"the average of {then.item} in {then.month}: {says[0]} was published, and {says[1]} is in the file now: put the"
        " published file back, or give a correction with its reason to cpi-tools average-prices"
    )


# ==== The line that is printed if pages of earlier releases aren't what they were: they stay, but for a line that leads
# to a further revision and for reasons that the office adds. Another configuration, or another version of the tool, can
# change them.

MAIN = re.compile(rb"<main.*</main>", re.DOTALL)
"""The content of a page, without its head and its foot, which are those of all pages."""


def _main_of(page: Path) -> bytes:
    """The content of a page."""
    match = MAIN.search(page.read_bytes())
    return match[0] if match else b""


class Earlier(NamedTuple):
    """A pack that is replaced: its folder, its tables, and the releases that have a reason more now."""

    folder: Path
    tables: Mapping[TableId, object]
    reasoned: Collection[TableId]


def changed_pages(before: Earlier, new: Path, series: Series) -> list[str]:
    """The pages of releases that differ between a new pack and the one before, except pages that a further revision
    or a reason changes."""
    revised = {vintage.month for vintage in series.vintages if (vintage.month, vintage.revision) not in before.tables}
    stay = (table for table in sorted(before.tables) if table[0] not in revised and table not in before.reasoned)
    pages = (page_of_release(month, revision) for month, revision in stay)
    there = (page for page in pages if (before.folder / page).is_file())
    return [page for page in there if _main_of(before.folder / page) != _main_of(new / page)]

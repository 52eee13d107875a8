"""Reads an office's sheets, and puts their rows in the order in which an office would have sent them.

This module judges nothing: it passes texts unchanged to the program, and reports only the problems about which the
program can't be asked, such as a missing file, or a column from which no price is read.
"""

from __future__ import annotations

import itertools
import secrets
from array import array
from collections import Counter, defaultdict
from collections.abc import Callable, Collection, Iterable, Iterator, Mapping, Sequence
from dataclasses import dataclass, field
from fractions import Fraction
from typing import NamedTuple, Optional, Union

from ..text.message import Message, message, message_of, row as row_of, whole
from ..text.others import of_others
from .cells import BadSheet, Columns, Dated, MonthRead, Origin, Row, Sheet, SheetFault, cut
from .doubts import NO_DOUBTS, Doubts, doubts_of
from .known_rows import Known, Window
from .sheet_numbers import Differ, Numbers, Rule, month_of
from .record_rows import (
    DATES,
    DESK,
    FIELDS,
    MONTHS,
    MOVED,
    NEEDED,
    SHEETS,
    WINDOW,
    Bundle,
    KeptLines,
    Problem,
    Sent,
    SentRows,
    make_bundles,
    problem_of,
    slot_of,
)
from .plan_rows import PlanRows, Weighed
from .price_cells import NO_CODES, Place, PriceCells
from .price_store import PriceStore, Series
from .sheet_files import Sheets

LAST_TURN = 10
"""The revision after the last one, for quotes that no freeze took."""

Clock = Callable[[Iterable[str]], dict[str, int]]
"""Converts civil times to seconds since 1970 UTC; other texts aren't among them."""


class Options(NamedTuple):
    """The options for reading texts: minor units in a unit of the prices, the decimal sign, the unit of the weights
    (`ppm` aren't scaled), whether prices outside the tolerance are confirmed, the names of files, sheets and columns of
    prices that aren't read on purpose, in small letters; the values that mean a reason why there is no price, and the
    values that a person has declared to be prices; and the rule for several prices in a month."""

    minor: int = 1
    decimal: str = "."
    weights: str = "ppm"
    is_confirmed: bool = False
    ignored: frozenset[str] = frozenset()
    codes: Mapping[str, str] = NO_CODES
    priced: frozenset[Fraction] = frozenset()
    rule: Rule = Rule()


class Bundles:
    """The records to send, in their order, made anew whenever it is asked for; `most` is at least how many these
    are. `kept` has their lines once they were judged, if these are kept."""

    def __init__(self, make: Callable[[], Iterator[Bundle]], most: int):
        self._make, self.most = make, most
        self.kept: Optional[KeptLines] = None

    def __iter__(self) -> Iterator[Bundle]:
        return self._make()

    def lines(self) -> Iterator[str]:
        """The records as lines without their ends."""
        return iter(self.kept) if self.kept else (bundle.line() for bundle in self)


@dataclass
class Taken:
    """The contents of the files: the records to send, in their order; problems of the files themselves, and warnings
    for a reader; the months that were read from other spellings; drawn keys by the collector's number; scaled weights;
    the number of rows of each sheet that the office already has; the prices; and the values that might not be
    prices."""

    bundles: Bundles
    problems: list[Problem] = field(default_factory=list)
    warnings: list[SheetFault] = field(default_factory=list)
    readings: list[MonthRead] = field(default_factory=list)
    drawn: dict[str, str] = field(default_factory=dict)
    weighed: list[Weighed] = field(default_factory=list)
    passed_over: Counter[str] = field(default_factory=Counter)
    store: PriceStore = field(default_factory=PriceStore)
    doubts: Doubts = NO_DOUBTS


class OfficeFiles:
    """The sheets of an office, read once."""

    def __init__(self, source: Sheets, options: Options, known: Known, clock: Clock, is_new: bool):
        """`is_new` says that the office begins with these files, so that none of the needed ones may be missing."""
        self._source, self._options, self._known = source, options, known
        self._numbers = Numbers(options.decimal)
        self._store = PriceStore()
        self.taken = Taken(Bundles(self._bundles, 0), store=self._store)
        self._keys = dict(known.keys)
        self._sheets: dict[str, Optional[Sheet]] = {}
        for name in SHEETS:
            if name != "prices":
                self._sheets[name] = self._read(name, is_new)
        self._windows = self._calendar_rows()
        rows = [*self._windows.values(), *self._rows("releases")]
        self._seconds = clock({row[name] for row in rows for name in (*WINDOW, "frozen_at")})
        self._before: list[Bundle] = []

    def in_order(self) -> Taken:
        """All rows, as an office would have sent them."""
        before = self._before
        before += make_bundles(0, DESK, self._new("items", self._register("item", "items")))
        before += make_bundles(0, DESK, self._new("outlets", self._register("outlet", "outlets")))
        before += make_bundles(0, DESK, self._new("collectors", self._collectors()))
        slots = self._slots()
        before += make_bundles(0, DESK, self._assign(slots))
        before += self._plans()
        self._read_prices(slots)
        self.taken.problems += map(problem_of, self._source.unread)
        self._look_for_revisions()
        self._handed, self._releases = self._by_month("handovers"), self._by_month("releases")
        self._count_passed_over()
        months = {*self._windows, *self._store.months(), *self._handed, *self._releases}
        self._months = sorted(months)
        singles = sum(map(len, (self._rows("releases"), self._rows("handovers"), self._windows)))
        most = len(before) + 2 * singles + self._store.most_bundles()
        self.taken.bundles = Bundles(self._bundles, most)
        return self.taken

    def _bundles(self) -> Iterator[Bundle]:
        yield from self._before
        for month in self._months:
            yield from self._month(month, self._handed.get(month, []), self._releases.get(month, []))

    # ---- sheets

    def _read(self, name: str, is_new: bool) -> Optional[Sheet]:
        """A sheet with all its columns; its problems are reported."""
        try:
            sheet = self._source.sheet(name)
        except BadSheet as bad:
            self.taken.problems.append(problem_of(bad.fault))
            return None
        if sheet is None:
            faults = self._missing(name) if is_new else []
        else:
            faults = [*missing_columns(sheet, SHEETS[name].needed)]
            self.taken.problems += map(problem_of, sheet.faults)
            self.taken.warnings += [*sheet.warnings, *unread_columns(sheet, SHEETS[name])]
            self._read_months(sheet, MONTHS.get(name, ()))
            self._look_for_dates(sheet, {*SHEETS[name].needed, *SHEETS[name].others} - DATES)
        self.taken.problems += map(problem_of, faults)
        return None if faults else sheet

    def _missing(self, name: str) -> list[SheetFault]:
        """The problem of a needed sheet that is missing; places aren't needed if the items give their own codes."""
        items = self._sheets.get("items")
        if name not in NEEDED and (name != "places" or not items or "code" in items.columns):
            return []
        do = message("add it, with the columns {columns}", columns=row_of([*map(of_others, SHEETS[name].needed)]))
        file = f"{name}.csv"
        return [SheetFault(Origin(file, 0), message("the file {file} is missing", file=of_others(file)), do)]

    def _read_months(self, sheet: Sheet, columns: Collection[str]) -> None:
        """Reads the months of a sheet; other texts are left to the program, which refuses them."""
        found = {}
        for column in columns:
            for row in sheet.rows:
                text = row[column]
                month = month_of(text)
                if month and month != text:
                    row.cells[column] = month
                    found[column, text] = month
        self.taken.readings += [MonthRead(sheet.file, *it, month) for it, month in found.items()]

    def _look_for_dates(self, sheet: Sheet, columns: Collection[str]) -> None:
        """Reports cells that are dates in columns that accept none: a spreadsheet turns `SEP1` into a date."""
        for row in sheet.rows:
            for column in columns:
                cell = row[column]
                if isinstance(cell, Dated):
                    because = message(
                        "the cell contains the date {date}: a spreadsheet turns texts like {one} and {other} into"
                        " dates",
                        date=of_others(cell),
                        one=of_others("SEP1"),
                        other=of_others("1-2"),
                    )
                    do = message("format the column as text, and write the cell again")
                    self.taken.problems.append(problem_of(SheetFault(row.at(column), because, do)))

    def _rows(self, name: str) -> Sequence[Row]:
        sheet = self._sheets[name]
        return tuple(sheet.rows) if sheet else ()

    def _look_for_revisions(self) -> None:
        """Reports releases whose revision isn't valid."""
        for row in self._rows("releases"):
            text = row["revision"]
            if text and not is_revision(text):
                because = message('"{text}" isn\'t a revision', text=cut(text))
                do = message("write 1 to 9, or leave it empty")
                self.taken.problems.append(problem_of(SheetFault(row.at("revision"), because, do)))

    def _by_month(self, name: str) -> dict[str, list[Row]]:
        lists: dict[str, list[Row]] = defaultdict(list)
        for row in self._rows(name):
            lists[row["month"]].append(row)
        return lists

    def _calendar_rows(self) -> dict[str, Row]:
        """The calendar's row for each month; two rows that differ are a problem."""
        rows: dict[str, Row] = {}
        for row in self._rows("calendar"):
            above = rows.setdefault(row["month"], row)
            if above is not row:
                origin = row.at("month")
                named = {"row": above.origin.row, "month": of_others(row["month"])}
                if above.cells == row.cells:
                    because = message("row {row} also has the month {month}, with the same window", **named)
                    self.taken.warnings.append(SheetFault(origin, because, message("delete one of the two")))
                else:
                    because = message("row {row} also has the month {month}, but with another window", **named)
                    fault = SheetFault(origin, because, message("keep the one that applies"))
                    self.taken.problems.append(problem_of(fault))
        return rows

    # ---- what an office has already

    def _new(self, name: str, rows: Iterable[Sent]) -> Iterator[Sent]:
        """The rows that the office doesn't have yet; the others are counted."""
        for row in rows:
            if self._known.has(row):
                self.taken.passed_over[name] += 1
            else:
                yield row

    def _count_passed_over(self) -> None:
        """Counts the months' rows that the office already has."""
        count = self.taken.passed_over
        count["handovers"] = sum(map(self._known.has_handover, self._rows("handovers")))
        for own in self._releases.values():
            count["releases"] += sum(self._is_frozen(row, turn) for turn, row in by_revision(own))
        for month, row in self._windows.items():
            count["calendar"] += self._is_same(self._window(month, row), self._known.windows.get(month))

    def _is_frozen(self, release: Row, turn: int) -> bool:
        """Whether the office froze a release with the values in its row."""
        known = self._known.releases.get((release["month"], str(turn)))
        if known is None or {*release["carry"].split()} != known.carry:
            return False
        pairs = ((release[name], getattr(known, name)) for name in ("publishes", "frozen_at"))
        return all(not text or str(self._moment(text)) == stored for text, stored in pairs)

    # ---- what is registered

    def _register(self, word: str, name: str) -> Iterator[Sent]:
        columns = FIELDS[word]
        return (
            Sent([word, *(row[column] for column in columns)], row.origin, row.name_columns(columns))
            for row in self._rows(name)
        )

    def _collectors(self) -> Iterator[Sent]:
        """The collectors; a missing key is taken from the office, or drawn."""
        for row in self._rows("collectors"):
            number = row["collector"]
            key = row["key"] or self._known.keys.get(number, "")
            if not key:
                key = secrets.token_hex(16)
                self.taken.drawn.setdefault(number, key)
            self._keys.setdefault(number, key)
            yield Sent(["collector", number, key], row.origin, row.name_columns(FIELDS["collector"]))

    def _slots(self) -> list[str]:
        """The slot of each row of `series`: the given one, the slot that already has the same series, or the next free
        one."""
        named = {(row["collector"], row["slot"]) for row in self._rows("series")}
        named |= {(row["to"], row["to_slot"]) for row in self._rows("handovers")}
        named |= {(place.collector, place.slot) for place in self._known.places}
        standing: dict[tuple[str, ...], list[str]] = defaultdict(list)
        for place in sorted(
            {*self._known.places, *self._known.given}, key=lambda place: (place.collector, int(place.slot))
        ):
            standing[place.collector, place.outlet, place.item, place.first, place.last].append(place.slot)
        last: dict[str, int] = defaultdict(int)
        slots = []
        for row in self._rows("series"):
            collector = row["collector"]
            same = standing[tuple(row[it] for it in SHEETS["series"].needed)]
            if row["slot"] or same:
                slots.append(row["slot"] or same.pop(0))
                continue
            last[collector] += 1
            while (collector, str(last[collector])) in named:
                last[collector] += 1
            slots.append(str(last[collector]))
        return slots

    def _assign(self, slots: Sequence[str]) -> SentRows:
        """The series that the office doesn't have already; the others are counted."""
        rows = self._rows("series")

        def make(number: int) -> Sent:
            row, slot = rows[number], slots[number]
            fields = [slot if it == "slot" else row[it] for it in FIELDS["assign"]]
            columns = [it if it != "slot" or row["slot"] else "collector" for it in FIELDS["assign"]]
            return Sent(["assign", *fields], row.origin, row.name_columns(columns))

        new = array("L", (number for number in range(len(rows)) if not self._known.has(make(number))))
        self.taken.passed_over["series"] += len(rows) - len(new)
        return SentRows(new, make)

    def _plans(self) -> Iterator[Bundle]:
        """The plan of each year, except the plans that the office has."""
        rows = PlanRows(self._numbers, self._options.weights)
        places = self._rows("places") if self._sheets["places"] else None
        by_year = rows.by_year(self._rows("classification"), places, self._rows("items"), self._rows("plans"))
        self.taken.problems += map(problem_of, rows.faults)
        self.taken.warnings += rows.warnings
        self.taken.weighed += rows.weighed
        for year, own in by_year.items():
            if self._known.has_plan(year, own):
                self.taken.passed_over["plans"] += 1
            else:
                yield Bundle(0, DESK, own, year)

    # ---- prices

    def _read_prices(self, slots: Sequence[str]) -> None:
        """Stores the prices, and reports the problems of the sheet."""
        sheet, faults = None, []
        try:
            sheet = self._source.stream("prices")
            faults = self._store_prices(sheet, slots) if sheet else []
        except BadSheet as bad:
            faults = [bad.fault]
        if sheet:
            faults = [*sheet.faults, *faults]
            self.taken.warnings += sheet.warnings
        self.taken.problems += map(problem_of, faults)

    def _store_prices(self, sheet: Sheet, slots: Sequence[str]) -> list[SheetFault]:
        """Stores the prices of a sheet, except those that the office has; returns their problems."""
        options = self._options
        cells = PriceCells(sheet, SHEETS["prices"], self._numbers, options.minor, options.ignored, options.codes)
        cells.keeps_fractions = options.rule.is_any
        if missing := [*missing_columns(sheet, cells.needed)]:
            return [*cells.faults.all(), *missing]
        series = [
            Place(row["collector"], slot, *(row[text] for text in ("outlet", "item", "first", "last")))
            for row, slot in zip(self._rows("series"), slots)
        ]
        # (what was handed over since isn't the slot's any more, as long as it was given to it)
        series = [place for place in series if place not in self._known.given]
        handed = sorted(self._rows("handovers"), key=lambda row: row["month"])
        places = [*self._known.places, *series]
        cells.place(places, [row for row in handed if not self._known.has_handover(row)])
        store = self._store
        store.fill_rows(itertools.chain.from_iterable(cells.make_rows(store)))
        if options.rule.is_any:
            for origin, it in store.settle(options.rule):
                cells.faults.add(SheetFault(origin, told_marks(it), message("keep only the prices with one mark")))
        same = self._tell_repeated(cells)
        for month in store.months():
            self.taken.passed_over["prices"] += store.take_stored(self._known.prices_of(month))
        self._look_for_codes(cells)
        if not cells.count and not cells.faults.all():
            do = message("write its prices below the column names, or remove the sheet")
            cells.faults.add(SheetFault(cells.heading, message("the sheet contains no price"), do))
        self.taken.readings += [*cells.readings(), *self._source.readings]
        self.taken.warnings = [*cells.unmet_codes(), *self.taken.warnings, *same]
        return cells.faults.all()

    def _look_for_codes(self, cells: PriceCells) -> None:
        """Notes the values that might not be prices. A series of the office, or one that was handed over, has a last
        price, with which the program compares."""
        old = {(place.collector, place.slot) for place in (*self._known.places, *self._known.given)}
        old |= {(row["to"], row["to_slot"]) for row in self._rows("handovers")}
        codes = {row["item"]: row["code"] for row in self._rows("places")}
        codes.update({row["item"]: row["code"] for row in self._rows("items") if row["code"]})
        self._store.name_series(
            Series(*slot, it.item, codes.get(it.item, ""), slot not in old) for slot, it in cells.slots.items()
        )
        minor = self._options.minor
        priced = {int(value * minor) for value in self._options.priced}
        self.taken.doubts = doubts_of(self._store, minor, priced)

    def _tell_repeated(self, cells: PriceCells) -> list[SheetFault]:
        """Reports several rows for one series and month: each row that differs from the first, and the number of those
        that don't."""
        same: list[tuple[Origin, dict[str, object]]] = []
        count = 0
        for it in self._store.take_repeated():
            origin = it.origin
            named: dict[str, object] = {
                "slot": slot_of(it.collector, it.slot),
                "month": of_others(it.month),
                "row": it.first_row,
            }
            if it.first_file:
                named["row"] = of_others(f"{it.first_row} ({it.first_file})")
            if it.is_same:
                count += 1
                same = same or [(origin, named)]
            else:
                because = message(
                    'the price of slot {slot} in {month} is "{text}" here, but "{first}" in row {row}',
                    text=cut(it.text),
                    first=cut(it.first),
                    **named,
                )
                do = message("keep the correct one; a correction to a frozen month needs its revision")
                cells.faults.add(SheetFault(origin, because, do))
        return [SheetFault(origin, told_again(count, named), LEAVE_ONE) for origin, named in same]

    # ---- months

    def _month(self, month: str, handed: Sequence[Row], releases: Sequence[Row]) -> Iterator[Bundle]:
        """A month's windows, hand-overs, quotes and freezes, revision by revision, and then the later quotes."""
        new = [row for row in handed if not self._known.has_handover(row)]
        moved = make_bundles(0, DESK, (sent_handover(row) for row in new))
        own, now = self._windows.get(month), self._known.windows.get(month)
        first = 1
        for turn, release in by_revision(releases):
            window = self._window(month, release)
            quoted, first = (first, turn), turn + 1
            if self._is_frozen(release, turn):
                self._warn_of_late(month, *quoted)
                yield from self._bundle_quotes(window, month, *quoted)
                continue
            if not self._is_same(window, now):
                yield self._calendar(month, release, window)
                now = window
            yield from moved
            moved = []
            yield from self._bundle_quotes(window, month, *quoted)
            yield self._freeze(release, window)
        if own is not None and not self._is_same(self._window(month, own), now):
            now = self._window(month, own)
            yield self._calendar(month, own, now)
        yield from moved
        self._warn_of_late(month, first, self._known.revision_of(month))
        yield from self._bundle_quotes(now, month, first, LAST_TURN)

    def _warn_of_late(self, month: str, first: int, last: int) -> None:
        """Warns of prices that differ from those with which the office froze these revisions of a month."""
        late = self._store.late(month, first, last)
        if late is None:
            return
        because = message_of(
            "{month} is frozen, so {count} of its prices, from this row on, changes no table until the month is"
            " frozen again",
            "{month} is frozen, so {count} of its prices, from this row on, change no table until the month is"
            " frozen again",
            late.number,
            month=of_others(month),
        )
        do = message("reopen the month and freeze it again, with a row in releases, or delete the price")
        self.taken.warnings.append(SheetFault(late.first.origin, because, do))

    def _window(self, month: str, row: Row) -> Window:
        """The window that a row gives; the calendar's if a release doesn't give one, or the office's."""
        own, known = self._windows.get(month), self._known.windows.get(month, ("", "", ""))
        return tuple(row[it] or (own[it] if own else "") or stored for it, stored in zip(WINDOW, known))

    def _is_same(self, window: Window, other: Optional[Window]) -> bool:
        return other is not None and [*map(self._moment, window)] == [*map(self._moment, other)]

    def _calendar(self, month: str, row: Row, window: Window) -> Bundle:
        sent = Sent(["calendar", month, *window], row.origin, row.name_columns(FIELDS["calendar"]))
        return Bundle(0, DESK, [sent], is_single=True)

    def _freeze(self, release: Row, window: Window) -> Bundle:
        """A freeze at its time, which is the end of the window if none is given."""
        own = release.name("frozen_at" if release["frozen_at"] else "month")
        carry = release["carry"].split()
        fields = ["freeze", release["month"], *carry]
        sent = Sent(fields, release.origin, release.name_columns(FIELDS["freeze"]), own, given=release["frozen_at"])
        return Bundle(self._moment(release["frozen_at"] or window[1]), DESK, [sent], is_single=True)

    def _bundle_quotes(self, window: Optional[Window], month: str, first: int, last: int) -> Iterator[Bundle]:
        """Quotes of some revisions as imports of their collectors, as the window opens. No import has a slot twice."""
        at = self._moment(window[0]) if window else 0
        nobody = secrets.token_hex(16)
        for key, rows in self._store.imports(month, first, last, lambda collector: self._keys.get(collector, nobody)):
            yield from make_bundles(at if isinstance(at, int) else 0, key, rows)

    def _moment(self, text: str) -> Union[int, str]:
        """A moment in seconds; another text goes to the program unchanged."""
        if text.isascii() and text.isdigit() and len(text) <= 10:
            return int(text)
        return self._seconds.get(text, text)


def sent_handover(row: Row) -> Sent:
    """A hand-over as it is sent."""
    return Sent(["handover", *(row[it] for it in MOVED)], row.origin, row.name_columns(MOVED))


def by_revision(releases: Sequence[Row]) -> list[tuple[int, Row]]:
    """The releases of a month in their order, each with its revision: the one in its row, or else the next one."""
    revisions: list[tuple[int, Row]] = []
    for row in sorted(releases, key=lambda release: release["revision"]):
        turn = revisions[-1][0] + 1 if revisions else 1
        revisions.append((int(row["revision"]) if is_revision(row["revision"]) else turn, row))
    return revisions


def told_marks(differ: Differ) -> Message:
    """The text about a mean of prices with two marks."""
    return message(
        'the price has the mark "{other}", but another price of its month has "{one}": prices with different'
        " marks have no mean",
        one=of_others(differ.one),
        other=of_others(differ.other),
    )


LEAVE_ONE = message("keep only one of the two rows")


def told_again(count: int, named: dict[str, object]) -> Message:
    """The text about the first price that a row above also contains, with the number of such prices."""
    return message(
        "the price of slot {slot} in {month} is also in row {row}; number of repeated prices: {count}",
        count=whole(count),
        **named,
    )


def is_revision(text: str) -> bool:
    """Whether a text is the number of a revision."""
    return len(text) == 1 and text in "123456789"


def missing_columns(sheet: Sheet, needed: Iterable[str]) -> Iterator[SheetFault]:
    """The problems of missing columns."""
    has = row_of([message('"{text}"', text=of_others(head)) for head in sheet.written if head])
    for column in needed:
        if column not in sheet.columns:
            because = message(
                "the column {column} is missing: row 1 contains {names}", column=of_others(column), names=has
            )
            do = message("name a column {column}", column=of_others(column))
            yield SheetFault(Origin(sheet.file, 1, column), because, do)


def unread_columns(sheet: Sheet, columns: Columns) -> Iterator[SheetFault]:
    """The warnings about columns that aren't read."""
    for column, written in zip(sheet.columns, sheet.written):
        if column and column not in columns.needed and column not in columns.others:
            names = row_of([*map(of_others, (*columns.needed, *columns.others))])
            do = message("nothing, unless it should be one of {columns}", columns=names)
            yield SheetFault(Origin(sheet.file, 1, written), message("the column isn't read"), do)

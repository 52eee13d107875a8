"""The rows of a table of a map: those of one file or of one sheet, as rows of ours that keep the office's names of
columns."""

from __future__ import annotations

import functools
import itertools
from collections.abc import Iterator, Mapping, Sequence
from typing import NamedTuple, Optional, Union

from ...text.message import both, message, row as row_of
from ...text.others import of_others
from ..cells import BadSheet, Columns, Origin, Quotes, Row, Sheet, Texts
from ..sheet_numbers import told_no_month
from ..record_rows import SHEETS
from ..price_cells import DAY, SHARE, MISSING
from ..sheet_files import RowCells, remove_mark
from .mapped_texts import Findings, Marks, Measures, Months, OurCodes
from .office_map import CODED, NONE, Files, Table
from .plain_rows import Head, Joined, PlaceForm, PlainRows
from .quick_rows import QuickRows, QuickTexts, is_quick

ALL_OTHERS = "*"
"""Names all columns that a table doesn't name."""


class Place(NamedTuple):
    """A file or a sheet of a workbook as it is named, with the values that its name gives for columns of ours."""

    label: str
    values: Mapping[str, str]
    texts: Texts


def heading_of(place: Place, form: Files, needed: Sequence[str], others: Sequence[str], flag: str = "") -> Head:
    """The heading of a place, whose rows are read from then on. Raises BadSheet if a column is missing or appears
    twice; only the flag, which follows each month, may appear again: it is named with the column before it."""
    lines = [[*line] for line in itertools.islice(place.texts.rows, form.heading)]
    line = lines[-1] if len(lines) == form.heading else []
    written, before = {}, ""
    heads: list[str] = []
    for cell in line:
        text = remove_mark(cell.strip())
        head = f"{text.lower()} ({before})" if flag and text.lower() == flag else text.lower()
        if head and head in written:
            because = message("the column {column} appears twice", column=of_others(text))
            raise BadSheet(Origin(place.label, form.heading, text), because, message("rename one of the two"))
        heads.append(head)
        written[head], before = text, text
    has = row_of([message('"{text}"', text=of_others(text)) for text in written.values() if text])
    for column in needed:
        if column not in written:
            because = message(
                "the map names the column {column}, but row {row} has only {names}",
                column=of_others(column),
                row=form.heading,
                names=has,
            )
            do = message("correct the map's columns, or its heading")
            raise BadSheet(Origin(place.label, form.heading, column), because, do)
    return Head(form.heading, tuple(heads), written)


def raw_rows(place: Place, head: Head, texts: Sequence[str], findings: Findings) -> Iterator[Row]:
    """The rows below a heading by the office's names; `texts` are the columns whose blanks count."""
    for number, cells in raw_cells(place, head, texts, findings):
        yield raw_row(place, head, number, cells)


def raw_row(place: Place, head: Head, number: int, cells: Sequence[str]) -> Row:
    """A row by the office's names."""
    return Row(Origin(place.label, number), {name: cell for name, cell in zip(head.heads, cells) if name})


def raw_cells(place: Place, head: Head, texts: Sequence[str], findings: Findings) -> Iterator[tuple[int, list[str]]]:
    """The rows below a heading as cells, one for each column, each after its number."""
    if any(head.heads):
        raw = RawCells(place, head, texts, findings)
        for number, line in enumerate(place.texts.rows, head.row + 1):
            cells = raw.cells(number, line)
            if cells is not None:
                yield number, cells
        raw.end()


class RawCells(RowCells):
    """Makes the cells of rows below a heading, one for each column."""

    def __init__(self, place: Place, head: Head, texts: Sequence[str], findings: Findings):
        """`texts` are the columns whose blanks count."""
        written = tuple(head.written.get(name, name) for name in head.heads)
        self._findings, self._texts = findings, place.texts
        self._of = Sheet(place.label, head.heads, written, (), [], findings.warnings)
        super().__init__(self._of, Columns((), texts=tuple(texts)), place.texts.is_plain)

    def cells(self, number: int, line: Sequence[str]) -> Optional[list[str]]:
        """The cells of a row; None if it is empty, or the heading again."""
        cells = super().cells(number, line)
        if cells is not None and len(cells) < len(self._of.columns):
            cells += [""] * (len(self._of.columns) - len(cells))
        return cells

    def end(self) -> None:
        """Reports the faults of all rows."""
        super().end()
        for fault in (*self._of.faults, *self._texts.faults):
            self._findings.faults.add(fault)
        self._findings.warnings += self._texts.warnings


class TableRows:
    """Reads the places of a table."""

    def __init__(
        self, table: Table, months: Months, codes: OurCodes, marks: Marks, measures: Measures, findings: Findings
    ):
        self._table, self._months, self._codes, self._findings = table, months, codes, findings
        self._marks, self._measures = marks, measures
        self._joined: Optional[Joined] = None
        self._known = QuickTexts()
        form = table.form
        beside = [name for name in table.marks if name != table.flag]
        on = table.join.on if table.join else {}
        own = [name for names in form.columns.values() for name in names]
        self._needed = (*own, *beside, *table.only, *on)
        self._beside = beside

    def join(self, joined: Joined) -> None:
        """Sets the rows to which a row is joined."""
        self._joined = joined

    # ---- the heading

    def _heading(self, place: Place) -> Head:
        table = self._table
        head = heading_of(place, table.form, self._needed, (), table.flag)
        named = {*self._needed, *table.unread}
        seen: dict[str, str] = {}
        for at, name in enumerate(head.heads):
            if not name or name in named or table.flag and name.startswith(f"{table.flag} ("):
                continue
            text = head.written[name]
            origin = Origin(place.label, head.row, text)
            meant = self._meant_by_head(text)
            if meant and meant in seen:
                because = message(
                    '"{one}" and "{other}" are both {month}',
                    one=of_others(seen[meant]),
                    other=of_others(text),
                    month=of_others(meant),
                )
                self._findings.refuse(origin, because, message("keep only one of the two columns"))
            elif meant:
                seen[meant] = text
                if meant != text and table.heads == "month":
                    self._findings.read(origin, text, meant)
                after = head.heads[at + 1] if at + 1 < len(head.heads) else ""
                head.wide.append((name, meant, after if table.flag and after.startswith(f"{table.flag} (") else ""))
            elif ALL_OTHERS not in table.unread:
                because = message("the map doesn't name the column {column}", column=of_others(text))
                if table.heads == "month":
                    because = message("{because}, and {fault}", because=because, fault=told_no_month(text))
                do = message("name it in the map: in columns, or in unread if it isn't to be read")
                self._findings.refuse(origin, because, do)
        return head

    def _meant_by_head(self, text: str) -> str:
        """The month or the year of a column that the map doesn't name."""
        if self._table.heads == "month":
            return self._months.of(text)[0]
        is_year = self._table.heads == "year" and text.isascii() and text.isdigit() and len(text) == 4
        return text if is_year else ""

    # ---- rows

    def rows(self, place: Place) -> Iterator[Union[Row, Quotes]]:
        """The rows of a place, as they are asked for. Raises BadSheet."""
        table, head = self._table, self._heading(place)
        kept = [name for ours in SHEETS[table.sheet].texts for name in table.form.columns.get(ours, ())]
        names = {ours: head.written[theirs[0]] for ours, theirs in table.form.columns.items()}
        if self._joined:
            names.update({ours: f"{text} ({self._joined.label})" for ours, text in self._joined.written.items()})
        form = PlaceForm(place.label, head, names, {**table.values, **place.values})
        plain = PlainRows(table, form, self._beside, self._codes.known, self._marks, self._joined)
        if is_quick(table, form) and place.texts.is_plain and any(head.heads):
            raw = RawCells(place, head, kept, self._findings)
            quick = QuickRows(table, form, plain, self._marks, raw, self._known)
            look_at = functools.partial(self._look_at, place, form, plain)
            yield from quick.read(iter(place.texts.rows), head.row + 1, look_at)
            raw.end()
            return
        for number, cells in raw_cells(place, head, kept, self._findings):
            yield from self._look_at(place, form, plain, number, cells)

    def _look_at(
        self, place: Place, form: PlaceForm, plain: PlainRows, number: int, cells: Sequence[str]
    ) -> Sequence[Row]:
        """The rows of ours that the cells of a row are; its problems are reported."""
        rows = plain.rows(number, cells)
        if rows is None:
            rows = [*self._looked_at(raw_row(place, form.head, number, cells), form)]
            if rows:
                plain.see(cells, self._months)
        return rows

    def _looked_at(self, raw: Row, form: PlaceForm) -> Iterator[Row]:
        """The rows of ours that a row of the office gives; its problems are reported."""
        table, head = self._table, form.head
        if not self._is_wanted(raw, head):
            return
        joined = self._joined_to(raw, head) if self._joined else None
        if self._joined and joined is None:
            return
        cells = {ours: _text(raw, theirs) for ours, theirs in table.form.columns.items()}
        row = Row(raw.origin, {**form.fixed, **(joined.cells if joined else {}), **cells}, form.names)
        if self._is_coded(row):
            yield from self._of_prices(row, raw, form) if table.sheet == "prices" else self._of_others(row, raw, head)

    def _is_wanted(self, raw: Row, head: Head) -> bool:
        """Whether a row has the texts that the map wants."""
        for name, texts in self._table.only.items():
            if raw[name] not in texts:
                self._findings.leave_out(raw.origin.at(head.written[name]), raw[name])
                return False
        return True

    def _joined_to(self, raw: Row, head: Head) -> Optional[Row]:
        """The row to which a row is joined; None, and a problem, if there is none."""
        assert self._joined and self._table.join
        here = tuple(self._table.join.on)
        key = tuple(str(raw[name]) for name in here)
        joined = self._joined.rows.get(key)
        if joined is None:
            because = message(
                'no row of {file} contains "{text}"', file=of_others(self._joined.label), text=of_others(" ".join(key))
            )
            self._findings.refuse(
                raw.origin.at(head.written[here[0]]), because, message("add its row, or delete this one")
            )
        return joined

    def _is_coded(self, row: Row) -> bool:
        """Puts our codes into a row; returns whether it has all of them."""
        for column in CODED:
            if column in row.cells:
                code = self._codes.of(column, row.at(column), row.cells[column])
                if code is None:
                    return False
                row.cells[column] = code
        return True

    # ---- prices

    def _of_prices(self, row: Row, raw: Row, form: PlaceForm) -> Iterator[Row]:
        head = form.head
        beside = [(name, raw[name].strip(), raw.origin.at(head.written[name])) for name in self._beside]
        if not self._table.heads:
            text = row["month"]
            month, day = (text, row[DAY]) if DAY in row.cells else self._months.at(row.at("month"), text)
            if month:
                yield from self._price_row(row, row["value"], month, day, row.names, beside)
            return
        for (name, month, flag), names in zip(head.wide, form.wide_names):
            own = beside
            if flag:
                at = raw.origin.at(f"{head.written[flag]} ({head.written[name]})")
                own = [*beside, (self._table.flag, raw[flag].strip(), at)]
            yield from self._price_row(row, raw[name], month, "", names, own)

    def _price_row(
        self,
        row: Row,
        text: str,
        month: str,
        day: str,
        names: Mapping[str, str],
        beside: Sequence[tuple[str, str, Origin]],
    ) -> Iterator[Row]:
        """The row of one price, if it is one."""
        origin = row.origin.at(names.get("value", "value"))
        meaning = self._marks.meaning(text, origin, beside)
        if meaning is None:
            return
        cells = {**row.cells, "month": month, "value": meaning.text, DAY: day}
        if meaning.mark:
            cells["mark"] = meaning.mark
        if self._table.units and meaning.mark != MISSING:
            at = [(row[name], row.at(name)) for name in ("quantity", "unit")]
            cells[SHARE] = self._measures.share(row["item"], at[0], at[1])
            if not cells[SHARE]:
                return
        yield Row(row.origin, cells, names)

    # ---- other sheets

    def _of_others(self, row: Row, raw: Row, head: Head) -> Iterator[Row]:
        if not self._table.heads:
            yield self._without_sum(row, row["weight"], row.names)
            return
        for name, year, _ in head.wide:
            text, origin = raw[name].strip(), raw.origin.at(head.written[name])
            if self._table.cells.get(text) == NONE:
                self._findings.leave_out(origin, text)
            elif text:
                made = Row(row.origin, {**row.cells, "year": year}, {**row.names, "year": year, "weight": year})
                yield self._without_sum(made, raw[name], made.names)

    def _without_sum(self, row: Row, weight: str, names: Mapping[str, str]) -> Row:
        """A row; without its weight if that is a sum and the map says that sums aren't read."""
        if self._table.sheet != "classification":
            return row
        is_sum = self._table.has_sums and "-" not in row["code"]
        return Row(row.origin, {**row.cells, "weight": "" if is_sum else weight}, names)


def _text(raw: Row, theirs: Sequence[str]) -> str:
    """The text of a column, or the texts of several, joined with slashes."""
    return raw[theirs[0]] if len(theirs) == 1 else "/".join(raw[name] for name in theirs)


def joined_rows(places: Sequence[Place], form: Files, on: Sequence[str], findings: Findings) -> Joined:
    """The rows of a joined table, by the texts of some columns. Raises BadSheet."""
    needed = [*on, *(name for names in form.columns.values() for name in names)]
    rows: dict[tuple[str, ...], Row] = {}
    labels: list[str] = []
    written: Mapping[str, str] = {}
    for place in places:
        head = heading_of(place, form, needed, ())
        labels.append(place.label)
        written = {ours: head.written[theirs[0]] for ours, theirs in form.columns.items()}
        for raw in raw_rows(place, head, (), findings):
            key = tuple(str(raw[name]) for name in on)
            cells = {ours: _text(raw, theirs) for ours, theirs in form.columns.items()}
            above = rows.setdefault(key, Row(raw.origin, {**place.values, **cells}, written))
            if above.origin != raw.origin:
                because = message(
                    'row {row} also contains "{text}"', row=above.origin.row, text=of_others(" ".join(key))
                )
                findings.refuse(raw.origin.at(head.written[on[0]]), because, message("delete one of the two rows"))
    names = both([*map(of_others, labels)])
    return Joined(str(names), rows, written)

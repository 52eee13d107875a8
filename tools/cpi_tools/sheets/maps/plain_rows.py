"""Rows of prices in a place whose texts have all been seen before: there is nothing to report about them, so they are
made directly.

A place has millions of cells, but few different outlets, items, months and marks. `mapped_rows` checks each text when
it occurs first, and reports its problems; it gets every row with an unknown text.
"""

from __future__ import annotations

from collections.abc import Mapping, Sequence
from dataclasses import dataclass, field
from typing import NamedTuple, Optional

from ..cells import Origin, Row
from ..price_cells import DAY
from .mapped_texts import MOST_KNOWN, NO_QUOTE, KnownCodes, Marks, Months
from .office_map import CODED, Table


@dataclass
class Head:
    """A heading: the office's names in small letters and as they are written. `wide` contains the columns that are
    months or years, with the month or year, and the column of a flag after it."""

    row: int
    heads: tuple[str, ...]
    written: Mapping[str, str]
    wide: list[tuple[str, str, str]] = field(default_factory=list)

    def names_of(self, names: Mapping[str, str], name: str, flag: str) -> Mapping[str, str]:
        """Some names of columns, with the names of a month's column and of the flag after it."""
        written = self.written[name]
        own = {**names, "month": written, "value": written}
        return {**own, "mark": self.written[flag]} if flag else own


class Joined(NamedTuple):
    """The rows of a joined table by their keys, with the table's label and the names of its columns."""

    label: str
    rows: Mapping[tuple[str, ...], Row]
    written: Mapping[str, str]


class PlaceForm:
    """The facts that all rows of a place share: the name of its file, its heading, the office's names of columns by
    ours, and the texts from the map or the name of the file."""

    def __init__(self, label: str, head: Head, names: Mapping[str, str], fixed: Mapping[str, str]):
        self.label, self.head, self.names, self.fixed = label, head, names, fixed
        self.wide_names = [head.names_of(names, name, flag) for name, _, flag in head.wide]
        """The names for each column that is a month."""


class PlainRows:
    """Makes the rows of a place."""

    def __init__(
        self,
        table: Table,
        form: PlaceForm,
        beside: Sequence[str],
        codes: Mapping[str, KnownCodes],
        marks: Marks,
        joined: Optional[Joined],
    ):
        """`beside` are the columns of marks; `codes` are the codes of columns that have codes."""
        # (a column without a name is read for nothing, nor is it the flag of a month that has none)
        self.places = {name: at for at, name in enumerate(form.head.heads) if name}
        """The places of columns with a name."""
        places = self.places
        self._form, self._marks, self._joined = form, marks, joined
        self._is_plain = table.sheet == "prices" and not table.units
        self.columns = [(ours, [places[name] for name in theirs]) for ours, theirs in table.form.columns.items()]
        """The places of our columns."""
        self._only = [(places[name], texts) for name, texts in table.only.items()]
        self._on = [places[name] for name in table.join.on] if table.join else []
        self.beside, self._places = tuple(beside), [places[name] for name in beside]
        self._codes = [(column, codes[column]) for column in CODED if column in codes]
        self.wide = [(places[name], month, places.get(flag, -1)) for name, month, flag in form.head.wide]
        """The place of each column that is a month, the month, and the place of its flag, -1 if it has none."""
        self._flagged = (*beside, table.flag)
        self._has_heads = bool(table.heads)
        self.months: dict[str, tuple[str, str]] = {}
        """Months and days of texts that were checked."""

    def see(self, cells: Sequence[str], months: Months) -> None:
        """Remembers the month of a row that was checked, and in which there is a price: of it nothing more is to be
        told."""
        row = None if self._has_heads or not self._is_plain else self.name_columns(cells)
        if row and len(self.months) < MOST_KNOWN:
            text = row.get("month", "")
            self.months[text] = months.of(text)

    def rows(self, number: int, cells: Sequence[str]) -> Optional[Sequence[Row]]:
        """The rows that the cells of a numbered row give; None if there is something to check."""
        if not self._is_plain:
            return None
        row = self.name_columns(cells)
        if row is None:
            return None
        marks = tuple([cells[at] for at in self._places])
        origin = Origin(self._form.label, number)
        return self._of_heads(origin, row, cells, marks) if self._has_heads else self._single(origin, row, marks)

    def name_columns(self, cells: Sequence[str]) -> Optional[dict[str, str]]:
        """Our columns of a row, with our codes; None if there is something to look at."""
        for at, texts in self._only:
            if cells[at] not in texts:
                return None
        row = {**self._form.fixed}
        if self._joined:
            joined = self._joined.rows.get(tuple([str(cells[at]) for at in self._on]))
            if joined is None:
                return None
            row.update(joined.cells)
        for ours, places in self.columns:
            row[ours] = cells[places[0]] if len(places) == 1 else "/".join([cells[at] for at in places])
        for column, codes in self._codes:
            if column in row:
                code = codes[row[column]]
                if code is None:
                    return None
                row[column] = code
        return row

    def _single(self, origin: Origin, row: dict[str, str], marks: tuple[str, ...]) -> Optional[Sequence[Row]]:
        """The row of one price."""
        text = row.get("month", "")
        month = (text, row[DAY]) if DAY in row else self.months.get(text)
        meaning = self._marks.plain(row.get("value", ""), marks, self.beside)
        if month is None or not month[0] or meaning is None:
            return None
        row["month"], row[DAY] = month
        row["value"] = meaning.text
        if meaning.mark:
            row["mark"] = meaning.mark
        return (Row(origin, row, self._form.names),)

    def _of_heads(
        self, origin: Origin, row: Mapping[str, str], cells: Sequence[str], marks: tuple[str, ...]
    ) -> Optional[Sequence[Row]]:
        """The rows of all months."""
        rows = []
        for (at, month, flag), names in zip(self.wide, self._form.wide_names):
            if flag < 0:
                meaning = self._marks.plain(cells[at], marks, self.beside)
            else:
                meaning = self._marks.plain(cells[at], (*marks, cells[flag]), self._flagged)
            if meaning is None:
                return None
            if meaning is NO_QUOTE:
                continue
            own = {**row, "month": month, "value": meaning.text, DAY: ""}
            if meaning.mark:
                own["mark"] = meaning.mark
            rows.append(Row(origin, own, names))
        return rows

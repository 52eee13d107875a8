"""The rows of a printed table in columns of whole numbers, as thirty years of them have to be held at once.

Units: indices and levels are in millionths of a point, changes in tenths of a percent, weights as they are in the
table. Codes, titles and weights are mostly the same as in the month before: then both tables share them. Each row that
is read here gives the program's digits again (`Row.texts`): a row that wouldn't isn't accepted.
"""

from __future__ import annotations

import csv
import io
import re
from array import array
from collections.abc import Iterable, Iterator, KeysView, Mapping, Sequence
from typing import NamedTuple, Optional

from ..text.exact import ALL_ITEMS, points, tenths

_CODE = r"00|(?:0[1-9]|1[0-3])(?:\.[0-9](?:\.[0-9](?:\.[0-9](?:-(?:0[1-9]|[1-9][0-9]))?)?)?)?"
_WEIGHT = r"[1-9][0-9]*"
_POINTS = r"(?:0|[1-9][0-9]*)\.[0-9]{6}"
_CHANGE = r"(?!-0\.0)-?(?:0|[1-9][0-9]*)\.[0-9]"

CODE, CHANGE = re.compile(_CODE), re.compile(_CHANGE)
FIGURES = re.compile(rf"({_WEIGHT}),({_POINTS}),({_POINTS}),({_CHANGE}),((?:{_CHANGE})?),([01])")
"""Weight, index within the year, chained level, both changes, and 1 if a price was imputed: each in one spelling."""

WEIGHTS, LEVELS = (re.compile(rf"(?:{each}\n)+") for each in (_WEIGHT, _POINTS))
"""A column of weights, and a column of indices or of levels, each with an end of line."""

QUOTED = re.compile(r'"(?:[^"\r\n\0]|"")*"')
"""A title in quotation marks."""

IS_IMPUTED = bytes.maketrans(b"01", b"\0\1")

NO_CHANGE = -(1 << 62)
"""The text in the column of annual changes if there is none."""


class Row(NamedTuple):
    """A node in a month's table: `within` is the index in the year, 100 in December before; `chained` the level."""

    code: str
    weight: int
    within: int
    chained: int
    month_change: int
    year_change: Optional[int]
    is_imputed: bool
    title: str

    @property
    def texts(self) -> tuple[str, str, str, str, str, str]:
        """Weight, index, level, both changes and 1 or 0 for imputed, in the digits of the printed table."""
        changes = tenths(self.month_change), tenths(self.year_change)
        return (str(self.weight), points(self.within), points(self.chained), *changes, str(int(self.is_imputed)))


class Named(NamedTuple):
    """The rows of a table: their codes in order, their titles, the place of each code, and the titles as they are
    written in a line."""

    codes: tuple[str, ...]
    titles: tuple[str, ...]
    places: dict[str, int]
    written: tuple[str, ...]


class Rows(Mapping[str, Row]):
    """The rows of a table by code, in the order of codes; a row is made when it is asked for."""

    __slots__ = ("named", "weight", "within", "chained", "month_change", "year_change", "is_imputed")

    def __init__(self, named: Named, columns: Sequence[array[int]], imputed: bytes):
        self.named = named
        self.weight, self.within, self.chained, self.month_change, self.year_change = columns
        self.is_imputed = imputed

    def at(self, place: int) -> Row:
        """The row at a place, counted from 0."""
        annual = self.year_change[place]
        return Row(
            self.named.codes[place],
            self.weight[place],
            self.within[place],
            self.chained[place],
            self.month_change[place],
            None if annual == NO_CHANGE else annual,
            self.is_imputed[place] == 1,
            self.named.titles[place],
        )

    def place(self, code: str) -> Optional[int]:
        """The place of a code; None if the table hasn't got it."""
        return self.named.places.get(code)

    def __getitem__(self, code: str) -> Row:
        return self.at(self.named.places[code])

    def __contains__(self, code: object) -> bool:
        return code in self.named.places

    def __iter__(self) -> Iterator[str]:
        return iter(self.named.codes)

    def __len__(self) -> int:
        return len(self.named.codes)

    def keys(self) -> KeysView[str]:
        """The codes, as a set that compares quickly."""
        return self.named.places.keys()

    def levels_for(self, other: Rows) -> Sequence[Optional[int]]:
        """The levels of these rows in the order of another table, None if a row isn't here."""
        if self.named.codes is other.named.codes:
            return self.chained
        places, levels = self.named.places, self.chained
        return [None if (place := places.get(code)) is None else levels[place] for code in other.named.codes]


NO_ROWS = Rows(Named((), (), {}, ()), [array("q")] * 5, b"")
"""Of a month that has no table, or one without rows."""


# ---- reading


class _Changes(dict[str, int]):
    """Tenths of a percent by their printed text: a few thousand changes cover millions of rows."""

    def __missing__(self, text: str) -> int:
        found = self[text] = int(text.replace(".", "")) if text else NO_CHANGE
        return found


_CHANGES = _Changes()

Columns = list[tuple[str, ...]]
"""The texts of each column of a table, the title as it is written last."""


def rows_of(text: str, last: Rows = NO_ROWS) -> Rows:
    """The rows of a printed table; values that equal those of the `last` one are shared.

    Raises ValueError or csv.Error if it isn't a table.
    """
    columns = _of_lines(text, last.named) or _of_fields(text)
    return _in_columns(columns, last) if columns else NO_ROWS


def _of_lines(text: str, last: Named) -> Columns:
    """The columns of a table each of whose rows is a line, as the program prints them; none if it isn't such a table.
    The codes are tested only if they differ from the codes of the last one."""
    columns = _part_fields(text)
    if not columns:
        return []
    codes, weights, within, chained, monthly, annual, imputed, _ = columns
    is_known = codes == last.codes or all(map(CODE.fullmatch, codes))
    is_measured = _is_column(WEIGHTS, weights) and _is_column(LEVELS, within) and _is_column(LEVELS, chained)
    is_changed = "" not in monthly and all(map(CHANGE.fullmatch, {*monthly, *annual} - {"", *_CHANGES}))
    is_table = is_known and is_measured and is_changed and {*imputed} <= {"0", "1"}
    return columns if is_table else []


def _part_fields(text: str) -> Columns:
    """The eight fields of each line, column by column; none if a line has more or less, or the text has other ends of
    lines. (All fields are parted at once, which is far quicker than line by line.)"""
    titled = QUOTED.findall(text) if '"' in text else []
    plain = QUOTED.sub('"', text) if titled else text
    *fields, rest = plain.replace("\n", ",\n,").split(",")
    count = text.count("\n")
    if rest or "\r" in text or "\0" in text or len(fields) != 9 * count or fields[8::9].count("\n") != count:
        return []
    columns = [tuple(fields[at::9]) for at in range(8)]
    if plain.count('"') != columns[7].count('"') or columns[7].count('"') != len(titled):
        return []
    quoted = iter(titled)
    return [
        *columns[:7],
        tuple([next(quoted) if column == '"' else column for column in columns[7]]) if titled else columns[7],
    ]


def _is_column(form: re.Pattern[str], texts: Iterable[str]) -> bool:
    """Whether each text of a column has a form."""
    return form.fullmatch("\n".join([*texts, ""])) is not None


def _of_fields(text: str) -> Columns:
    """Reads the columns field by field, for a table whose titles contain an end of line, or whose lines end otherwise.
    Raises ValueError or csv.Error if it isn't a table."""
    return [*zip(*map(_fields, csv.reader(io.StringIO(text, newline=""), strict=True)))]


def _fields(fields: Sequence[str]) -> Sequence[str]:
    """The fields of a row, its title in quotation marks. Raises ValueError if they are none."""
    match = FIGURES.fullmatch(",".join(fields[1:7]))
    if len(fields) != 8 or not CODE.fullmatch(fields[0]) or not match:
        raise ValueError(",".join(fields))
    return [*fields[:7], '"{}"'.format(fields[7].replace('"', '""'))]


def _in_columns(columns: Columns, last: Rows) -> Rows:
    """The rows of the texts of each column."""
    codes, weights, within, chained, monthly, annual, imputed, titles = columns
    named = _share_names(codes, titles, last.named)
    try:
        weight = array("q", map(int, weights))
        numbers = [array("q", map(int, "\n".join(each).replace(".", "").split("\n"))) for each in (within, chained)]
        changes = [array("q", map(_CHANGES.__getitem__, each)) for each in (monthly, annual)]
    except OverflowError as fault:
        raise ValueError(f"{codes[0]}: {fault}") from fault
    shared = last.weight if weight == last.weight else weight
    return Rows(named, [shared, *numbers, *changes], "".join(imputed).encode().translate(IS_IMPUTED))


def _share_names(codes: tuple[str, ...], written: tuple[str, ...], last: Named) -> Named:
    """Codes and titles, shared with the table before if they are the same. Raises ValueError if they aren't in
    order."""
    if codes == last.codes and written == last.written:
        return last
    titles = tuple(it[1:-1].replace('""', '"') if it[:1] == '"' else it for it in written)
    if codes == last.codes:
        return Named(last.codes, titles, last.places, written)
    if ALL_ITEMS not in codes or any(one >= other for one, other in zip(codes, codes[1:])):
        raise ValueError("its codes aren't in order")
    return Named(codes, titles, {code: place for place, code in enumerate(codes)}, written)

"""Texts of a report that a page can say in another language: sentences of ours, amounts of money, and tables."""

from __future__ import annotations

from collections.abc import Iterable, Mapping, Sequence
from pathlib import Path
from typing import NamedTuple, Optional, Union

from . import text_files
from .exact import decimal
from .others import Worded, of_others, word_text
from .terminal import month_name, month_text, time_text


# ==== texts of a report that a page can show in another language: sentences of ours with the values of their places
#
# Such a text is its English self for a terminal and a CSV file. It also knows its form, which is its key in catalogues,
# and the values of its places: a figure, a month, a moment, a text of others, or a text of ours. `report_language`
# writes it in a language.


class Figure(str):
    """A figure in ASCII, such as `1,626` or `-0.3`."""


class Code(str):
    """The code of a node, a slot such as `7/2`, or any other text whose characters must keep their order."""


class Month(str):
    """A month, `2026-01`."""


class MonthName(str):
    """A month by its name, `January 2026`; `month` is `2026-01`."""

    month: str


class Moment(str):
    """A moment, `2026-01-25 09:00 UTC`; `at` is in seconds since 1970."""

    at: int


def month_of(month: int) -> Month:
    """A month for a place: `2026-01` for 202601."""
    return Month(month_text(month))


def month_name_of(month: int) -> MonthName:
    """The name of a month for a place: `January 2026` for 202601."""
    made = MonthName(month_name(month_text(month)))
    made.month = month_text(month)
    return made


def moment_of(at: int) -> Moment:
    """A moment for a place: `2026-01-25 09:00 UTC` for seconds since 1970."""
    made = Moment(time_text(at))
    made.at = at
    return made


def whole(number: int) -> Figure:
    """A whole number, `1,626`."""
    return Figure(f"{number:,}")


class Price(int):
    """A price in minor units of money: a page that knows the office's currency shows an amount."""


class Ticks(int):
    """The price that a series counts as, in ticks (10,000 to a minor unit of money): such a page shows an amount."""


def price_of(value: Optional[int]) -> Optional[Price]:
    """A price in minor units; None if there is none."""
    return None if value is None else Price(value)


class Message(Worded):
    """A text of ours in English. Its source is the text in the catalogues; with a count there are two. A message that
    `is_english` has other words in English."""

    source: tuple[str, ...]
    number: Optional[int]
    places: Mapping[str, object]
    is_english: bool = False

    @classmethod
    def make(
        cls, english: Worded, source: tuple[str, ...], number: Optional[int], places: Mapping[str, object]
    ) -> Message:
        """A text whose English words differ from its source."""
        it = cls(english.form, *english.texts)
        it.source, it.number, it.places = source, number, places
        return it


def message(source: str, **places: object) -> Message:
    """A text of the catalogues with the values of its places."""
    return Message.make(word_text(source, **places), (source,), None, places)


def message_of(one: str, many: str, count: int, **places: object) -> Message:
    """The form of a text for a count, which fills its place `{count}`."""
    named: dict[str, object] = {"count": whole(count), **places}
    return Message.make(word_text(one if count == 1 else many, **named), (one, many), count, named)


def sentences(*parts: Message) -> Message:
    """Whole sentences, one after the other."""
    places = {f"part_{at}": part for at, part in enumerate(parts)}
    source = " ".join("{" + name + "}" for name in places)
    return Message.make(word_text(source, **places), (source,), None, places)


def place_text(part: str) -> Message:
    """A text, a figure or a code as a text of ours."""
    return (
        part if isinstance(part, Message) else Message.make(word_text("{it}", it=part), ("{it}",), None, {"it": part})
    )


def row(parts: Sequence[str]) -> Message:
    """Texts with commas between them; an empty text if there are none."""
    text = place_text(parts[0]) if parts else sentences()
    for part in parts[1:]:
        # t: a list: one text, and another one
        text = message("{before}, {after}", before=text, after=part)
    return text


def part_texts(parts: Sequence[str]) -> Message:
    """Some texts with semicolons between them, since a name may have a comma in it; an empty text if there are none."""
    text = place_text(parts[0]) if parts else sentences()
    for part in parts[1:]:
        # t: a list, of texts that may have commas: one text, and another one
        text = message("{before}; {after}", before=text, after=part)
    return text


def both(parts: Sequence[str]) -> Message:
    """All of some texts; an empty text if there are none."""
    text = place_text(parts[0]) if parts else sentences()
    for part in parts[1:]:
        # t: one text, and another one
        text = message("{before} and {after}", before=text, after=part)
    return text


def either(parts: Sequence[str]) -> Message:
    """One of some texts; an empty text if there are none."""
    text = place_text(parts[0]) if parts else sentences()
    for part in parts[1:]:
        # t: one text, or another one
        text = message("{before} or {after}", before=text, after=part)
    return text


def said_as(english: str, *parts: Message) -> Message:
    """Sentences that a terminal shows in other words, in English."""
    named = sentences(*parts)
    made = Message.make(word_text("{line}", line=english), named.source, None, named.places)
    made.is_english = True
    return made


# ==== amounts of money as people write them: minor units and ticks in the currency of the office

TICKS = 10_000
"""Ticks in a minor unit of money."""

AMOUNT = "{amount} {currency}"


class Money(NamedTuple):
    """The number of minor units in a unit of money, and the text after an amount, which may be empty."""

    minor: int = 100
    currency: str = ""

    @property
    def digits(self) -> int:
        """The number of decimals of an amount."""
        return len(str(self.minor - 1)) if self.minor > 1 else 0

    def amount(self, ticks: int) -> str:
        """An amount, `31,116.00` for 31,116,000,000 ticks: rounded to the nearest minor unit, halves away from zero."""
        whole, point, decimals = decimal(ticks, TICKS * self.minor, self.digits).partition(".")
        return f"{int(whole):,}{point}{decimals}"

    def of_ticks(self, ticks: int) -> Message:
        """An amount with its currency, `2.15 EUR` for 2,151,220 ticks: rounded to the nearest minor unit, halves away
        from zero."""
        amount = decimal(ticks, TICKS * self.minor, self.digits)
        form = AMOUNT if self.currency else "{amount}"
        places: dict[str, object] = {"amount": Figure(amount), "currency": of_others(self.currency)}
        return Message.make(word_text(form, **places), (form,), None, places)


# ==== the parts of a report: tables with a title, a note and named columns, for a page, a text and a CSV file alike

Cell = Union[str, int, None]
"""A text, a number, or nothing."""

Row = Sequence[Cell]

TEXT, NUMBER, CODE = "", "n", "code"
"""The classes of a column: a number is on the right."""


class Column(NamedTuple):
    """A column: its heading and its class."""

    name: str
    kind: str


def heads(*names: str) -> tuple[str, ...]:
    """Headings that several tables share, in the form that `columns` takes."""
    return names


def columns(*names: str) -> tuple[Column, ...]:
    """Columns by their headings; `#name` is a number, `=name` a code."""
    kinds = {"#": NUMBER, "=": CODE}
    return tuple(Column(name[1:], kinds[name[0]]) if name[0] in kinds else Column(name, TEXT) for name in names)


class Section(NamedTuple):
    """A table of a report. Its key names its CSV file, `shown` is the number of rows on a page, `empty` is the text if
    there are no rows, and a section that isn't open is folded."""

    key: str
    title: Union[Message, str]
    note: Union[Message, str]
    columns: tuple[Column, ...]
    rows: Sequence[Row]
    empty: Union[Message, str] = message("None.")
    is_open: bool = True
    shown: int = 60

    @property
    def first(self) -> Sequence[Row]:
        """The rows that a page shows."""
        return self.rows[: self.shown]

    @property
    def left_out(self) -> int:
        """The number of rows that the page doesn't show."""
        return max(0, len(self.rows) - self.shown)


def write_csv(sections: Iterable[Section], folder: Path) -> None:
    """Writes each section, all its rows, as a CSV file named after its key, into an existing folder."""
    for each in sections:
        with (folder / f"{each.key}.csv").open("w", encoding="utf-8", newline="") as file:
            writer = text_files.Writer(file)
            writer.writerow([column.name for column in each.columns])
            writer.writerows(["" if cell is None else cell for cell in row] for row in each.rows)


def text_of(section: Section, shown: int) -> str:
    """A section as text, with aligned columns, and at most so many rows."""
    rows = [["" if cell is None else str(cell) for cell in row] for row in section.rows[:shown]]
    if not rows:
        return f"{section.title}\n  {section.empty}"
    heads = [column.name for column in section.columns]
    widths = [max(map(len, cells)) for cells in zip(heads, *rows)]
    lines = [section.title, *(_line(row, widths, section.columns) for row in [heads, *rows])]
    if len(section.rows) > shown:
        lines.append(f"  .. and {len(section.rows) - shown:,} more")
    return "\n".join(lines)


def _line(row: Sequence[str], widths: Sequence[int], heads: Sequence[Column]) -> str:
    parts = zip(row, widths, heads)
    padded = (cell.rjust(width) if head.kind == NUMBER else cell.ljust(width) for cell, width, head in parts)
    return ("  " + "  ".join(padded)).rstrip()

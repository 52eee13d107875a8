"""The kinds of rows that the sample's pages take: their fields, an item's bounds, and rows that are pasted."""

from __future__ import annotations

import csv
import re
from collections.abc import Callable, Iterable, Sequence
from fractions import Fraction
from typing import NamedTuple, Optional

from ...sheets.cells import quote_text
from ...sheets.record_rows import FIELDS
from ...sheets.sheet_files import remove_mark
from ...sheets.sheet_numbers import month_of
from ...text.exact import decimal, number_text, numbers_in, plain, with_sign
from ...text.message import Message, message as _, message_of, sentences, whole
from ...text.others import Worded, of_others
from .record_judge import MOST_ROWS, NotRead


# ==== the kinds of rows that the sample's pages take: the content of each record, by the names of its fields


class Kind(NamedTuple):
    """A kind: its name in addresses, the word of its record, its columns in the order of the record's fields, those
    that are months, and the column that can be missing or empty: it is filled in then."""

    name: str
    word: str
    columns: tuple[str, ...]
    months: tuple[str, ...] = ()
    optional: str = ""


KINDS: dict[str, Kind] = {
    kind.name: kind
    for kind in (
        Kind("items", "item", FIELDS["item"]),
        Kind("outlets", "outlet", FIELDS["outlet"]),
        Kind("collectors", "collector", FIELDS["collector"], optional="key"),
        Kind("assignments", "assign", FIELDS["assign"], ("first", "last"), "slot"),
        Kind("handovers", "handover", FIELDS["handover"], ("month",), "to_slot"),
        Kind("calendar", "calendar", FIELDS["calendar"], ("month",)),
    )
}
"""The kinds by their names."""

NUMBER = "number"

OTHER_NAMES = {
    "code": "item",
    "first_month": "first",
    "last_month": "last",
    "new_slot": "to_slot",
    "to_collector": "to",
    "from_month": "month",
}
"""Other names that a heading can give a column; `number` is the kind's first column."""


def column_of(kind: Kind, head: str) -> str:
    """The column that a cell of a heading names, or nothing."""
    plain = "_".join(head.replace("_", " ").casefold().split())
    if plain in kind.columns:
        return plain
    column = kind.columns[0] if plain == NUMBER else OTHER_NAMES.get(plain, "")
    return column if column in kind.columns else ""


# ==== The bounds of an item, as changes from the last price: `−45 %` and `+90 %`. A record has them in thousandths of
# the last price, 550 and 1900.
#
# A bound is read with its sign only, so that neither 550 nor 1.9 is taken for a percent, nor 190 % of the last price
# for a change of 190 %.

ONE = 1000
"""The last price, in thousandths of it."""

LOW, HIGH = "low", "high"

RANGES = {LOW: (1, ONE), HIGH: (ONE, 10_000)}
"""The least and the greatest bound, as docs/reference/OFFICE.md has them."""

EXAMPLES = {LOW: 550, HIGH: 1900}

MINUS_SIGN = "\u2212"

MINUS = "-\u2212\u2010\u2011\u2012\u2013\ufe63\uff0d"
PLUS = "+\uff0b\ufe62"
PERCENT = "%\u066a\uff05"

TYPED = re.compile(
    rf"(?P<before>[{PERCENT}]?)\s*(?P<sign>[{MINUS}{PLUS}]?)\s*(?P<number>.*?)\s*(?P<after>[{PERCENT}]?)"
)


THOUSANDTHS = re.compile("[1-9][0-9]{0,4}")
"""A bound of a record."""

MOST_LETTERS = 60
"""No bound is longer; so much of a text is cited."""


class Bound(NamedTuple):
    """A bound in thousandths of the last price, or the reason why a text isn't a bound."""

    thousandths: Optional[int]
    why: Optional[Message] = None


def percent_of(thousandths: int) -> str:
    """`−45` of 550, `+90` of 1900 and `+2.5` of 1025."""
    return with_sign(decimal(thousandths - ONE, 10, 1)).removesuffix(".0")


def bound_of(text: str, column: str) -> Bound:
    """The bound that a text is, `low` or `high` by its column."""
    parts = TYPED.fullmatch(plain(text[: MOST_LETTERS + 1]))
    numbers = numbers_in(parts["number"]) if parts else set[Fraction]()
    if not parts or not numbers:
        return Bound(None, say_wanted(text, column))
    if len(numbers) > 1:
        one, other = sorted(map(number_text, numbers))
        why = _(
            "{text} can mean {one} or {other}: write it without separators between its digits.",
            text=of_others(text[:MOST_LETTERS]),
            one=of_others(f"{parts['sign']}{one} %"),
            other=of_others(f"{parts['sign']}{other} %"),
        )
        return Bound(None, why)
    number = numbers.pop() * (-1 if parts["sign"] and parts["sign"] in MINUS else 1)
    bound, (least, most) = ONE + 10 * number, RANGES[column]
    if (number and not parts["sign"]) or bound.denominator > 1 or not least <= bound <= most:
        return Bound(None, say_wanted(text, column))
    return Bound(int(bound))


def say_wanted(text: str, column: str) -> Message:
    """The message that a text isn't a bound, and which texts are; for thousandths also their value in percent."""
    least, most = RANGES[column]
    if THOUSANDTHS.fullmatch(text) and least <= int(text) <= most:
        places = {"text": of_others(text), "percent": of_others(f"{percent_of(int(text))} %")}
        meant = _("If {text} is in thousandths of the last price, as in earlier files, write {percent}.", **places)
        return sentences(wanted_percent(text, column), meant)
    return wanted_percent(text, column)


def wanted_percent(text: str, column: str) -> Message:
    """The message that a text isn't a bound in percent, and which texts are."""
    least, most = (of_others(f"{percent_of(it)} %") for it in RANGES[column])
    places = {"text": of_others(text[:MOST_LETTERS]), "least": least, "most": most}
    example = of_others(f"{percent_of(EXAMPLES[column])} %")
    if column == LOW:
        return _(
            "“{text}” isn't a lower bound. Write a change in percent with its sign, from {least} to {most}, with at"
            " most one decimal, such as {example}.",
            example=example,
            **places,
        )
    return _(
        "“{text}” isn't an upper bound. Write a change in percent with its sign, from {least} to {most}, with at most"
        " one decimal, such as {example}.",
        example=example,
        **places,
    )


# ---- rows of the sample


def has_bounds(kind: Kind) -> bool:
    """Whether rows of a kind have bounds."""
    return LOW in kind.columns and HIGH in kind.columns


def bounds_read(kind: Kind, cells: Sequence[str]) -> tuple[list[str], Optional[Message]]:
    """The cells of a row with its bounds in thousandths, or as they were typed with why one isn't read."""
    found, why = [*cells], None
    for column in (LOW, HIGH):
        at = kind.columns.index(column)
        bound = bound_of(cells[at], column)
        if bound.thousandths is None:
            why = why or bound.why
        else:
            found[at] = str(bound.thousandths)
    return ([*cells], why) if why else (found, None)


def bounds_shown(columns: Sequence[str], cells: Sequence[str], in_percent: Callable[[str], object]) -> list[str]:
    """Cells of the office with bounds in percent, `in_percent` being how the page writes them."""
    return [
        str(in_percent(percent_of(int(cell)))) if column in RANGES and THOUSANDTHS.fullmatch(cell) else cell
        for column, cell in zip(columns, cells)
    ]


def bounds_in_file(columns: Sequence[str], cells: Sequence[str]) -> list[str]:
    """Cells of the office with bounds in percent, in the signs that a spreadsheet knows: `-45 %` and `+90 %`."""
    return bounds_shown(columns, cells, lambda percent: f"{percent.replace(MINUS_SIGN, '-')} %")


NOT_READ = "bound"
"""The code in the tray's file for a row that isn't judged."""


def why_not_read(cells: Sequence[str], kind: Kind) -> Worded:
    """Why the bounds of a row aren't read."""
    return bounds_read(kind, cells)[1] or Worded("")


# ==== rows that a person pastes from a spreadsheet: cells apart by tabs, semicolons or commas, with a heading or
# without one
#
# A text is read in one way, or refused in one line that quotes the text, and names its place and the wanted form. `cpi`
# judges the content of the cells; only months in other spellings are read as months, since a spreadsheet writes them in
# its own way.

MOST_SHOWN = 8
"""Cells of a line that are shown if it isn't read."""

SEPARATORS = {"\t": _("tabs"), ";": _("semicolons"), ",": _("commas")}
"""The separators of cells, with their names; the first one that fits is taken."""


class Pasted(NamedTuple):
    """The rows of a text, each with a cell for each column of its kind (an empty one if it isn't there); and what the
    heading names that isn't read."""

    rows: list[list[str]]
    unread: list[str]


class Line(NamedTuple):
    """The number of a line, and its cells without blanks round them."""

    number: int
    cells: list[str]


def read_pasted(text: str, kind: Kind) -> Pasted:
    """The rows of a text. Raises NotRead."""
    lines, separator = lines_of(text.removeprefix("\ufeff"), kind)
    columns = heading_of(lines[0], kind) if lines else None
    if columns:
        lines = lines[1:]
        unread = [head for head, column in zip(columns.written, columns.names) if head and not column]
    else:
        unread = []
    if not lines:
        raise NotRead(
            _(
                "There are no rows: write or paste one row per line, with the cells {columns}.",
                columns=list_names(kind.columns),
            )
        )
    if len(lines) > MOST_ROWS:
        places = {"count": whole(len(lines)), "most": whole(MOST_ROWS)}
        raise NotRead(_("There are {count} rows: at most {most} can be sent at once.", **places))
    names = columns.names if columns else None
    return Pasted([cells_of(line, kind, names, separator) for line in lines], unread)


# ---- lines


def lines_of(text: str, kind: Kind) -> tuple[list[Line], str]:
    """The lines that aren't empty, by the separator with which most of them have the cells that are wanted."""
    separators = [separator for separator in SEPARATORS if separator in text]
    best: Optional[tuple[list[Line], str]] = None
    fault: Optional[NotRead] = None
    most = -1
    for separator in separators or [","]:
        try:
            lines = split(text, separator)
        except NotRead as cause:
            fault = fault or cause
            continue
        fit = sum(len(without_ends(line.cells, len(kind.columns))) in widths(kind) for line in lines)
        if lines and is_heading(names_in(lines[0], kind), kind):
            fit = len(lines) + 1
        if fit > most:
            best, most = (lines, separator), fit
    if best is None:
        assert fault
        raise fault
    return best


def split(text: str, separator: str) -> list[Line]:
    """The lines of a text by one separator. Raises NotRead at a quotation mark that isn't closed."""
    rows = csv.reader(text.splitlines(keepends=True), delimiter=separator, strict=True)
    lines = list[Line]()
    try:
        for cells in rows:
            if any(cell.strip() for cell in cells):
                lines.append(Line(rows.line_num, [cell.strip() for cell in cells]))
    except csv.Error as fault:
        line = whole(rows.line_num)
        raise NotRead(_("Line {line} can't be read as CSV: check its quotation marks.", line=line)) from fault
    return lines


def without_ends(cells: Sequence[str], most: int) -> list[str]:
    """The cells without empty ones at the end, as far as there are more than `most`: a spreadsheet has them."""
    ends = [*cells]
    while len(ends) > most and not ends[-1]:
        ends.pop()
    return ends


def widths(kind: Kind) -> tuple[int, ...]:
    """The numbers of cells that a row without a heading can have."""
    count = len(kind.columns)
    return (count, count - 1) if kind.optional else (count,)


# ---- the heading


class Heading(NamedTuple):
    """The columns of a heading, empty if a cell names none, and its cells as they are written."""

    names: list[str]
    written: list[str]


def names_in(line: Line, kind: Kind) -> list[str]:
    """The column that each cell of a line names, empty if it names none."""
    return [column_of(kind, cell) for cell in line.cells]


def needed_of(kind: Kind) -> list[str]:
    """The columns that have to be there."""
    return [column for column in kind.columns if column != kind.optional]


def is_heading(names: Sequence[str], kind: Kind) -> bool:
    """Whether a line names so many columns that it is a heading."""
    return sum(map(bool, names)) >= min(2, len(needed_of(kind)))


def heading_of(line: Line, kind: Kind) -> Optional[Heading]:
    """The heading that a line is, if it names columns. Raises NotRead if it lacks one, or names one twice."""
    names = names_in(line, kind)
    if not is_heading(names, kind):
        return None
    if lacks := [it for it in needed_of(kind) if it not in names]:
        places: dict[str, object] = {"columns": list_names(lacks), "read": list_names(map(quote_text, line.cells))}
        raise NotRead(
            _("Line {line} is a heading without {columns}: it contains {read}.", line=whole(line.number), **places)
        )
    if twice := [column for column in kind.columns if names.count(column) > 1]:
        places = {"line": whole(line.number), "column": of_others(twice[0])}
        raise NotRead(_("Line {line} is a heading that contains {column} twice: rename one of the two.", **places))
    return Heading(names, line.cells)


# ---- cells


def cells_of(line: Line, kind: Kind, names: Optional[Sequence[str]], separator: str) -> list[str]:
    """A cell for each column of the kind. Raises NotRead if the line has too few cells, or too many."""
    cells = without_ends(line.cells, len(names) if names else len(kind.columns))
    if names is None:
        names = kind.columns
        if kind.optional and len(cells) == len(names) - 1:
            names = [name for name in names if name != kind.optional]
    if len(cells) != len(names):
        raise NotRead(wrong_width(line.number, cells, names, separator))
    by_name = {name: cell for name, cell in zip(names, cells) if name}
    return [_read(by_name.get(column, ""), column in kind.months) for column in kind.columns]


def wrong_width(line: int, cells: Sequence[str], names: Sequence[str], separator: str) -> Message:
    """The message about a line with too few cells, or too many."""
    return message_of(
        "Line {line}, split at {separator}, has one cell: {read}. Write the cells {columns}.",
        "Line {line}, split at {separator}, has {count} cells: {read}. Write the cells {columns}.",
        len(cells),
        line=whole(line),
        separator=SEPARATORS[separator],
        read=list_names(map(quote_text, cells[:MOST_SHOWN])),
        columns=list_names(name or "-" for name in names),
    )


def list_names(texts: Iterable[str]) -> Worded:
    """Names of columns, or cells, in a line."""
    return of_others(", ".join(texts))


def _read(cell: str, is_month: bool) -> str:
    """A cell without a spreadsheet's mark for a text, which our files contain too; a month in another spelling becomes
    that month, and a text that isn't a month stays for `cpi` to refuse."""
    text = remove_mark(cell)
    return (month_of(text) or text) if is_month else text

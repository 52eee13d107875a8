"""`cpi-tools weights`: moves the weights of a year with published levels to the December from which a plan's year
begins.

The spending on an elementary aggregate in a year, at the prices of its twelve months, is worth at December's prices
`spent * level of December / mean of the twelve levels`. All of it is computed as fractions, and shared out once as
parts per million.
"""

from __future__ import annotations

import argparse
import csv
import io
import re
import time
from collections.abc import Iterable, Iterator, Mapping, Sequence
from fractions import Fraction
from pathlib import Path
from typing import NamedTuple, Optional

from ...office.table_rows import CODE
from ...office.tables import Series
from ...publish.figures.measures import months_linked_to, reference_level
from ...publish.sources import add_source, read_source, test_source
from ...text import text_files
from ...text.exact import decimal, depth_of
from ...text.terminal import Fault, Progress, ToolWords, a_file, because_of, write_count
from ...text.text_files import write_whole
from ..sheet_numbers import scale_weights

HEAD = (["code", "weight"], ["code", "weight", "of"])
NUMBER = re.compile(r"[0-9]{1,18}(\.[0-9]{1,18})?")
PERIOD = re.compile(r"2[01][0-9]{2}(-(0[1-9]|1[0-2]))?")


class CannotMove(Fault):
    """Weights can't be moved; the message is one line."""


class Spent(NamedTuple):
    """A row of the sheet: an elementary aggregate, its weight, and the period whose prices it uses."""

    code: str
    weight: Fraction
    of: str


class Moved(NamedTuple):
    """A weight with its level in its own period and in December, in points, its worth at December's prices, and its
    parts per million."""

    spent: Spent
    then: Fraction
    now: Fraction
    worth: Fraction
    parts: int


def read_spent(path: Path, of: str) -> list[Spent]:
    """The rows of a sheet; a row without its own period has the period `of`. Raises CannotMove."""
    try:
        rows = [*csv.reader(io.StringIO(path.read_text(encoding="utf-8-sig"), newline=""), strict=True)]
    except OSError as fault:
        raise CannotMove(because_of(fault)) from fault
    except (csv.Error, UnicodeDecodeError) as fault:
        raise CannotMove(f"{path}: {fault}") from fault
    if not rows or rows[0] not in HEAD:
        raise CannotMove(f"{path}: its first row is neither code,weight nor code,weight,of")
    expenditures = [_read_spent(path, number, row, of) for number, row in enumerate(rows[1:], 2) if any(row)]
    codes = [expenditure.code for expenditure in expenditures]
    twice = next((code for at, code in enumerate(codes) if code in codes[:at]), None)
    if twice:
        raise CannotMove(f"{path}: {twice} has two rows")
    if not any(expenditure.weight for expenditure in expenditures):
        raise CannotMove(f"{path}: there is no weight above 0")
    return expenditures


def _read_spent(path: Path, number: int, row: Sequence[str], of: str) -> Spent:
    """A row of the sheet."""
    code, weight, own = (*(cell.strip() for cell in row), "", "")[:3]
    if not CODE.fullmatch(code) or depth_of(code) != 5:
        raise CannotMove(f"{path}, row {number}: {code!r} is no code of an elementary aggregate, such as 01.1.1.1-01")
    if not NUMBER.fullmatch(weight):
        raise CannotMove(f"{path}, row {number}: {weight!r} is no weight, such as 600000 or 12.5")
    if own and not PERIOD.fullmatch(own):
        raise CannotMove(f"{path}, row {number}: {own!r} is neither a year like 2025 nor a month like 2025-06")
    return Spent(code, Fraction(weight), own or of)


def move_weights(series: Series, spent: Sequence[Spent], link: str) -> list[Moved]:
    """The weights at the prices of a December, in the order of the sheet. Raises CannotMove with all rows that have no
    level in their period, or whose levels aren't linked to December's."""
    if link not in series.months and link != series.base:
        raise CannotMove(f"the table of {link} isn't published")
    found: dict[str, Optional[tuple[Fraction, Fraction]]] = {
        expenditure.code: _levels(series, expenditure, link) for expenditure in spent
    }
    lacking = [f"{expenditure.code} ({expenditure.of})" for expenditure in spent if found[expenditure.code] is None]
    if lacking:
        text = f"{', '.join(lacking[:5])}{f' and {len(lacking) - 5} more' if len(lacking) > 5 else ''}"
        advice = f"give the weight at prices of {link} and write that month in the column of"
        raise CannotMove(f"no published levels lead from its period to {link}: {text}; {advice}")
    levels = {code: pair for code, pair in found.items() if pair}
    worth = [expenditure.weight * levels[expenditure.code][1] / levels[expenditure.code][0] for expenditure in spent]
    return [
        Moved(expenditure, *levels[expenditure.code], value, parts)
        for expenditure, value, parts in zip(spent, worth, scale_weights(worth))
    ]


def _levels(series: Series, expenditure: Spent, link: str) -> Optional[tuple[Fraction, Fraction]]:
    """The level of an aggregate in its period and in December; None if the two aren't linked. A weight at the prices of
    December itself needs no level."""
    if expenditure.of == link:
        return Fraction(100), Fraction(100)
    then = reference_level(series, expenditure.code, expenditure.of) if expenditure.code in series.titles else None
    row = series.row(link, expenditure.code)
    if then is None or row is None or link not in months_linked_to(series, expenditure.code, expenditure.of):
        return None
    return Fraction(*then), Fraction(row.chained, 10**6)


def plan_rows(moved_weights: Sequence[Moved]) -> Iterator[Sequence[object]]:
    """The rows `W` of a plan; a weight of 0 has none."""
    yield from (("W", weight.spent.code, weight.parts) for weight in moved_weights if weight.parts)


STEPS_HEAD = ("code", "title", "weight", "of", "level_then", "level_december", "worth_in_december", "parts_per_million")


def step_rows(moved_weights: Sequence[Moved], titles: Mapping[str, str]) -> Iterator[Sequence[object]]:
    """Each weight with the figures from which it was computed, with six decimals; levels are in points."""
    for moved_weight in moved_weights:
        numbers = (
            decimal(*number.as_integer_ratio(), 6)
            for number in (moved_weight.spent.weight, moved_weight.then, moved_weight.now, moved_weight.worth)
        )
        weight, *others = numbers
        yield moved_weight.spent.code, titles.get(
            moved_weight.spent.code, ""
        ), weight, moved_weight.spent.of, *others, moved_weight.parts


# ---- words

DESCRIPTION = """\
Updates a year's weights by prices to the December before a plan's year, and writes the W rows of
the plan, in parts per million. SHEET is a CSV file with the columns code and weight: the spending on
each elementary aggregate in the year of --of, at that year's prices, in any unit. At December's
prices, the weight is weight * level of December / mean of the twelve levels of the year, from the
published tables. The tool computes this exactly, and rounds only once, by greatest remainders, so
that the rows add up to 1,000,000.

A third column, of, names another year or month for a row. A new aggregate has no levels: give its
weight at the prices of that December, and name that December in its column of. A plan with these
rows has no R row, because the weights are already at December's prices.
"""

EPILOG = """\
example: cpi-tools weights spent.csv --of 2025 --for 2027 --db office.db --at $(date +%s) --out w.csv

exit status: 0 if the rows were written; 1 if they weren't (one line says why); 2 if the arguments
are refused
"""


def add_words(tools: argparse._SubParsersAction[ToolWords]) -> None:
    """Adds the tool `weights`."""
    says = "Move a year's weights by prices to December, for the next plan"
    words = tools.add_parser("weights", help=says, description=DESCRIPTION, epilog=EPILOG)
    words.add_argument("sheet", type=Path, metavar="SHEET", help="codes and weights")
    add_source(words)
    words.add_argument("--of", type=a_year, required=True, metavar="YEAR", help="the year of the weights' prices")
    words.add_argument("--for", type=a_year, required=True, dest="year", metavar="YEAR", help="the year of the plan")
    words.add_argument("--out", type=a_file, required=True, metavar="ROWS", help="where to write the rows of the plan")
    words.add_argument("--steps", type=a_file, metavar="STEPS", help="where to write each weight with its levels")
    words.set_defaults(run=run, tool="weights", words=words)


def a_year(text: str) -> str:
    """A type of argparse: a year like 2025."""
    if not re.fullmatch(r"2[01][0-9]{2}", text):
        raise argparse.ArgumentTypeError(f"{text} isn't a year like 2025")
    return text


def run(chosen: argparse.Namespace) -> int:
    """Runs the tool with its arguments; returns its exit status."""
    test_source(chosen)
    if chosen.at is not None and chosen.at > time.time():
        raise CannotMove(f"--at {chosen.at} is still to come: its tables may be under embargo now")
    spent = read_spent(chosen.sheet, chosen.of)
    with Progress("cpi-tools weights") as progress:
        series = Series(read_source(chosen, progress))
    link = f"{int(chosen.year) - 1:04}-12"
    weights = move_weights(series, spent, link)
    _write(chosen.out, [], plan_rows(weights))
    if chosen.steps:
        _write(chosen.steps, [STEPS_HEAD], step_rows(weights, series.titles))
    rows = write_count(sum(1 for weight in weights if weight.parts), "weight")
    print(f"{chosen.out}: {rows} of {chosen.of} at prices of {link}, parts per million")
    return 0


def _write(to: Path, head: Sequence[Sequence[object]], rows: Iterable[Sequence[object]]) -> None:
    """Writes a CSV file, completely or not at all."""
    text = io.StringIO()
    text_files.Writer(text).writerows([*head, *rows])
    try:
        write_whole(to, text.getvalue().encode(), 0o644)
    except OSError as fault:
        raise CannotMove(because_of(fault)) from fault

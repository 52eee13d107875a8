"""`cpi-tools research-file`: frozen prices for a researcher, as coarse as the office's rules say, with a record."""

from __future__ import annotations

import argparse
import csv
import fcntl
import hashlib
import io
import os
import re
import secrets
import sqlite3
import time
from collections import Counter, defaultdict
from collections.abc import Callable, Iterable, Iterator, Mapping, Sequence
from datetime import datetime, timezone
from pathlib import Path
from typing import BinaryIO, NamedTuple, NoReturn, Optional

from ..office.copying import private_copy
from ..office.folders import new_room
from ..office.frozen_quotes import read_frozen_quotes, read_last_releases, read_published
from ..office.price_rules import FEWEST_OUTLETS, may_show
from ..office.program import Cpi, add_program
from ..office.stored import OBSERVED, Release, StoredOffice, read_copy
from ..text.exact import round_ratio
from ..text.terminal import Fault, Progress, ToolWords, at_least, because_of, time_text, write_count
from ..text.text_files import BadToml, Toml, is_formula, rename_to_new, toml_of


# ==== the office's record of files for researchers: a CSV file that only its owner can read, with a row for each file
#
# A row is added under a lock, and is on the disk before the file is in its place: no file is without its row.


class Entry(NamedTuple):
    """A file: when it was made (UTC) and for whom, its name and its sum, the sum of its rules, the months and how many rows
    and outlets it has, and how many quotes of these months were left out."""

    made: str
    given_to: str
    file: str
    sha256: str
    rules_sha256: str
    first_month: str
    last_month: str
    rows: int
    outlets: int
    left_out: int


class BadRecord(Fault):
    """A record that can't be added to; one line."""


def add_entry(path: Path, entry: Entry, put_in_place: Callable[[], None] = lambda: None) -> None:
    """Adds a row to the record at a path, which is made if it isn't there, and then puts the file of the row in its
    place; if that raises something, the row is taken back. Raises BadRecord, and leaves the record as it is."""
    try:
        with os.fdopen(os.open(path, os.O_RDWR | os.O_CREAT | os.O_APPEND, 0o600), "r+b") as file:
            fcntl.flock(file, fcntl.LOCK_EX)
            before = file.read().decode("utf-8")
            _test(path, before)
            kept = (before or _make_line(Entry._fields)).encode()
            file.write(kept[len(before.encode()) :] + _make_line(entry).encode())
            _sync(file)
            try:
                put_in_place()
            except BaseException:
                file.truncate(len(kept))
                _sync(file)
                raise
    except OSError as fault:
        raise BadRecord(because_of(fault)) from fault
    except UnicodeDecodeError as fault:
        raise BadRecord(f"{path} isn't UTF-8: wanted a record of files for researchers") from fault


def _sync(file: BinaryIO) -> None:
    file.flush()
    os.fsync(file.fileno())


def _test(path: Path, before: str) -> None:
    """Refuses what is no record, or whose last row isn't whole."""
    head = _make_line(Entry._fields)
    if before and not before.startswith(head):
        first = before.splitlines()[0][:80]
        raise BadRecord(f"{path}: its first row is {first}: wanted {head.strip()}, or a file that isn't there")
    if before and not before.endswith("\n"):
        last = before.splitlines()[-1][:80]
        raise BadRecord(f"{path}: its last row is {last}, without an end of the line: wanted whole rows")


def _make_line(cells: tuple[object, ...]) -> str:
    text = io.StringIO()
    csv.writer(text, lineterminator="\n").writerow(cells)
    return text.getvalue()


# ==== The rules of a file for researchers: TOML that an office writes. Each word is needed, so nothing is as fine as it
# is by chance.
#
#     period = "quarter"
#     items = "class"
#     price_digits = 2
#     least_outlets = 5
#     least_prices = 10
#
#     [regions]
#     north = ["1-199", 250]
#     south = ["200-249"]

MOST_BYTES = 1 << 20
"""No file of rules takes more."""

PERIODS = {"month": 1, "quarter": 3, "year": 12}
"""The number of months in each period."""

ITEM = "item"
ITEMS = {ITEM: 0, "aggregate": 11, "subclass": 8, "class": 6, "group": 4, "division": 2}
"""The number of characters in the code of an aggregate at each level; an item has a code of its own."""

NUMBERS = {"price_digits": (1, 7), "least_outlets": (FEWEST_OUTLETS, 99), "least_prices": (FEWEST_OUTLETS, 9999)}
"""The rules that are numbers, with the least and the most."""

REGIONS = "regions"
WORDS = ("period", "items", *NUMBERS, REGIONS)

RANGE = re.compile("([1-9][0-9]{0,5})(?:-([1-9][0-9]{0,5}))?")
NAME = re.compile(r"[^\s,\"](?:[^\n\r,\"]{0,58}[^\s,\"])?")


class BadRules(Fault):
    """A file of rules with a fault; one line."""


class Rules(NamedTuple):
    """How coarse a file is, with the rules' file and its SHA-256 in hexadecimal. The rules set the number of months
    in a period, the number of characters of a code that stay (0: the item's own), and the number of leading digits
    of a price; the least number of outlets and prices in each cell; and the outlets of each region, as pairs of a
    first and a last number."""

    toml: Toml
    sha256: str
    months: int
    depth: int
    digits: int
    least_outlets: int
    least_prices: int
    regions: Mapping[str, Sequence[tuple[int, int]]]

    def region_of(self, outlet: int) -> str:
        """The region of an outlet. Raises BadRules if it has none."""
        for name, ranges in self.regions.items():
            if any(first <= outlet <= last for first, last in ranges):
                return name
        raise BadRules(
            f"{self.toml.path}, line {self.toml.line(REGIONS)}: outlet {outlet} has prices and is in no region: wanted each"
            " outlet in one"
        )


def read_rules(path: Path) -> Rules:
    """The rules of a file. Raises BadRules."""
    try:
        return _Reader(toml_of(path, MOST_BYTES)).rules()
    except BadToml as fault:
        raise BadRules(str(fault)) from fault


class _Reader:
    """Reads the words of rules."""

    def __init__(self, toml: Toml):
        self._toml = toml

    def _refuse(self, key: Sequence[str], says: str) -> NoReturn:
        """Raises BadRules with the line of a key; a value of several lines is given in one."""
        raise BadRules(f"{self._toml.path}, line {self._toml.line(*key)}: {' '.join(says.split())}")

    def rules(self) -> Rules:
        """The rules in the file."""
        words = self._toml.words
        for word in words:
            if word not in WORDS:
                self._refuse((word,), f"{word} is no rule: wanted {', '.join(WORDS)}")
        for word in WORDS:
            if word not in words:
                self._refuse((), f"{word} is missing: wanted each of {', '.join(WORDS)}")
        months, depth = self._choice("period", PERIODS), self._choice("items", ITEMS)
        digits, least_outlets, least_prices = (self._number(word, *bounds) for word, bounds in NUMBERS.items())
        sha256 = hashlib.sha256(self._toml.path.read_bytes()).hexdigest()
        return Rules(self._toml, sha256, months, depth, digits, least_outlets, least_prices, self._regions())

    def _choice(self, word: str, known: Mapping[str, int]) -> int:
        """The value that one of several texts stands for."""
        value = self._toml.words[word]
        if not isinstance(value, str) or value not in known:
            self._refuse((word,), f"{word} is {value!r}: wanted one of {', '.join(known)}")
        return known[value]

    def _number(self, word: str, least: int, most: int) -> int:
        value = self._toml.words[word]
        if not isinstance(value, int) or isinstance(value, bool) or not least <= value <= most:
            self._refuse((word,), f"{word} is {value!r}: wanted a whole number from {least} to {most:,}")
        return value

    def _regions(self) -> dict[str, list[tuple[int, int]]]:
        """The outlets of each region, no outlet in two."""
        regions, table = dict[str, list[tuple[int, int]]](), self._toml.words[REGIONS]
        if not isinstance(table, dict) or not table:
            self._refuse(
                (REGIONS,), f'{REGIONS} is {table!r}: wanted lines like north = ["1-199", 250] below [{REGIONS}]'
            )
        for name, outlets in table.items():
            if not NAME.fullmatch(name) or is_formula(name):
                self._refuse(
                    (REGIONS, name), f"{name!r} is no name of a region: wanted a text without commas and quotes"
                )
            if not isinstance(outlets, list) or not outlets:
                self._refuse((REGIONS, name), f'{name} is {outlets!r}: wanted outlets, such as ["1-199", 250]')
            regions[name] = [self._range(name, outlet) for outlet in outlets]
        self._test_apart(regions)
        return regions

    def _range(self, name: str, value: object) -> tuple[int, int]:
        """The first and the last number of some outlets."""
        read = RANGE.fullmatch(str(value)) if isinstance(value, (int, str)) else None
        first, last = (int(read[1]), int(read[2] or read[1])) if read else (1, 0)
        if first > last:
            self._refuse((REGIONS, name), f'{name} has {value!r}: wanted an outlet, or some as in "1-199"')
        return first, last

    def _test_apart(self, regions: Mapping[str, Sequence[tuple[int, int]]]) -> None:
        """Refuses an outlet in two regions, or twice in one."""
        ranges = sorted((it, name) for name, own in regions.items() for it in own)
        for ((_, last), one), ((first, _), other) in zip(ranges, ranges[1:]):
            if first <= last:
                self._refuse((REGIONS, other), f"outlet {first} is in {one} and in {other}: wanted each outlet once")


# ==== rows for researchers: frozen quotes as coarse as the office's rules say, without the quotes of small cells
#
# A row has a period, a region, the code of an item or of what is above it, a random number of its outlet, `price`,
# `comparable`, `other` or `missing`, and the price in minor units with its leading digits. A cell is a period, a region
# and a code. Its rows are left out if it has too few prices, or prices from too few outlets, or if one outlet has more
# than half of them (`office/price_rules.py`). The file contains a period only if all its months are published with a
# table: otherwise the next file would show which rows are from its last month.

HEAD = ("period", "region", "item", "outlet", "mark", "price")
"""The columns of a file."""

MISSING = "missing"
"""The mark of each quote without a price, whatever its reason."""

Cell = tuple[str, str, str]
"""A period, a region and a code."""


class Coarse(NamedTuple):
    """A quote with its cell and the office's number of its outlet; without a price if that is missing."""

    cell: Cell
    outlet: int
    mark: str
    price: Optional[int]


class LeftOut(NamedTuple):
    """The numbers of quotes that aren't in a file: quotes of small cells, and the number of these cells; quotes of
    periods that aren't whole; and quotes of items that aren't in the plan."""

    of_cells: int
    cells: int
    of_periods: int
    unplanned: int


class ResearchRows(NamedTuple):
    """The rows of a file in their order, by its own numbers of outlets; the months that it covers, how many outlets it has,
    and what was left out."""

    rows: list[tuple[object, ...]]
    months: list[str]
    outlets: int
    left_out: LeftOut


def make_research_rows(office: StoredOffice, releases: Mapping[str, Release], rules: Rules) -> ResearchRows:
    """The rows of the last published revisions of months. Raises BadRules if an outlet has no region."""
    whole = find_whole_months(releases, rules.months)
    slots, places = office.assignments(), {plan.year: plan.places for plan in office.plans()}
    found, of_periods, unplanned = list[Coarse](), 0, 0
    for month, release in releases.items():
        quotes = [*read_frozen_quotes(office, release, slots)]
        if month not in whole:
            of_periods += len(quotes)
            continue
        codes = places[release.month // 100]
        planned = [quote for quote in quotes if quote.item in codes]
        unplanned += len(quotes) - len(planned)
        for it in planned:
            code = codes[it.item][: rules.depth] if rules.depth else it.item
            cell = name_period(month, rules.months), rules.region_of(it.outlet), code
            is_priced = it.mark in OBSERVED
            price = round_to_leading(it.price, rules.digits) if is_priced else None
            found.append(Coarse(cell, it.outlet, it.mark if is_priced else MISSING, price))
    large = find_large_cells(found, rules)
    shown = [it for it in found if it.cell in large]
    cells = len({it.cell for it in found}) - len(large)
    left_out = LeftOut(len(found) - len(shown), cells, of_periods, unplanned)
    return ResearchRows([*_number_outlets(shown)], whole, len({it.outlet for it in shown}), left_out)


def _number_outlets(shown: Iterable[Coarse]) -> Iterator[tuple[object, ...]]:
    """Rows with random numbers of outlets, in an order that reveals nothing else."""
    shown = [*shown]
    outlets = sorted({it.outlet for it in shown})
    numbers = dict(zip(outlets, secrets.SystemRandom().sample(range(1, len(outlets) + 1), len(outlets))))
    rows = sorted((*it.cell, numbers[it.outlet], it.mark, it.price or 0) for it in shown)
    yield from ((*row[:-1], row[-1] or "") for row in rows)


def find_whole_months(months: Iterable[str], size: int) -> list[str]:
    """The months that belong to whole periods of `size` months."""
    months = sorted(months)
    counts = Counter(name_period(month, size) for month in months)
    return [month for month in months if counts[name_period(month, size)] == size]


def name_period(month: str, size: int) -> str:
    """The name of the period that contains a month like `2026-05`: the month itself, `2026-Q2` or `2026`."""
    return {1: month, 3: f"{month[:4]}-Q{(int(month[5:]) + 2) // 3}", 12: month[:4]}[size]


def round_to_leading(price: int, digits: int) -> int:
    """A price with so many leading digits, rounded to the nearest, halves up."""
    unit: int = 10 ** max(0, len(str(price)) - digits)
    return round_ratio(price, unit) * unit


def find_large_cells(rows: Iterable[Coarse], rules: Rules) -> set[Cell]:
    """The cells that have enough prices, of enough outlets."""
    outlets = defaultdict[Cell, list[int]](list)
    for row in rows:
        if row.price is not None:
            outlets[row.cell].append(row.outlet)
    return {
        cell for cell, own in outlets.items() if len(own) >= rules.least_prices and may_show(own, rules.least_outlets)
    }


# ==== `cpi-tools research-file`: frozen prices for a researcher, as coarse as the office's rules say
#
# No name, no key, no receipt and no moment is in the file, and its numbers of outlets are random and kept nowhere. (The
# files of `take-out` have names and keys, so they are not for that.)

MOST_LETTERS = 300
"""Characters of the text that says for whom a file is."""


def read_rows(cpi: Cpi, file: Path, at: int, rules: Rules) -> ResearchRows:
    """The rows of what an office's file has published at a moment. The file is copied, and not changed. Raises Fault."""
    with private_copy(file) as copy:
        published = read_published(cpi, copy, at)
        with read_copy(copy) as office:
            return make_research_rows(office, read_last_releases(office, published), rules)


def make_content(rows: Sequence[Sequence[object]]) -> bytes:
    """The file of some rows."""
    text = io.StringIO()
    csv.writer(text, lineterminator="\n").writerows([HEAD, *rows])
    return text.getvalue().encode()


def write_file(research_rows: ResearchRows, rules: Rules, given_to: str, out: Path, record: Path, now: int) -> None:
    """Writes the file, with mode 0600, and its row of the record; `now` is in seconds since 1970. Raises Fault if there is
    a file already, or nothing to write."""
    if os.path.lexists(out):
        raise _is_there(out)
    if not research_rows.rows:
        raise Fault(
            f"no row is left by the rules of {rules.toml.path}: {_say_left_out(research_rows)}; nothing was written"
        )
    content, left_out = make_content(research_rows.rows), research_rows.left_out
    made = datetime.fromtimestamp(now, timezone.utc).strftime("%Y-%m-%dT%H:%M:%SZ")
    sums = hashlib.sha256(content).hexdigest(), rules.sha256
    counts = len(research_rows.rows), research_rows.outlets, left_out.of_cells + left_out.unplanned
    with new_room(".cpi-research-", out.parent) as room:
        new = room / "file"
        with os.fdopen(os.open(new, os.O_WRONLY | os.O_CREAT | os.O_EXCL, 0o600), "wb") as file:
            file.write(content)
            file.flush()
            os.fsync(file.fileno())
        entry = Entry(made, given_to, out.name, *sums, research_rows.months[0], research_rows.months[-1], *counts)
        add_entry(record, entry, lambda: _put_in_place(new, out))


def _put_in_place(new: Path, out: Path) -> None:
    """Renames a whole file. Raises Fault if another one has the name, even if it came while this one was made."""
    try:
        rename_to_new(new, out)
    except FileExistsError as fault:
        raise _is_there(out) from fault


def _is_there(out: Path) -> Fault:
    return Fault(f"{out} is there already: wanted the name of a new file")


def _say_left_out(research_rows: ResearchRows) -> str:
    """The number of quotes that aren't in a file, and why."""
    it = research_rows.left_out
    return (
        f"{write_count(it.of_cells, 'quote')} in {write_count(it.cells, 'small cell')},"
        f" {it.of_periods:,} of periods that aren't whole and {it.unplanned:,} of items outside the index left out"
    )


# ---- words

DESCRIPTION = f"""\
Writes the frozen prices of published months for a researcher, as CSV without names, keys, receipts
and times. Outlets get random numbers, which the tool draws again for each file and doesn't keep.
The file gives no reason for a missing price. RULES is a TOML file in which the office sets how
coarse the file is: period, items, price_digits, least_outlets, least_prices and [regions];
examples/prices contains such a file.

A cell is a period, a region, and an item or a node above one. The tool leaves out a cell if it has
fewer prices than least_prices, or prices from fewer outlets than least_outlets (at least {FEWEST_OUTLETS}), or
if one outlet has more than half of them. It leaves out a period until all its months are published.

RECORD gets a line for each file: when and for whom it was made, its SHA-256, the SHA-256 of the
rules, its months and counts. The prices in two files can be matched, so read RECORD before you make
another file. The tool copies OFFICE, whether cpi is running or not, and doesn't change it. (The
files of take-out contain names and keys.)
"""

EPILOG = """\
example: cpi-tools research-file --db o.db --at 1790000000 --rules r.toml --for NAME --record r.csv --out p.csv

exit status: 0 if the file was written; 1 if it wasn't (one line says why); 2 if the arguments are
refused
"""


def read_text(text: str) -> str:
    """A text of one line that no spreadsheet computes. Raises ArgumentTypeError."""
    if text != " ".join(text.split()) or not 0 < len(text) <= MOST_LETTERS or is_formula(text):
        raise argparse.ArgumentTypeError(f"{text!r}: wanted a text of one line, with at most {MOST_LETTERS} characters")
    return text


def add_words(tools: argparse._SubParsersAction[ToolWords]) -> None:
    """The tool `research-file`."""
    words = tools.add_parser(
        "research-file", help="Write frozen prices for a researcher", description=DESCRIPTION, epilog=EPILOG
    )
    add = words.add_argument
    add("--db", type=Path, required=True, metavar="OFFICE", help="an office's file, which is only read")
    says = "read the months published by this time, in seconds since 1970"
    add("--at", type=at_least(0), required=True, metavar="SECONDS", help=says)
    add("--rules", type=Path, required=True, metavar="RULES", help="a TOML file that sets how coarse the file is")
    says = "the recipient of the file, for the record"
    add("--for", dest="given_to", type=read_text, required=True, metavar="TEXT", help=says)
    says = "the office's record of such files, which gets another line"
    add("--record", type=Path, required=True, metavar="RECORD", help=says)
    add("--out", type=Path, required=True, metavar="FILE", help="the file to write, which doesn't exist yet")
    add_program(words)
    words.set_defaults(run=run, tool="research-file", words=words)


def run(chosen: argparse.Namespace) -> int:
    """Runs the tool with its arguments; returns its exit status."""
    now = int(time.time())
    if chosen.at > now:
        raise Fault(
            f"--at {chosen.at} is {time_text(chosen.at)}, which is still to come: its tables may be under embargo now"
        )
    rules = read_rules(chosen.rules)
    with Progress("cpi-tools research-file") as progress:
        progress.now("prices")
        try:
            rows = read_rows(Cpi(chosen.program), chosen.db, chosen.at, rules)
            write_file(rows, rules, chosen.given_to, chosen.out, chosen.record, now)
        except OSError as fault:
            raise Fault(because_of(fault)) from fault
        except sqlite3.Error as fault:
            raise Fault(f"{chosen.db} can't be read: {fault}") from fault
    months = f"{rows.months[0]} to {rows.months[-1]}"
    print(f"{chosen.out}: {write_count(len(rows.rows), 'row')} of {write_count(rows.outlets, 'outlet')}, {months}")
    print(f"{chosen.out}: {_say_left_out(rows)}")
    return 0

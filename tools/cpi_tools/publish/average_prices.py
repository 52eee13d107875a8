"""`cpi-tools average-prices`: average prices of items that the office lists, from the frozen quotes of a copy."""

from __future__ import annotations

import argparse
import csv
import io
import sqlite3
import time
from collections.abc import Iterator, Mapping, Sequence
from pathlib import Path
from typing import Any, NamedTuple, NoReturn, Optional

from ..office.copying import private_copy
from ..office.frozen_quotes import read_frozen_quotes, read_last_releases, read_published
from ..office.price_rules import FEWEST_OUTLETS, may_show
from ..office.program import Cpi, add_program
from ..office.public import MONTH, Listed
from ..office.stored import OBSERVED, Assignment, Release, StoredOffice, read_copy
from ..text.exact import round_ratio
from ..text.terminal import Fault, Progress, ToolWords, at_least, because_of, time_text, write_count
from ..text.text_files import BadToml, Toml, is_formula, toml_of, write_whole
from .figures.config import AverageRule, read_average_rule
from .figures.survey_rows import (
    HEAD,
    HIDDEN,
    ITEM,
    SUPERSEDED,
    Average,
    BadAverages,
    Mean,
    find_current,
    parse_averages,
    read_averages,
)


# ==== which items have average prices: a file of TOML in which the office lists them, and says why a published one
# changes
#
# [items] RICE = "Rice, packed"
#
# [[corrections]] month = "2026-02" item = "RICE" reason = "A price of two packets was counted as one of a packet."

MOST_BYTES = 1 << 20
"""The largest number of items in a list."""

MOST_LETTERS = 300
"""The largest number of characters in a title or a reason."""

ITEMS, CORRECTIONS = "items", "corrections"
OF_CORRECTION = ("month", "item", "reason")


class BadItems(Fault):
    """A list of items with a fault; one line."""


class Correction(NamedTuple):
    """The reason why the average of an item in a month like `2026-02` is computed again, and the line of the file
    that gives it."""

    month: str
    item: str
    reason: str
    line: int


class AverageItems(NamedTuple):
    """The titles of the items by their codes, in the office's order; its corrections; and the file with its lines."""

    titles: Mapping[str, str]
    corrections: Sequence[Correction]
    toml: Toml

    def refuse(self, line: int, says: str) -> NoReturn:
        """Raises BadItems with a line of the file."""
        raise BadItems(f"{self.toml.path}, line {line}: {says}")

    def refuse_unknown(self, known: Mapping[str, object]) -> None:
        """Raises BadItems if the office has no item with a code."""
        for code in self.titles:
            if code not in known:
                self.refuse(self.toml.line(ITEMS, code), f"{code} is no item of the office: wanted the code of one")


def read_items(path: Path) -> AverageItems:
    """The items of a file. Raises BadItems."""
    try:
        toml = toml_of(path, MOST_BYTES)
    except BadToml as fault:
        raise BadItems(str(fault)) from fault
    return _Reader(AverageItems({}, (), toml)).items()


class _Reader:
    """Reads the words of a list of items."""

    def __init__(self, empty: AverageItems):
        self._empty, self._toml = empty, empty.toml

    def _refuse(self, key: Sequence[str], says: str) -> NoReturn:
        self._empty.refuse(self._toml.line(*key), " ".join(says.split()))

    def items(self) -> AverageItems:
        """The list in the file."""
        words = self._toml.words
        for word in words:
            if word not in (ITEMS, CORRECTIONS):
                self._refuse((word,), f"{word} is no word here: wanted [{ITEMS}] or [[{CORRECTIONS}]]")
        titles, corrections = words.get(ITEMS, {}), words.get(CORRECTIONS, [])
        if not isinstance(titles, dict) or not titles:
            self._refuse((ITEMS,), f'{ITEMS} has no item: wanted lines like RICE = "Rice, packed" below [{ITEMS}]')
        if not isinstance(corrections, list) or not all(isinstance(correction, dict) for correction in corrections):
            self._refuse((CORRECTIONS,), f"{CORRECTIONS} is {corrections!r}: wanted tables [[{CORRECTIONS}]]")
        for code, title in titles.items():
            if not ITEM.fullmatch(code):
                self._refuse((ITEMS, code), f"{code} is no code of an item: wanted 1 to 12 of A-Z and 0-9")
            self._test_text((ITEMS, code), code, title)
        items = [self._correction(number, correction) for number, correction in enumerate(corrections)]
        self._test_once(items)
        return self._empty._replace(titles=titles, corrections=tuple(items))

    def _correction(self, number: int, words: Mapping[str, Any]) -> Correction:
        key = CORRECTIONS, str(number)
        for word in words:
            if word not in OF_CORRECTION:
                self._refuse((*key, word), f"{word} is no word here: wanted {', '.join(OF_CORRECTION)}")
        for word in OF_CORRECTION:
            if word not in words:
                self._refuse(key, f"{word} is missing: wanted {', '.join(OF_CORRECTION)}")
            self._test_text((*key, word), word, words[word])
        for word, form, wanted in (("month", MONTH, "a month like 2026-02"), ("item", ITEM, "the code of an item")):
            if not form.fullmatch(words[word]):
                self._refuse((*key, word), f"{word} is {words[word]}: wanted {wanted}")
        return Correction(words["month"], words["item"], words["reason"], self._toml.line(*key))

    def _test_text(self, key: Sequence[str], word: str, text: object) -> None:
        """Refuses a value that isn't one line of text, or that a spreadsheet would compute as a formula."""
        if not isinstance(text, str) or text != " ".join(text.split()) or not 0 < len(text) <= MOST_LETTERS:
            self._refuse(key, f"{word} is {text!r}: wanted a text of one line, with at most {MOST_LETTERS} characters")
        if is_formula(text):
            self._refuse(key, f"{word} is {text}, which a spreadsheet computes: wanted another first character")

    def _test_once(self, corrections: Sequence[Correction]) -> None:
        """Refuses a correction that appears twice: each further one of an item and a month needs a reason of its
        own."""
        lines: dict[tuple[str, ...], int] = {}
        for correction in corrections:
            first = lines.setdefault(correction[:3], correction.line)
            if first != correction.line:
                self._empty.refuse(correction.line, f"it is the correction of line {first}: wanted another reason")


# ==== `cpi-tools average-prices`: average prices of items that the office lists, from the frozen quotes of a copy
#
# The mean of the prices of an item that a release was computed from; imputed prices are no part of it. Which of them
# can be shown is the rule of `office/price_rules.py`. `cpi-tools publish` takes the file if the configuration names it.

Means = Mapping[str, Optional[Mean]]
"""By item, its mean in a release; None if the mean is hidden. An item without a frozen quote is missing."""


class Source(NamedTuple):
    """The data from which averages are computed: an office's copy, its slots and units, the published releases with
    a table, the last one of each month by month, and the least number of outlets."""

    office: StoredOffice
    slots: Sequence[Assignment]
    units: Mapping[str, str]
    releases: Mapping[str, Release]
    least: int

    def means(self, release: Release) -> Means:
        """The means of all items of a release."""
        prices: dict[str, list[tuple[int, int]]] = {}
        for quote in read_frozen_quotes(self.office, release, self.slots):
            own = prices.setdefault(quote.item, [])
            if quote.mark in OBSERVED:
                own.append((quote.outlet, quote.price))
        return {item: compute_mean(own, self.least) for item, own in prices.items()}


def compute_mean(prices: Sequence[tuple[int, int]], least: int) -> Optional[Mean]:
    """The mean of prices in minor units, each with its outlet; None if the rule hides it."""
    outlets = [outlet for outlet, _ in prices]
    if not may_show(outlets, least):
        return None
    return Mean(len({*outlets}), len(prices), round_ratio(sum(price for _, price in prices), len(prices)))


def read_source(office: StoredOffice, published: Sequence[Listed], least: int) -> Source:
    """The data from which an office's averages are computed. Of each month it contains the last published revision."""
    units = {it.code: it.unit for it in office.items()}
    return Source(office, office.assignments(), units, read_last_releases(office, published), least)


# ---- rows


def continue_averages(known: Sequence[Average], source: Source, items: AverageItems) -> list[Average]:
    """The rows of a file that continues existing rows, by month and item: these stay, except for the office's
    corrections. Raises BadItems."""
    items.refuse_unknown(source.units)
    rows = [*known, *_make_new_rows(find_current(known), source, items)]
    for correction in items.corrections:
        rows = _correct(rows, correction, source, items)
    return sorted(rows, key=lambda row: row.key)


def _make_new_rows(known: Mapping[tuple[str, str], Average], source: Source, items: AverageItems) -> Iterator[Average]:
    """The rows of items in months that have no rows yet."""
    for month, release in source.releases.items():
        lacking = [item for item in items.titles if (month, item) not in known]
        means = source.means(release) if lacking else {}
        for item in lacking:
            if item in means:
                yield _make_row(month, release, (item, items.titles[item], source.units[item]), means[item])


def _make_row(
    month: str, release: Release, named: tuple[str, str, str], mean: Optional[Mean], reason: str = ""
) -> Average:
    return Average(month, release.revision, *named, mean, "" if mean else HIDDEN, reason)


def _correct(rows: Sequence[Average], correction: Correction, source: Source, items: AverageItems) -> list[Average]:
    """The rows after a correction; the same rows if they already contain it."""
    own = [row for row in rows if row.key == correction[:2]]
    if any(row.reason == correction.reason for row in own):
        return [*rows]
    if not own or correction.month not in source.releases:
        items.refuse(
            correction.line,
            f"{correction.item} of {correction.month} has no row to correct: wanted one of the file --out, as published",
        )
    then, release = find_current(own)[own[0].key], source.releases[correction.month]
    mean = source.means(release).get(correction.item)
    now = _make_row(correction.month, release, then[2:5], mean, correction.reason)
    others = [row for row in rows if row.key != now.key]
    if mean is None:
        return [*others, now]
    earlier = [row._replace(status=SUPERSEDED) if row is then else row for row in own if row.mean]
    return [*others, *earlier, now]


# ---- the file


def write_averages(rows: Sequence[Average], rule: AverageRule, to: Path) -> None:
    """Writes the file of average prices, whole or not at all, with mode 0644. Raises Fault, also if a row has fewer
    outlets than the rule wants."""
    texts = [row.texts(rule.digits) for row in rows]
    try:
        parse_averages([HEAD, *texts], rule.digits, rule.least)
    except BadAverages as fault:
        raise BadAverages(f"{to}: {fault}") from None
    text = io.StringIO()
    csv.writer(text, lineterminator="\n").writerows([HEAD, *texts])
    try:
        write_whole(to, text.getvalue().encode(), 0o644)
    except OSError as fault:
        raise Fault(because_of(fault)) from fault


def average_prices(cpi: Cpi, file: Path, at: int, rule: AverageRule, items: AverageItems, out: Path) -> list[Average]:
    """Writes the average prices of what an office's file has published at a moment, continuing an existing file;
    returns its rows. The office's file is copied, and not changed. Raises Fault."""
    known = read_averages(out, rule.digits, FEWEST_OUTLETS) if out.exists() else ()
    with private_copy(file) as copy:
        published = read_published(cpi, copy, at)
        with read_copy(copy) as office:
            rows = continue_averages(known, read_source(office, published, rule.least), items)
    write_averages(rows, rule, out)
    return rows


# ---- words

DESCRIPTION = f"""\
Computes average prices of the items that ITEMS lists, from the frozen prices of each published
month; imputed prices don't count. The file goes into the pack of cpi-tools publish if the
configuration contains average_prices = FILE. Nothing comes from a table that isn't published at
the time of --at.

An average is hidden if its prices come from fewer outlets than least_outlets in the configuration
(by default 5, at least {FEWEST_OUTLETS}), or if one outlet has more than half of them. The tool continues the
existing file: a row stays if its month is revised, since two averages can reveal one price. If
ITEMS contains a correction with a reason, the tool computes the row anew, and the earlier one is
marked superseded.

The tool copies OFFICE, whether cpi is running or not, and doesn't change it. It writes the file
whole or not at all.
"""

EPILOG = """\
example: cpi-tools average-prices --db o.db --at 1790000000 --config o.ini --items i.toml --out a.csv

exit status: 0 if the file was written; 1 if it wasn't (one line says why); 2 if the arguments are
refused
"""


def add_words(tools: argparse._SubParsersAction[ToolWords]) -> None:
    """The tool `average-prices`."""
    words = tools.add_parser(
        "average-prices", help="Compute average prices of chosen items", description=DESCRIPTION, epilog=EPILOG
    )
    add = words.add_argument
    add("--db", type=Path, required=True, metavar="OFFICE", help="an office's file, which is only read")
    says = "use the tables published by this time, in seconds since 1970"
    add("--at", type=at_least(0), required=True, metavar="SECONDS", help=says)
    says = "the configuration of cpi-tools publish, for its least_outlets and minor_digits"
    add("--config", type=Path, required=True, metavar="FILE", help=says)
    says = "a TOML file with the items, and with corrections and their reasons"
    add("--items", type=Path, required=True, metavar="ITEMS", help=says)
    add("--out", type=Path, required=True, metavar="FILE", help="where to write the averages")
    add_program(words)
    words.set_defaults(run=run, tool="average-prices", words=words)


def run(chosen: argparse.Namespace) -> int:
    """Runs the tool with its arguments; returns its exit status."""
    if chosen.at > time.time():
        raise Fault(
            f"--at {chosen.at} is {time_text(chosen.at)}, which is still to come: its tables may be under embargo now"
        )
    rule, items = read_average_rule(chosen.config), read_items(chosen.items)
    with Progress("cpi-tools average-prices") as progress:
        progress.now("averages")
        try:
            rows = average_prices(Cpi(chosen.program), chosen.db, chosen.at, rule, items, chosen.out)
        except sqlite3.Error as fault:
            raise Fault(f"{chosen.db} can't be read: {fault}") from fault
    months, hidden = len({row.month for row in rows}), sum(row.status == HIDDEN for row in rows)
    print(f"{chosen.out}: {write_count(months, 'month')}, {write_count(hidden, 'row')} of {len(rows)} hidden")
    return 0

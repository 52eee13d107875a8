"""Compares the pages of a pack of examples/national with the figures that were computed here."""

from __future__ import annotations

import collections
import datetime
import html.parser
import os
import re
from collections.abc import Iterator
from fractions import Fraction
from pathlib import Path
from typing import Optional

from .by_the_manual import Month
from .cases import content
from .nation import previous, year_before
from .pack_faults import text
from .pack_figures import ALL, Figures
from .pack_forms import rows_of_csv

ADDRESS = "https://prices.example/"
"""The address of the site, from office.ini."""

ABSENT = "\u2013"
"""The text on pages for a missing figure."""


class Page(html.parser.HTMLParser):
    """The cells of the tables of a page, the titles of its pictures, and the targets of its links."""

    def __init__(self, *path: str) -> None:
        super().__init__()
        self.rows: list[list[str]] = []
        self.open: list[str] = []
        self.links: list[str] = []
        self.pictures = self.titles = 0
        self.feed(content(*path).decode())

    def handle_starttag(self, tag: str, attrs: list[tuple[str, Optional[str]]]) -> None:
        self.open.append(tag)
        self.links += [value for name, value in attrs if name in ("src", "href") and value]
        if tag == "svg":
            self.pictures += 1
        elif tag == "title" and "svg" in self.open:
            self.titles += 1
        elif tag == "tr":
            self.rows.append([])
        elif tag in ("td", "th") and self.rows:
            self.rows[-1].append("")

    def handle_endtag(self, tag: str) -> None:
        while self.open and self.open.pop() != tag:
            pass

    def handle_data(self, data: str) -> None:
        if self.rows and self.rows[-1] and ("td" in self.open or "th" in self.open):
            self.rows[-1][-1] += data


def contribution_faults(site: str, months: dict[str, Month], first: str) -> Iterator[str]:
    """The fault, if the contributions of the divisions don't add up to the change of all items before rounding."""
    levels = {month: {row.code: row.level for row in it.rows}["00"] for month, it in months.items()}
    levels[first] = Fraction(100)
    sums: dict[tuple[str, str], Fraction] = collections.defaultdict(Fraction)
    for row in rows_of_csv(Path(site, "data/contributions.csv")):
        if len(row["code"]) == 2 and row["of"] == "00":
            for kind in ("month", "year"):
                sums[row["month"], kind] += Fraction(row[f"contribution_{kind}"] or 0)
    for month in months:
        for kind, base in (("month", previous(month)), ("year", year_before(month))):
            wanted = 100 * (levels[month] - levels[base]) / levels[base] if base in levels else Fraction(0)
            if abs(sums[month, kind] - wanted) > Fraction(1, 10**5):
                yield f"site: contributions of {month} on the {kind} add up to {sums[month, kind]}, wanted {wanted}"


def month_of(name: str) -> str:
    """`2026-01` for the text January 2026."""
    return datetime.datetime.strptime(name, "%B %Y").strftime("%Y-%m")


def signed(number: Optional[Fraction], digits: int) -> str:
    """A change or a contribution as text on pages."""
    if number is None:
        return ABSENT
    told = text(number, digits)
    return told.replace("-", "\u2212") if number < 0 or not told.strip("0.") else f"+{told}"


def percent(number: Optional[Fraction]) -> str:
    """A change as text on pages."""
    return f"{signed(number, 1)}\u202f%" if number is not None else ABSENT


def line_faults(known: Figures, code: str, page: Page) -> Iterator[str]:
    """The months of an item, the latest first: index, index within the year, changes, whether a price was imputed; and a
    row for each break."""
    at = next(at for at, cells in enumerate(page.rows) if cells[0] == "Month")
    rows = [cells for cells in page.rows[at + 1 :] if len(cells) > 1]
    lines = known.lines[code]
    if [month_of(cells[0]) for cells in rows] != sorted(lines, reverse=True):
        yield f"site: the page of {code} has the months {[cells[0] for cells in rows]}"
        return
    for cells in rows:
        month = month_of(cells[0])
        changes = map(percent, known.changes(code, month))
        wanted = [text(known.printed(code, month), 1), text(lines[month].within, 1), *changes]
        # (the last cell has the letters of all notes, of which `i` says that a price was imputed)
        if cells[1:5] != wanted or ("i" in cells[5]) != lines[month].is_imputed:
            yield f"site: the page of {code} shows {cells}, wanted {wanted}"
    breaks = sum(len(cells) == 1 and cells[0].startswith("Break: from ") for cells in page.rows[at:])
    if breaks != sum(line.is_break for line in lines.values()):
        yield f"site: the page of {code} has {breaks} breaks"


def parts_faults(known: Figures, code: str, page: Page) -> Iterator[str]:
    """The parts of an item in the last month: share of all weight, change and contribution to the item."""
    month = known.months[-1]
    whole, found = known.lines[ALL][month].weight, list[list[str]]()
    for below in known.below(code):
        line, given = known.line(below, month), known.given(month, below, code)
        if line:
            share = f"{text(Fraction(100 * line.weight, whole), 2)} %"
            found.append(
                [known.titles[below], share, percent(known.changes(below, month)[1]), signed(given.to_year, 2)]
            )
    at = next(at for at, cells in enumerate(page.rows) if cells[0] == "Month")
    shown = [cells[:4] for cells in page.rows[1:at] if len(cells) == 5]
    if sorted(shown) != sorted(found):
        yield f"site: the page of {code} is made of {sorted(shown)}, wanted {sorted(found)}"


def page_faults(site: str, known: Figures) -> Iterator[str]:
    """The page of each item that is in the last table: figures, pictures, and links."""
    for code in known.lines:
        page = Page(site, "node", f"{code}.html")
        yield from line_faults(known, code, page)
        if known.line(code, known.months[-1]):
            yield from parts_faults(known, code, page)
        if page.pictures < 2 or page.titles != page.pictures:
            yield f"site: the page of {code} has {page.pictures} pictures, {page.titles} titles"
        leading = [link for link in page.links if link != "data:," and not link.startswith("#")]
        lost = [link for link in leading if not leads_to_a_file(site, link)]
        if lost:
            yield f"site: the page of {code} leads to {lost[:3]}"


def leads_to_a_file(site: str, link: str) -> bool:
    """Whether a link of an item's page leads to a file of the site, by its address or from the folder of the page."""
    path, of_site = re.split("[?#]", link)[0], link.startswith(ADDRESS)
    if of_site:
        path = path[len(ADDRESS) :] or "index.html"
    return "//" not in path and os.path.isfile(os.path.join(site, "" if of_site else "node", path))


def site_faults(folder: str, known: Figures, months: dict[str, Month], first: str) -> Iterator[str]:
    """The pages of the pack."""
    site = os.path.join(folder, "site")
    yield from contribution_faults(site, months, first)
    yield from page_faults(site, known)
    if len(Page(site, "index.html").rows) < 14:
        yield "site: its first page hasn't all divisions"

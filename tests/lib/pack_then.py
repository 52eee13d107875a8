"""A release of the nation: its texts, from the tables that were published up to it. A figure that a later table would
change isn't part of it."""

from __future__ import annotations

import datetime
from collections.abc import Mapping
from fractions import Fraction
from typing import NamedTuple, Optional

from .by_the_manual import Id, Month
from .nation import previous, published_at
from .pack_faults import text
from .pack_figures import ALL, Figures, depth
from .pack_vintages import Revised, by_moment, changed, reasons, revised
from .site import ABSENT, percent, signed


def named(month: str) -> str:
    """The name of a month, `January 2026`."""
    return datetime.date.fromisoformat(f"{month}-01").strftime("%B %Y")


def period(of: str) -> str:
    """A period as text: a year unchanged, and a month by its name."""
    return named(of) if "-" in of else of


class Then(NamedTuple):
    """A release: its month, all figures as they were known on its day, the titles of all items of the month and of the
    one before, by their codes, its revision, and all tables that were published up to it."""

    month: str
    known: Figures
    items: Mapping[str, str] = {}
    before: Mapping[str, str] = {}
    revision: int = 1
    tables: Mapping[Id, Month] = {}

    @property
    def name(self) -> str:
        """The name of the release's files."""
        return f"{self.month}-r{self.revision}"

    @property
    def called(self) -> str:
        """The title of the release: its month, and its revision if it is a later one."""
        return named(self.month) + (f", revision {self.revision}" if self.revision > 1 else "")

    @property
    def revised(self) -> list[Revised]:
        """The revisions up to the release."""
        return revised(self.tables)

    @property
    def change_of_it(self) -> Optional[Revised]:
        """The changes from the revision before, if it is a later one."""
        return next((it for it in self.revised if (it.month, it.revision) == (self.month, self.revision)), None)

    @property
    def since(self) -> list[Revised]:
        """The revisions after the first release of the month before, up to the first release of this month."""
        last = published_at(previous(self.month))
        later = (it for it in self.revised if published_at(it.month, it.revision) > last and it.month != self.month)
        return [*later] if self.revision == 1 else []

    @property
    def reasons(self) -> list[str]:
        """The reasons why the month was revised."""
        return [reason["reason"] for reason in reasons().get((self.month, self.revision), [])]

    @property
    def letters(self) -> str:
        """The letters of its headline, as they were on its day."""
        return self.known.notes(ALL, self.month)

    @property
    def change(self) -> Fraction:
        """The change in the headline: the annual change, or else the monthly change."""
        monthly, annual = self.known.changes(ALL, self.month)
        return annual if annual is not None else monthly or Fraction(0)

    @property
    def is_annual(self) -> bool:
        return self.known.lines[ALL][self.month].annual is not None

    @property
    def headline(self) -> str:
        """The sentence of the release."""
        begin, size = f"In {named(self.month)}, consumer prices", text(abs(self.change), 1)
        if self.is_annual:
            way = "higher" if self.change > 0 else "lower"
            return (
                f"{begin} were {size} percent {way} than a year earlier"
                if self.change
                else (f"{begin} were as high as a year earlier")
            )
        return f"{begin} {moved(self.change)} from the previous month"

    def given(self, code: str) -> Optional[Fraction]:
        """The contribution of an item to that change, in percentage points."""
        found = self.known.given(self.month, code, ALL)
        return found.to_year if self.is_annual else found.to_month

    def indexed(self, code: str) -> tuple[str, str]:
        """The index of an item with one decimal, and the period in which it is 100."""
        return text(self.known.printed(code, self.month), 1), self.hundred(code)

    def hundred(self, code: str) -> str:
        return period(self.known.hundred(code, self.known.lines[code][self.month].base))

    def shown_level(self, month: str, level: Fraction) -> str:
        """A level of all items with one decimal, as the release shows it."""
        return text(self.known.shown(ALL, self.known.lines[ALL][month].base, level), 1)

    def share(self, code: str) -> str:
        """An item's share of all weight."""
        line, whole = self.known.line(code, self.month), self.known.lines[ALL][self.month]
        return f"{text(Fraction(100 * line.weight, whole.weight), 2)} %" if line else ABSENT

    def row_of(self, code: str, value: Fraction) -> list[str]:
        """An item's row in a table of contributions."""
        line = self.known.line(code, self.month)
        change = self.known.changes(code, self.month)[self.is_annual] if line else None
        return [self.known.titles[code], self.share(code), percent(change), signed(value, 2), ""]


def moved(change: Fraction) -> str:
    """The movement of prices in words."""
    way = "rose" if change > 0 else "fell" if change < 0 else "didn't change"
    return f"{way} by {text(abs(change), 1)} percent" if change else way


def releases(tables: Mapping[Id, Month], year: str, is_from_printed: bool = False) -> list[Then]:
    """Each release, by month and revision, with the figures of all items, divisions and groups that were known then;
    the year and the rule come from `Figures`."""
    releases, out, last = list[Then](), dict[Id, Month](), dict[str, Month]()
    for (month, revision), table in by_moment(tables):
        out[month, revision] = last[month] = table
        both = (last[it].rows if it in last else [] for it in (month, previous(month)))
        items, before = ({row.code: row.title for row in rows} for rows in both)
        few = {it: known._replace(rows=[row for row in known.rows if depth(row.code) <= 2])
               for it, known in last.items() if it <= month}  # fmt: skip
        known = Figures(few, {}, year, is_from_printed, changed(out))
        releases.append(Then(month, known, items, before, revision, dict(out)))
    return sorted(releases, key=lambda release: (release.month, release.revision))


def lead(then: Then) -> str:
    """The largest contribution to the change, and the largest one against it."""
    values = [(value, code) for code in then.known.below(ALL) if (value := then.given(code)) is not None]
    way = -1 if then.change < 0 else 1
    ends = sorted(values, key=lambda value: (-value[0] * way, value[1]))
    told = []
    total = signed(sum((value for value, _ in values), Fraction()), 1)
    for (value, code), begin in ((ends[0], "The largest contribution came from"), (ends[-1], "")):
        title = then.known.titles[code]
        title = title[0].lower() + title[1:] if title[1].islower() else title
        if begin and value * way > 0:
            told.append(f"{begin} {title}, {signed(value, 2)} of {total} percentage points")
        elif not begin and value * way < 0:
            told.append(f"the largest in the other direction came from {title} ({signed(value, 2)})")
    sentence = "; ".join(told) + "." if told else ""
    monthly = then.known.changes(ALL, then.month)[0] or Fraction(0)
    return f"{sentence} Compared with the previous month, prices {moved(monthly)}." if then.is_annual else sentence

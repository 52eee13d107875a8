"""Pages of sections: the templates of a tool with those of all pages, and a style for tables and lines.

A page shows the columns of a report with their names in words, changes with their sign, and counts with separators.

Files of a report contain the columns' own names, and figures without such additions.
"""

from __future__ import annotations

from collections.abc import Sequence
from functools import partial
from pathlib import Path

import jinja2
from markupsafe import Markup

from . import page_templates
from .report_language import ENGLISH, FIGURE, Teller
from .message import Cell
from .languages import mark_text


def style() -> Markup:
    """The style of all pages, and the additions for sections."""
    return page_templates.style() + Markup((page_templates.TEMPLATES / "sections.css").read_text(encoding="utf-8"))


def environment(own: Sequence[Path], teller: Teller = ENGLISH) -> jinja2.Environment:
    """The templates of a tool whose pages are made of sections; the tool's own templates are in folders."""
    made = page_templates.environment(own, teller.speech.language, teller.speech.digits)
    made.globals["style"] = style
    made.filters.update(teller.filters)
    made.filters.update(head=head, cell_figure=partial(cell_figure, teller))
    return made


HEADS = {
    "month %": mark_text("monthly change, %"),
    "year %": mark_text("annual change, %"),
    "adds, month": mark_text("contribution to the monthly change, points"),
    "adds, year": mark_text("contribution to the annual change, points"),
}
"""The names that a page shows in place of the columns' own names."""

CHANGES = frozenset(
    (
        *("month %", "year %", "adds, month", "adds, year", "change %", "moves all items", "moves all items, about"),
        *("moves aggregate", "what if: month %", "what if: year %", "prepared: month %", "prepared: year %"),
        *("now: month %", "now: year %", "gap, month", "gap, year"),
    )
)
"""Columns whose figures are changes: a rise has a plus sign."""

COUNTS = frozenset(
    (
        *("slots", "priced", "comparable", "other", "missing", "silent", "series", "outlets", "imputed", "matched"),
        *("weight", "weight in use"),
    )
)
"""Columns of whole numbers that count something, or are parts of a million; other whole numbers may be a
collector's."""


def head(name: object) -> object:
    """The name of a column on a page."""
    return HEADS.get(str(name), name)


def with_plus(text: str) -> str:
    """A figure that is a change: `+0.3` for `0.3`; `-0.3` and `0.0` stay unchanged."""
    is_up = FIGURE.fullmatch(text) and text[0].isdigit() and text.strip("0.,% \u202f")
    return f"+{text}" if is_up else text


def cell_figure(teller: Teller, cell: Cell, name: str) -> object:
    """The figure in a cell of a column."""
    if isinstance(cell, int):
        return teller.whole(cell) if name in COUNTS else teller.figure(cell)
    return teller.figure(with_plus(cell) if cell and name in CHANGES else cell)

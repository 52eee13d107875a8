"""The texts of the site's pages that aren't in a template: names of pages, descriptions of data files, rules, and
leads."""

from __future__ import annotations

from collections.abc import Mapping
from typing import Optional

from ...office.tables import Row
from ...text.exact import tenths
from ...text.languages import Speech, mark_text
from ..figures.config import Config
from ..figures.shown_figures import EXACT, PUBLISHED
from .pack_before import REASONS

SECTIONS: Mapping[str, str] = {
    # t: the way to a page, in the head of all pages: the first page
    "index.html": mark_text("Overview"),
    "nodes.html": mark_text("Items"),
    # t: the way to a page, in the head of all pages: choose items, months and figures
    "choose.html": mark_text("Build a table"),
    # t: the way to the calculator for contracts that are tied to the index
    "contract.html": mark_text("Index clause"),
    "releases.html": mark_text("Releases"),
    "data.html": mark_text("Data"),
    "revisions.html": mark_text("Revisions"),
    "method.html": mark_text("Method"),
    # t: the way to a page, in the head of all pages: how to read the index
    "how-to-read.html": mark_text("How to read it"),
}
"""The pages that the head of each leads to, with their names."""

AVERAGE_PRICES = "average-prices.csv"

FILES: Mapping[str, str] = {
    "cpi.xlsx": mark_text("Workbook: index, changes, weights, shares, contributions"),
    "printed.csv": mark_text(
        "The figures on the pages: the index with one decimal place, its reference period, its changes, and the share"
        " of the total weight"
    ),
    "cpi.csv": mark_text("All figures: a row for each month and item, from the latest revision of the month"),
    "vintages.csv": mark_text("What revisions changed: the figures before and after, with the columns of cpi.csv"),
    "contributions.csv": mark_text(
        "Percentage points that each item contributes to the changes in all items and in the item above it"
    ),
    "aggregates.csv": mark_text("Special aggregates, with the columns of cpi.csv"),
    "core.csv": mark_text(
        "Analytical core inflation for all months: medians, trimmed means, and shares of aggregates whose prices rise"
    ),
    "seasonal.csv": mark_text(
        "Seasonally adjusted figures for all months, and how each series is adjusted; not for contracts"
    ),
    "seasonal-vintages.csv": mark_text("Seasonally adjusted figures as published earlier"),
    "aggregate-contributions.csv": mark_text(
        "Percentage points that special aggregates contribute to all items, and that elementary aggregates contribute"
        " to special aggregates"
    ),
    "aggregate-members.csv": mark_text(
        "The elementary aggregates of each special aggregate, by year, with their weights"
    ),
    "averages.csv": mark_text(
        "Annual averages and their changes, for years with a level in every month; also for the chained level"
    ),
    "twelve-month-rates.csv": mark_text(
        "The mean of twelve months compared with that of the previous twelve, in percent"
    ),
    "rereferenced.csv": mark_text("Levels with a different reference period, {period} = 100"),
    "releases.csv": mark_text("Month, revision, time and SHA-256 of each publication"),
    "announced.json": mark_text("The announced releases, and which of them were moved"),
    "quality.csv": mark_text("Quality in figures: response, imputation, timeliness, punctuality and revisions"),
    "quality.json": mark_text("The same in JSON, by section"),
    AVERAGE_PRICES: mark_text("Average prices of chosen items, by month"),
    REASONS: mark_text("Why the office revised months, in its own words"),
    "cpi.sdmx.csv": "SDMX-CSV 2.0",
    "cpi.sdmx.xml": "SDMX-ML 2.1, StructureSpecificData",
    "structure.sdmx.xml": mark_text("SDMX-ML 2.1: the code lists and the definition of the data structure"),
    "artefacts.json": mark_text("The versions of these structures, now and in earlier packs"),
    "cpi.sqlite": mark_text("SQLite: the figures of the CSV files of all years, for queries"),
    "cpi.jsonstat.json": mark_text("JSON-stat 2.0: a cube of items, figures and months"),
    "cpi.px": mark_text("PX (PC-Axis, PxWeb): the same cube"),
    "core.jsonstat.json": mark_text("JSON-stat 2.0: analytical core inflation"),
    "core.px": mark_text("PX: the same"),
    "newest/cpi.csv": mark_text("The newest month; the folder newest/ contains it in the other formats too"),
    "slices/headline.sdmx.csv": mark_text(
        "SDMX of all items and the divisions; slices/01.sdmx.csv contains all of division 01"
    ),
    "slices/headline.sdmx.xml": mark_text("The same as SDMX-ML"),
    "json-stat/index.json": mark_text(
        "JSON-stat 2.0: the list of the cubes of single items, such as json-stat/00.json"
    ),
    "csv-metadata.json": mark_text("CSVW: what each column of the CSV files contains, for programs"),
    "catalog.jsonld": mark_text("DCAT: these data and their files, for the catalogues of data portals"),
}
"""The files of the folder `data` in the order in which they are offered, and what is in them."""

RATES_TEXTS: Mapping[str, str] = {
    EXACT: mark_text("Changes are computed from levels before rounding."),
    PUBLISHED: mark_text("Changes are computed from the printed index with one decimal place."),
}
"""The levels from which changes are computed."""

ROUNDING_TEXTS: Mapping[str, str] = {
    EXACT: mark_text(
        "Changes are computed from levels before rounding, and rounded once to one decimal place, with halves rounded"
        " away from zero."
    ),
    PUBLISHED: mark_text(
        "Changes are computed from the printed index with one decimal place, and rounded once to one decimal place,"
        " with halves rounded away from zero."
    ),
}
"""The levels from which changes are computed, and how changes are rounded."""


def sections(speech: Speech) -> list[tuple[str, str]]:
    """The names of the pages in a language."""
    return [(page, speech.t(name)) for page, name in SECTIONS.items()]


def file_says(speech: Speech, config: Config) -> dict[str, str]:
    """The description of each data file, in a language."""
    return {name: speech.t(text, period=speech.year(config.reference)) for name, text in FILES.items()}


def release_text(speech: Speech, month: str, revision: int) -> str:
    """The name of a release: its month, and its revision if it is a further one."""
    if revision == 1:
        return speech.month(month)
    number = speech.figure(str(revision))
    return speech.t("{month}, revision {number}", month=speech.month(month), number=number)


# ---- leads


def month_lead(speech: Speech, whole: Row) -> str:
    """The sentence about the change in prices from the previous month."""
    change = whole.month_change
    if change == 0:
        return speech.t("Compared with the previous month, prices didn't change.")
    size = speech.figure(tenths(abs(change)))
    if change > 0:
        return speech.t("Compared with the previous month, prices rose by {size} percent.", size=size)
    return speech.t("Compared with the previous month, prices fell by {size} percent.", size=size)


def node_lead(speech: Speech, month: str, row: Optional[Row], last: str) -> str:
    """The sentence about the change in an item's prices in a month: from a year earlier, or from the previous month
    as long as there is no earlier year; for an item that has no row in the month, the month of its last figure."""
    if row is None:
        return speech.t(
            "This item isn't in the index in {year}; its last figure is for {month}.",
            year=speech.year(month[:4]),
            month=speech.month(last),
        )
    change = row.month_change if row.year_change is None else row.year_change
    form = _lead_form(speech, row.year_change is not None, change)
    return form.format(month=speech.month(month), size=speech.figure(tenths(abs(change))))


def _lead_form(speech: Speech, is_annual: bool, change: int) -> str:
    """The sentence of a change, with its places."""
    if is_annual:
        if change == 0:
            return speech.t("In {month}, prices were as high as a year earlier.")
        if change > 0:
            return speech.t("In {month}, prices were {size} percent higher than a year earlier.")
        return speech.t("In {month}, prices were {size} percent lower than a year earlier.")
    if change == 0:
        return speech.t("In {month}, prices didn't change from the previous month.")
    if change > 0:
        return speech.t("In {month}, prices rose by {size} percent from the previous month.")
    return speech.t("In {month}, prices fell by {size} percent from the previous month.")

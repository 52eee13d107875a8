"""The figures as one XLSX workbook: numbers as numbers, codes and titles as texts, head rows frozen.

It is written member by member, as ECMA-376 has it, so that the workbook of a national office takes seconds and no
memory, and so that the same figures give the same bytes.
"""

from __future__ import annotations

import zipfile
from collections.abc import Iterable, Iterator, Sequence
from pathlib import Path
from typing import NamedTuple

from ...office.tables import iso
from ...text.exact import ALL_ITEMS
from ...text.others import attributes_of, text_of
from ..figures import figures
from ..figures.config import Config
from ..figures.figures import Figure, Known
from ..figures.shown_figures import RATES_SAY
from .published_core import cells_of

WHEN_ZIPPED = (1980, 1, 1, 0, 0, 0)
"""The time of each member."""

PLAIN, BOLD, ONE_DECIMAL, TWO_DECIMALS, WHOLE, AFTER_BREAK = range(6)
"""The styles of cells, as `_styles` has them."""


class Sheet(NamedTuple):
    """A sheet of figures: its name, the style of a figure, and the kind of figures."""

    name: str
    style: int
    figure: Figure


SHEETS = (
    Sheet("Index", ONE_DECIMAL, figures.LEVEL),
    Sheet("Monthly change", ONE_DECIMAL, figures.MONTH_CHANGE),
    Sheet("Annual change", ONE_DECIMAL, figures.YEAR_CHANGE),
    Sheet("Weights", WHOLE, figures.WEIGHT),
    Sheet("Shares", TWO_DECIMALS, figures.SHARE),
    Sheet("Contributions", TWO_DECIMALS, figures.GIVEN_YEAR),
)
CORE = "Core inflation"
"""The name of the sheet with the measures of analytical core inflation, if the office has some."""

CHAINED = Sheet("Chained level", ONE_DECIMAL, figures.CHAINED)
"""A sheet that exists only if the office has a reference period of its own."""


def sheets_of(config: Config) -> tuple[Sheet, ...]:
    """The sheets of figures."""
    return (*SHEETS, CHAINED) if config.reference else SHEETS


def write_workbook(known: Known, config: Config, path: Path) -> None:
    """Writes the workbook."""
    sheets = sheets_of(config)
    core = [CORE] if known.series.core else []
    names = ["Read me", *(sheet.name for sheet in sheets), *core, "Reference periods"]
    with zipfile.ZipFile(path, "w") as archive:
        for name, text in _write_fixed(names).items():
            _put(archive, name, [text])
        _put(archive, "xl/worksheets/sheet1.xml", _read_me(known, config))
        for number, sheet in enumerate(sheets, 2):
            _put(archive, f"xl/worksheets/sheet{number}.xml", _sheet(known, sheet))
        if core:
            _put(archive, f"xl/worksheets/sheet{len(names) - 1}.xml", _core(known))
        _put(archive, f"xl/worksheets/sheet{len(names)}.xml", _reference_periods(known))


def _put(archive: zipfile.ZipFile, name: str, parts: Iterable[str]) -> None:
    """Puts a member into the archive, part by part."""
    member = zipfile.ZipInfo(name, WHEN_ZIPPED)
    member.compress_type = zipfile.ZIP_DEFLATED
    with archive.open(member, "w") as file:
        for part in parts:
            file.write(part.encode())


# ---- cells


def column_name(number: int) -> str:
    """`A` for 0, `Z` for 25, `AA` for 26."""
    return (column_name(number // 26 - 1) if number > 25 else "") + chr(ord("A") + number % 26)


def text_cell(place: str, text: str, style: int = PLAIN) -> str:
    """A cell with a text, even if the text begins like a formula."""
    kept = f'<is><t xml:space="preserve">{text_of(text)}</t></is>'
    return f'<c r="{place}" s="{style}" t="inlineStr">{kept}</c>'


def _text_row(number: int, cells: Sequence[str], style: int = PLAIN) -> str:
    """A row of texts, the first of them bold."""
    placed = (text_cell(f"{column_name(at)}{number}", text, style if at else BOLD) for at, text in enumerate(cells))
    return f'<row r="{number}">{"".join(placed)}</row>\n'


# ---- sheets

MAIN = "http://schemas.openxmlformats.org/spreadsheetml/2006/main"
RELATIONS = "http://schemas.openxmlformats.org/officeDocument/2006/relationships"
PROLOGUE = '<?xml version="1.0" encoding="UTF-8" standalone="yes"?>\n'


def _pane_of(columns: int) -> str:
    """The part of a view that keeps the first row of a sheet, and so many of its columns, in view."""
    split, corner = (f'xSplit="{columns}" ', "bottomRight") if columns else ("", "bottomLeft")
    return f'<pane {split}ySplit="1" topLeftCell="{column_name(columns)}2" activePane="{corner}" state="frozen"/>'


def _sheet_head(widths: Sequence[tuple[int, int, int]], pane: str = "") -> str:
    """The part before the rows; `widths` are the first column, the last and their width in letters."""
    views = f'<sheetViews><sheetView workbookViewId="0">{pane}</sheetView></sheetViews>'
    columns = "".join(
        f'<col min="{first}" max="{last}" width="{wide}" customWidth="1"/>' for first, last, wide in widths
    )
    return f'{PROLOGUE}<worksheet xmlns="{MAIN}">{views}<cols>{columns}</cols><sheetData>\n'


SHEET_FOOT = "</sheetData></worksheet>\n"


def _read_me(known: Known, config: Config) -> Iterator[str]:
    series = known.series
    yield _sheet_head([(1, 1, 18), (2, 2, 100)])
    lines = [
        (config.title, f"{config.office}, {config.country or config.area}"),
        ("Months", f"{series.months[0]} to {series.months[-1]}, the latest revision of each"),
        ("Published", iso(series.moment)),
        (
            "Index",
            f"Level, {known.shown.find_reference(series.months[-1], ALL_ITEMS)} = 100, unless the sheet Reference periods has"
            " another period for the item",
        ),
        (
            "Break",
            "A line to the left of a level: the item is back, and the level isn't linked to the earlier ones; or"
            " other elementary aggregates belong to a special aggregate than before",
        ),
        ("Changes", f"Percent, {RATES_SAY[known.shown.rates]}; halves away from zero"),
        (
            "Chained level",
            f"{series.base} = 100; of an item that came later, December before" if config.reference else "",
        ),
        ("Weights", "As in use in the month's year; where prices moved them, they don't add up to a million"),
        ("Shares", "Share of all weight, per mille; six decimals are stored"),
        ("Contributions", "To the annual change of all items, in percentage points; six decimals are stored"),
        ("Provisional", _provisional(known)),
        ("Licence", config.licence),
        ("Contact", config.contact),
    ]
    filled = [line for line in lines if line[1]]
    yield from (_text_row(number, line) for number, line in enumerate(filled, 1))
    yield SHEET_FOOT


def _provisional(known: Known) -> str:
    """The months that can still be revised; empty if there are none."""
    months = [month for month in known.series.months if month in known.shown.provisional]
    return f"{months[0]} to {months[-1]}: the office may still revise these months" if months else ""


def _sheet(known: Known, of: Sheet) -> Iterator[str]:
    """A row for each node, a column for each month."""
    series = known.series
    yield _sheet_head([(1, 1, 13), (2, 2, 44), (3, 2 + len(series.months), 10)], _pane_of(2))
    yield _text_row(1, ["Code", "Title", *series.months], BOLD)
    columns, usual = [column_name(at) for at in range(2, 2 + len(series.months))], [of.style] * len(series.months)
    for number, (code, title) in enumerate(series.all_titles.items(), 2):
        cells = [text_cell(f"A{number}", code), text_cell(f"B{number}", title)]
        marks = series.marks(code) if of.figure in (figures.LEVEL, figures.CHAINED) else []
        styles = [AFTER_BREAK if month in marks else of.style for month in series.months] if marks else usual
        for column, style, figure in zip(columns, styles, known.texts(of.figure, code)):
            if figure:
                cells.append(f'<c r="{column}{number}" s="{style}"><v>{figure}</v></c>')
        yield f'<row r="{number}">{"".join(cells)}</row>\n'
    yield SHEET_FOOT


def _core(known: Known) -> Iterator[str]:
    """Two rows for each measure of analytical core inflation, a column for each month."""
    series = known.series
    yield _sheet_head([(1, 1, 13), (2, 2, 44), (3, 3, 10), (4, 3 + len(series.months), 10)], _pane_of(3))
    yield _text_row(1, ["Id", "Title", "Changes", *series.months], BOLD)
    for number, (name, change, texts) in enumerate(cells_of(series), 2):
        it = series.core[name]
        cells = [text_cell(f"{column}{number}", text) for column, text in zip("ABC", (name, it.title, change))]
        for at, (month, figure) in enumerate(zip(series.months, texts), 3):
            if figure:
                style = AFTER_BREAK if month in it.changes else ONE_DECIMAL
                cells.append(f'<c r="{column_name(at)}{number}" s="{style}"><v>{figure}</v></c>')
        yield f'<row r="{number}">{"".join(cells)}</row>\n'
    yield SHEET_FOOT


def _reference_periods(known: Known) -> Iterator[str]:
    """A row for each run of months of a node whose levels are linked to one another."""
    series = known.series
    yield _sheet_head([(1, 1, 13), (2, 2, 44), (3, 5, 12), (6, 6, 60)], _pane_of(0))
    yield _text_row(1, ["Code", "Title", "First month", "Last month", "100 in", "Note"], BOLD)
    number = 1
    for code, title in series.all_titles.items():
        for at, run in enumerate(series.runs(code)):
            number += 1
            changes = [month for month in series.marks(code) if run[0] < month <= run[-1]]
            notes = ["Back after a break: not linked to the levels before"] if at else []
            notes += [f"Other elementary aggregates from {month} on" for month in changes]
            texts = [code, title, run[0], run[-1], known.shown.find_reference(run[0], code), "; ".join(notes)]
            cells = (text_cell(f"{column_name(place)}{number}", text) for place, text in enumerate(texts) if text)
            yield f'<row r="{number}">{"".join(cells)}</row>\n'
    yield SHEET_FOOT


# ---- the other members, which no figure is in

PACKAGE = "http://schemas.openxmlformats.org/package/2006"
SPREADSHEET = "application/vnd.openxmlformats-officedocument.spreadsheetml"


def _content_types(count: int) -> str:
    parts = {"/xl/workbook.xml": "sheet.main", "/xl/styles.xml": "styles"}
    parts.update({f"/xl/worksheets/sheet{number}.xml": "worksheet" for number in range(1, count + 1)})
    filled = "".join(
        f'<Override PartName="{name}" ContentType="{SPREADSHEET}.{kind}+xml"/>' for name, kind in parts.items()
    )
    defaults = '<Default Extension="rels" ContentType="application/vnd.openxmlformats-package.relationships+xml"/>'
    return f'{PROLOGUE}<Types xmlns="{PACKAGE}/content-types">{defaults}{filled}</Types>\n'


def _relations(targets: Sequence[tuple[str, str]]) -> str:
    """Kind and target of each part that is referred to, as rId1 and so on."""
    filled = "".join(
        f'<Relationship Id="rId{number}" Type="{RELATIONS}/{kind}" Target="{target}"/>'
        for number, (kind, target) in enumerate(targets, 1)
    )
    return f'{PROLOGUE}<Relationships xmlns="{PACKAGE}/relationships">{filled}</Relationships>\n'


def _workbook(names: Sequence[str]) -> str:
    sheets = "".join(
        f"<sheet{attributes_of({'name': name, 'sheetId': str(number), 'r:id': f'rId{number}'})}/>"
        for number, name in enumerate(names, 1)
    )
    return f'{PROLOGUE}<workbook xmlns="{MAIN}" xmlns:r="{RELATIONS}"><sheets>{sheets}</sheets></workbook>\n'


def _styles() -> str:
    """The styles by their numbers: plain, bold, one decimal, two decimals, whole with a comma at thousands, and one
    decimal with a line to its left."""
    numbers = ((0, 0, 0), (0, 1, 0), (164, 0, 0), (2, 0, 0), (3, 0, 0), (164, 0, 1))
    cells = "".join(
        f'<xf numFmtId="{form}" fontId="{font}" fillId="0" borderId="{border}" xfId="0" applyNumberFormat="1"'
        f' applyFont="1" applyBorder="{border}"/>'
        for form, font, border in numbers
    )
    none = "<right/><top/><bottom/><diagonal/></border>"
    letters = '<sz val="11"/><name val="Calibri"/>'
    return (
        f'{PROLOGUE}<styleSheet xmlns="{MAIN}"><numFmts count="1"><numFmt numFmtId="164" formatCode="0.0"/></numFmts>'
        f'<fonts count="2"><font>{letters}</font><font><b/>{letters}</font></fonts>'
        '<fills count="2"><fill><patternFill patternType="none"/></fill><fill><patternFill patternType="gray125"/>'
        f'</fill></fills><borders count="2"><border><left/>{none}<border><left style="medium">'
        f'<color rgb="FF000000"/></left>{none}</borders>'
        '<cellStyleXfs count="1"><xf numFmtId="0" fontId="0" fillId="0" borderId="0"/></cellStyleXfs>'
        f'<cellXfs count="{len(numbers)}">{cells}</cellXfs>'
        '<cellStyles count="1"><cellStyle name="Normal" xfId="0" builtinId="0"/></cellStyles></styleSheet>\n'
    )


def _write_fixed(names: Sequence[str]) -> dict[str, str]:
    """The members without figures, for a workbook of some sheets."""
    sheets = [("worksheet", f"worksheets/sheet{number}.xml") for number in range(1, len(names) + 1)]
    return {
        "[Content_Types].xml": _content_types(len(names)),
        "_rels/.rels": _relations([("officeDocument", "xl/workbook.xml")]),
        "xl/workbook.xml": _workbook(names),
        "xl/_rels/workbook.xml.rels": _relations([*sheets, ("styles", "styles.xml")]),
        "xl/styles.xml": _styles(),
    }

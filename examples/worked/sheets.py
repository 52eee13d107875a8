"""The office of the example as a spreadsheet: what is computed stands there as a formula, and no value of it.

What is given is blue. A quotient is rounded as the method has it, in whole numbers: INT((2a + b) / 2b) is a/b with
halves going up.
"""

from collections.abc import Sequence
from typing import Any, NamedTuple, Optional

from office import REFERENCE, Node, Series
from openpyxl.styles import Border, Font, Side
from openpyxl.worksheet.properties import PageSetupProperties

GIVEN, HEAD = Font(color="1F4E9E"), Font(bold=True)
BEGINS = Border(top=Side(style="thin", color="999999"))

FIRST = 4
"""The column of the first month, counted from 1; the three before it say what a row is."""


def columns(months: list[str]) -> list[str]:
    """What stands in the columns from FIRST on: the months, and before a January but the first one the bases of the
    year."""
    columns = [months[0]]
    for month in months[1:]:
        if month.endswith("-01") and len(columns) > 1:
            columns.append(f"base {month[:4]}")
        columns.append(month)
    return columns


def letter(column: int) -> str:
    return chr(ord("A") + column - 1)


def rounded(above: str, below: str) -> str:
    """A quotient as the method rounds it."""
    return f"INT((2*({above})+{below})/(2*{below}))"


class Sheet:
    """A sheet whose rows say in three columns what they are, and have a cell in each column of `heads`."""

    def __init__(self, sheet: Any, heads: list[str]):
        self.sheet, self.heads, self.row = sheet, heads, 1
        self.block = ("", "")
        sheet.append(["code", "", "", *heads])
        for cell in sheet[1]:
            cell.font = HEAD
        sheet.freeze_panes = f"{letter(FIRST)}2"
        sheet.page_setup.orientation, sheet.print_title_rows = "landscape", "1:1"
        sheet.sheet_properties.pageSetUpPr = PageSetupProperties(fitToPage=True)
        sheet.page_setup.fitToHeight = 0
        for column, width in zip("ABC", (14, 16, 27)):
            sheet.column_dimensions[column].width = width
        for at in range(len(heads)):
            sheet.column_dimensions[letter(FIRST + at)].width = 13

    def add(self, code: str, name: str, label: str, cells: Sequence[Any], form: str = "#,##0") -> int:
        """Adds a row; its number. Where another series, aggregate or node begins there is a line above it."""
        self.row += 1
        is_new, self.block = self.block != (code, name), (code, name)
        for column, value in enumerate([code, name, label, *cells], 1):
            cell = self.sheet.cell(self.row, column, value)
            if is_new:
                cell.border = BEGINS
            if column >= FIRST:
                cell.number_format = form
                if not str(value).startswith("="):
                    cell.font = GIVEN
        return self.row


def is_base(head: str) -> bool:
    return head.startswith("base ")


def year_of(head: str) -> int:
    return int(head[5:]) if is_base(head) else int(head[:4])


def begins_year(heads: list[str], at: int) -> int:
    """The column of the bases of the year that a column is of."""
    return max(turn for turn in range(at + 1) if turn == 0 or is_base(heads[turn]))


# ---- Prices


def prices_sheet(sheet: Sheet, series: list[Series]) -> dict[str, tuple[int, int]]:
    """The prices as they were collected; by item the row of its marks and that of its prices. A December stands once
    more where the bases of the next year are."""
    placed = {}
    for it in series:
        heads = [it.found[f"{year_of(head) - 1}-12" if is_base(head) else head] for head in sheet.heads]
        marks = sheet.add(it.code, it.item, "mark", [mark for mark, _ in heads])
        prices = sheet.add(it.code, it.item, "price, minor units", [price or None for _, price in heads])
        placed[it.item] = marks, prices
    return placed


# ---- Aggregates


class Rows(NamedTuple):
    """Where the rows of a series stand in the sheet of aggregates, in this order."""

    observed: int
    matched: int
    own: int
    carried: int
    above: int
    below: int
    imputed: int


LABELS = ("observed", "matched", "price at its scale, ticks", "carried price, ticks", "scale, above", "scale, below",
          "imputed")  # fmt: skip


class Sums(NamedTuple):
    """Where the rows of an aggregate stand below those of its series, in this order."""

    now: int
    before: int
    carried: int
    bases: int
    dutot: int
    imputed: int


SUMS = ("matched prices now", "matched prices before", "carried prices together", "bases together",
        "index, millionths", "with an imputed price")  # fmt: skip


def base_cells(here: str, before: Optional[str], rows: Rows, mark: str, price: str) -> list[str]:
    """The formulas of a series where a year begins: its price in December, or else what it was carried as then."""
    observed = f'=IF({mark}="missing",0,1)'
    if before is None:
        return [observed, "=0", "=0", f"={price}*10000", "=10000", "=1", "=0"]
    kept = ((f"{price}*10000", rows.carried), ("10000", rows.above), ("1", rows.below))
    ticks, above, below = (f"=IF({here}{rows.observed}=1,{new},{before}{row})" for new, row in kept)
    return [observed, "=0", "=0", ticks, above, below, "=0"]


def month_cells(here: str, before: str, rows: Rows, sums: Sums, mark: str, price: str) -> list[str]:
    """The formulas of a series in a month."""
    can_compare = f'OR({mark}="price",{mark}="comparable")'
    scaled = rounded(f"{price}*{before}{rows.above}", f"{before}{rows.below}")
    imputed = rounded(f"{before}{rows.carried}*{here}{sums.now}", f"{here}{sums.before}")
    return [
        f'=IF({mark}="missing",0,1)',
        f"=IF(AND({can_compare},{before}{rows.observed}=1),1,0)",
        f"=IF({can_compare},{scaled},0)",
        f"=IF({can_compare},{here}{rows.own},{imputed})",
        f'=IF({mark}="other",{here}{rows.carried},{before}{rows.above})',
        f'=IF({mark}="other",{price},{before}{rows.below})',
        f"=IF({can_compare},0,1)",
    ]


def sum_cells(here: str, before: Optional[str], base: str, own: list[Rows], sums: Sums) -> list[str]:
    """The formulas of an aggregate in a column: its movement, and its index against the bases of the year, which stand
    in the column `base`. Where nothing is matched the movement is 1/1; `before` is None where a year begins."""
    some = "+".join(f"{here}{rows.matched}" for rows in own)
    now = "+".join(f"{here}{rows.matched}*{here}{rows.own}" for rows in own)
    then = "+".join(f"{here}{rows.matched}*{before}{rows.carried}" for rows in own)
    return [
        f"=IF({some}=0,1,{now})" if before else "=1",
        f"=IF({some}=0,1,{then})" if before else "=1",
        "=" + "+".join(f"{here}{rows.carried}" for rows in own),
        "=" + "+".join(f"{base}{rows.carried}" for rows in own),
        "=" + rounded(f"100000000*{here}{sums.carried}", f"{here}{sums.bases}"),
        "=MAX(" + ",".join(f"{here}{rows.imputed}" for rows in own) + ")",
    ]


def aggregate_rows(sheet: Sheet, code: str, series: list[Series], prices: dict[str, tuple[int, int]]) -> Sums:
    """Adds an aggregate, series by series and step by step; where the rows of the whole stand."""
    items = [series.item for series in series if series.code == code]
    begin, count = sheet.row + 1, len(LABELS)
    own = [Rows(*range(begin + turn * count, begin + (turn + 1) * count)) for turn in range(len(items))]
    end = begin + len(items) * count
    sums = Sums(*range(end, end + len(SUMS)))
    cells: list[list[str]] = [[] for _ in range(sums.imputed - begin + 1)]
    for at, head in enumerate(sheet.heads):
        here, before = letter(FIRST + at), letter(FIRST + at - 1) if at else None
        column = []
        for item, rows in zip(items, own):
            mark, price = (f"Prices!{here}{row}" for row in prices[item])
            if at == 0 or is_base(head):
                column += base_cells(here, before, rows, mark, price)
            else:
                column += month_cells(here, str(before), rows, sums, mark, price)
        base = letter(FIRST + begins_year(sheet.heads, at))
        column += sum_cells(here, None if here == base else before, base, own, sums)
        for line, cell in zip(cells, column):
            line.append(cell)
    labels = [(item, label) for item in items for label in LABELS] + [("", label) for label in SUMS]
    for (name, label), line in zip(labels, cells):
        sheet.add(code, name, label, line)
    return sums


# ---- Table


class Lines(NamedTuple):
    """Where the rows of a node stand in the sheet of the table, in this order."""

    plan: int
    weight: int
    within: int
    link: int
    chained: int
    month: int
    year: int
    imputed: int


TABLE = ("weight of the plan", "weight in use", "index, link month = 100", "link level", "chained index",
         "change on the month, percent", "change on the year, percent", "with an imputed price")  # fmt: skip
FORMS = ("#,##0", "#,##0", "0.000000", "0.000000", "0.000000", "0.0", "0.0", "0")


def whole(cell: str) -> str:
    """An index or a level in millionths, which are whole numbers."""
    return f"ROUND(1000000*{cell},0)"


def changed(before: str, now: str) -> str:
    """The change between two levels in percent, with one decimal, halves going away from zero."""
    difference = f"{whole(now)}-{whole(before)}"
    return f"=SIGN({difference})*{rounded(f'1000*ABS({difference})', whole(before))}/10"


def weight_cell(lines: Lines, heads: list[str], at: int) -> str:
    """The weight in use of an aggregate: as the year's plan has it, or moved by prices from its reference month to the
    December before the year."""
    year, weight = year_of(heads[at]), f"{letter(FIRST + at)}{lines.plan}"
    if year not in REFERENCE:
        return f"={weight}"
    december = letter(FIRST + begins_year(heads, at) - 1)
    then = letter(FIRST + heads.index(REFERENCE[year]))
    return "=" + rounded(f"{weight}*{whole(f'{december}{lines.chained}')}", whole(f"{then}{lines.chained}"))


def table_cells(heads: list[str], at: int, lines: Lines, first: list[object], imputed: str) -> list[object]:
    """The formulas of a node in the column of a month; `first` are its weights and the formula of its index."""
    here, begin, head = letter(FIRST + at), begins_year(heads, at), heads[at]
    link, chained = f"{here}{lines.link}", f"{here}{lines.chained}"
    level = rounded(f"{whole(link)}*{whole(f'{here}{lines.within}')}", "100000000")
    before = link if head.endswith("-01") else f"{letter(FIRST + at - 1)}{lines.chained}"
    ago = f"{year_of(head) - 1}{head[4:]}"
    if head.endswith("-12"):
        on_year: Optional[str] = changed(link, chained)
    else:
        # (the first December has no table)
        on_year = changed(f"{letter(FIRST + heads.index(ago))}{lines.chained}", chained) if ago in heads[1:] else None
    linked = f"={letter(FIRST + begin - 1)}{lines.chained}" if begin else "=100"
    return [*first, linked, f"={level}/1000000", changed(before, chained), on_year, imputed]


def table_sheet(sheet: Sheet, nodes: list[Node], sums: dict[str, Sums]) -> None:
    """The figures that are published, node by node. The index of a node is the mean of the aggregates below it."""
    count = len(TABLE)
    placed = {node.code: Lines(*range(2 + count * at, 2 + count * (at + 1))) for at, node in enumerate(nodes)}
    for node in nodes:
        lines, below = placed[node.code], [code for code in sums if node.code == "00" or code.startswith(node.code)]
        cells: list[list[object]] = []
        for at, head in enumerate(sheet.heads):
            here = letter(FIRST + at)
            if at == 0 or is_base(head):
                cells.append([None] * count)
                continue
            plan = node.weights.get(year_of(head))
            if plan:
                weight, index = weight_cell(lines, sheet.heads, at), f"Aggregates!{here}{sums[node.code].dutot}"
            else:
                weight = "=" + "+".join(f"{here}{placed[code].weight}" for code in below)
                product = "+".join(f"{here}{placed[code].weight}*Aggregates!{here}{sums[code].dutot}" for code in below)
                index = rounded(product, f"{here}{lines.weight}")
            imputed = "=MAX(" + ",".join(f"Aggregates!{here}{sums[code].imputed}" for code in below) + ")"
            cells.append(table_cells(sheet.heads, at, lines, [plan, weight, f"={index}/1000000"], imputed))
        for label, form, line in zip(TABLE, FORMS, zip(*cells)):
            sheet.add(node.code, node.title, label, line, form)


def fill(book: Any, series: list[Series], nodes: list[Node]) -> None:
    """Puts the three sheets into a new workbook of openpyxl."""
    heads = columns(list(series[0].found))
    book.active.title = "Prices"
    prices = prices_sheet(Sheet(book.active, heads), series)
    aggregates = Sheet(book.create_sheet("Aggregates"), heads)
    sums = {node.code: aggregate_rows(aggregates, node.code, series, prices) for node in nodes if node.weights}
    table_sheet(Sheet(book.create_sheet("Table"), heads), nodes, sums)

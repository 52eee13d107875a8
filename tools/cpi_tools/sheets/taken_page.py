"""The page of a check: the changes that would be made, month by month, and the refused rows. It is plain HTML; every
text is escaped, and texts of others, and messages that cite them, turn nothing next to them. A teller writes it in the
office's language."""

from __future__ import annotations

from collections.abc import Iterable, Sequence
from html import escape
from pathlib import Path
from typing import Optional

from ..text.message import Code, Figure, Message, message, message_of, part_texts, row, whole
from ..text.others import cite, isolate, of_others, others
from ..text.report_language import ENGLISH, Teller
from .cells import Origin, SheetFault
from .judge import Judged
from .sheet_numbers import decimal
from .office_files import Taken

MOST_SHOWN = 200
"""Rows of a list that the page shows; the files next to it contain all."""

LONG = 25
"""The length from which a text needs a column of some width, also on a phone."""

STYLE = """\
body { font: 16px/1.5 system-ui, sans-serif; color: #1b1b1b; margin: 0 auto; padding: 1rem; max-width: 75rem; }
h1, h2 { line-height: 1.25; }
.scroll { overflow-x: auto; }
.scroll:focus-visible { outline: 3px solid #1a5fb4; }
table { border-collapse: collapse; }
caption { text-align: start; padding: .3rem 0; color: #4a4a4a; }
th, td { text-align: start; vertical-align: top; border-bottom: 1px solid #d0d0d0; }
th, td { padding-block: .25rem; padding-inline: 0 .9rem; }
td, th { white-space: nowrap; }
td.words { min-width: 16rem; white-space: normal; }
td.number, th.number { text-align: end; font-variant-numeric: tabular-nums; }
.refused { color: #a40000; }
@media (max-width: 40rem) {
  .stacked thead { display: none; }
  .stacked tr { display: block; border-bottom: 1px solid #d0d0d0; padding: .4rem 0; }
  .stacked td { display: block; border: 0; padding: 0; white-space: normal; }
}
"""

MARKS = ("price", "comparable", "other", "missing")


def counts(judged: Judged) -> Iterable[Message]:
    """The number of accepted rows of each kind, by the words of records."""
    number = judged.taken
    counts = {
        "item": message_of("{count} item", "{count} items", number["item"]),
        "outlet": message_of("{count} outlet", "{count} outlets", number["outlet"]),
        "collector": message_of("{count} collector", "{count} collectors", number["collector"]),
        "assign": message("{count} series", count=whole(number["assign"])),
        "plan": message_of("{count} plan", "{count} plans", number["plan"]),
        "calendar": message_of("{count} window", "{count} windows", number["calendar"]),
        "handover": message_of("{count} hand-over", "{count} hand-overs", number["handover"]),
        "quote": message_of("{count} quote", "{count} quotes", number["quote"]),
        "freeze": message_of("{count} freeze", "{count} freezes", number["freeze"]),
    }
    return [text for word, text in counts.items() if number[word]]


def summary(taken: Taken, judged: Judged) -> Message:
    """The numbers of accepted rows of each kind, and of rows that the office already has, in one line."""
    new = [*counts(judged)]
    count = sum(taken.passed_over.values())
    if not count:
        return row(new) if new else message("nothing")
    known = message_of("{count} row that the office already has", "{count} rows that the office already has", count)
    return row([*(new or [message("nothing new")]), known])


def page(name: str, onto: Optional[Path], taken: Taken, judged: Judged, teller: Teller = ENGLISH) -> str:
    """The page of a check of `name`, in the language of a teller; `onto` is the office whose copy was used for the
    check, if there is one."""
    sheet = Page(teller)
    css = ' class="refused"' if judged.problems or taken.doubts.cells else ""
    taken_of_it = message("cpi accepts: {rows}.", rows=summary(taken, judged))
    parts = [
        f"<h1>{others(name)}</h1>",
        f"<p>{sheet.text(judged_over(onto))}</p>",
        f"<p{css}><strong>{sheet.text(verdict(len(judged.problems), len(taken.doubts.cells)))}</strong></p>",
        f"<p>{sheet.text(taken_of_it)}</p>",
        *sheet.problems(judged),
        *sheet.faults(message("Prices in doubt"), taken.doubts.cells),
        *sheet.faults(message("Warnings"), taken.warnings),
        *sheet.readings(taken),
        *sheet.months(judged),
        *sheet.weights(taken),
        *sheet.list_confirmed(judged),
    ]
    head = '<meta charset="utf-8"><meta name="viewport" content="width=device-width">'
    head += f"<title>{escape(isolate(name))}</title>"
    language = teller.speech.language
    way = ' dir="rtl"' if language.dir == "rtl" else ""
    style, body = f"<style>\n{STYLE}</style>", "\n".join(parts)
    begin = f'<!DOCTYPE html>\n<html lang="{language.tag}"{way}>\n'
    return f"{begin}<head>{head}\n{style}</head>\n<body>\n{body}\n</body></html>\n"


def judged_over(onto: Optional[Path]) -> Message:
    """The sentence about the office over which the files were judged."""
    if onto is None:
        return message("Checked by cpi against an empty office in memory. Nothing was written to an office.")
    file = of_others(str(onto))
    return message("Checked by cpi against a copy of {file}. Nothing was written to an office.", file=file)


def verdict(refused: int, doubted: int = 0) -> Message:
    """The sentence that says whether everything is accepted."""
    if doubted and not refused:
        return message_of(
            "{count} price in doubt; nothing is taken in.", "{count} prices in doubt; nothing is taken in.", doubted
        )
    if not refused:
        return message("Nothing is refused.")
    return message_of("{count} problem; nothing is taken in.", "{count} problems; nothing is taken in.", refused)


def place(origin: Origin) -> Message:
    """The place of a cell, `prices.csv, row 5, value`."""
    at = {"file": of_others(origin.file), "row": origin.row, "column": of_others(origin.column)}
    if origin.row and origin.column:
        # t: a cell of a sheet; {row} is the number of a row, {column} the name of a column
        return message("{file}, row {row}, {column}", **at)
    if origin.row:
        # t: a row of a sheet, by its number
        return message("{file}, row {row}", file=at["file"], row=at["row"])
    return row([of_others(it) for it in (origin.file, origin.column) if it])


class Page:
    """The parts of a page, in the language of a teller."""

    def __init__(self, teller: Teller):
        self._teller = teller

    def text(self, text: str) -> str:
        """A text of ours as markup; a message of others is in its own element."""
        return cite(self._teller.cell(text))

    def cell(self, value: object) -> str:
        """The markup of a cell: a text of ours, a figure, a code, or a text of others."""
        if isinstance(value, Message):
            return self.text(value)
        if isinstance(value, (Figure, Code)):
            return escape(str(self._teller.render(value)))
        return cite(value) if value else ""

    def table(
        self,
        title: Message,
        heads: Sequence[Message],
        rows: Sequence[Sequence[object]],
        numbers: Iterable[int] = (),
        css: str = "plain",
    ) -> str:
        """A table that scrolls by itself if it is wide. `numbers` are the columns of numbers. With the class `stacked`,
        its cells are stacked on a phone."""
        right = {*numbers}

        def cell(at: int, value: object) -> str:
            value = place(value) if isinstance(value, Origin) else value
            kind = " class=number" if at in right else " class=words" if len(str(value)) > LONG else ""
            return f"<td{kind}>{self.cell(value)}</td>"

        lines = ["".join(cell(at, value) for at, value in enumerate(line)) for line in rows[:MOST_SHOWN]]
        marks = [" class=number" if at in right else "" for at in range(len(heads))]
        head = "".join(f"<th scope=col{mark}>{self.text(name)}</th>" for mark, name in zip(marks, heads))
        body = "\n".join(f"<tr>{line}</tr>" for line in lines)
        name = self.text(title)
        return (
            f'<h2>{name}</h2>\n<div class="scroll" tabindex="0" role="region" aria-label="{name}">'
            f'<table class="{css}">{self.caption(len(rows))}<thead><tr>{head}</tr></thead>\n<tbody>{body}</tbody>'
            "</table></div>"
        )

    def caption(self, count: int) -> str:
        """The caption that says how many of the rows the table shows; empty if it shows all."""
        if count <= MOST_SHOWN:
            return ""
        first = message(
            "The table shows the first {shown} of {count} rows.", shown=whole(MOST_SHOWN), count=whole(count)
        )
        return f"<caption>{self.text(first)}</caption>"

    # ---- tables

    def problems(self, judged: Judged) -> Iterable[str]:
        """The table of refused rows; problems.csv contains all of them."""
        rows = [(problem.origin, problem.number, problem.because, problem.do) for problem in judged.problems]
        # t: the heading of a column: what to do
        heads = (message("where"), message("number"), message("because"), message("do"))
        if rows:
            yield self.table(message("Problems"), heads, rows, css="stacked")

    def faults(self, title: Message, sheet_faults: Sequence[SheetFault]) -> Iterable[str]:
        """The table of warnings; problems.csv contains all of them."""
        rows = [(fault.origin, fault.because, fault.do) for fault in sheet_faults]
        if rows:
            heads = (message("where"), message("because"), message("do"))
            yield self.table(title, heads, rows, css="stacked")

    def readings(self, taken: Taken) -> Iterable[str]:
        """The table of texts in other spellings, with the months as which they were read."""
        rows = [(reading.file, reading.column, reading.text, Code(reading.month)) for reading in taken.readings]
        if rows:
            heads = (message("file"), message("column"), message("text"), message("month"))
            yield self.table(message("Months as they were read"), heads, rows)

    def months(self, judged: Judged) -> Iterable[str]:
        """The table of the changes in each month."""
        rows = [
            (
                Code(month),
                *(whole(it.quotes[mark]) for mark in MARKS),
                whole(it.refused),
                whole(it.handed),
                part_texts(it.freezes),
                Figure(it.level or ""),
            )
            for month, it in sorted(judged.months.items())
        ]
        heads = [
            message("month"),
            message("price"),
            message("comparable"),
            message("other"),
            message("missing"),
            message("refused"),
        ]
        heads += [message("handed over"), message("freezes"), message("level of all items")]
        if rows:
            yield self.table(message("Month by month"), heads, rows, (1, 2, 3, 4, 5, 6, 8))

    def weights(self, taken: Taken) -> Iterable[str]:
        """The table of scaled weights, each with its change."""
        rows = [
            (
                it.year,
                it.code,
                it.given,
                Figure(decimal(it.share)),
                whole(it.weight),
                Figure(decimal(it.weight - it.share, sign="+")),
            )
            for it in taken.weighed
        ]
        if rows:
            heads = [
                message("year"),
                message("code"),
                message("given"),
                message("exact share, millionths"),
                message("weight"),
            ]
            title = message("Weights, scaled to 1,000,000")
            yield self.table(title, [*heads, message("change")], rows, (2, 3, 4, 5))

    def list_confirmed(self, judged: Judged) -> Iterable[str]:
        """The table of confirmed prices outside the tolerance."""
        rows = [(it.origin, *map(Figure, it[1:])) for it in judged.confirmed]
        if rows:
            heads = [
                message("where"),
                message("price"),
                message("last price"),
                message("lowest in range"),
                message("highest in range"),
            ]
            yield self.table(message("Confirmed prices outside the tolerance"), heads, rows, (1, 2, 3, 4))

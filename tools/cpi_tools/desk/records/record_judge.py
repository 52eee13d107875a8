"""Records of the desk that a person typed, pasted or chose as a file: read, and judged by `cpi` row by row."""

from __future__ import annotations

import csv
import time
from collections.abc import Iterator, Sequence
from pathlib import Path
from typing import NamedTuple, Optional

import flask

from ...office.copying import private_copy
from ...office.program import Cpi, Reply, record
from ...office.stored import read_copy
from ...office.trial import state_of
from ...text.clocks import Clock
from ...text.exact import plain_digits
from ...text.message import Message, message as _, whole
from ...text.others import of_others
from ...text.terminal import Fault, a_month
from ...text.text_files import line_of
from ..month.what_if import early_tables
from ..year.clock_faults import window_faults
from .sending import TABLES


# ==== records of the desk that a person typed or pasted: read, and judged by `cpi` on a copy of the office's file, row
# by row, before they are sent

FREEZE = "freeze"

WORDS = tuple(word for word in TABLES if word != FREEZE)
"""The words that are accepted here: a freeze has its own page, on which two people confirm it."""

MOST_ROWS = 20_000
"""The most rows of an import, and of a text pasted into a table."""

MOST_RECORDS = 200_000
"""So many assignments are in a file of 8 MB."""


class NotRead(Fault):
    """A text that isn't records of the desk; one line."""


def records_of(text: str, clock: Clock) -> list[list[str]]:
    """The records of a text, without moment and caller, one a line; empty lines aside. A civil time of the calendar is
    the moment at which the office's clock shows it. Raises NotRead."""
    records = list[list[str]]()
    rows = csv.reader(text.splitlines(keepends=True), strict=True)
    try:
        for fields in rows:
            if fields:
                records.append(at_clock(_looked_at(fields, rows.line_num), clock))
    except csv.Error as fault:
        line = whole(rows.line_num)
        raise NotRead(
            _(
                "Line {line} can't be read as CSV: check its quotation marks. Write fields with commas between them.",
                line=line,
            )
        ) from fault
    if len(records) > MOST_RECORDS:
        places = {"count": whole(len(records)), "most": whole(MOST_RECORDS)}
        raise NotRead(_("There are {count} records: at most {most} can be sent at once.", **places))
    if not records:
        raise NotRead(
            _(
                "There are no records: write one record per line, such as {example}.",
                example=of_others("outlet,10,Corner shop"),
            )
        )
    return records


def _looked_at(fields: list[str], line: int) -> list[str]:
    if fields[0] == FREEZE:
        says = _(
            "Line {line}: freeze a month on its own page, where one person prepares the freeze and another confirms"
            " it.",
            line=whole(line),
        )
        raise NotRead(says)
    if fields[0] not in WORDS:
        places = {"line": whole(line), "word": of_others(fields[0][:20]), "words": of_others(", ".join(WORDS))}
        raise NotRead(
            _("Line {line}: no record on this page begins with {word}. Begin it with one of" " {words}.", **places)
        )
    return fields


def clock_warnings(text: str, clock: Clock) -> list[Message]:
    """The warnings of windows in a text whose times the clock leaves out or has twice, which `records_of` read."""
    rows = csv.reader(text.splitlines(keepends=True), strict=True)
    return [fault for fields in rows if fields for fault in window_faults(fields, clock)]


def at_clock(fields: list[str], clock: Clock) -> list[str]:
    """A record with moments for its civil times; a text that isn't a time stays, and `cpi` refuses it."""
    if fields[0] != "calendar":
        return fields
    return [*fields[:2], *(_moment(text, clock) for text in fields[2:])]


def _moment(text: str, clock: Clock) -> str:
    try:
        return text if text.isdecimal() else str(clock.moment(text))
    except ValueError:
        return text


class Judged(NamedTuple):
    """The answers of `cpi` to records, and warnings about tables that would come out too early by their windows."""

    replies: list[Reply]
    warnings: list[Message]


def judge_records(cpi: Cpi, office_copy: Path, records: Sequence[Sequence[str]]) -> list[Reply]:
    """The answers of `cpi` to records, on a further copy. Raises Fault."""
    return judge(cpi, office_copy, records).replies


def judge(cpi: Cpi, office_copy: Path, records: Sequence[Sequence[str]]) -> Judged:
    """The answers of `cpi` to records, with warnings. Raises Fault."""
    now = int(time.time())
    with private_copy(office_copy) as copy:
        replies = _replies(cpi, copy, records, now)
        set_now = {it[1] for it, reply in zip(records, replies) if it[0] == "calendar" and reply.get("done")}
        warnings = {str(warning): warning for warning in _warnings(copy, sorted(set_now), now)} if set_now else {}
        return Judged(replies, [*warnings.values()])


def _replies(cpi: Cpi, copy: Path, records: Sequence[Sequence[str]], now: int) -> list[Reply]:
    """The replies to records on a copy, in imports, so that the copy is written a few times, and not for each record."""
    parts = [records[at : at + MOST_ROWS] for at in range(0, len(records), MOST_ROWS)]
    asked = [record(now, "desk", "import", "".join(f"{record(*fields)}\n" for fields in part)) for part in parts]
    replies = list[Reply]()
    for part, reply in zip(parts, cpi.replay(asked, db=copy)):
        replies += reply.get("rows", [reply] * len(part))
    return replies


def _warnings(office_copy: Path, months: Sequence[str], now: int) -> Iterator[Message]:
    """The warnings on some months of an office."""
    with read_copy(office_copy) as office:
        for month in months:
            yield from (table.warning() for table in early_tables(office, state_of(office, a_month(month)), now))


def lines_of(text: str) -> list[int]:
    """The line of a text at which each of its records begins, counted from 1."""
    lines, begun = list[int](), 1
    rows = csv.reader(text.splitlines(keepends=True), strict=True)
    for fields in rows:
        if fields:
            lines.append(begun)
        begun = rows.line_num + 1
    return lines


# ==== the text of a form that takes records: a chosen file, or typed text

PLAN = "plan"


TWO = _("You chose a file, but the field contains text too: empty the field, or choose no file. Nothing was sent.")
"""The message to a form with two texts, one of which would be lost."""


class Given(NamedTuple):
    """Records as a text, the name of the file that they are from or none, and the year and rows of a form that has a plan
    only."""

    text: str
    file: str
    plan: Optional[tuple[str, str]]


def read_given() -> Given:
    """The content of the request's form: a file, or typed text. Raises NotRead, also if it has both."""
    form, file = flask.request.form, flask.request.files.get("file")
    name = (file.filename or "") if file else ""
    content = text_of_file(name, file.read()) if file and name else None
    if content is not None and form.get("text", "").strip():
        raise NotRead(TWO)
    if form.get("word") == PLAN:
        year, rows = plain_digits(form.get("year", "")), content if content is not None else form.get("text", "")
        plan = (year, rows.replace("\r\n", "\n"))
        return Given(f"{line_of([PLAN, *plan])}\n", name, plan)
    if form.get("word"):
        first, *others = form.getlist("field") or flask.abort(400)
        return Given(f"{line_of([form['word'], plain_digits(first), *others])}\n", name, None)
    return Given(content if content is not None else form.get("text", ""), name, None)


def text_of_file(name: str, content: bytes) -> str:
    """The text of a file. Raises NotRead."""
    try:
        text = content.decode("utf-8-sig")
        if "\0" in text:
            raise ValueError
    except ValueError as fault:
        says = _(
            "{file} isn't a text in UTF-8. Save the spreadsheet as CSV, in UTF-8. Nothing was sent.",
            file=of_others(name),
        )
        raise NotRead(says) from fault
    return text

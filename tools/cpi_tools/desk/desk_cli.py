"""The arguments of `cpi-tools desk` and its jobs, and the jobs that run at the terminal.

The page of a month at the desk.
"""

from __future__ import annotations

import argparse
import contextlib
import re
import sys
import time
from collections.abc import Iterator
from pathlib import Path
from typing import NamedTuple, Optional, Union

from ..office.copying import private_copy
from ..office.folders import written_folder
from ..office.program import Cpi, add_program
from ..office.stored import REASONS
from ..text import charts, page_templates, section_pages
from ..text.text_files import add_safe_csv
from ..text.report_language import ENGLISH, Teller, add_language, chosen_teller
from ..text.message import text_of, write_csv
from ..text.terminal import Fault, Progress, ToolWords, a_moment, a_month, a_slot, at_least, needs
from .month import closing, what_if
from .month.month_report import Asked, Report, report_of, text_of_report
from .month.unusual import PERCENT_OF_WIDTH
from .serve.serve_cli import add_serve

PAGE = "month.html"

SHOWN_SERIES = 40
"""The largest number of an aggregate's series that the question of what to do with it shows."""

AGGREGATE = re.compile(r"(0[1-9]|1[0-3])\.[0-9]\.[0-9]\.[0-9]-(0[1-9]|[1-9][0-9])")


class Desk(NamedTuple):
    """A desk at work: the program, a copy of the office in a private folder, and the output for progress."""

    cpi: Cpi
    copy: Path
    progress: Progress


@contextlib.contextmanager
def at_desk(chosen: argparse.Namespace) -> Iterator[Desk]:
    """Copies the office's file with its log, and deletes the copy at the end, since it contains keys."""
    cpi = Cpi(chosen.program)
    with Progress("cpi-tools desk") as progress:
        progress.now("copying the office")
        with private_copy(chosen.file) as copy:
            yield Desk(cpi, copy, progress)


def moment_of(chosen: argparse.Namespace) -> int:
    """The time given with --at, or now."""
    given: Optional[int] = chosen.at
    return int(time.time()) if given is None else given


# ---- the jobs


def run_month(chosen: argparse.Namespace) -> int:
    """Writes the report on a month."""
    needs("jinja2", "python3-jinja2")

    asked = Asked(chosen.month, moment_of(chosen), chosen.left_out, chosen.width, chosen.small)
    teller = chosen_teller(chosen)
    with written_folder(chosen.out, PAGE) as folder:
        with at_desk(chosen) as desk:
            report = report_of(desk.cpi, desk.copy, asked, desk.progress.now)
        write_csv(report.sections, folder)
        if not report.fault:
            (folder / "provisional.csv").write_bytes(report.table)
        write_month(report, folder / PAGE, teller)
    print(text_of_report(report))
    print(f"\n{chosen.out / PAGE}")
    if report.fault:
        raise Fault(f"no provisional table: {report.fault}")
    return 0


def run_close(chosen: argparse.Namespace) -> int:
    """Prints the one record that freezes a month."""
    at = moment_of(chosen)
    codes = None if isinstance(chosen.carry, str) else chosen.carry
    asks = ask_line if chosen.carry == "ask" else None
    with at_desk(chosen) as desk:
        desk.progress.now("freezing the month on a copy")
        closed = closing.close(desk.cpi, desk.copy, chosen.month, at)
    for it in closed.named:
        print(text_of(it.series, SHOWN_SERIES), file=sys.stderr)
    decisions = closing.decide(closed, at, codes, asks)
    for line in closing.closing_lines(closed, decisions, chosen.by, codes):
        print(line, file=sys.stderr)
    print(closing.freeze_record(closed, at))
    return 0


def ask_line(question: str) -> str:
    """A line of standard input, asked for on standard error."""
    print(question, end="", file=sys.stderr, flush=True)
    line = sys.stdin.readline()
    if not line:
        raise closing.NotClosed("no answer: the input ended")
    return line


def run_what_if(chosen: argparse.Namespace) -> int:
    """Prints the nodes that would differ."""
    if not (chosen.missing or chosen.price or chosen.carry):
        chosen.words.error("give --missing, --price or --carry")
    tried = what_if.Tried(chosen.missing, chosen.reason, chosen.price, chosen.carry)
    with at_desk(chosen) as desk:
        desk.progress.now("freezing the month on two copies")
        beside = what_if.what_if(desk.cpi, desk.copy, chosen.month, moment_of(chosen), tried)
    differences = what_if.differences(beside)
    print(text_of(differences, len(differences.rows)))
    for name, it in (("as it stands", beside.as_is), ("what if", beside.tried)):
        print(f"carry list {name}: {' '.join(it.carry) or 'empty'}")
    if beside.until:
        print(beside.until)
    return 0


# ---- values


def a_code(text: str) -> str:
    """A type of argparse: the code of an elementary aggregate."""
    if not AGGREGATE.fullmatch(text):
        raise argparse.ArgumentTypeError(f"{text} isn't the code of an elementary aggregate, like 01.1.1.1-01")
    return text


def a_carry_list(text: str) -> Union[str, list[str]]:
    """A type of argparse: `ask`, `all`, or codes with commas between them."""
    return text if text in ("ask", "all") else [a_code(code) for code in text.split(",")]


def a_price(text: str) -> tuple[tuple[int, int], int]:
    """A type of argparse: ((7, 2), 210) from `7/2=210`."""
    place, equals, price = text.partition("=")
    if not equals or not re.fullmatch(r"[1-9][0-9]{0,8}", price):
        raise argparse.ArgumentTypeError(f"{text} isn't COLLECTOR/SLOT=PRICE, like 7/2=210, the price in minor units")
    return a_slot(place), int(price)


# ---- words

DESCRIPTION = """\
Works on a month before it is frozen: reports on it, freezes it, and shows what would change it;
also in a browser. Each job works on a copy of the office's file and its log, so cpi may be
running, and the file is never written. cpi itself shows what would happen, by freezing the month
on the copy.
"""

EPILOG = """\
example: cpi-tools desk month office.db 2026-02 --out out/2026-02

exit status: 0 if the job is done; 1 if it isn't (one line says why); 2 if the arguments are
refused
"""

MONTH = """\
Writes month.html and a CSV file for each section into FOLDER, and a text to standard output. They
show who answered and who is silent, what is missing and why, what is priced too rarely to be
compared, prices to look at again, small and imputed aggregates, the carry list, the provisional
table with the contribution of each node, the quotes that move all items most, and Dutot next to
Jevons. A warning comes first if a table is published before a revision from which it is computed.
provisional.csv contains the bytes that will be published if no quote changes. The month is frozen
on the copy as of the time when its window closes, or of --at if that is later. If it can't be
frozen, the rest is written, and the line on standard error says why. None of this is published:
only its owner can read FOLDER.
"""

MONTH_EPILOG = """\
example: cpi-tools desk month office.db 2026-02 --at 2026-02-20T12:00 --out out/2026-02

exit status: 0 if everything was written; 1 if there is no provisional table, or nothing was
written; 2 if the arguments are refused
"""

CLOSE = """\
Freezes the month on a copy, with the code of each aggregate in which nothing can be compared, and
prints the one record that freezes the month with this list. Standard error lists the series of
these aggregates, what was decided and why, and how many rows the table will have. Nothing is sent.
Until the window has closed, there is no record.
"""

CLOSE_EPILOG = """\
example: cpi-tools desk close office.db 2026-02 --carry all --by Ada > freeze.csv
         cpi replay --db office.db < freeze.csv

exit status: 0 if the record was printed; 1 if it wasn't (one line says why); 2 if the arguments
are refused
"""

WHAT_IF = """\
Freezes the month on two copies, one as it is and one with other quotes, and prints the nodes of
the table that differ. For the last frozen month, this shows what a further revision would change,
and by when it must be published.
"""

WHAT_IF_EPILOG = """\
example: cpi-tools desk what-if office.db 2026-02 --price 8/1=264 --missing 7/2

exit status: 0 if the nodes were printed; 1 if they weren't (one line says why); 2 if the arguments
are refused
"""


def add_words(tools: argparse._SubParsersAction[ToolWords]) -> None:
    """The tool `desk`."""
    words = tools.add_parser(
        "desk", help="Show a month before it is frozen, and close it", description=DESCRIPTION, epilog=EPILOG
    )
    jobs = words.add_subparsers(required=True, metavar="JOB", title="jobs", parser_class=ToolWords)
    _add_month(jobs)
    _add_close(jobs)
    _add_what_if(jobs)
    add_serve(jobs)


def _job(jobs: argparse._SubParsersAction[ToolWords], name: str, says: str, text: str, epilog: str) -> ToolWords:
    words = jobs.add_parser(name, help=says, description=text, epilog=epilog)
    words.add_argument("file", type=Path, metavar="FILE", help="the office's file, which is only read")
    words.add_argument("month", type=a_month, metavar="MONTH", help="a month, such as 2026-02")
    words.add_argument(
        "--at",
        type=a_moment,
        metavar="MOMENT",
        help="the time: seconds since 1970, or a time in UTC such as 2026-02-20T12:00 (else now)",
    )
    words.set_defaults(tool=f"desk {name}", words=words)
    return words


def _add_month(jobs: argparse._SubParsersAction[ToolWords]) -> None:
    words = _job(jobs, "month", "Report on a month, with its provisional table", MONTH, MONTH_EPILOG)
    add = words.add_argument
    add("--out", type=Path, required=True, metavar="FOLDER", help="where to write the report")
    add("--left-out", type=at_least(0), default=20, metavar="N", help="quotes to leave out in turn (%(default)s)")
    add(
        "--width",
        type=at_least(1),
        default=PERCENT_OF_WIDTH,
        metavar="PERCENT",
        help="how far Tukey's fences are from the midmean, in percent of the semi-midmeans' distances (%(default)s)",
    )
    add(
        "--small",
        type=at_least(1),
        default=3,
        metavar="N",
        help="fewer series or outlets than this are few (%(default)s)",
    )
    add_language(words, "the page")
    add_safe_csv(words)
    add_program(words)
    words.set_defaults(run=run_month)


def _add_close(jobs: argparse._SubParsersAction[ToolWords]) -> None:
    words = _job(jobs, "close", "Write the carry list, and the one record that freezes the month", CLOSE, CLOSE_EPILOG)
    add = words.add_argument
    add(
        "--carry",
        type=a_carry_list,
        default="all",
        metavar="ask|all|CODE,..",
        help="ask about each on the terminal, carry all that need it, or only these (%(default)s)",
    )
    add("--by", metavar="NAME", help="who decided, for the note")
    add_program(words)
    words.set_defaults(run=run_close)


def _add_what_if(jobs: argparse._SubParsersAction[ToolWords]) -> None:
    words = _job(jobs, "what-if", "Show the table that other quotes would give", WHAT_IF, WHAT_IF_EPILOG)
    add = words.add_argument
    add("--missing", type=a_slot, action="append", default=[], metavar="COLLECTOR/SLOT", help="treat it as missing")
    add("--reason", choices=REASONS, default=REASONS[0], help="why it is missing (%(default)s)")
    add(
        "--price",
        type=a_price,
        action="append",
        default=[],
        metavar="COLLECTOR/SLOT=PRICE",
        help="treat this as its price, in minor units",
    )
    add("--carry", type=a_code, action="append", default=[], metavar="CODE", help="always put it on the carry list")
    add_program(words)
    words.set_defaults(run=run_what_if)


TEMPLATES = Path(__file__).resolve().parent / "templates"


def write_month(report: Report, to: Path, teller: Teller = ENGLISH) -> None:
    """Writes the page of a month in the language of a teller, whole or not at all."""
    track = charts.track([division.points for division in report.divisions])
    environment = section_pages.environment([TEMPLATES], teller)
    page_templates.write_page(environment, "month.html", to, report=report, track=track)

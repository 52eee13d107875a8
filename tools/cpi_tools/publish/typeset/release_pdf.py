"""`cpi-tools release-pdf`: a release as two sheets of paper, or before the freeze the draft of one."""

from __future__ import annotations

import argparse
import time
from pathlib import Path
from typing import TYPE_CHECKING, NamedTuple, Optional

from ...office.copying import private_copy
from ...office.program import LAST_MOMENT, Cpi, record
from ...office.public import Published, from_file, listed_in
from ...office.stored import read_copy
from ...office.trial import freeze_on_copy, state_of
from ...text.clocks import Clock
from ...text.languages import Speech
from ...text.terminal import (
    Fault,
    Progress,
    ToolWords,
    a_month,
    at_least,
    because_of,
    month_text,
    needs,
    time_text,
    write_count,
)
from ...text.text_files import write_whole
from ..figures.config import Config, read_config
from ..forms.manifest import MANIFEST
from ..forms.sdmx import KNOWN_IDS
from ..sources import add_source, read_source, test_source
from .pdf_writing import need_writer, sheets_of

if TYPE_CHECKING:
    from .paper import OnPaper


# ==== The draft of a release: what the public would read at its moment if the month were frozen as it is now. A trial
# freeze on a copy gives it, so it needs the office's file, and nothing of it is published.


class DraftRelease(NamedTuple):
    """The tables that are out at the moment of a release, its own among them: the month like `2026-01`, the revision, and
    the moment, in seconds since 1970."""

    published: list[Published]
    month: str
    revision: int
    moment: int

    def mark(self, at: int, clock: Clock, speech: Speech) -> str:
        """The mark on each of its pages, if it is made at a moment."""
        if self.moment > at:
            return speech.t("Draft, under embargo until {moment}", moment=clock.day(self.moment, speech))
        return speech.t("Draft, not published")


def draft_on(cpi: Cpi, frozen_copy: Path, month: str, revision: int) -> DraftRelease:
    """The draft of a month's revision, which a copy of an office's file has frozen; the copy isn't changed. Raises
    Fault."""
    with private_copy(frozen_copy) as copy, cpi.session(copy) as session:
        listed = listed_in(session.ask(record(LAST_MOMENT, "public", "tables")))
    moment = next(listing.moment for listing in listed if (listing.month, listing.revision) == (month, revision))
    return DraftRelease(from_file(cpi, frozen_copy, moment), month, revision, moment)


def draft_of(cpi: Cpi, path: Path, month: int, at: int) -> DraftRelease:
    """The draft of a month, 202601, of an office's file as it is at a moment: the file is copied, and the copy is frozen
    when the window closes, or at that moment if it is later. Raises Fault if the month can't be frozen or is published.
    """
    with private_copy(path) as copy:
        with read_copy(copy) as office:
            state = state_of(office, month)
            carry = next((release.carry for release in reversed(office.releases()) if release.month == month), ())
        revision = state.revision
        if not state.is_frozen:
            revision = freeze_on_copy(cpi, copy, state, max(at, state.window.closes), carry).revision
        draft = draft_on(cpi, copy, month_text(month), revision)
    if state.is_frozen and draft.moment <= at:
        raise Fault(
            f"{draft.month}, revision {draft.revision}, is out since {time_text(draft.moment)}, so there is no draft of it:"
            " leave --draft out"
        )
    return draft


# ==== `cpi-tools release-pdf`: a release as two sheets of paper, or before the freeze the draft of one

PDF_BEGINS = b"%PDF-"

DESCRIPTION = """\
Writes a release as a PDF of two pages: its headline, sentences for the press, pictures, the table
of divisions, the method, and the address of its page. It is made from published tables, as the
public reads them. On the same machine, the same tables give the same bytes. With "with = pdf" in
the configuration, cpi-tools publish puts the PDF of each release beside its page.

With --draft, the tool writes the draft of a month that isn't published yet: it copies FILE,
freezes the month on the copy, and marks each page with the end of the embargo. The office doesn't
change. Only the owner can read the draft's file, which can't be in the folder of a website.

The tool needs Debian's weasyprint; for Arabic it also needs librsvg2-bin and fonts-dejavu-core.
"""

EPILOG = """\
example: cpi-tools release-pdf --db office.db --at $(date +%s) --config office.ini --out release.pdf

exit status: 0 if the PDF was written; 1 if it wasn't (one line says why); 2 if the arguments are
refused
"""


def add_words(tools: argparse._SubParsersAction[ToolWords]) -> None:
    """The tool `release-pdf`."""
    words = tools.add_parser(
        "release-pdf",
        help="Write a release, or the draft of one, as a PDF of two pages",
        description=DESCRIPTION,
        epilog=EPILOG,
    )
    add = words.add_argument
    add_source(words)
    add("--draft", action="store_true", help="with --db: the draft of --month, which isn't published yet")
    add("--config", type=Path, required=True, metavar="FILE", help="the configuration of cpi-tools publish")
    add("--month", type=a_month, metavar="YYYY-MM", help="the month of the release, by default the last one")
    add("--revision", type=at_least(1), metavar="N", help="its revision, by default the latest one")
    add("--language", metavar="TAG", help="a language of the configuration, by default the first one")
    add("--out", type=Path, required=True, metavar="PDF", help="where to write the PDF")
    words.set_defaults(run=run, tool="release-pdf", words=words)


def run(chosen: argparse.Namespace) -> int:
    """Runs the tool with its arguments; returns its exit status."""
    _test_words(chosen)
    needs("jinja2", "python3-jinja2")
    need_writer()
    from .paper import language_in

    refuse_place(chosen.out, chosen.draft)
    config = read_config(chosen.config, KNOWN_IDS)
    tag = language_in(config, chosen.language)
    with Progress("cpi-tools release-pdf") as progress:
        draft = _draft(chosen, config, tag) if chosen.draft else _read_published(chosen, config, tag, progress)
        progress.now("the PDF")
        pdf = draft.paper.pdf(draft.release)
        _write(chosen.out, pdf, chosen.draft)
    is_draft = "draft of " if chosen.draft else ""
    table = draft.release.table
    print(f"{chosen.out}: {is_draft}{table.month}, revision {table.revision}, {write_count(sheets_of(pdf), 'page')}")
    return 0


def _test_words(chosen: argparse.Namespace) -> None:
    """Refuses words that don't go together."""
    if not chosen.draft:
        test_source(chosen)
        if chosen.at is not None and chosen.at > time.time():
            chosen.words.error("--at is still to come: its tables may be under embargo now (--draft makes drafts)")
        if chosen.revision and not chosen.month:
            chosen.words.error("--revision goes with --month")
    elif chosen.db is None or chosen.at is not None:
        chosen.words.error("--draft goes with --db, and without --at: it is of now")
    elif not chosen.month or chosen.revision:
        chosen.words.error("--draft goes with --month, and without --revision: it is of the next freeze")


def _read_published(chosen: argparse.Namespace, config: Config, tag: str, progress: Progress) -> OnPaper:
    from .paper import on_paper

    published = read_source(chosen, progress)
    month = month_text(chosen.month) if chosen.month else ""
    return on_paper(published, config, tag, month, chosen.revision or 0)


def _draft(chosen: argparse.Namespace, config: Config, tag: str) -> OnPaper:
    from .paper import draft_on_paper

    now = int(time.time())
    return draft_on_paper(draft_of(Cpi(chosen.program), chosen.db, chosen.month, now), config, tag, now)


def refuse_place(to: Path, is_draft: bool) -> None:
    """Raises Fault if another file than a PDF is at a place, or if a draft would be in the folder of a website."""
    pack = _pack_above(to) if is_draft else None
    if pack:
        raise Fault(f"{to} is in {pack}, which is published: a draft needs another folder")
    try:
        with to.open("rb") as file:
            is_pdf = file.read(len(PDF_BEGINS)) == PDF_BEGINS
    except FileNotFoundError:
        return
    except OSError as fault:
        raise Fault(because_of(fault)) from fault
    if not is_pdf:
        raise Fault(f"{to} is there already, and is no PDF: give the PDF a name of its own")


def _pack_above(to: Path) -> Optional[Path]:
    """The pack that a place is in."""
    return next((parent for parent in to.resolve().parents if (parent / MANIFEST).exists()), None)


def _write(to: Path, pdf: bytes, is_draft: bool) -> None:
    try:
        write_whole(to, pdf, 0o600 if is_draft else 0o644)
    except OSError as fault:
        raise Fault(because_of(fault)) from fault

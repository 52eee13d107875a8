"""Drafts of coming years: made by `next-year`, judged by `take-in` over a copy of the office, each in a thread of its own,
one after the other."""

from __future__ import annotations

import hashlib
import shutil
import sqlite3
import threading
import time
from collections import Counter
from collections.abc import Callable, Iterable, Iterator, Sequence
from functools import partial
from pathlib import Path
from typing import NamedTuple, Optional

from ...office.program import Cpi
from ...office.stored import read_copy
from ...sheets.cells import SheetFault
from ...sheets.office_files import Options
from ...sheets.plan_rows import Weighed
from ...sheets.record_rows import Bundle, Problem, body_of
from ...sheets.take_in import taken_in
from ...sheets.year.next_year import next_year
from ...text.message import Message, message as _, sentences
from ...text.others import Worded, of_others, own_line
from ...text.terminal import Fault, because_of
from ..records.sending import what_stands
from ..serve.watched_office import Copies, Durations
from ..serve.faults import explain_fault, of_system, says
from .draft_sheets import ALL, MADE, Draft

UTC = "UTC0"
"""The clock of civil times; a draft has none."""


class Checked(NamedTuple):
    """The results of `take-in` for a draft on a copy of the moment `at`: the refusals, the doubts for a reader, the
    scaled weights, the number of records that would be carried out, by their words, the number of rows that the office
    has already, and the office's content in the place of each record."""

    at: int
    problems: list[Problem]
    warnings: list[SheetFault]
    weighed: list[Weighed]
    records: list[list[str]]
    counts: Counter[str]
    passed_over: int
    stood: Sequence[str] = ()

    @property
    def sum_of_records(self) -> str:
        """A sum of the records, so that only records are sent that somebody saw."""
        return hashlib.sha256(repr(self.records).encode()).hexdigest()


class Left(NamedTuple):
    """A record that wasn't carried out, as a page shows it, its answer, and its sentence if there is one."""

    record: Worded
    answer: Worded
    says: Optional[Message] = None


class Running(NamedTuple):
    """The work in progress for a year, its start, and its last duration."""

    year: int
    what: Message
    begun: int
    about: Message = sentences()


class Drafts:
    """The drafts in a folder."""

    def __init__(self, cpi: Cpi, copies: Copies, folder: Path):
        self._cpi, self._copies, self._folder = cpi, copies, folder
        self._lock, self.changing = threading.Lock(), threading.Lock()
        """Whoever holds the second one is the only one who changes a draft."""
        self._checked: dict[int, Checked] = {}
        self._durations = Durations()
        self.sent: dict[int, list[Left]] = {}
        """The office's answers to records of a year's draft that it didn't carry out, since the last change."""
        self.running: Optional[Running] = None
        self.fault = Worded("")

    def years(self) -> list[int]:
        """The years that have a draft, the latest first."""
        ints = [int(path.name) for path in self._folder.glob("[0-9]*") if path.name.isdecimal()]
        return sorted(ints, reverse=True)

    def draft(self, year: int) -> Optional[Draft]:
        """The draft of a year, if there is one."""
        return Draft(self._folder / str(year)) if (self._folder / str(year)).is_dir() else None

    def find_checked(self, year: int) -> Optional[Checked]:
        """The messages about a draft since its last change, if there are any."""
        return self._checked.get(year)

    def drop_checked(self, year: int) -> None:
        """A draft was changed, or sent, so the messages about it are old."""
        self._checked.pop(year, None)
        self.sent.pop(year, None)

    def drop(self, year: int) -> None:
        """Removes a draft. Raises Fault."""
        self.drop_checked(year)
        try:
            shutil.rmtree(self._folder / str(year))
        except OSError as fault:
            raise Fault(because_of(fault)) from fault

    # ---- in the background

    def make(self, year: int, by: str = "") -> bool:
        """Begins to make the draft of a year for a person; whether it did."""
        return self._begin(year, _("cpi determines the sample on a copy"), partial(self._make_for, by))

    def check(self, year: int) -> bool:
        """Begins to judge the draft of a year; whether it did."""
        return self._begin(year, _("cpi checks the draft on a copy"), self._check)

    def _begin(self, year: int, what: Message, job: Callable[[int], None]) -> bool:
        with self._lock:
            if self.running:
                return False
            self.running, self.fault = self._running(year, what), Worded("")
        threading.Thread(target=self._run, args=(year, job), daemon=True, name="draft").start()
        return True

    def _running(self, year: int, what: Message) -> Running:
        return Running(year, what, int(time.time()), self._durations.about(str(what)))

    def _run(self, year: int, job: Callable[[int], None]) -> None:
        try:
            what = str(self.running.what) if self.running else ""
            with self._durations.measure(what):
                job(year)
        except Fault as fault:
            self.fault = says(fault)
        except OSError as fault:
            self.fault = of_system(fault)
        except sqlite3.Error as fault:
            self.fault = _("The copy can't be read: {fault}", fault=own_line(fault))
        except Exception as fault:
            # (a fault of ours: it is on the page too, and the journal has all of it)
            self.fault = explain_fault(fault)
            raise
        finally:
            self.running = None

    def _make_for(self, by: str, year: int) -> None:
        self._make(year)
        if draft := self.draft(year):
            draft.note(by, MADE)

    def _make(self, year: int) -> None:
        self._copies.renew()
        with self._copies.latest() as copy:
            next_year(self._cpi, copy.path, year, self._folder / str(year))

    def _check(self, year: int) -> None:
        self._copies.renew()
        draft = Draft(self._folder / str(year))
        with self.changing:
            unit, decimal = draft.settings()
            version = draft.changes.version()
        options = Options(decimal=decimal, weights=unit)
        with self._copies.latest() as copy, taken_in(self._cpi, draft.sheets, options, UTC, copy.path) as found:
            taken, judged = found
            records = [] if judged.problems else [*records_of(taken.bundles)]
            passed_over = sum(taken.passed_over.values())
            with read_copy(copy.path) as office:
                stood = what_stands(office, records)
            said = judged.problems, taken.warnings, taken.weighed, records, judged.taken, passed_over, stood
        with self.changing:
            # (what is sent is what the page shows then, and not what the draft was as this began)
            if draft.changes.version() != version:
                raise Fault(changed_meanwhile(draft.changed_last(ALL)[0]))
            self.sent.pop(year, None)
            self._checked[year] = Checked(int(time.time()), *said)


def changed_meanwhile(by: str) -> Message:
    """The message that somebody changed a draft while it was checked."""
    if not by:
        return _("The draft was changed while it was checked: check it again.")
    return _("{name} changed the draft while it was checked: check it again.", name=of_others(by))


def records_of(bundles: Iterable[Bundle]) -> Iterator[list[str]]:
    """The records of the taken rows: each row of an import is one, and so is a plan."""
    for bundle in bundles:
        if bundle.year:
            yield ["plan", bundle.year, body_of(bundle.rows)]
        else:
            yield from (row.fields for row in bundle.rows)

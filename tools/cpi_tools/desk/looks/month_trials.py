"""Months that `cpi` freezes on a copy for the pages, in a thread of its own, and tables of earlier days."""

from __future__ import annotations

import tempfile
import threading
import time
from collections.abc import Callable, Sequence
from pathlib import Path
from typing import NamedTuple, Optional

from ...office.copying import right_copy
from ...office.program import Cpi
from ...office.public import Published
from ...office.stored import read_copy
from ...office.trial import Frozen, State
from ...text.message import CODE, NUMBER, TEXT, Cell, Column, Message, Section, message as _, sentences
from ...text.others import Worded
from ...text.terminal import Fault, because_of, month_text
from ...text.text_files import write_whole
from ..freeze.freezes import sum_of
from ..month.closing import Closed, closed_of
from ..month.facts import Facts, Levels, levels_of
from ..month.month_report import Asked, Report, report_with, tried_on
from ..month.unusual import PERCENT_OF_WIDTH
from ..month.what_if import rows_of
from ..serve.faults import explain_fault, says
from ..serve.watched_office import Copies, Durations
from .looks import Look, looks_of


# ==== provisional tables of earlier days, to compare a day's table with the one before it: a file for each day and
# month, the last one of the day


class Earlier(NamedTuple):
    """The table of an earlier day, like `2026-02-17` (UTC)."""

    day: str
    table: bytes


def day_of(at: int) -> str:
    """The day of a moment, in UTC."""
    return time.strftime("%Y-%m-%d", time.gmtime(at))


class TablesKept:
    """The tables in a folder."""

    def __init__(self, folder: Path):
        self._folder = folder

    def keep(self, month: int, at: int, table: bytes) -> None:
        """Keeps the table of a month as it was at a moment. Raises Fault."""
        try:
            self._folder.mkdir(mode=0o700, exist_ok=True)
            write_whole(self._folder / f"{month_text(month)}-at-{day_of(at)}.csv", table, 0o600)
        except OSError as fault:
            raise Fault(because_of(fault)) from fault

    def before(self, month: int, at: int) -> Optional[Earlier]:
        """The last table from a day before that of a moment."""
        begins = f"{month_text(month)}-at-"
        paths = [path for path in self._folder.glob(f"{begins}*.csv") if path.stem[len(begins) :] < day_of(at)]
        if not paths:
            return None
        last = max(paths)
        return Earlier(last.stem[len(begins) :], last.read_bytes())


# ==== two tables of a month side by side, each by its own levels: the nodes whose figures differ

CHAINED, MONTH_CHANGE, YEAR_CHANGE = 3, 4, 5
"""Cells of a row of a table."""

DIGITS = 6
"""Decimals of a level: what differs may be small."""

Head = Callable[[str], Message]
"""A function that makes the heading of one of the tables from the name of a figure."""

Rows = dict[str, list[str]]


def beside(
    key: str, title: Message, tables: Sequence[bytes], heads: Sequence[Head], levels: Optional[Levels], empty: str = ""
) -> Section:
    """The nodes of two tables that differ. `levels` are the second table's levels, if they are known; the first table
    has its own, since its month may be in the reference period."""
    each: list[Optional[Levels]] = [levels.with_table(tables[0]), levels] if levels else [None, None]
    has_chained = bool(levels and levels.has_reference)
    names = [levels.name if levels else _("level"), _("month %"), _("year %")]
    columns = [Column(head(name), NUMBER) for head in heads for name in names]
    columns += [Column(head(levels.chained_name), NUMBER) for head in heads] if levels and has_chained else []
    rows = differing([rows_of(table) for table in tables], each, has_chained)
    ends = Column(_("code"), CODE), Column(_("title"), TEXT)
    return Section(key, title, "", (ends[0], *columns, ends[1]), rows, empty or _("None: the tables are the same."))


def differing(tables: Sequence[Rows], levels: Sequence[Optional[Levels]], has_chained: bool) -> list[list[Cell]]:
    """The rows of the nodes that differ: the code, the figures of each table, and the title."""
    found: list[list[Cell]] = []
    for code in sorted({code for table in tables for code in table}):
        rows = [table.get(code) for table in tables]
        if rows[0] == rows[1]:
            continue
        cells: list[Cell] = [cell for row, own in zip(rows, levels) for cell in figures(code, row, own)]
        if has_chained:
            cells += [row[CHAINED] if row else "" for row in rows]
        title = next(row[-1] for row in reversed(rows) if row)
        found.append([code, *cells, title])
    return found


def figures(code: str, row: Optional[Sequence[str]], levels: Optional[Levels]) -> list[Cell]:
    """The level of a node and both changes."""
    if row is None:
        return ["", "", ""]
    level = levels.of(code, digits=DIGITS) if levels and levels.has_reference else row[CHAINED]
    return [level, row[MONTH_CHANGE], row[YEAR_CHANGE]]


# ==== Months that `cpi` freezes on a copy for the pages, in a separate thread, one after the other: the provisional
# table, the prices to check, and a freeze's effect. The copy with the freeze stays, so that its figures can be
# explained.

SMALL = 3
"""Fewer series or outlets are few."""

TRIAL = "trial"

KEPT = 2
"""So many months stay at hand."""


class Tried(NamedTuple):
    """A month that was tried on a copy of the moment `at`: the path of the copy with the freeze, the month's state, the
    report, the prices to check, a freeze's effect (None if it is frozen, or can't be), and who asked for it."""

    at: int
    copy: Path
    state: State
    report: Report
    looks: list[Look]
    closed: Optional[Closed]
    by: str = ""

    @property
    def sum(self) -> str:
        """A sum of what its pages show, so that nobody freezes another month than the page showed."""
        table = self.report.table.decode()
        looks = [[*look.slot, look.price, look.weight, str(look.says)] for look in self.looks]
        said = [[str(it) for it in card] for card in self.report.cards]
        carried = [[it.code, str(it.marks)] for it in self.closed.named] if self.closed else []
        warned = [str(warning) for warning in self.report.warnings]
        return sum_of([[*self.state.window], self.state.revision, table, looks, said, carried, warned])


def known_levels(trial: Optional[Tried]) -> Optional[Levels]:
    """The levels of a trial, if there is one, and it has levels."""
    return trial.report.levels if trial else None


class Running(NamedTuple):
    """A running trial: its month, its start, its current step, who asked for it, and how long the last one took."""

    month: int
    begun: int
    what: str
    by: str = ""
    about: Message = sentences()


class Trials:
    """The trials of an application; their copies lie in folders of `room`, and each leaves so many quotes out in
    turn."""

    def __init__(
        self,
        cpi: Cpi,
        copies: Copies,
        tables: TablesKept,
        room: Path,
        left_out: int,
        reference_in: Callable[[str], str],
    ):
        """`reference_in` gives the website's reference period in the release of a month."""
        self._cpi, self._copies, self._tables, self._room = cpi, copies, tables, room
        self._left_out, self._reference_in = left_out, reference_in
        self._durations = Durations()
        self._lock = threading.Lock()
        self._found: dict[int, tuple[Tried, tempfile.TemporaryDirectory[str]]] = {}
        self._faults: dict[int, Worded] = {}
        self.running: Optional[Running] = None

    def latest(self, month: int) -> Optional[Tried]:
        """The last trial of a month, if there is one."""
        found = self._found.get(month)
        return found[0] if found else None

    def fault(self, month: int) -> Worded:
        """Why the last trial of a month came to nothing, or nothing."""
        return self._faults.get(month, Worded(""))

    def begin(self, month: int, by: str = "") -> bool:
        """Begins a trial of a month for a person; whether it did: one at a time runs."""
        with self._lock:
            if self.running:
                return False
            self.running = Running(month, int(time.time()), _("copying the office"), by, self._durations.about(TRIAL))
        threading.Thread(target=self._run, args=(month,), daemon=True, name="trial").start()
        return True

    def _now(self, what: str) -> None:
        if self.running:
            self.running = self.running._replace(what=what)

    def _run(self, month: int) -> None:
        try:
            with self._durations.measure(TRIAL):
                self.run(month)
        except Fault as fault:
            self._faults[month] = says(fault)
        except Exception as fault:
            # (a fault of ours: it is on the page too, and the journal has all of it)
            self._faults[month] = explain_fault(fault)
            raise
        finally:
            self.running = None

    def run(self, month: int) -> Tried:
        """Tries a month on a copy that is taken now. Raises Fault."""
        self._copies.renew()
        folder = tempfile.TemporaryDirectory(prefix="cpi-desk-trial-", dir=self._room)
        try:
            with self._copies.latest() as it:
                trial = self._try_on_copy(it.path, it.at, right_copy(it.path, Path(folder.name)), month)
        except BaseException:
            folder.cleanup()
            raise
        if trial.report.table and not trial.state.is_frozen:
            self._tables.keep(month, trial.at, trial.report.table)
        with self._lock:
            self._faults.pop(month, None)
            old = [self._found.pop(month)] if month in self._found else []
            self._found[month] = (trial, folder)
            while len(self._found) > KEPT:
                old.append(self._found.pop(next(iter(self._found))))
        for each in old:
            each[1].cleanup()
        return trial

    def _try_on_copy(self, office_copy: Path, at: int, copy: Path, month: int) -> Tried:
        asked = Asked(month, at, self._left_out, PERCENT_OF_WIDTH, SMALL)
        tried = tried_on(self._cpi, office_copy, copy, asked, self._now, self._tables_known())
        with read_copy(copy) as office:
            facts = Facts(office, month, tried.frozen, self._levels(month, tried.frozen))
            report = report_with(self._cpi, office_copy, tried, facts, asked, self._now)
            self._now(_("looking at prices"))
            looks = looks_of(facts, PERCENT_OF_WIDTH)
            is_to_freeze = tried.frozen is not None and not tried.state.is_frozen
            closes = tried.state.window.closes
            closed = closed_of(facts, closes, tried.frozen, tried.early) if is_to_freeze and tried.frozen else None
        by = self.running.by if self.running else ""
        return Tried(at, copy, tried.state, report, looks, closed, by)

    def _tables_known(self) -> list[Published]:
        """The tables that earlier trials printed, except those of the tried months themselves."""
        levels = [known_levels(trial) for trial, _folder in [*self._found.values()]]
        return [table for each in levels if each for table in each.others]

    def _levels(self, month: int, frozen: Optional[Frozen]) -> Optional[Levels]:
        if frozen is None or not frozen.table or frozen.others is None:
            return None
        self._now(_("reading the tables"))
        reference = self._reference_in(month_text(month))
        return levels_of(frozen.others, month_text(month), frozen.table, reference)

    def close(self) -> None:
        """Removes the existing trials."""
        with self._lock:
            # (a trial that still runs may put another one there)
            old = [*self._found.values()]
            self._found.clear()
        for each in old:
            each[1].cleanup()

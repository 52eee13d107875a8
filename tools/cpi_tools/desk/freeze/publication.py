"""The office's website, which `cpi-tools publish` writes in a separate process, and the drafts of releases."""

from __future__ import annotations

import contextlib
import json
import os
import subprocess
import sys
import threading
import time
import traceback
from collections.abc import Callable, Sequence
from pathlib import Path
from typing import NamedTuple, Optional

from ...office.program import Cpi
from ...office.stored import StoredOffice
from ...publish.figures.announcements import page_of_release
from ...publish.figures.config import read_config
from ...publish.forms.manifest import MANIFEST, TableId, read_manifest
from ...publish.forms.sdmx import KNOWN_IDS
from ...publish.typeset.release_pdf import DraftRelease, draft_on
from ...text.message import Message, message as _, sentences
from ...text.others import Worded, own_line
from ...text.terminal import Fault, because_of, month_text, time_text
from ...text.text_files import write_whole
from ..looks.month_trials import Tried
from ..records.desk_log import SAID, DeskLog
from ..serve.faults import explain_fault, not_as_written, of_system, says
from ..serve.watched_office import Durations
from .freezes import sum_of


# ==== The drafts of releases that the trials of the application give: what the public would read at the release's
# moment. Nothing of them is written to a file.


class ReleaseDrafts:
    """The draft of the trial that was asked for last is kept, so that its pages and PDFs read its tables once."""

    def __init__(self, cpi: Cpi):
        self._cpi, self._lock = cpi, threading.Lock()
        self._kept: Optional[tuple[Path, DraftRelease]] = None

    def of(self, trial: Tried) -> DraftRelease:
        """The draft for a month whose trial has a table. Raises Fault."""
        state = trial.state
        revision = state.revision if state.is_frozen else state.revision + 1
        with self._lock:
            if self._kept is None or self._kept[0] != trial.copy:
                self._kept = trial.copy, draft_on(self._cpi, trial.copy, month_text(state.month), revision)
            return self._kept[1]


# ==== The office's website, which `cpi-tools publish` writes in a separate process: now, or when a table is released.
# No table under embargo can be in it, since `publish` reads as the public does.
#
# A file lists the tables that somebody wants to be published at their moments. If the application isn't running at a
# moment, it publishes the table as soon as it runs again.

LOOKS_EVERY = 20.0
"""The maximum number of seconds between two checks of the plan."""

AGAIN_AFTER = 300
"""The number of seconds after which a failed step is tried again."""

BEGINS = f"cpi-tools {'publish'}: "
"""The beginning of each line that the tool writes."""

WRITING = "writing"

READABLE = 0o022
"""The mask of a process whose files everybody can read."""

TOOLS = Path(__file__).resolve().parents[3]


class Site(NamedTuple):
    """The folder of the website, the file that names the publisher, and the key that signs the website, if there is
    one."""

    folder: Path
    config: Path
    key: Optional[Path] = None


class Planned(NamedTuple):
    """A table that somebody wants to be published at its moment: who, its month and revision, and the moment."""

    by: str
    month: str
    revision: int
    at: int


class Running(NamedTuple):
    """A process that writes the website: for whom, since when, and how long the last one took."""

    by: str
    begun: int
    about: Message = sentences()


class Release(NamedTuple):
    """A frozen month as the page shows it: month like `2026-01` and revision, the moment at which its table is out,
    whether it is on the website, who planned it, and the address of its page, or nothing."""

    month: str
    revision: int
    at: int
    is_published: bool
    planned_by: str
    page: str

    @property
    def sum_of_page(self) -> str:
        """A sum of what the page shows of a table that is to come, so that nobody plans or drops another thing."""
        return sum_of([self.month, self.revision, self.at, self.planned_by])


class NotWritten(Fault):
    """`cpi-tools publish` ended without a website; `line` is its last line."""

    def __init__(self, says: Message, line: str):
        super().__init__(says)
        self.line = line


class Publisher:
    """Writes the website from an office's file; `program` is the path of `cpi`."""

    def __init__(self, site: Site, file: Path, program: Path, plan: Path, log: DeskLog):
        self.site, self._file, self._program, self._plan, self._log = site, file, program, plan, log
        self._lock, self._wake, self._is_over = threading.Lock(), threading.Event(), False
        self._process: Optional[subprocess.Popen[str]] = None
        self._thread = threading.Thread(target=self._follow, daemon=True, name="publisher")
        self.running: Optional[Running] = None
        self.before: Callable[[], object] = lambda: None
        """The step before the website is written; if this step fails, the website is still written."""
        self.fault, self.output, self.left = Worded(""), Worded(""), Worded("")
        self._durations = Durations()
        self._failed_at, self._logged = 0.0, Worded("")

    # ---- what there is

    def read_published(self) -> set[TableId]:
        """The tables of the website, by month and revision; none if the website doesn't exist yet. Raises Fault."""
        manifest = self.site.folder / MANIFEST
        return {*read_manifest(manifest).tables} if manifest.exists() else set()

    def written_at(self) -> Optional[int]:
        """When the website was written last."""
        try:
            return int((self.site.folder / MANIFEST).stat().st_mtime)
        except FileNotFoundError:
            return None

    def address(self) -> str:
        """The address of the website, from its configuration; nothing if it names none. Raises Fault."""
        return read_config(self.site.config, KNOWN_IDS).address

    def releases(self, office: StoredOffice) -> list[Release]:
        """All frozen months, the latest table first. Raises Fault."""
        there, address, moments = self.read_published(), self.address(), office.frozen_moments()
        by = {(plan.month, plan.revision): plan.by for plan in self.read_planned()}
        releases = list[Release]()
        for (number, revision), (__, at) in moments.items():
            table = (month_text(number), revision)
            page = address + page_of_release(*table) if address and table in there else ""
            releases.append(Release(*table, at, table in there, by.get(table, ""), page))
        return sorted(releases, key=lambda release: (release.at, release.month, release.revision), reverse=True)

    # ---- what is planned

    def read_planned(self) -> list[Planned]:
        """The planned publications with their moments, the first one first. Raises Fault if the file can't be read."""
        try:
            found = json.loads(self._plan.read_text(encoding="utf-8"))
            return sorted((Planned(*it) for it in found), key=lambda plan: plan.at)
        except FileNotFoundError:
            return []
        except OSError as fault:
            raise Fault(because_of(fault)) from fault
        except (ValueError, TypeError) as fault:
            raise Fault(not_as_written(self._plan, fault)) from fault

    def plan(self, one: Planned) -> None:
        """Plans to publish a table at its moment; whoever planned it before did. Raises Fault."""
        with self._lock:
            others = self.read_planned()
            if (one.month, one.revision) not in {(plan.month, plan.revision) for plan in others}:
                self._log.append(
                    one.by, SAID, text=f"to be published at its moment, {time_text(one.at)}: {name_table(one)}"
                )
                self._keep([*others, one])
        self._wake.set()

    def drop(self, by: str, month: str, revision: int) -> None:
        """Takes a plan back. Raises Fault."""
        with self._lock:
            rest = self.read_planned()
            for plan in [plan for plan in rest if (plan.month, plan.revision) == (month, revision)]:
                self._log.append(by, SAID, text=f"not to be published at its moment after all: {name_table(plan)}")
                rest.remove(plan)
            self._keep(rest)

    def _keep(self, planned: Sequence[Planned]) -> None:
        try:
            write_whole(self._plan, json.dumps([*planned]).encode(), 0o600)
        except OSError as fault:
            raise Fault(because_of(fault)) from fault

    # ---- writing

    def begin(self, by: str) -> bool:
        """Begins to write the website with all released tables; returns False if it is already being written."""
        with self._lock:
            if self.running:
                return False
            self.running = Running(by, int(time.time()), self._durations.about(WRITING))
        threading.Thread(target=self._run, args=(by,), daemon=True, name="publishing").start()
        return True

    def _run(self, by: str) -> None:
        try:
            self._prepare()
            at = int(time.time())
            with self._durations.measure(WRITING):
                text, errors = self._write_website(at)
            self.output = own_line(" ".join([text, *errors.splitlines()]))
            self.fault = self.left = self._logged = Worded("")
            self._keep_written(by, at, text)
        except Fault as fault:
            self._keep_failure(by, says(fault), fault.line if isinstance(fault, NotWritten) else str(fault))
        except Exception as fault:
            # (a fault of ours: it is on the page too, and the journal has all of it)
            self._keep_failure(by, explain_fault(fault), repr(fault))
            raise
        finally:
            self.running = None

    def _prepare(self) -> None:
        """Runs the step before; whatever its result, the website is written."""
        try:
            self.before()
        except Fault:
            # (the page says it, since it tries the same)
            pass
        except Exception:
            traceback.print_exc()

    def _keep_failure(self, by: str, why: Worded, line: str) -> None:
        """Keeps why the website wasn't written; the log contains its line only once, however often it is tried
        again."""
        self.fault, self._failed_at = why, time.monotonic()
        if why != self._logged:
            # (a full disk has no room for the log either: the page tells it, and the log once there is room)
            with contextlib.suppress(Fault):
                self._log.append(by, SAID, text=f"the website couldn't be written: {line}")
                self._logged = why

    def _keep_written(self, by: str, at: int, text: str) -> None:
        """Records that the website was written; if that fails, the page says both."""
        for step in (lambda: self._log_written(by, at, text), self._drop_done):
            try:
                step()
            except Fault as fault:
                self.left, self._failed_at = self._says_kept(fault), time.monotonic()

    def _log_written(self, by: str, at: int, text: str) -> None:
        self._log.append(by, SAID, text=f"the website was written, with what is out at {time_text(at)}: {text}")

    def _says_kept(self, fault: Fault) -> Worded:
        """Why the record that the website was written failed. (The log's own message says that nothing was done.)"""
        cause = fault.__cause__
        if not isinstance(cause, OSError):
            return says(fault)
        return of_system(cause, "" if cause.filename else f"{self._log.path}: {cause.strerror}")

    def _write_website(self, at: int) -> tuple[str, str]:
        """Writes the website as of a moment; returns what `publish` prints and what it warns of. Raises Fault."""
        words = [sys.executable, "-m", "cpi_tools", "publish", "--db", self._file, "--at", at]
        words += ["--program", self._program, "--config", self.site.config, "--out", self.site.folder]
        words += ["--sign", self.site.key] if self.site.key else []
        where = {**os.environ, "PYTHONPATH": str(TOOLS)}
        pipe = subprocess.PIPE
        # (everybody reads the website, whatever the application's own files are)
        with subprocess.Popen(
            [*map(str, words)], stdout=pipe, stderr=pipe, text=True, env=where, umask=READABLE
        ) as self._process:
            text, errors = self._process.communicate()
        if self._process.returncode:
            raise _explain_end(self._process.returncode, errors)
        return text.strip(), errors.strip()

    def _drop_done(self) -> None:
        """Removes the planned publications that are now on the website."""
        with self._lock:
            there, planned = self.read_published(), self.read_planned()
            rest = [plan for plan in planned if (plan.month, plan.revision) not in there]
            if len(rest) < len(planned):
                self._keep(rest)

    # ---- at their moments

    def start(self) -> None:
        """Begins to publish as planned."""
        self._thread.start()

    def stop(self) -> None:
        """Ends the thread, and a process that is writing; the present website doesn't change."""
        self._is_over = True
        self._wake.set()
        if self._thread.is_alive():
            self._thread.join()
        process = self._process
        if self.running and process and process.poll() is None:
            process.terminate()

    def _follow(self) -> None:
        while not self._is_over:
            self._wake.wait(self._look())
            self._wake.clear()

    def _look(self) -> float:
        """Publishes all due tables; returns the seconds until the next check."""
        try:
            planned = self.read_planned()
        except Fault as fault:
            self.fault = says(fault)
            return LOOKS_EVERY
        wait = planned[0].at - time.time() if planned else LOOKS_EVERY
        is_waiting = bool(self.fault or self.left) and time.monotonic() - self._failed_at < AGAIN_AFTER
        if planned and wait <= 0 and not is_waiting:
            self.begin(planned[0].by)
        return min(LOOKS_EVERY, wait) if wait > 0 else 1.0


def _explain_end(status: int, errors: str) -> NotWritten:
    """Why `cpi-tools publish` ended with a status, read from what it wrote."""
    lines = errors.strip().splitlines()
    if not lines:
        ended = _("cpi-tools publish ended with status {status}.", status=status)
        return NotWritten(ended, str(ended))
    line = lines[-1].removeprefix(BEGINS)
    says = _(
        "Correct the fault that this line of cpi-tools publish names, then write the website again: {line}",
        line=own_line(line),
    )
    return NotWritten(says, line)


def name_table(plan: Planned) -> str:
    """A table in a line of the log."""
    return f"{plan.month}, revision {plan.revision}"

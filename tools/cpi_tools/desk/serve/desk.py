"""The desk: all that its pages work with, and the thread that follows the office."""

from __future__ import annotations

import contextlib
import threading
import time
import traceback
from collections.abc import Callable, Iterator, Mapping, Sequence
from pathlib import Path
from typing import NamedTuple, Optional

from ...office.program import Cpi, Reply
from ...office.stored import StoredOffice, read_copy
from ...text.clocks import Clock
from ...text.languages import SPEAKS_ENGLISH, Speech
from ...text.message import Section, message as _
from ...text.others import Worded
from ...text.report_language import Teller
from ...text.terminal import Fault
from ..field.field_notes import FieldNotes
from ..field.field_questions import FieldQuestions
from ..field.photographs import Turns
from ..freeze.freezes import PreparedFreeze
from ..freeze.publication import Publisher, ReleaseDrafts, Site
from ..freeze.reason_file import RevisionReasons
from ..looks.glance import Glance, glance_at, month_at
from ..looks.looks import Marks
from ..looks.month_trials import Earlier, TablesKept, Trials, Tried
from ..records.desk_log import DeskLog
from ..records.sending import Sender, Tray, looked_up
from ..teams.supervisors import Supervisors
from ..year.drafts import Drafts
from .faults import explain_fault, says
from .sent_forms import HeldForms, Kept, Offer, Once
from .serve_cli import REASON_ABOVE
from .sessions import Seal, SecondKey, Session, Sessions
from .site_config import NAME as DEADLINES, Deadlines, OnceARequest, SiteConfig, may_set_windows
from .watched_office import Copies, Copy, Durations, Expected, Observed, Office, Seen


# ==== a thread that follows the office: every half minute it makes a consistent copy, if the office's file changed, and
# notes what is new

EVERY = 30
"""Seconds from one look to the next while somebody is at the desk."""

IDLE = 600
"""Seconds from one look to the next while nobody is at the desk; also the seconds without a request for a page after
which the desk counts as empty."""

ChooseMonth = Callable[[StoredOffice, int], Optional[int]]
"""Chooses a month of an office at a moment, in seconds since 1970 UTC; None if there is none."""


class Watch:
    """The months at a glance, as of the latest copy; `fault` is why it couldn't be renewed, `seconds` how long that
    took the last time."""

    def __init__(self, copies: Copies, observed: Observed, every: float = EVERY):
        self._copies, self._observed, self._every = copies, observed, every
        self._wake, self._is_over = threading.Event(), False
        self._asked_at = self._renewed_at = -float(IDLE)
        self._glances: dict[int, Glance] = {}
        self.fault, self.seconds = Worded(""), 0.0
        self.on_renewed: Callable[[], None] = lambda: None
        """A function that is called after each check of the office's file."""
        self._is_stale, self._is_of_now = False, True
        self._looking = threading.Lock()
        self._thread = threading.Thread(target=self._follow, daemon=True, name="watch")

    def start(self) -> None:
        """Begins to follow the office."""
        self._thread.start()

    def stop(self) -> None:
        """Stops following the office."""
        self._is_over = True
        self._wake.set()
        if self._thread.is_alive():
            self._thread.join()

    def person_came(self) -> None:
        """Somebody signed in: the next page is up to date, or says why it can't be."""
        self._is_of_now = False

    def note_change(self) -> None:
        """Something was sent to the office, so the next page waits for a copy that has it."""
        self._is_stale = True

    def glance(self, month: Optional[int] = None, choose: ChooseMonth = month_at) -> Glance:
        """A month at a glance, by the latest copy; if no month is named, the one that `choose` returns, such as the
        month on which the desk is working. Raises Fault."""
        self._asked_at = time.monotonic()
        if self._is_stale:
            self._is_stale, self._is_of_now = False, True
            self._renew_for_page()
        elif not self._is_of_now:
            self._is_of_now = True
            self._try()
        elif self._asked_at - self._renewed_at > self._every:
            self._wake.set()
        with self._looking, self._copies.latest() as copy, read_copy(copy.path) as office:
            wanted = month or choose(office, int(time.time()))
            if wanted is None:
                raise Fault(_("The office has no calendar yet: send the window of a month first."))
            known = self._glances.get(wanted)
            if known is None or known.at != copy.at:
                known = self._glances[wanted] = glance_at(office, wanted, copy.at, self._observed.heard)
            return known

    def expect(self, glance: Glance) -> Optional[Expected]:
        """The response of earlier months at the same time after their windows opened."""
        window = glance.state.window
        return self._observed.expect(window.month, min(glance.at, window.closes) - window.opens)

    def list_seen(self) -> Sequence[Seen]:
        """The response of months as the application saw it while it ran."""
        return self._observed.rows

    def renew(self) -> None:
        """Takes a copy if the office's file changed, and notes its new content. Raises Fault."""
        begun = time.monotonic()
        if self._copies.renew():
            with self._looking, self._copies.latest() as copy, read_copy(copy.path) as office:
                self._observed.hear(office.last_sent(), copy.at)
                month = month_at(office, copy.at)
                self._glances = {}
                if month is not None:
                    self._glances[month] = glance = glance_at(office, month, copy.at, self._observed.heard)
                    self._note(glance)
            self.seconds = time.monotonic() - begun
        self.on_renewed()

    def _renew_for_page(self) -> None:
        """Renews; if that fails, the pages after this one say that they may be old. Raises Fault."""
        try:
            self.renew()
        except Fault as fault:
            self.fault = says(fault)
            raise

    def _note(self, glance: Glance) -> None:
        """Notes how far along a month is if its window is open for the first time."""
        window, share = glance.state.window, glance.share
        if window.opens <= glance.at < window.closes and not glance.state.revision:
            weighed = -1 if share.weighed is None else share.weighed
            self._observed.note(Seen(window.month, glance.at - window.opens, share.slots, share.priced, weighed))

    def _follow(self) -> None:
        while not self._is_over:
            now = time.monotonic()
            is_idle = now - self._asked_at > IDLE
            if now - self._renewed_at >= (IDLE if is_idle else self._every):
                self._try()
            self._wake.wait(self._every)
            self._wake.clear()

    def _try(self) -> None:
        """Renews; if that fails, keeps the reason, whatever it is: the thread continues."""
        try:
            self.renew()
            self.fault = Worded("")
        except Fault as fault:
            self.fault = says(fault)
        except Exception as fault:
            self.fault = explain_fault(fault)
            traceback.print_exc()
        self._renewed_at = time.monotonic()


# ==== the desk: all that its pages work with

LOG = "desk.log"

FIELD_NOTES, FIELD_QUESTIONS = "field-notes.db", "field-questions.db"


class Given(NamedTuple):
    """The arguments: the office's URL and file; the application's folder; the program; the number of idle seconds after
    which a session ends; the office's clock; the folder of copies; the number of quotes that a trial leaves out in
    turn; the number of months for which field notes and questions to collectors are kept, 0 if there are none; the
    address of the front that collectors reach, if sheets with their keys are printed here; how the pages speak; the
    folder of the website, if it is written here; the number of millionths of a point from which a price that nobody has
    seen needs a reason at a freeze; and the files of the second key and of the supervisors, if there are such files.
    """

    url: str
    file: Path
    room: Path
    program: Optional[str]
    idle: int
    clock: Clock
    copies: Path
    left_out: int
    field_months: int = 0
    phones: str = ""
    speech: Speech = SPEAKS_ENGLISH
    site: Optional[Site] = None
    reason_above: int = REASON_ABOVE
    second_key: Optional[Path] = None
    supervisors: Optional[Path] = None


class Desk:
    """An application at work."""

    def __init__(self, given: Given):
        """Raises Fault if the log or a file in the folder can't be opened, locked or read."""
        self.given, self.cpi = given, Cpi(given.program)
        self.site_config = SiteConfig(given.site.config if given.site else None, given.speech.language.tag)
        self.teller = Teller(given.speech, given.clock, OnceARequest(self.site_config.money))
        self.office = Office(given.url)
        self.log = DeskLog(given.room / LOG)
        self.copies = Copies(given.file, given.copies)
        self.watch = Watch(self.copies, Observed(given.room))
        self.sessions = Sessions(self.office.is_desk, given.idle, seal=Seal(given.room / "session-key"))
        self.supervisors = self._supervisors(given.supervisors) if given.supervisors else None
        self.held = HeldForms()
        self.once, self.durations = Once(), Durations()
        """Forms that are sent twice, and how long forms took, by their views."""
        self.sender = Sender(self.office, self.log, self._look_up)
        self.tables = TablesKept(given.room / "tables")
        self.trials = Trials(
            self.cpi, self.copies, self.tables, given.copies, given.left_out, self.site_config.reference_in
        )
        self.release_drafts = ReleaseDrafts(self.cpi)
        self.since: dict[int, tuple[Tried, Earlier, Section]] = {}
        """What changed since the table of an earlier day, by month, as it was last shown."""
        self.marks = Marks(given.room / "looks.jsonl")
        self.prepared = PreparedFreeze(given.room / "prepared-freeze.json")
        self.reasons = RevisionReasons(given.room / "revision-reasons.json", self.log)
        self.freezing = threading.Lock()
        """Whoever holds it is the only one who prepares, drops or confirms a freeze."""
        self.second_key = SecondKey(given.second_key) if given.second_key else None
        months = given.field_months
        self.field: Optional[FieldNotes] = FieldNotes(given.room / FIELD_NOTES, months) if months else None
        path = given.room / FIELD_QUESTIONS
        self.questions: Optional[FieldQuestions] = FieldQuestions(path, months) if months else None
        self.turns = Turns()
        self.tray = Tray(given.room / "rows.json")
        self.drafts = Drafts(self.cpi, self.copies, given.room / "next-year")
        self.publisher = self._publisher(given.site) if given.site else None
        self.deadlines = self._deadlines(given.site) if given.site else None
        self.answers = Kept[tuple[str, Mapping[str, object]]]()
        """The results of forms, with the views that show them afterwards."""
        self.offers = Kept[Offer]()
        """Records that were judged on a copy and not sent."""

    def _supervisors(self, path: Path) -> Supervisors:
        return Supervisors(path, self.office.knows, self.given.idle)

    def _publisher(self, site: Site) -> Publisher:
        made = Publisher(site, self.given.file, self.cpi.path, self.given.room / "to-publish.json", self.log)
        made.before = lambda: self.reasons.settle(made)
        return made

    def _deadlines(self, site: Site) -> Deadlines:
        """The file of the windows, which follows each copy that is taken of the office."""
        deadlines = Deadlines(site.folder.with_name(DEADLINES), self.copies, self.given.clock)
        self.watch.on_renewed = deadlines.follow
        return deadlines

    def start(self) -> None:
        """Begins to follow the office, and to publish as planned."""
        self.watch.start()
        if self.publisher:
            self.publisher.start()

    def send(self, by: Session, records: Sequence[Sequence[str]]) -> list[Optional[Reply]]:
        """Sends records of a person, as `Sender.send` does. Raises Fault if nothing was sent."""
        try:
            return self.sender.send(by.person, by.key, records)
        finally:
            self.watch.note_change()
            if self.deadlines and may_set_windows(records):
                self.deadlines.renew()

    def _look_up(self, records: Sequence[Sequence[str]], since: int) -> list[Reply]:
        """The replies to records, according to a copy of the office's file that is taken now."""
        with self.copies_now() as copy:
            return looked_up(self.cpi, copy.path, records, since)

    @contextlib.contextmanager
    def copies_now(self) -> Iterator[Copy]:
        """A copy that is taken now, if the office's file changed since the latest one. Raises Fault."""
        self.copies.renew()
        with self.copies.latest() as copy:
            yield copy

    def close(self) -> None:
        """Stops the desk, and removes its copies."""
        self.watch.stop()
        if self.publisher:
            self.publisher.stop()
        self.trials.close()
        self.copies.close()
        self.log.close()
        for file in (self.field, self.questions):
            if file:
                file.close()

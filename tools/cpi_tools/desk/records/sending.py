"""How records go to the office: rows in a person's tray, the log before and after, and what became of each."""

from __future__ import annotations

import contextlib
import json
import threading
import unicodedata
from collections.abc import Callable, Iterator, Mapping, Sequence
from pathlib import Path
from typing import Any, NamedTuple, Optional

from ...office.copying import private_copy
from ...office.program import LAST_MOMENT, Cpi, Reply, record
from ...office.refusals import DESK, refusal_words, sentence
from ...office.stored import StoredOffice, read_copy
from ...text.message import Message as Text, message as _, said_as, whole
from ...text.others import of_others
from ...text.terminal import Fault, a_month, because_of, month_text
from ...text.text_files import line_of, write_whole
from ..freeze.freezes import sum_of
from ..serve.faults import not_as_written
from ..serve.watched_office import NoReply, NotSent, Office, messages_of
from .desk_log import ANSWERED, HIDDEN, LOOKED_UP, NOT_SENT as NOT_SENT_LINE, SENT, DeskLog, Entry


# ==== whether a record that was sent, and whose reply was lost, was carried out: by a copy of the office's file
#
# The office answers `done` to a record that it contains exactly. So the program gets the record on the copy: if the
# answer is `done` and no row changed, the office contained it before. A freeze is the exception, since it can't be
# asked twice: there the stored release tells.

STANDS, ABSENT = "stands", "absent"
"""The keys of a check's result: `{"stands": true}`, or `{"absent": true}`, perhaps with the refusal of the copy."""

TABLES: dict[str, tuple[str, ...]] = {
    "item": ("item",),
    "outlet": ("outlet",),
    "collector": ("collector",),
    "calendar": ("calendar",),
    "plan": ("node", "plan_item", "plan_ref"),
    "assign": ("assignment_2",),
    "handover": ("assignment_2",),
    "freeze": ("release_2",),
}
"""The tables that a record of the desk changes, by its word."""


def looked_up(cpi: Cpi, office_copy: Path, records: Sequence[Sequence[str]], since: int) -> list[Reply]:
    """The file's content for some records that were sent at the moment `since`, in their order. Raises Fault."""
    with private_copy(office_copy) as copy:
        return [_look(cpi, copy, fields, since) for fields in records]


def _look(cpi: Cpi, copy: Path, fields: Sequence[str], since: int) -> Reply:
    """Searches for one record; if it wasn't there, it is afterwards, so that the next search finds it."""
    word = fields[0]
    with read_copy(copy) as office:
        if word == "collector":
            # (the log doesn't have its key)
            return {STANDS: True} if int(fields[1]) in office.keys() else {ABSENT: True}
        if word == "freeze" and is_frozen_since(office, fields, since):
            return {STANDS: True}
        before = office.fingerprint(TABLES[word])
    at = LAST_MOMENT if word == "freeze" else since
    (reply,) = cpi.replay([record(at, "desk", *fields)], db=copy)
    if "refused" in reply:
        return {ABSENT: True, **reply}
    with read_copy(copy) as office:
        return {STANDS: True} if office.fingerprint(TABLES[word]) == before else {ABSENT: True}


def is_frozen_since(office: StoredOffice, fields: Sequence[str], since: int) -> bool:
    """Whether the latest release of a month was frozen with this carry list, not before a moment."""
    month = a_month(fields[1])
    releases = [release for release in office.releases() if release.month == month]
    if not releases:
        return False
    frozen_at, _ = office.frozen_moments()[month, releases[-1].revision]
    return frozen_at >= since and {*releases[-1].carry} == {*fields[2:]}


# ---- records that take the place of others


CALENDAR = "calendar"

REPLACED = (CALENDAR, "plan")
"""The words of records that replace an earlier one: any other record is refused if another one exists."""


def what_stands(office: StoredOffice, records: Sequence[Sequence[str]]) -> list[str]:
    """An office's content in the place of each record, as a text; nothing for records that replace nothing."""
    if not any(fields[0] in REPLACED for fields in records):
        return [""] * len(records)
    windows = {month_text(it.month): ",".join(map(str, it[1:])) for it in office.calendar()}
    plans, references = {str(plan.year): plan for plan in office.plans()}, office.references()

    def of(fields: Sequence[str]) -> str:
        if fields[0] not in REPLACED or len(fields) < 2:
            return ""
        if fields[0] == CALENDAR:
            return windows.get(fields[1], "")
        plan = plans.get(fields[1])
        return sum_of([str(plan), references.get(plan.year, 0)]) if plan else ""

    return [of(fields) for fields in records]


# ==== the office's answers to the desk's records, in words

NO_REPLY = _("no reply yet: the page looks this record up before it sends anything else")
NOT_SENT = _("not sent")
LOST_AND_ABSENT = _("not carried out: its reply was lost, and the office's file doesn't contain it")
LOST_AND_DONE = _("done: its reply was lost, but the office's file contains it")


class RecordReply(NamedTuple):
    """A record as a line, the office's answer, and whether it was carried out."""

    record: str
    answer: Text
    is_done: bool


def record_reply(fields: Sequence[str], reply: Optional[Reply], without: Text = NO_REPLY) -> RecordReply:
    """A record and its reply; `without` is the text if there is none."""
    if reply is None:
        return RecordReply(line_of(fields), without, False)
    if "refused" in reply:
        return RecordReply(line_of(fields), explain_refusal(reply, fields[0]), False)
    if ABSENT in reply:
        return RecordReply(line_of(fields), LOST_AND_ABSENT, False)
    return RecordReply(line_of(fields), LOST_AND_DONE if STANDS in reply else _("done"), True)


def explain_refusal(reply: Reply, word: str) -> Text:
    """A refusal with what to do; of a record whose reply was lost it is what the office would say now."""
    words = refusal_words(reply, DESK, word)
    at = "".join(f", {name} {reply[name]}" for name in ("fault", "found", "code") if name in reply)
    english = f"refused by {reply['refused']}{at}: {words.because}; {words.do}"
    parts = [_("Refused with {number}.", number=whole(reply["refused"])), _(sentence(words.because)), *more_of(reply)]
    if ABSENT in reply:
        return said_as(
            f"not carried out; it would be {english}", _("It wasn't carried out."), *parts, _(sentence(words.do))
        )
    return said_as(english, *parts, _(sentence(words.do)))


def more_of(reply: Reply) -> Iterator[Text]:
    """A refusal's text about the place of the fault."""
    if "fault" in reply:
        yield _("Fault {number}.", number=whole(reply["fault"]))
    if "found" in reply:
        yield _("The value found is {found}.", found=of_others(str(reply["found"])))
    if "code" in reply:
        yield _("The code is {code}.", code=of_others(str(reply["code"])))


# ==== Rows that a person gave and that the office hasn't carried out: each stays, with its answer, until it is carried
# out or the person drops it. They are a file, so they outlive the application.
#
# The file contains no collector's key: a key is in memory until its row is carried out or dropped.

NEW, GOOD, REFUSED, GOING = "new", "good", "refused", "going"
"""The state of a row: it wasn't judged yet; the copy's answer is `done`; it was refused, or not sent; it is on its way
to the office."""

COLLECTORS, KEY = "collectors", 1
"""The kind of rows that have a key, and which of their cells it is."""


class Waiting(NamedTuple):
    """A row: its number; its cells as they were given; the record that was judged, without a collector's key; its
    state; the answer, or the reason why there is none; for a row on its way, the number of the log's last line before
    that; and the office's content in its place when it was judged."""

    number: int
    cells: list[str]
    record: list[str]
    state: str
    reply: Optional[Reply]
    why: str
    since: int
    stood: str = ""


def who(person: str) -> str:
    """One name of a person, however it is written."""
    return unicodedata.normalize("NFKC", person).casefold()


class Tray:
    """The rows of all persons, by kind. Whoever holds `lock` is the only one who reads and changes them."""

    def __init__(self, path: Path):
        self._path, self.lock = path, threading.RLock()
        self._keys: dict[int, str] = {}

    def rows(self, person: str, kind: str) -> list[Waiting]:
        """The rows of a person, in the order in which they were given. Raises Fault if the file can't be read."""
        with self.lock:
            return self._read()[1].get(f"{who(person)}\n{kind}", [])

    def take(self, person: str, kind: str, cells: Sequence[Sequence[str]], instead: Sequence[int] = ()) -> None:
        """Takes rows; the rows with the numbers `instead` are removed, since the new ones replace them. Raises
        Fault."""
        with self.lock:
            last, all_rows = self._read()
            before = all_rows.get(f"{who(person)}\n{kind}", [])
            own, gone = [row for row in before if row.number not in instead], [
                row for row in before if row.number in instead
            ]
            for each in cells:
                last += 1
                own.append(Waiting(last, self._hide_key(last, kind, each, gone), [], NEW, None, "", 0))
            self._write(last, {**all_rows, f"{who(person)}\n{kind}": own})

    def change(self, person: str, kind: str, changed: Mapping[int, Optional[Waiting]]) -> None:
        """Puts rows in the place of those with their numbers; in the place of None nothing comes. Raises Fault."""
        with self.lock:
            last, all_rows = self._read()
            own = [changed.get(row.number, row) for row in all_rows.get(f"{who(person)}\n{kind}", [])]
            self._write(last, {**all_rows, f"{who(person)}\n{kind}": [item for item in own if item]})
            for number, waiting_item in changed.items():
                if waiting_item is None:
                    self._keys.pop(number, None)

    # ---- keys

    def key(self, number: int) -> Optional[str]:
        """The key of a row, if it is in memory."""
        return self._keys.get(number)

    def keep_key(self, number: int, key: str) -> None:
        """Keeps the key of a row in memory."""
        self._keys[number] = key

    def _hide_key(self, number: int, kind: str, cells: Sequence[str], gone: Sequence[Waiting]) -> list[str]:
        """The cells without a key, which is kept in memory; one that isn't shown is that of the row whose place this one
        takes."""
        if kind != COLLECTORS or not cells[KEY]:
            return [*cells]
        key: Optional[str] = cells[KEY]
        if key == HIDDEN:
            same = [waiting_item for waiting_item in gone if waiting_item.cells[0] == cells[0]] or gone
            key = self._keys.get(same[0].number) if len(same) == 1 else None
        if key is not None:
            self._keys[number] = key
        return [*cells[:KEY], HIDDEN, *cells[KEY + 1 :]]

    # ---- the file

    def _read(self) -> tuple[int, dict[str, list[Waiting]]]:
        try:
            found: Any = json.loads(self._path.read_text(encoding="utf-8"))
            return found["last"], {of: [Waiting(*row) for row in rows] for of, rows in found["rows"].items()}
        except FileNotFoundError:
            return 0, {}
        except OSError as fault:
            raise Fault(because_of(fault)) from fault
        except (ValueError, TypeError, LookupError) as fault:
            raise Fault(not_as_written(self._path, fault)) from fault

    def _write(self, last: int, rows: Mapping[str, Sequence[Waiting]]) -> None:
        kept = {"last": last, "rows": {of: own for of, own in rows.items() if own}}
        try:
            write_whole(self._path, json.dumps(kept).encode(), 0o600)
        except OSError as fault:
            raise Fault(because_of(fault)) from fault


# ==== how records go to the office: the desk's log contains each before it is sent, and its reply afterwards
#
# A record whose reply was lost is searched for in the office's file before anything else is sent. So nothing is sent
# twice, and nothing is lost, whatever is killed at whichever step.

LookUp = Callable[[Sequence[Sequence[str]], int], list[Reply]]
"""A function that finds the replies to records, sent at some time, in the office's file."""


class Sender:
    """Sends records of the desk, one message after the other."""

    def __init__(self, office: Office, log: DeskLog, look_up: LookUp):
        self._office, self._log, self._look_up = office, log, look_up
        self._lock = threading.Lock()

    def send(self, by: str, key: str, records: Sequence[Sequence[str]]) -> list[Optional[Reply]]:
        """Sends records; the reply to each, None if none came, or if it was no longer sent.

        A reply of `looked_up` replaces one that was lost and searched for. Raises Fault if nothing was sent.
        """
        messages = messages_of(records)
        with self._lock:
            self._settle(by)
            replies = list[Optional[Reply]]()
            for message in messages:
                try:
                    found = self._send_message(by, key, message)
                except Fault:
                    # (of the first message nothing was sent; later on others were)
                    if not replies:
                        raise
                    found = None
                if found is None:
                    break
                replies += found
            return [*replies, *[None] * (len(records) - len(replies))]

    def settle(self, by: str) -> list[Entry]:
        """Looks up each record whose reply was lost; the lines that say so. Raises Fault if the office can't be asked,
        or its file can't be read."""
        with self._lock:
            return self._settle(by)

    def _send_message(self, by: str, key: str, message: Sequence[Sequence[str]]) -> Optional[list[Reply]]:
        """Sends one message; its replies, or None if its result isn't known. Raises Fault if it wasn't sent."""
        entry = self._log.append(by, SENT, message)
        try:
            replies = self._office.carry_out(key, message)
        except NotSent as fault:
            self._log.append(by, NOT_SENT_LINE, of=entry.number, text=str(fault))
            raise
        except NoReply:
            return self._after_silence(by, entry)
        with contextlib.suppress(Fault):
            # (if the disk fails now, the record is looked up later, as if its reply had been lost)
            self._log.append(by, ANSWERED, of=entry.number, replies=replies)
        return replies

    def _after_silence(self, by: str, entry: Entry) -> Optional[list[Reply]]:
        """The result of a message without a reply; None if it can't be known now."""
        try:
            settled = self._settle(by)
        except Fault:
            return None
        return next((it.replies for it in settled if it.of == entry.number), None)

    def _settle(self, by: str) -> list[Entry]:
        entries = list[Entry]()
        waiting = self._log.open_entries()
        if waiting:
            # (what waited at the office's port is dealt with by then)
            self._office.wait()
        for entry in waiting:
            replies = self._look_up(entry.records, entry.at)
            entries.append(self._log.append(by, LOOKED_UP, of=entry.number, replies=replies))
        return entries

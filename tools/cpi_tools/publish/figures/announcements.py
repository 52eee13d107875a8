"""What an office announces of its releases: their names, their moments, and why a month was revised."""

from __future__ import annotations

import contextlib
import json
import re
from collections import Counter
from collections.abc import Iterable, Iterator, Mapping, Sequence
from datetime import datetime, timezone
from pathlib import Path
from typing import Any, NamedTuple, Optional

from ...office.public import MONTH
from ...office.table_rows import NO_ROWS
from ...office.tables import Series, Table
from ...text.clocks import Clock
from ...text.languages import list_known
from ...text.terminal import Fault, because_of
from ...text.text_files import read_rows
from .specials import ID


# ==== the moments of the releases that an office announces, from a file like `calendar.csv`
#
# Its columns are those of the office's calendar: `month`, `opens`, `closes` and `publishes`; only the first and the
# last are read. It may have two more: `reason` says why a release moved, and `moved` what was announced before, if no
# earlier pack knows it. A moment is a civil time like `2026-01-28T09:30` of the office's clock, or in seconds since
# 1970 UTC, as in the records of the desk. The first row of a month is its first release, a further one its next
# revision.

CALENDAR_COLUMNS = ("month", "publishes")
MOVED, REASON = "moved", "reason"
MOST_REVISIONS = 9
SECONDS = re.compile(r"0|[1-9][0-9]{0,9}")


class BadCalendar(Fault):
    """A file of announced releases with a fault; one line."""


class Planned(NamedTuple):
    """A release that is announced: the month like `2026-01`, its revision, and the moment in seconds since 1970 UTC; the moment
    that was announced before, if the file says so, and why it moved."""

    month: str
    revision: int
    moment: int
    moved: Optional[int] = None
    reason: str = ""


def read_planned(path: Path, clock: Clock) -> tuple[Planned, ...]:
    """The releases of a file, by their moments. Raises BadCalendar."""
    return read_rows(path, lambda rows: planned_of(rows, clock), BadCalendar)


def planned_of(rows: Sequence[Sequence[str]], clock: Clock) -> tuple[Planned, ...]:
    """The releases of some rows, the first of which contains the names of the columns. Raises BadCalendar."""
    head = [*rows[0]] if rows else []
    for name in CALENDAR_COLUMNS:
        if head.count(name) != 1:
            raise BadCalendar(f"its first row is {','.join(head)}, and needs one column {name}")
    for name in (MOVED, REASON):
        if head.count(name) > 1:
            raise BadCalendar(f"its first row is {','.join(head)}, and has the column {name} twice")
    revisions: Counter[str] = Counter()
    found = []
    for number, row in enumerate(rows[1:], 2):
        if any(row):
            if len(row) != len(head):
                raise BadCalendar(f"row {number} has {len(row)} cells, and not {len(head)}")
            month, publishes = (row[head.index(name)].strip() for name in CALENDAR_COLUMNS)
            revisions[month] += 1
            plan = _read_planned(number, (month, revisions[month], publishes), clock)
            moved, reason = (row[head.index(name)].strip() if name in head else "" for name in (MOVED, REASON))
            found.append(_with_move(number, plan, (moved, " ".join(reason.split())), clock))
    return tuple(sorted(found, key=lambda it: (it.moment, it.month, it.revision)))


def _read_planned(number: int, read: tuple[str, int, str], clock: Clock) -> Planned:
    """The release of a row, by its number in the file."""
    month, revision, publishes = read
    if not MONTH.fullmatch(month):
        raise BadCalendar(f"row {number}: {month or 'an empty text'} is no month like 2026-01")
    if revision > MOST_REVISIONS:
        raise BadCalendar(f"row {number}: {month} has more than {MOST_REVISIONS} rows")
    try:
        return Planned(month, revision, moment_of(publishes, clock))
    except ValueError as fault:
        raise BadCalendar(f"row {number}: {fault}") from None


def _with_move(number: int, plan: Planned, read: tuple[str, str], clock: Clock) -> Planned:
    """The release with the time that was announced before, if the file gives one, and why it moved."""
    text, reason = read
    if not text:
        return plan._replace(reason=reason)
    try:
        moved = moment_of(text, clock)
    except ValueError as fault:
        raise BadCalendar(f"row {number}: {MOVED}: {fault}") from None
    if moved == plan.moment:
        raise BadCalendar(
            f"row {number}: {MOVED} is {text}, the moment of publishing itself: write the one that was announced before"
        )
    return plan._replace(moved=moved, reason=reason)


def moment_of(text: str, clock: Clock) -> int:
    """The moment of a civil time of a clock, or of seconds since 1970. Raises ValueError, which names the problem."""
    with contextlib.suppress(ValueError, OverflowError):
        return int(text) if SECONDS.fullmatch(text) else clock.moment(text)
    raise ValueError(f"{text or 'an empty text'} is no time like 2026-01-28T09:30, and no seconds")


# ==== the moments that were announced: what a pack keeps of the calendar, so that the next one says which releases
# moved
#
# `data/announced.json` has a row for each announced release: its month and revision, the moment in seconds since 1970
# UTC, and, if another moment was announced before, that moment, how often the release moved, and when the move was
# announced. Nothing depends on a clock: a move is announced at the moment of the last table. A table that came out
# later than announced moved too.

NAME = "announced.json"


class BadAnnounced(Fault):
    """A file of announced moments that can't be read; one line."""


class Announced(NamedTuple):
    """An announced release: its month, its revision and its release time. If it moved, the time that was announced
    before, how often it moved, when the move was announced, and why. If no pack had announced it before it was
    published at another time, `planned` is the time in the calendar. Moments are seconds since 1970 UTC."""

    month: str
    revision: int
    moment: int
    before: Optional[int] = None
    moves: int = 0
    said: int = 0
    reason: str = ""
    planned: Optional[int] = None

    @property
    def of(self) -> tuple[str, int]:
        """Its month and revision."""
        return self.month, self.revision


def coming(series: Series, planned: Sequence[Planned]) -> list[Planned]:
    """The announced releases that aren't published, by their times. A release whose time passed before a later table
    was published is no longer announced."""
    there = {(table.month, table.revision) for table in series.vintages}
    return [plan for plan in planned if (plan.month, plan.revision) not in there and plan.moment > series.moment]


Earlier = Mapping[tuple[str, int], Announced]
"""The announcements in the previous pack, by month and revision."""


def announced_after(earlier: Earlier, planned: Iterable[Planned], series: Series) -> tuple[Announced, ...]:
    """All releases that are or were announced, after those of the previous pack. A published release has the time of
    its table."""
    out = {(vintage.month, vintage.revision): vintage.moment for vintage in series.vintages}
    found = dict(earlier)
    for plan in planned:
        of = (plan.month, plan.revision)
        # (what no pack announced, and is out, came when it came)
        now = out.get(of, plan.moment)
        last = found.get(of) or Announced(*of, now if plan.moved is None else plan.moved)
        # (the reason of an earlier move is none of this one)
        last = last._replace(reason=plan.reason or (last.reason if now == last.moment else ""))
        # (kept, since an office takes rows of releases that are out from its calendar)
        if of in out and last.before is None and last.planned is None and plan.moment != last.moment:
            last = last._replace(planned=plan.moment)
        found[of] = last if of in out else _move(last, now, series.moment)
    for of, moment in out.items():
        if of in found:
            found[of] = _move(found[of], moment, max(moment, found[of].said))
    return tuple(found[of] for of in sorted(found))


def _move(last: Announced, moment: int, said: int) -> Announced:
    """A release with its current time, which can differ from the earlier one."""
    if moment == last.moment:
        return last
    # (two moves that are said at one moment are told apart)
    later = max(said, last.said + 1) if last.moves else said
    return last._replace(moment=moment, before=last.moment, moves=last.moves + 1, said=later)


# ---- files


def write_announced(announcements: Iterable[Announced], folder: Path) -> None:
    """Writes them into the folder `data` of a pack, a row a line; without any the list is empty."""
    rows = ",\n".join("  " + json.dumps(announcement._asdict(), ensure_ascii=False) for announcement in announcements)
    (folder / NAME).write_text(f'{{\n "announced": [\n{rows}\n ]\n}}\n', encoding="utf-8")


def announced_in(packs: Iterable[Path]) -> Earlier:
    """The announcements of several packs; for a pack of an earlier version, which has no such file, the times in its
    calendar. If two packs contain a release, the row counts in which it moved more often or later, in whichever
    pack; otherwise the row of the later pack. Raises BadAnnounced."""
    announcements: dict[tuple[str, int], Announced] = {}
    for pack in packs:
        path = pack / "data" / NAME
        for announcement in _read(path) if path.exists() else _of_calendar(pack / "calendar.ics"):
            known = announcements.get(announcement.of)
            if known is None or (known.moves, known.said) <= (announcement.moves, announcement.said):
                announcements[announcement.of] = announcement
    return announcements


def _read(path: Path) -> list[Announced]:
    try:
        found: Any = json.loads(path.read_bytes())
        rows = [Announced(**it) for it in found["announced"]]
        if not all(map(_is_row, rows)):
            raise ValueError("a row isn't an announced release")
    except OSError as fault:
        raise BadAnnounced(because_of(fault)) from fault
    except (KeyError, TypeError, ValueError, RecursionError) as fault:
        raise BadAnnounced(
            f"{path} isn't what cpi-tools publish wrote there: take it from a copy of the pack; or remove it, and the"
            " moments of calendar.ics count"
        ) from fault
    return rows


def _is_row(announcement: Announced) -> bool:
    """Whether a row has the form of an announcement."""
    numbers = (
        announcement.revision,
        announcement.moment,
        announcement.moves,
        announcement.said,
        *(each for each in (announcement.before, announcement.planned) if each is not None),
    )
    is_counted = all(type(each) is int and each >= 0 for each in numbers)
    return (
        is_counted
        and isinstance(announcement.month, str)
        and bool(MONTH.fullmatch(announcement.month))
        and isinstance(announcement.reason, str)
    )


EVENT = re.compile(r"^UID:([0-9]{4}-[0-9]{2})-r([1-9])\..*^DTSTART:([0-9]{8}T[0-9]{6}Z)$", re.M | re.S)
IS_OUT = "\nDESCRIPTION:"
"""The property that only the event of a published release has."""


def _of_calendar(path: Path) -> list[Announced]:
    """The events to come of an earlier calendar, whose long lines go on after a blank (RFC 5545, section 3.1)."""
    try:
        text = re.sub("\n[ \t]", "", path.read_text(encoding="utf-8", errors="replace"))
    except FileNotFoundError:
        return []
    except OSError as fault:
        raise BadAnnounced(because_of(fault)) from fault
    matches = (EVENT.search(event) for event in text.split("BEGIN:VEVENT\n") if IS_OUT not in event)
    return [Announced(match[1], int(match[2]), _moment(match[3])) for match in matches if match]


def _moment(stamp: str) -> int:
    """Seconds since 1970 of `20260128T083000Z`."""
    return int(datetime.strptime(stamp, "%Y%m%dT%H%M%SZ").replace(tzinfo=timezone.utc).timestamp())


# ==== why the office revised a month, in its own words: from a file like `revisions.csv`
#
# Its columns are `month`, `revision` and `reason`, and `added` if it likes. A reason without a time in `added` is given
# with the revision; one that is given later has its time there. What was published stays: a further row adds to it.
# Columns such as `reason-fr` have the reason in other languages of the pages, which show `reason` without them.
#
# A row that has the id of a special aggregate in place of a month says why another definition of it, such as the second
# one, holds for all months, and when the office said so. One that has `quality` or `seasonal` there says why published
# figures of quality, or adjusted ones, are others.

NEEDED, ADDED = ("month", "revision", "reason"), "added"
QUALITY, SEASONAL = "quality", "seasonal"
CORRECTED = (QUALITY, SEASONAL)
"""The word in place of a month if quality figures, or adjusted series, are corrected; the first correction has the
number 2."""

TRANSLATED = "reason-"
"""The beginning of the name of a column with reasons in a language; the language's tag (BCP 47) follows."""

MOST_LETTERS = 1000
"""The largest number of characters in a reason."""


class BadReasons(Fault):
    """A file of reasons with a fault, or one that takes back what was published; one line."""


class Reason(NamedTuple):
    """Why a month like `2026-01` got a further revision, a special aggregate like `CORE` a further definition, or
    quality or adjusted series other figures. `added` is when the reason was given, in seconds since 1970 UTC; None
    if it was given with the revision. `texts` has the same in other languages, by their tags."""

    month: str
    revision: int
    text: str
    added: Optional[int] = None
    texts: Mapping[str, str] = {}


class GivenReason(NamedTuple):
    """A reason of a published revision, when it was given, in seconds since 1970 UTC, and the same in other languages. The
    table of a special aggregate's definition has no rows, and the moment of its first reason."""

    table: Table
    text: str
    moment: int
    texts: Mapping[str, str] = {}

    def say(self, tag: str) -> str:
        """The reason in a language, or in the language in which the office wrote it first."""
        return self.texts.get(tag, self.text)

    @property
    def is_later(self) -> bool:
        """Whether it was given later than the revision."""
        return self.moment > self.table.moment


Reasons = dict[tuple[str, int], list[GivenReason]]
"""By month and revision, in the order in which they were given."""


def read_reasons(path: Path, clock: Clock) -> tuple[Reason, ...]:
    """The reasons of a file, in its order. Raises BadReasons."""
    return read_rows(path, lambda rows: reasons_of(rows, clock), BadReasons)


def reasons_of(rows: Sequence[Sequence[str]], clock: Clock) -> tuple[Reason, ...]:
    """The reasons of some rows, the first of which contains the names of the columns. Raises BadReasons."""
    head = [*rows[0]] if rows else []
    _test_head(head)
    reasons: list[Reason] = []
    for number, row in enumerate(rows[1:], 2):
        if any(row):
            if len(row) != len(head):
                raise BadReasons(f"row {number} has {len(row)} cells, and not {len(head)}")
            reasons.append(_reason(number, {name: " ".join(cell.split()) for name, cell in zip(head, row)}, clock))
            _test_order(number, reasons)
    return tuple(reasons)


def _test_head(head: Sequence[str]) -> None:
    """Raises BadReasons if the names of the columns aren't those of such a file."""
    translated = [name for name in head if name.startswith(TRANSLATED)]
    own = sorted(name for name in head if name not in translated)
    if own not in (sorted(NEEDED), sorted((*NEEDED, ADDED))):
        raise BadReasons(
            f"its first row is {','.join(head)}, and not {','.join(NEEDED)}, with or without {ADDED} and columns such as"
            f" {TRANSLATED}fr"
        )
    for name in translated:
        if name.removeprefix(TRANSLATED).replace("-", "_") not in list_known():
            raise BadReasons(
                f"its column {name} is of a language without a catalogue; it is one of {', '.join(list_known())}"
            )
        if translated.count(name) > 1:
            raise BadReasons(f"its column {name} is there twice")


def _reason(number: int, row: dict[str, str], clock: Clock) -> Reason:
    """The reason of a row, by its number in the file."""
    month, revision, text = (row[name] for name in NEEDED)
    if not MONTH.fullmatch(month) and not _is_definition(month):
        raise BadReasons(
            f"row {number}: {month or 'an empty text'} is no month like 2026-01, nor the id of a special aggregate, nor"
            f" {' or '.join(CORRECTED)}"
        )
    if _is_definition(month) and not row.get(ADDED):
        raise BadReasons(f"row {number}: the reason of {month} needs in the column {ADDED} when it was given")
    if revision not in map(str, range(2, MOST_REVISIONS + 1)):
        raise BadReasons(f"row {number}: revision {revision or 'without a number'} isn't 2 to {MOST_REVISIONS}")
    if not 0 < len(text) <= MOST_LETTERS:
        raise BadReasons(f"row {number}: its reason has {len(text)} letters, and not 1 to {MOST_LETTERS}")
    texts = {name.removeprefix(TRANSLATED): it for name, it in row.items() if name.startswith(TRANSLATED) and it}
    for tag, it in texts.items():
        if len(it) > MOST_LETTERS:
            raise BadReasons(f"row {number}: its {TRANSLATED}{tag} has {len(it)} letters, and not up to {MOST_LETTERS}")
    try:
        return Reason(month, int(revision), text, moment_of(row[ADDED], clock) if row.get(ADDED) else None, texts)
    except ValueError as fault:
        raise BadReasons(f"row {number}: {fault}") from None


def _is_definition(name: str) -> bool:
    """Whether what is in place of a month is a special aggregate, or what is corrected."""
    return name in CORRECTED or ID.fullmatch(name) is not None


def _test_order(number: int, reasons: Sequence[Reason]) -> None:
    """Raises BadReasons if the last reason isn't after those of the same revision."""
    last, mine = reasons[-1], [reason for reason in reasons[:-1] if reason[:2] == reasons[-1][:2]]
    if mine and (last.added is None or last.added <= (mine[-1].added or 0)):
        raise BadReasons(
            f"row {number}: {last.month}, revision {last.revision}, has a reason already: a further one needs in the"
            f" column {ADDED} when it was given, which is later"
        )


# ---- beside the tables


def given_reasons(reasons: Iterable[Reason], series: Series, planned: Iterable[Planned]) -> Reasons:
    """The reasons of published revisions. The reason of an announced revision isn't shown before the revision is
    published, and neither is a reason whose time is later than all published tables: its revision is still to come.
    Raises BadReasons if there is no such revision, or a reason was given before it."""
    reasons = [*reasons]
    tables = {(vintage.month, vintage.revision): vintage for vintage in series.vintages} | _definitions(reasons, series)
    announced = {(plan.month, plan.revision) for plan in planned}
    latest = max(table.moment for table in series.vintages)
    found: Reasons = {}
    for reason in reasons:
        table = tables.get(reason[:2])
        if table is not None:
            moment = table.moment if reason.added is None else reason.added
            if moment < table.moment:
                raise BadReasons(
                    f"a reason of {reason.month}, revision {reason.revision}, was added before the revision was out"
                )
            found.setdefault(reason[:2], []).append(GivenReason(table, reason.text, moment, reason.texts))
        elif reason[:2] not in announced and (
            reason.added is None or reason.added <= latest or _is_definition(reason.month)
        ):
            raise BadReasons(
                f"a reason names {reason.month}, revision {reason.revision}, which is neither out nor announced"
            )
    return found


def _definitions(reasons: Iterable[Reason], series: Series) -> dict[tuple[str, int], Table]:
    """The stand-in for a table if a reason is about a special aggregate's definition. Raises BadReasons if there is
    no such aggregate, or the definition before has no reason."""
    definitions: dict[tuple[str, int], Table] = {}
    for reason in reasons:
        if _is_definition(reason.month) and reason[:2] not in definitions:
            if reason.month not in (*CORRECTED, *series.specials, *series.core):
                raise BadReasons(
                    f"a reason names {reason.month}, which is no special aggregate, and no measure of core inflation"
                )
            if reason.revision > 2 and (reason.month, reason.revision - 1) not in definitions:
                kind = "correction" if reason.month in CORRECTED else "definition"
                raise BadReasons(f"{reason.month}, {kind} {reason.revision}, has a reason, and the one before has none")
            definitions[reason.month, reason.revision] = Table(
                reason.month, reason.revision, reason.added or 0, "", NO_ROWS
            )
    return definitions


def definition_of(name: str, given: Iterable[tuple[str, int]]) -> int:
    """Which definition of a special aggregate holds for all months, by the reasons that are given: the first one has
    none."""
    return max((revision for id, revision in given if id == name), default=1)


def in_order(reasons: Reasons) -> Iterator[GivenReason]:
    """All of them, by month and revision."""
    for _, reason in sorted(reasons.items()):
        yield from reason


# ==== The names of releases: of their tables, pages and cards. They stay for ever.

FOLDER = "release"
"""The folder of a site that has the pages of releases, and their cards."""


def name_of(month: str, revision: int) -> str:
    """The name of a release, `2026-01-r1`, of its table and of its page."""
    return f"{month}-r{revision}"


def page_of_release(month: str, revision: int) -> str:
    """The address of a release's page in the site."""
    return f"{FOLDER}/{name_of(month, revision)}.html"


def card_of(month: str, revision: int) -> str:
    """The address of a release's card in the site."""
    return f"{FOLDER}/{name_of(month, revision)}.png"

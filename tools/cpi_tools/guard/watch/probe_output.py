"""A probe's findings, its judgement of them, and its report: a line for Nagios, or figures for Prometheus."""

from __future__ import annotations

import argparse
from collections.abc import Iterator
from typing import NamedTuple, Optional

from ...office.stored import Window
from ...text.terminal import month_text, time_text, write_count
from ..copies.generations import LastDrill
from ..next_open import NextOpen, in_words
from . import serve_log
from .probe_looks import (
    CRITICAL,
    OK,
    STATES,
    UNKNOWN,
    WARNING,
    Answer,
    Backups,
    Certificate,
    Files,
    Judgement,
    MachineClock,
    SecondCopy,
    Table,
    state_of,
    state_of_rest,
    worst,
)
from .serve_log import Writes

HOUR, DAY = 3600, 86_400

MOST_MONTHS = 3
"""More late months than this are counted."""


class Seen(NamedTuple):
    """A probe's findings; None for each part that it wasn't to check, or couldn't. `fault` is why nobody answered,
    `unseen` has a line for each part that couldn't be checked, and `unnamed` the parts that it wasn't to check."""

    now: int
    answer: Optional[Answer] = None
    fault: str = ""
    files: Optional[Files] = None
    backups: Optional[Backups] = None
    late: Optional[tuple[Window, ...]] = None
    writes: Optional[Writes] = None
    left: Optional[int] = None
    certificate: Optional[Certificate] = None
    clock: Optional[MachineClock] = None
    second: Optional[SecondCopy] = None
    last_drill: Optional[LastDrill] = None
    next_open: Optional[NextOpen] = None
    unseen: tuple[str, ...] = ()
    unnamed: tuple[str, ...] = ()


class Judged(NamedTuple):
    """The worst state, and the text for it."""

    state: int
    texts: tuple[str, ...]


# ---- judging


def judge_office(seen: Seen, chosen: argparse.Namespace) -> Judged:
    """The state of an office: the worst of its parts, by the chosen levels; the text names all parts that aren't
    well."""
    parts = (
        _of_answer,
        _of_files,
        _of_open,
        _of_backups,
        _of_second,
        _of_generations,
        _of_writes,
        _of_machine,
        _of_unseen,
    )
    office = [each for part in parts for each in part(seen, chosen) if each[0] != OK]
    ordered = [text for weight in (CRITICAL, WARNING, UNKNOWN) for state, text in office if state == weight]
    return Judged(worst(state for state, _ in office), tuple(ordered))


def _of_answer(seen: Seen, chosen: argparse.Namespace) -> Iterator[Judgement]:
    if seen.fault:
        yield CRITICAL, seen.fault
    if seen.answer:
        yield state_of(seen.answer.milliseconds, chosen.slow), f"it answered after {seen.answer.milliseconds} ms"
    yield from _of_late(seen, chosen)


def _of_late(seen: Seen, chosen: argparse.Namespace) -> Iterator[Judgement]:
    """The months that are late for longest, and how many others are: a monitoring system cuts a long line."""
    late = sorted(seen.late or (), key=lambda it: it.publishes)
    states = [state_of((seen.now - row.publishes) // HOUR, chosen.late) for row in late]
    for state, row in zip(states[:MOST_MONTHS], late):
        yield state, f"no table of {month_text(row.month)}, to be published {time_text(row.publishes)}"
    if others := states[MOST_MONTHS:]:
        yield worst(others), f"no table of {write_count(len(others), 'more month')}"


def _of_files(seen: Seen, chosen: argparse.Namespace) -> Iterator[Judgement]:
    if seen.files:
        yield state_of(seen.files.log >> 20, chosen.log), f"its log has {seen.files.log:,} bytes"
        yield state_of_rest(seen.files.free >> 20, chosen.free), f"{seen.files.free:,} bytes are left on its disk"


def _of_open(seen: Seen, chosen: argparse.Namespace) -> Iterator[Judgement]:
    if seen.next_open:
        percent = max(seen.next_open.memory_percent, seen.next_open.seconds_percent)
        yield state_of(percent, chosen.open), f"the next open of its file {in_words(seen.next_open)}"


def _of_backups(seen: Seen, chosen: argparse.Namespace) -> Iterator[Judgement]:
    if not seen.backups:
        return
    last, failed = seen.backups
    if last and last.copied > seen.now:
        yield _ahead("the last backup", last.copied - seen.now)
    elif last:
        hours = (seen.now - last.copied) // HOUR
        yield state_of(hours, chosen.age), f"the last backup is {write_count(hours, 'hour')} old"
    else:
        yield CRITICAL, "there is no backup"
    if failed:
        yield CRITICAL, f"after the last backup {write_count(failed, 'drill')} failed (.db.bad)"


def _of_second(seen: Seen, chosen: argparse.Namespace) -> Iterator[Judgement]:
    if not seen.second:
        return
    copied, promoted_on, refused = seen.second
    if refused and not promoted_on:
        yield CRITICAL, refused
    if promoted_on:
        yield CRITICAL, f"the second copy was promoted on {promoted_on}, so there is none any more"
    elif copied is None:
        yield CRITICAL, "there is no second copy"
    elif copied > seen.now:
        yield _ahead("the second copy", copied - seen.now)
    else:
        seconds = seen.now - copied
        yield state_of(seconds, chosen.copied), f"the second copy is {write_count(seconds, 'second')} old"


def _ahead(name: str, seconds: int) -> Judgement:
    """The text about a copy whose moment hasn't come yet: nobody would see that no later one is made."""
    return (
        WARNING,
        f"{name} is dated {write_count(seconds, 'second')} ahead, so its age isn't known: one clock is wrong",
    )


def _of_generations(seen: Seen, chosen: argparse.Namespace) -> Iterator[Judgement]:
    """The last generation that passed its drill, and why the one after it didn't."""
    if not (last := seen.last_drill):
        return
    if last.failed:
        yield CRITICAL, f"a generation of the second copy failed its drill: {last.failed}"
    if last.damaged:
        yield CRITICAL, f"the repository of the generations is damaged: {last.damaged}"
    if last.fault:
        yield WARNING, f"the last run of cpi-tools keep failed: {last.fault}"
    if last.tried:
        days = (seen.now - last.checked) // DAY
        text = f"was last found whole {write_count(days, 'day')} ago" if last.checked else "was never found whole"
        yield state_of(days, chosen.checked), f"the repository of the generations {text}"
    if not last.generation:
        yield CRITICAL, "no generation of the second copy has passed its drill"
    elif last.copied > seen.now:
        yield _ahead("the last generation", last.copied - seen.now)
    else:
        hours = (seen.now - last.copied) // HOUR
        text = f"the last generation that passed its drill is {write_count(hours, 'hour')} old"
        yield state_of(hours, chosen.drilled), text


def _of_writes(seen: Seen, chosen: argparse.Namespace) -> Iterator[Judgement]:
    if seen.writes:
        yield serve_log.judge_writes(seen.writes, seen.now, chosen.refused)
    if seen.left is not None:
        yield state_of_rest(seen.left, chosen.left), f"no more than {seen.left:,} connections are left of its limit"


def _of_machine(seen: Seen, chosen: argparse.Namespace) -> Iterator[Judgement]:
    if seen.certificate:
        days, line = (seen.certificate.ends - seen.now) // DAY, time_text(seen.certificate.ends)
        if days < 0:
            yield CRITICAL, f"the certificate {seen.certificate.place} ended {line}"
        else:
            text = f"the certificate {seen.certificate.place} ends {line}, in {write_count(days, 'day')}"
            yield state_of_rest(days, chosen.days), text
    if seen.clock and not seen.clock.is_synchronized:
        yield WARNING, "this machine's clock isn't synchronized"


def _of_unseen(seen: Seen, _: argparse.Namespace) -> Iterator[Judgement]:
    yield from ((UNKNOWN, text) for text in seen.unseen)


# ---- telling


def nagios_line(seen: Seen, found: Judged) -> str:
    """The one line for Nagios: the state, what it is for, and the figures after a bar."""
    text = "; ".join(found.texts) or "; ".join(_good_words(seen))
    figures = " ".join(f"{name}={value}" for name, value, _ in figures_of(seen, "ms"))
    return f"CPI {STATES[found.state]}: {text}" + (f" | {figures}" if figures else "")


def _good_words(seen: Seen) -> Iterator[str]:
    """The text if all is well; unchecked parts may not be."""
    latest = _latest(seen.answer)
    yield f"last table {month_text(latest.month)} revision {latest.revision}" if latest else "no table yet"
    if seen.backups and seen.backups.last:
        yield f"backup of {time_text(seen.backups.last.copied)}"
    if seen.last_drill and seen.last_drill.generation:
        yield f"drilled generation of {time_text(seen.last_drill.copied)}"
    if seen.unnamed:
        yield f"not checked: {', '.join(seen.unnamed)}"


def _latest(answer: Optional[Answer]) -> Optional[Table]:
    """The table that was published last; None if there is none."""
    if not answer or not answer.tables:
        return None
    return max(answer.tables, key=lambda each: (each.publishes, each.month, each.revision))


Figure = tuple[str, str, str]
"""A name, a value, and a help."""


def figures_of(seen: Seen, unit: str) -> Iterator[Figure]:
    """The figures; the time of the answer in milliseconds (`ms`), or in seconds."""
    if seen.answer:
        value = seen.answer.milliseconds
        text = f"{value}ms" if unit == "ms" else f"{value // 1000}.{value % 1000:03}"
        yield "answer_seconds" if unit != "ms" else "answer", text, "How long the list of tables took."
        yield "tables", str(len(seen.answer.tables)), "Published tables, each revision counted."
        if latest := _latest(seen.answer):
            yield "latest_month", str(latest.month), "Month of the table that was published last, year * 100 + month."
            yield "latest_published_seconds", str(latest.publishes), "When it was published, seconds since 1970."
    if seen.late is not None:
        yield "late_tables", str(len(seen.late)), "Months of the calendar whose table should be published, and isn't."
    yield from _figures_of_files(seen)
    yield from _figures_of_the_rest(seen)


def _figures_of_files(seen: Seen) -> Iterator[Figure]:
    if seen.files:
        yield "file_bytes", str(seen.files.file), "Size of the office's file."
        yield "log_bytes", str(seen.files.log), "Size of its log."
        yield "free_bytes", str(seen.files.free), "Room that is left on its file system."
    if seen.next_open:
        rows, allowed = seen.next_open.rows, seen.next_open.allowed
        yield "open_memory_bytes", str(rows.memory), "Memory that the next open of its file takes, some."
        yield "open_memory_limit_bytes", str(allowed.memory), "Memory that it may take."
        yield "open_seconds", str(rows.seconds), "Time that the next open takes, some."
    if seen.backups and (last := seen.backups.last):
        yield "backup_copied_seconds", str(last.copied), "When the last backup was copied, seconds since 1970."
        yield "backup_age_seconds", str(seen.now - last.copied), "Age of the last backup, below 0 if a clock is wrong."
        yield "backup_bytes", str(last.size), "Size of the last backup."
    if seen.second and seen.second.copied is not None:
        yield "second_copied_seconds", str(seen.second.copied), "When the second copy was made, seconds since 1970."
        yield "second_age_seconds", str(
            seen.now - seen.second.copied
        ), "Age of the second copy, below 0 if a clock is wrong."
        yield "second_refused", str(int(bool(seen.second.refused))), "Whether the office isn't carried to it any more."
    yield from _figures_of_generations(seen.last_drill, seen.now)
    if seen.backups:
        yield "failed_drills", str(seen.backups.failed_drills), "Drills that failed after the last backup."


def _figures_of_generations(last: Optional[LastDrill], now: int) -> Iterator[Figure]:
    if last and last.generation:
        yield "drilled_copied_seconds", str(last.copied), "When the copy of the last drilled generation was made."
        yield "drilled_age_seconds", str(
            now - last.copied
        ), "Age of the last drilled generation, below 0 if a clock is wrong."
    if last:
        yield "drill_failed", str(int(bool(last.failed))), "Whether a later generation failed its drill."
        yield "repository_damaged", str(int(bool(last.damaged))), "Whether a check found older generations damaged."
    if last and last.checked:
        yield "repository_checked_seconds", str(
            last.checked
        ), "When all generations were last found whole, seconds since 1970."


def _figures_of_the_rest(seen: Seen) -> Iterator[Figure]:
    if seen.writes:
        yield "writes_succeed", str(
            int(seen.writes.has_succeeded)
        ), "Whether no request failed since the last write succeeded."
        if seen.writes.failure:
            moment = str(int(seen.writes.failure.moment))
            yield "failure_timestamp_seconds", moment, "When the disk or memory last failed, seconds since 1970."
    if seen.left is not None:
        yield "connections_left", str(seen.left), "Connections that were left of the limit when cpi said so last."
    if seen.certificate:
        left = str(max(0, seen.certificate.ends - seen.now))
        yield "certificate_end_timestamp_seconds", str(seen.certificate.ends), "When it ends, seconds since 1970."
        yield "certificate_left_seconds", left, "Time until the front's certificate ends."
    if seen.clock:
        error = f"{seen.clock.error // 1_000_000}.{seen.clock.error % 1_000_000:06}"
        yield "clock_synchronized", str(
            int(seen.clock.is_synchronized)
        ), "Whether this machine's clock is synchronized."
        yield "clock_error_seconds", error, "How far this machine's clock may be off, as the kernel says."


def prometheus_text(seen: Seen, found: Judged) -> str:
    """The figures as Prometheus reads them: all are gauges, and `cpi_up` is 1 if the office answered."""
    figures = [
        ("up", str(int(seen.answer is not None)), "Whether the office answered."),
        ("state", str(found.state), "0 well, 1 warning, 2 critical, 3 unknown, by the levels of the probe."),
        *figures_of(seen, "seconds"),
    ]
    lines = [
        f"# HELP cpi_{name} {text}\n# TYPE cpi_{name} gauge\ncpi_{name} {value}\n" for name, value, text in figures
    ]
    return "".join(lines)

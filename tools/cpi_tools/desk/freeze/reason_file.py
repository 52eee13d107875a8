"""Why a month is revised: the website's file of reasons, and the reasons that wait for the freeze."""

from __future__ import annotations

import codecs
import configparser
import csv
import hashlib
import io
import json
import os
import threading
import time
from collections.abc import Mapping, Sequence
from datetime import datetime, timezone
from pathlib import Path
from typing import NamedTuple, Optional

from ...publish.figures.announcements import ADDED, MOST_LETTERS, TRANSLATED, read_reasons
from ...publish.figures.config import read_config
from ...publish.forms.sdmx import KNOWN_IDS
from ...text.clocks import CIVIL, Clock
from ...text.languages import SOURCE
from ...text.message import message as _, whole
from ...text.others import Worded, of_others
from ...text.terminal import Fault, because_of, month_text
from ...text.text_files import Writer, write_whole
from ..records.desk_log import SAID, DeskLog
from ..serve.faults import not_as_written, says
from .freezes import sum_of
from .publication import Publisher, Site


# ==== the file of reasons of the website's configuration, to which the desk adds why a month is revised
#
# People edit the file by hand too: a row is added to its content at that moment, the file is replaced in one step, and
# only the columns that the row needs change.

REASON = "reason"
NO_SITE = _(
    "The desk can't save the reason: the application was started without the website's options (--site and"
    " --site-config). Write the reason in the file that the website's configuration names in its setting 'revisions'."
)
CHANGED = _("Somebody is changing the file of reasons at the moment.")

TRIES = 3
"""The number of tries to add a row while somebody else writes the file."""


class ReasonFile(NamedTuple):
    """The file at `path` with its `content`, the languages of the website (the first is the language of the column
    `reason`), and the office's clock."""

    path: Path
    content: bytes
    tags: tuple[str, ...]
    clock: Clock

    @property
    def sum(self) -> str:
        """A sum of the file's content."""
        return hashlib.sha256(self.content).hexdigest()

    def has(self, month: str, revision: int) -> bool:
        """Whether the file contains a reason for a revision of a month like `2026-01`. Raises Fault."""
        return any(reason[:2] == (month, revision) for reason in read_reasons(self.path, self.clock))


def reason_file(site: Site) -> ReasonFile:
    """The file that the configuration of the website names. Raises Fault, also if it names none."""
    config = read_config(site.config, KNOWN_IDS)
    parser = configparser.ConfigParser(interpolation=None)
    try:
        parser.read_string(site.config.read_text(encoding="utf-8"))
        name = " ".join(parser.get("office", "revisions", fallback="").split())
        if not name:
            raise Fault(
                _(
                    "The desk can't save the reason: {config} names no file of reasons. Add the line {line} there,"
                    " and create the file with the row {head}.",
                    config=of_others(str(site.config)),
                    line=of_others("revisions = revisions.csv"),
                    head=of_others("month,revision,reason,added"),
                )
            )
        path = (site.config.parent / name).resolve()
        return ReasonFile(path, path.read_bytes(), config.speaks.languages or (SOURCE,), config.clock)
    except (OSError, configparser.Error, UnicodeDecodeError) as fault:
        raise Fault(because_of(fault) if isinstance(fault, OSError) else str(fault)) from fault


def writable_file(site: Site) -> ReasonFile:
    """The file that the website's configuration names, if the application can replace it. Raises Fault."""
    file = reason_file(site)
    if not os.access(file.path.parent, os.W_OK | os.X_OK):
        places = {"folder": of_others(str(file.path.parent)), "file": of_others(file.path.name)}
        raise Fault(
            _(
                "The desk can't save the reason: the application has no permission to write in {folder}. Write the"
                " reason into {file} by hand, or give the application's user that permission.",
                **places,
            )
        )
    return file


class Row(NamedTuple):
    """A reason to add: month like `2026-01`, revision, the text in each language by its tag, and the time at which it
    becomes public, in seconds since 1970 UTC."""

    month: str
    revision: int
    texts: Mapping[str, str]
    moment: int


def with_row(file: ReasonFile, row: Row) -> bytes:
    """The file's content with a further row: its other rows don't change, unless the row needs another column."""
    text = file.content.decode("utf-8-sig")
    rows = [*csv.reader(io.StringIO(text, newline=""), strict=True)]
    head, cells = [*rows[0]], _cells(file, row)
    more = [name for name in cells if name not in head]
    if more:
        text = _write_rows([[*head, *more], *([*each, *[""] * len(more)] for each in rows[1:] if any(each))])
    elif not text.endswith("\n"):
        text += "\n"
    mark = codecs.BOM_UTF8 if file.content.startswith(codecs.BOM_UTF8) else b""
    return mark + (text + _write_rows([[cells.get(name, "") for name in [*head, *more]]])).encode()


def main_language(texts: Mapping[str, str], first: str) -> str:
    """The tag of the text that the column `reason` has: that of the website's first language, if the reason has it. (The
    website may have got other languages since the reason was kept.)"""
    return first if first in texts else next(iter(texts))


def _cells(file: ReasonFile, row: Row) -> dict[str, str]:
    """The cells of a row by their columns."""
    main = main_language(row.texts, file.tags[0])
    translated = {f"{TRANSLATED}{tag}": text for tag, text in row.texts.items() if tag != main}
    said = {REASON: row.texts[main], ADDED: civil_or_seconds(row.moment, file.clock)}
    return {"month": row.month, "revision": str(row.revision), **said, **translated}


def _write_rows(rows: Sequence[Sequence[str]]) -> str:
    text = io.StringIO()
    Writer(text).writerows(rows)
    return text.getvalue()


def civil_or_seconds(moment: int, clock: Clock) -> str:
    """A moment as such a file has it: the civil time of the clock, or seconds if the clock doesn't show it exactly."""
    civil = datetime.fromtimestamp(moment, clock.zone or timezone.utc).strftime(CIVIL)
    return civil if clock.moment(civil) == moment else str(moment)


def try_room(file: ReasonFile, row: Row) -> None:
    """Writes the future file next to its place, and removes it: there is room, and a right to write. Raises Fault."""
    beside = file.path.with_name(f".{file.path.name}-tried")
    try:
        write_whole(beside, with_row(file, row), 0o600)
        beside.unlink()
    except OSError as fault:
        raise Fault(because_of(fault)) from fault


def add(site: Site, row: Row) -> None:
    """Adds a row, unless the file contains a reason for that revision. Raises Fault."""
    for _try in range(TRIES):
        file = reason_file(site)
        if file.has(row.month, row.revision):
            return
        content = with_row(file, row)
        try:
            if file.path.read_bytes() == file.content:
                write_whole(file.path, content, file.path.stat().st_mode & 0o777)
                return
        except OSError as fault:
            raise Fault(because_of(fault)) from fault
    raise Fault(CHANGED)


# ==== why a month is revised, in the desk's words: the reason waits in a file of the application until the revision is
# frozen, and is then added to the website's file of reasons
#
# A reason that couldn't be written there, because that file can't be read or the disk is full, stays here and is tried
# again.

NOTHING = Worded("")
EMPTY = _("Give the reason for the revision.")


class Reason(NamedTuple):
    """Why a month like 202601 gets a further revision: the text in each language by its tag, who wrote it last, and
    when, in seconds since 1970 UTC. `publishes` is the release time of the revision once it is frozen, and 0 until
    then."""

    month: int
    revision: int
    texts: dict[str, str]
    by: str
    at: int
    publishes: int = 0

    @property
    def sum(self) -> str:
        """A sum of what a page shows of it."""
        return sum_of([self.month, self.revision, sorted(self.texts.items()), self.by, self.at])


def in_one_line(texts: Mapping[str, str], first: str) -> dict[str, str]:
    """Texts by their languages, each in one line, without those that are empty. Raises Fault if the text of the first
    language is empty, or one is too long."""
    line = {tag: " ".join(text.split()) for tag, text in texts.items() if text.strip()}
    if first not in line:
        raise Fault(EMPTY)
    for text in line.values():
        if len(text) > MOST_LETTERS:
            places = {"count": whole(len(text)), "most": whole(MOST_LETTERS)}
            raise Fault(_("A reason can have at most {most} characters, and one has {count}.", **places))
    return line


class RevisionReasons:
    """The file, and the text written from it."""

    def __init__(self, path: Path, log: DeskLog):
        self._path, self._log, self._lock = path, log, threading.Lock()

    def all(self) -> list[Reason]:
        """All that wait. Raises Fault if the file can't be read."""
        try:
            return [Reason(**each) for each in json.loads(self._path.read_text(encoding="utf-8"))]
        except FileNotFoundError:
            return []
        except OSError as fault:
            raise Fault(because_of(fault)) from fault
        except (ValueError, TypeError) as fault:
            raise Fault(not_as_written(self._path, fault)) from fault

    def of(self, month: int, revision: int) -> Optional[Reason]:
        """The reason of a revision, if it waits here."""
        return next((it for it in self.all() if (it.month, it.revision) == (month, revision)), None)

    def keep(self, reason: Reason, was: str) -> Optional[Reason]:
        """Keeps a reason in the place of the one whose sum the page showed (nothing: none); the other one, and nothing is
        done, if it isn't that any more. Raises Fault."""
        with self._lock:
            now = self.of(reason.month, reason.revision)
            if (now.sum if now else "") != was:
                return now or reason._replace(by="", at=0)
            texts = "; ".join(f"{tag}: {text}" for tag, text in reason.texts.items())
            self._log.append(reason.by, SAID, text=f"why {name_revision(reason)}: {texts}")
            self._write([*(it for it in self.all() if it != now), reason])
        return None

    def go_out(self, month: int, revision: int, publishes: int, texts: Mapping[str, str], by: str) -> None:
        """A revision with a reason was frozen: from now on it waits to be added to the website's file. Raises Fault."""
        with self._lock:
            rest = [it for it in self.all() if (it.month, it.revision) != (month, revision)]
            self._write([*rest, Reason(month, revision, dict(texts), by, int(time.time()), publishes)])

    def settle(self, publisher: Optional[Publisher]) -> list[tuple[Reason, Worded]]:
        """Writes the frozen reasons into the website's file; each that couldn't be written, with its fault. Raises
        Fault if the own file can't be read."""
        with self._lock:
            left = list[tuple[Reason, Worded]]()
            for each in [it for it in self.all() if it.publishes]:
                try:
                    if publisher:
                        add(publisher.site, row_of(each, publisher))
                        self._log.append(each.by, SAID, text=f"written into the file of reasons: {name_revision(each)}")
                        self._write([it for it in self.all() if it != each])
                        continue
                    left.append((each, NOTHING))
                except Fault as fault:
                    left.append((each, says(fault)))
            return left

    def _write(self, reasons: list[Reason]) -> None:
        try:
            write_whole(self._path, json.dumps([reason._asdict() for reason in reasons]).encode(), 0o600)
        except OSError as fault:
            raise Fault(because_of(fault)) from fault


def row_of(reason: Reason, publisher: Publisher) -> Row:
    """The row of a reason: it becomes public with its revision, or now if the website already contains that revision.
    Raises Fault."""
    month = month_text(reason.month)
    is_late = (month, reason.revision) in publisher.read_published()
    return Row(month, reason.revision, reason.texts, int(time.time()) if is_late else reason.publishes)


def name_revision(reason: Reason) -> str:
    """A revision in a line of the log."""
    return f"{month_text(reason.month)}, revision {reason.revision}"

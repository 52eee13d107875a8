"""What a pack takes over from the one before: files that would be the same again, and reasons of revisions."""

from __future__ import annotations

import contextlib
import csv
import hashlib
import json
from collections.abc import Collection, Iterable, Mapping
from pathlib import Path
from typing import Any, NamedTuple, Optional

from ...office.tables import iso
from ...text.text_files import Writer, is_formula, link_or_copy
from ..figures.announcements import ADDED, TRANSLATED, BadReasons, GivenReason, Reasons, in_order
from .manifest import SUMS, TableId, sum_of


# ==== the reasons of revisions as a file of the pack, which says what was published: none of them is changed or taken
# back, in no language; a reason may be given in another language later

REASONS = "revision-reasons.csv"
"""The file in the folder `data`."""

HEAD = ("month", "revision", "added", "reason")
"""Its columns; those of the reasons in other languages, such as `reason-fr`, follow."""


def write_reasons(reasons: Reasons, folder: Path) -> None:
    """Writes the file into the folder `data` if there are any."""
    if reasons:
        found = [*in_order(reasons)]
        tags = sorted({tag for it in found for tag in it.texts})
        with (folder / REASONS).open("w", encoding="utf-8", newline="") as file:
            rows = Writer(file)
            rows.writerow((*HEAD, *(TRANSLATED + tag for tag in tags)))
            for it in found:
                texts = (it.texts.get(tag, "") for tag in tags)
                rows.writerow((it.table.month, it.table.revision, iso(it.moment), it.text, *texts))


def _plain(text: str) -> str:
    """A text without the apostrophe that `--safe-csv` writes before a formula."""
    return text[1:] if text.startswith("'") and is_formula(text[1:]) else text


class StoredReason(NamedTuple):
    """A reason that was published: when it was added, its text, and the same in other languages by their tags."""

    added: str
    text: str
    texts: Mapping[str, str]

    def still_in(self, other: Optional[StoredReason]) -> bool:
        """Whether another one says the same, in each language that this one has."""
        if other is None or self[:2] != other[:2]:
            return False
        return all(other.texts.get(tag) == text for tag, text in self.texts.items())


def _stored_reason(given_reason: GivenReason) -> StoredReason:
    return StoredReason(
        iso(given_reason.moment),
        _plain(given_reason.text),
        {tag: _plain(text) for tag, text in given_reason.texts.items()},
    )


def read_told(pack: Path) -> dict[TableId, list[StoredReason]]:
    """The reasons that a pack has, by month and revision. Raises BadReasons if its file can't be read."""
    path = pack / "data" / REASONS
    stored_reasons: dict[TableId, list[StoredReason]] = {}
    if not path.is_file():
        return stored_reasons
    try:
        with path.open(encoding="utf-8", newline="") as file:
            for row in csv.DictReader(file, strict=True):
                of = row["month"], int(row["revision"])
                texts = {
                    name.removeprefix(TRANSLATED): _plain(text)
                    for name, text in row.items()
                    if name.startswith(TRANSLATED) and text
                }
                stored_reasons.setdefault(of, []).append(StoredReason(row["added"], _plain(row["reason"]), texts))
    except (OSError, KeyError, ValueError, csv.Error, AttributeError) as fault:
        raise BadReasons(f"{path} is no file that cpi-tools publish wrote: {' '.join(str(fault).split())}") from fault
    return stored_reasons


def added_reasons(pack: Path, tables: Mapping[TableId, object], reasons: Reasons) -> set[TableId]:
    """The releases, and definitions of special aggregates, that have a reason more than in a pack, whose tables are
    named, or have one in a further language. Raises BadReasons if one of its reasons differs or is missing now, or
    if a further one of its tables doesn't say when it was added."""
    earlier, added = read_told(pack), set[TableId]()
    for of in {**dict.fromkeys(tables), **dict.fromkeys(earlier)}:
        then, given = earlier.get(of, []), reasons.get(of, [])
        now = [*map(_stored_reason, given)]
        month, revision = of
        for stored_reason, other in zip(then, [*now, *[None] * len(then)]):
            if not stored_reason.still_in(other):
                raise BadReasons(
                    f"the reason of {month}, revision {revision}, was published as {_find_gone(stored_reason, other)[:60]!a}, and is"
                    f" another one now: put it back, and add a row that has the time in the column {ADDED}"
                )
        if any(not it.is_later for it in given[len(then) :]):
            raise BadReasons(
                f"{month}, revision {revision}, was published without its reason: the row needs in the column {ADDED}"
                " when it was given"
            )
        if now != then:
            added.add(of)
    return added


def _find_gone(then: StoredReason, now: Optional[StoredReason]) -> str:
    """The published text that is missing now."""
    if now is None or then[:2] != now[:2]:
        return then.text
    return next(text for tag, text in then.texts.items() if now.texts.get(tag) != text)


# ==== the pack that is replaced, from which files are taken that would be made again byte for byte
#
# A file is taken by a second link to it, so no byte of it is written and it needs no room; if the file system has no
# links it is copied. Nothing here, and nothing else in this tool, writes into an existing file: a file that is made is
# a new one, so the pack before stays whole until its folder is removed.
#
# The lines of the files of `data` that the next pack takes from the one before: those of months, and of years, that are
# made of the same, to which it adds its own.


class Before:
    """A pack that was written before, or none. A file that differs from its line in SHA256SUMS isn't taken."""

    def __init__(self, folder: Optional[Path] = None):
        self._folder = folder
        self.taken: dict[str, str] = {}
        """The files that were taken, by their names in the pack, and their sums."""
        self._sums = _sums_of(folder / SUMS) if folder else {}
        self.made = self._read_made()
        """The sums of the sources of each year's archive, and of the months in the files of `data`."""

    def take(self, name: str, to: Path) -> bool:
        """Takes a file by its name in the pack if it has the sum with which it was written; returns whether it did."""
        path, wanted = self._path(name), self._sums.get(name)
        with contextlib.suppress(OSError):
            if path and wanted and sum_of(path) == wanted:
                self._link(path, to, name, wanted)
                return True
        return False

    def read(self, name: str) -> Optional[bytes]:
        """The bytes of a file by its name in the pack if it has the sum with which it was written, otherwise None."""
        path, wanted = self._path(name), self._sums.get(name)
        with contextlib.suppress(OSError):
            data = path.read_bytes() if path and wanted else None
            if data is not None and hashlib.sha256(data).hexdigest() == wanted:
                return data
        return None

    def whole(self, name: str) -> Optional[Path]:
        """The path of a file by its name in the pack if it has the sum with which it was written, otherwise None."""
        path, wanted = self._path(name), self._sums.get(name)
        with contextlib.suppress(OSError):
            return path if path and wanted and sum_of(path) == wanted else None
        return None

    @property
    def names(self) -> Collection[str]:
        """The names of the files with which the pack was written."""
        return self._sums.keys()

    def has(self, name: str, its_sum: Optional[str]) -> bool:
        """Whether the pack was written with a file of this name and this sum."""
        return its_sum is not None and self._sums.get(name) == its_sum

    def take_same(self, name: str, to: Path, content: bytes, sum_of_content: str) -> bool:
        """Takes a file if it has these bytes; whether it did."""
        path = self._path(name)
        with contextlib.suppress(OSError):
            if path and path.stat().st_size == len(content) and path.read_bytes() == content:
                self._link(path, to, name, sum_of_content)
                return True
        return False

    def _path(self, name: str) -> Optional[Path]:
        """The path of a file in the pack; a symbolic link isn't one."""
        path = self._folder / name if self._folder else None
        return path if path and path.is_file() and not path.is_symlink() else None

    def _link(self, path: Path, to: Path, name: str, its_sum: str) -> None:
        link_or_copy(path, to)
        self.taken[name] = its_sum

    def _read_made(self) -> dict[str, Any]:
        """The contents of the pack's file; empty if the file isn't whole."""
        path = self._path("data/years/made.json")
        with contextlib.suppress(OSError, ValueError):
            if path and sum_of(path) == self._sums.get("data/years/made.json"):
                found = json.loads(path.read_bytes())
                return found if isinstance(found, dict) else {}
        return {}


def _sums_of(path: Path) -> dict[str, str]:
    """The sums of a pack by the names of its files; none if they can't be read."""
    with contextlib.suppress(OSError, ValueError):
        lines = path.read_text(encoding="utf-8").splitlines()
        return {name: its_sum for its_sum, _, name in (line.partition("  ") for line in lines)}
    return {}


class KeptLines:
    """The lines of the pack before up to a month; none if that is empty."""

    def __init__(self, before: Before, to: str = ""):
        self._before, self._to = before, to

    def read(self, name: str) -> Optional[str]:
        """A file of the folder `data` with its head; None if it isn't as its sum says, or nothing is kept."""
        data = self._before.read(f"data/{name}") if self._to else None
        return None if data is None else data.decode()

    def later(self, months: Iterable[str]) -> list[str]:
        """The months whose lines aren't kept."""
        return [month for month in months if month > self._to]

    def by_code(self, name: str, titles: Iterable[str]) -> dict[str, str]:
        """By the code with which they begin, the lines of such a file, whose titles are these; none if one of them has an end
        of line in it."""
        codes = dict[str, list[str]]()
        text = None if any("\n" in title for title in titles) else self.read(name)
        for line in (text or "").split("\n")[1:-1]:
            codes.setdefault(line.partition(",")[0], []).append(f"{line}\n")
        return {code: "".join(lines) for code, lines in codes.items()}


NOTHING_KEPT = KeptLines(Before())

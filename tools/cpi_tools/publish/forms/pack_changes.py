"""The changes of each pack from the one before, for a registry that contains that one: observations to replace and to
delete.

A pack that goes on from another one has `data/changes/2027-03-r1.sdmx.csv.zip` and `..sdmx.xml.zip`, which are named by
its newest release: SDMX-CSV with the actions `R` and `D`, and SDMX-ML with a data set for each. Observations are
compared as they were published, in the files of `data` and in the archives of earlier years. So the observations of the
pack before with these changes are those of the pack, whatever made the difference: a table, another definition, or
another status.

A file of changes stays for ever, and each later pack takes it over; the manifest names each with its sum. In a pack of
seven thousand items one has some 60,000 observations: it is an archive, so that those of thirty years need 400 MB and
not 4,000.
"""

from __future__ import annotations

import re
import shutil
import tempfile
import zipfile
from collections.abc import Collection, Iterable, Iterator, Mapping, Sequence
from pathlib import Path
from typing import BinaryIO, NamedTuple, Optional

from ...office.tables import Series, Table
from ...text.others import attributes_of
from ...text.terminal import Fault
from ...text.text_files import link_or_copy
from ..figures.config import Config
from ..figures.announcements import name_of
from .artefacts import Structure
from .manifest import Change, Manifest, sum_of
from .pack_before import Before
from .sdmx import (
    DATA_END,
    DIMENSIONS,
    ENDS,
    OBS_ATTRIBUTES,
    SERIES_ATTRIBUTES,
    TIME,
    VALUE,
    attribute,
    data_head,
    data_set,
)
from .years import YEARS, put

FOLDER = "changes"
"""The folder in `data` that contains the changes."""

OBSERVATIONS = f"cpi.{ENDS['sdmx-csv']}"
START = 3
"""Cells of a row before its dimensions: the structure, its id, and the action."""

IN_KEY = START + len(DIMENSIONS)

ARCHIVE = re.compile(rf"data/{YEARS}/[0-9]{{4}}\.zip")
"""The archive of a year, by its name in a pack."""


class LostChanges(Fault):
    """Published changes that no longer exist; one line."""


# ---- what is kept


class Earlier(NamedTuple):
    """The changes of the packs before, each file of them with its place; and the pack to which the new one is compared, with
    its manifest, if there is one."""

    rows: Sequence[Change] = ()
    places: Mapping[str, Path] = {}
    pack: Optional[Path] = None
    manifest: Optional[Manifest] = None


def earlier_changes(pack: Path, manifest: Manifest, is_whole: bool = True) -> Earlier:
    """The changes of a pack; for a manifest that is kept without its pack, the changes whose files are next to it.
    Raises LostChanges."""
    rows, places = list[Change](), dict[str, Path]()
    for row in manifest.changes:
        lost = next((name for name, its_sum in row.files.items() if not _has(pack / name, its_sum)), None)
        if lost is None:
            rows.append(row)
            places.update({name: pack / name for name in row.files})
        elif is_whole:
            raise LostChanges(
                f"{pack / lost} isn't there as it was published: put the file of a copy of the pack into its place"
            )
    return Earlier(rows, places, pack, manifest)


def _has(path: Path, its_sum: str) -> bool:
    return path.is_file() and not path.is_symlink() and sum_of(path) == its_sum


def join_changes(last: Earlier, standing: Earlier) -> Earlier:
    """The changes between two packs: the new one follows the first."""
    names = {row.name for row in last.rows}
    more = [row for row in standing.rows if row.name not in names]
    return last._replace(rows=[*more, *last.rows], places={**standing.places, **last.places})


# ---- what is new


class Made(NamedTuple):
    """The files from which the changes of a pack are made."""

    series: Series
    structure: Structure
    config: Config
    now: Optional[Before]
    taken: Mapping[str, str]


def write_changes(earlier: Earlier, made: Made, folder: Path) -> tuple[list[Change], dict[str, str]]:
    """Writes the files of all changes into the folder of a pack that contains its observations: the changes of
    earlier packs, and the changes from the pack before. Returns all changes, and the sums of their files."""
    rows, sums = [*earlier.rows], dict[str, str]()
    if earlier.places:
        (folder / "data" / FOLDER).mkdir()
    for row in rows:
        for name, its_sum in row.files.items():
            link_or_copy(earlier.places[name], folder / name)
            sums[name] = its_sum
    new = _new_change(earlier, made, folder) if made.now and earlier.manifest else None
    if new:
        rows.append(new)
        sums.update(new.files)
    return rows, sums


def _new_change(earlier: Earlier, made: Made, folder: Path) -> Optional[Change]:
    """The changes of the pack from the one before; None if there are none, and no table is new."""
    before, manifest = made.now, earlier.manifest
    assert before and manifest and earlier.pack
    new = [vintage for vintage in made.series.vintages if (vintage.month, vintage.revision) not in manifest.tables]
    name = _name(new or made.series.vintages, {row.name for row in earlier.rows})
    releases = tuple(name_of(vintage.month, vintage.revision) for vintage in new)
    with tempfile.TemporaryDirectory(prefix=".", dir=folder / "data") as room:
        if not made.config.has("sdmx-csv"):
            return None
        pair = _Pair(before, folder, made.taken, Path(room))
        if not pair.is_comparable:
            return Change(name, releases, manifest.sha256, None, None, {})
        path = Path(room) / f"{name}.{ENDS['sdmx-csv']}"
        replaced, deleted = pair.write(path, made.structure)
        if not replaced and not deleted:
            return Change(name, releases, manifest.sha256, 0, 0, {}) if releases else None
        paths = [path]
        if made.config.has("sdmx-ml"):
            paths.append(path.with_name(f"{name}.{ENDS['sdmx-ml']}"))
            _write_xml(path, paths[-1], made, name)
        files = dict(_archive_file(each, folder) for each in paths)
    return Change(name, releases, manifest.sha256, replaced, deleted, files)


def _name(tables: Iterable[Table], used: Collection[str]) -> str:
    """The name of a pack's changes: the name of the newest release, and a number if that release has changes
    already."""
    newest = max(tables, key=lambda table: (table.moment, table.month, table.revision))
    name = name_of(newest.month, newest.revision)
    names = (name, *(f"{name}-{number}" for number in range(2, len(used) + 2)))
    return next(each for each in names if each not in used)


def _archive_file(path: Path, folder: Path) -> tuple[str, str]:
    """Puts a file into an archive of its own; the name of that in the pack, and its sum."""
    name = f"data/{FOLDER}/{path.name}.zip"
    (folder / name).parent.mkdir(exist_ok=True)
    with zipfile.ZipFile(folder / name, "w") as archive:
        put(archive, path, path.name)
    return name, sum_of(folder / name)


# ---- comparing


class _Pair:
    """The observations of two packs, without archives that have the same bytes in both."""

    def __init__(self, before: Before, folder: Path, taken: Mapping[str, str], room: Path):
        """`taken` are the sums of files that weren't made again; they may be of a third pack."""
        self._room = room
        archives = {f"data/{YEARS}/{path.name}" for path in (folder / "data" / YEARS).glob("*.zip")}
        same = {name for name in archives if before.has(name, taken.get(name))}
        now = (_member(folder / name, room / f"new-{_year(name)}.csv") for name in sorted(archives - same))
        self._new = [folder / "data" / OBSERVATIONS, *now]
        whole = before.whole(f"data/{OBSERVATIONS}")
        # (a year that is in the files of `data` now may have been in an archive)
        then = sorted({name for name in before.names if ARCHIVE.fullmatch(name)} - same)
        paths = [path for name in then if (path := before.whole(name))]
        is_whole = whole and len(paths) == len(then)
        self._old = (
            [whole, *(_member(path, room / f"old-{path.stem}.csv") for path in paths)] if whole and is_whole else []
        )
        self._same = {_year(name) for name in same}

    @property
    def is_comparable(self) -> bool:
        """Whether the files exist, with the same columns."""
        return bool(self._old) and len({_head(path) for path in (*self._old, *self._new)}) == 1

    def write(self, to: Path, structure: Structure) -> tuple[int, int]:
        """Writes the observations that changed, and then those that are gone; returns the numbers of both."""
        flow = structure.flow
        start = f"dataflow,{flow.agency}:{flow.id}({flow.version}),".encode()
        counts = [0, 0]
        with to.open("wb") as file, tempfile.TemporaryFile(dir=self._room) as gone:
            file.write(_head(self._new[0]))
            for key, replaced, deleted in self._compare():
                file.writelines(b"%sR,%s,%s\n" % (start, key, line) for line in replaced)
                gone.writelines(b"%sD,%s,%s\n" % (start, key, line) for line in deleted)
                counts[0] += len(replaced)
                counts[1] += len(deleted)
            gone.seek(0)
            shutil.copyfileobj(gone, file, 1 << 20)
        return counts[0], counts[1]

    def _compare(self) -> Iterator[tuple[bytes, list[bytes], list[bytes]]]:
        """By series, the rests of the lines that changed, and the rests of lines that are gone."""
        old = _Index(self._old)
        try:
            columns = _head(self._new[0]).count(b",") - IN_KEY
            new = _Index(self._new)
            try:
                for key in dict.fromkeys((*new.keys, *old.keys)):
                    now, then = new.text(key), old.text(key)
                    # (most series have lines of later periods only)
                    if now != then and now.startswith(then):
                        yield key, now[len(then) :].splitlines(), []
                    elif now != then:
                        yield (key, *self._differing(_lines(now), _lines(then), columns))
            finally:
                new.close()
        finally:
            old.close()

    def _differing(
        self, now: Mapping[bytes, bytes], then: Mapping[bytes, bytes], columns: int
    ) -> tuple[list[bytes], list[bytes]]:
        """The rests of the lines of a series that changed, and of those that are gone, with empty cells."""
        replaced = [it for at, it in now.items() if then.get(at) != it]
        gone = (at for at in then if at not in now and at[:4].decode() not in self._same)
        return replaced, [at + b"," * columns for at in gone]


def _year(archive: str) -> str:
    """The year of an archive, by its name in a pack."""
    return Path(archive).stem


def _member(archive: Path, to: Path) -> Path:
    """The observations of the archive of a year as a file; without any, an archive had no SDMX-CSV then."""
    with zipfile.ZipFile(archive) as zip_file, to.open("wb") as file:
        name = f"{archive.stem}/{OBSERVATIONS}"
        if name in zip_file.namelist():
            with zip_file.open(name) as member:
                shutil.copyfileobj(member, file, 1 << 20)
    return to


def _head(path: Path) -> bytes:
    """The names of a file's columns."""
    with path.open("rb") as file:
        return file.readline()


def _lines(text: bytes) -> dict[bytes, bytes]:
    """The rests of the lines of a series by their periods."""
    return {line.partition(b",")[0]: line for line in text.splitlines()}


class _Index:
    """The places of the series in some files, whose texts are read only when they are needed: a national office has
    hundreds of megabytes of them."""

    def __init__(self, paths: Iterable[Path]):
        self._files: list[BinaryIO] = [path.open("rb") for path in paths]
        self.keys: dict[bytes, list[tuple[int, int, int, bytes]]] = {}
        for number, file in enumerate(self._files):
            for key, at, size, start in _series_of(file):
                self.keys.setdefault(key, []).append((number, at, size, start))

    def text(self, key: bytes) -> bytes:
        """The lines of a series in all files, each from its period on; nothing if there are none."""
        text = []
        for number, at, size, start in self.keys.get(key, ()):
            self._files[number].seek(at)
            text.append(self._files[number].read(size).replace(start, b""))
        return b"".join(text)

    def close(self) -> None:
        """Closes the files."""
        for file in self._files:
            file.close()


def _series_of(file: BinaryIO) -> Iterator[tuple[bytes, int, int, bytes]]:
    """The series of a file of SDMX-CSV: its key, where its lines begin and how long they are, and how each begins."""
    at = begun = len(file.readline())
    start = key = b""
    for line in file:
        if not start or not line.startswith(start):
            if start:
                yield key, begun, at - begun, start
            cells = line.split(b",", IN_KEY)[:IN_KEY]
            start, key, begun = b",".join(cells) + b",", b",".join(cells[START:]), at
        at += len(line)
    if start:
        yield key, begun, at - begun, start


# ---- SDMX-ML


def _write_xml(changes: Path, to: Path, made: Made, name: str) -> None:
    """Writes the changes of a file of SDMX-CSV as SDMX-ML: a data set of what is replaced, and one of what is deleted."""
    dimensions, attributes = [made.config.id(each) for each in DIMENSIONS], _Attributes(made.config)
    last, actions = "", {"R": "Replace", "D": "Delete"}
    with changes.open(encoding="utf-8") as rows, to.open("w", encoding="utf-8", newline="") as file:
        next(rows)
        action = ""
        for row in rows:
            cells = row.rstrip("\n").split(",", IN_KEY + 2)
            if cells[2] != action:
                begins = data_set(made.structure, actions[cells[2]])
                ends = data_head(made.structure, made.series, made.config, name, actions[cells[2]])
                file.write(f"</Series>\n</message:DataSet>\n{begins}" if action else ends)
                action, last = cells[2], ""
            (*_, at, value, rest), key = cells, cells[START:IN_KEY]
            of_series, of_observation = attributes[rest]
            head = f"<Series{''.join(map(attribute, dimensions, key))}{of_series}>\n"
            if head != last:
                file.write(f"</Series>\n{head}" if last else head)
                last = head
            file.write(f"<Obs{attributes_of({TIME: at, VALUE: value})}{of_observation}/>\n")
        file.write(f"</Series>\n{DATA_END}")


class _Attributes(dict[str, tuple[str, str]]):
    """The attributes of a series and of an observation in XML, by the end of a row, which is that of many rows."""

    def __init__(self, config: Config):
        super().__init__()
        self._names = [config.id(each) for each in (*SERIES_ATTRIBUTES, *OBS_ATTRIBUTES)]

    def __missing__(self, rest: str) -> tuple[str, str]:
        named, count = [*zip(self._names, rest.split(","))], len(SERIES_ATTRIBUTES)
        attributes = self[rest] = attributes_of(dict(named[:count])), attributes_of(dict(named[count:]))
        return attributes

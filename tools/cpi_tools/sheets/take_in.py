"""Turns an office's spreadsheets into records of `cpi`: reads them, lets the program judge them, and writes them.

The program says which records it would refuse, over an office in memory or over a private copy of another one. No
office is written: files of records are made, and the desk sends them. `maps/take_in_words` contains the tool.
"""

from __future__ import annotations

import contextlib
import itertools
import shlex
from collections.abc import Callable, Iterable, Iterator, Mapping, Sequence
from pathlib import Path
from typing import NamedTuple, Optional, TypeVar

from ..office.copying import private_copy
from ..office.folders import new_room, private_file, write_rows
from ..office.program import Cpi
from ..office.stored import stored_office
from ..text.report_language import ENGLISH, Teller
from ..text.terminal import Progress
from .converted import convert
from .judge import Judge, Judged, moments_of
from .known_rows import NOTHING, Known, known_of
from .sheet_numbers import decimal
from .office_files import OfficeFiles, Options, Taken
from .record_rows import MOST_RECORDS, SHEETS, KeptLines
from .sheet_files import Sheets, Source, files_of
from .taken_page import page


Part = TypeVar("Part")

Opener = Callable[[Mapping[Path, Path], Known], Sheets]
"""Opens the sheets of an office, given the workbooks that files of other kinds became, and the rows of the office to
which the sheets are added."""


class TakenIn(NamedTuple):
    """The contents of the files, and the program's verdict on them."""

    taken: Taken
    judged: Judged


@contextlib.contextmanager
def taken_in(
    cpi: Cpi,
    folder: Path,
    options: Options,
    zone: str,
    onto: Optional[Path] = None,
    own: Sequence[Path] = (),
    progress: Optional[Progress] = None,
    opener: Optional[Opener] = None,
    keeps: bool = False,
) -> Iterator[TakenIn]:
    """Reads the files of a folder or a workbook, and lets the program judge them.

    `onto` is the file of an office to which they are to be added: it is copied, and not a byte of it changes. `own` are
    folders that this tool writes, and doesn't read; `opener` opens sheets of other forms. The records
    taken in are kept as long as the context is, and if it `keeps` them, their lines too, so that they are quick to
    write. Raises Fault if the folder can't be read, no right copy can be made, or the program fails.
    """
    now = progress.now if progress else lambda _: None
    now(f"reading {folder}")
    with contextlib.ExitStack() as stack:
        copy = stack.enter_context(private_copy(onto)) if onto else None
        with convert(files_of(folder)) as workbooks, known_from(cpi, copy, onto) as known:
            opened = opener or (lambda books, _: Source(folder, SHEETS, options.ignored, own, books))
            with contextlib.closing(opened(workbooks, known)) as source:
                files = OfficeFiles(source, options, known, lambda texts: moments_of(cpi, texts, zone), onto is None)
                taken = files.in_order()
        stack.callback(taken.store.close)
        if keeps:
            taken.bundles.kept = stack.enter_context(contextlib.closing(KeptLines()))
        now("cpi judges what was read")
        yield TakenIn(taken, Judge(cpi, zone, options.is_confirmed, known.items).judge(taken, copy))


@contextlib.contextmanager
def known_from(cpi: Cpi, copy: Optional[Path], onto: Optional[Path]) -> Iterator[Known]:
    """The rows in the copy of an office, once the program has opened it, so that its schema is the one that is read
    here."""
    if copy is None or onto is None:
        yield NOTHING
        return
    cpi.open(copy, onto)
    with stored_office(copy) as stored:
        yield known_of(stored)


# ---- what is written


def write_check(out: Path, name: str, onto: Optional[Path], result: TakenIn, teller: Teller = ENGLISH) -> None:
    """Writes `problems.csv` and `report.html`, and `weights.csv` if weights were scaled. The page is in the language of a
    teller, the files are in English."""
    out.mkdir(mode=0o700, parents=True, exist_ok=True)
    problems = (
        ("problem", *problem.origin, problem.number, problem.because, problem.do) for problem in result.judged.problems
    )
    doubts = (("doubt", *cell.origin, "", cell.because, cell.do) for cell in result.taken.doubts.cells)
    warnings = (("warning", *warning.origin, "", warning.because, warning.do) for warning in result.taken.warnings)
    heads = ("kind", "file", "row", "column", "number", "because", "do")
    write_rows(out / "problems.csv", heads, itertools.chain(problems, doubts, warnings))
    (out / "weights.csv").unlink(missing_ok=True)
    if result.taken.weighed:
        weights = (
            (it.year, it.code, it.given, decimal(it.share).replace(",", ""), it.weight, decimal(it.weight - it.share))
            for it in result.taken.weighed
        )
        write_rows(out / "weights.csv", ("year", "code", "given", "share", "weight", "change"), weights)
    with private_file(out / "report.html") as file:
        file.write(page(name, onto, result.taken, result.judged, teller))


def write_records(out: Path, taken: Taken, most: int = MOST_RECORDS) -> list[Path]:
    """Writes a new folder of records, `most` a file, completely or not at all; returns the files, none if there is
    nothing to send.

    A drawn key is only in the records, and in `keys.csv` next to them.
    """
    out.parent.mkdir(parents=True, exist_ok=True)
    with new_room(".cpi-take-in-", out.parent) as room:
        made = room / "records"
        made.mkdir(mode=0o700)
        names = []
        for number, part in enumerate(part_bundles(taken.bundles.lines(), most), 1):
            names.append(f"records-{number:02}.csv")
            with private_file(made / names[-1]) as file:
                file.writelines(f"{line}\n" for line in part)
        if taken.drawn:
            write_rows(made / "keys.csv", ("collector", "key"), taken.drawn.items())
        made.rename(out)
    return [out / name for name in names]


def part_bundles(bundles: Iterable[Part], most: int) -> Iterator[Iterator[Part]]:
    """What is sent in parts of at most so many, each to be read before the next one."""
    left = iter(bundles)
    for first in left:
        yield itertools.chain([first], itertools.islice(left, most - 1))


def command(files: Sequence[Path], zone: str, onto: Optional[Path]) -> str:
    """The commands that send the records to an office."""
    db = shlex.quote(str(onto or "office.db"))
    clock = "" if zone == "UTC0" else f" --zone {shlex.quote(zone)}"
    return "\n".join(f"cpi replay{clock} --db {db} < {shlex.quote(str(file))}" for file in files)

"""Spreadsheets of other kinds, which LibreOffice converts to workbooks if it is installed."""

from __future__ import annotations

import contextlib
import shutil
import subprocess
from collections.abc import Iterator, Sequence
from pathlib import Path

from ..office.folders import new_room
from ..text.terminal import Fault, because_of
from .cells import label_of

KINDS = (".ods", ".xls", ".xlsb")
"""Files that LibreOffice reads, and openpyxl doesn't."""

PROGRAM = "soffice"

MOST_SECONDS = 300
"""Seconds that LibreOffice may take for all files."""

ADVICE = "save it as .xlsx or CSV, or install libreoffice-calc-nogui"
"""What to do with such a file if LibreOffice isn't installed."""


@contextlib.contextmanager
def convert(files: Sequence[Path]) -> Iterator[dict[Path, Path]]:
    """The workbook that each file becomes, in its own folder, which is deleted at the end; none without LibreOffice.

    Raises Fault if LibreOffice makes no workbook from a file, or takes too long.
    """
    wanted = [file for file in files if file.suffix.lower() in KINDS and file.is_file()]
    if not wanted or not shutil.which(PROGRAM):
        yield {}
        return
    with new_room("cpi-tools-") as room:
        yield _workbooks_of(wanted, room)


def _workbooks_of(files: Sequence[Path], room: Path) -> dict[Path, Path]:
    """Runs LibreOffice with a profile of its own, in which no macro runs, over copies with plain names."""
    words = [PROGRAM, f"-env:UserInstallation={(room / 'profile').as_uri()}", "--headless", "--norestore"]
    words += ["--convert-to", "xlsx:Calc MS Excel 2007 XML", "--outdir", str(room)]
    try:
        copies = [shutil.copyfile(file, room / f"{at}{file.suffix.lower()}") for at, file in enumerate(files)]
        ran = subprocess.run([*words, *map(str, copies)], capture_output=True, timeout=MOST_SECONDS, check=False)
    except OSError as fault:
        raise Fault(because_of(fault)) from fault
    except subprocess.TimeoutExpired as fault:
        names = ", ".join(map(label_of, files))
        raise Fault(f"{names}: LibreOffice took longer than {MOST_SECONDS} seconds; {ADVICE}") from fault
    made = {file: room / f"{at}.xlsx" for at, file in enumerate(files)}
    for file, book in made.items():
        if not book.is_file():
            lines = ran.stderr.decode(errors="replace").strip().splitlines()
            text = f": {lines[-1]}" if lines else ""
            raise Fault(f"{label_of(file)} can't be read: LibreOffice made no workbook of it{text}")
    return made

"""The bounds of `cpi-tools take-in`: what it refuses to unpack, and memory that doesn't grow with the prices."""

from __future__ import annotations

import csv
import struct
import subprocess
import sys
import tempfile
from collections.abc import Callable
from pathlib import Path
from zipfile import ZIP_DEFLATED, ZipFile

import pytest

from cpi_tools.sheets.cells import MOST_TOLD
from cpi_tools.sheets.record_rows import SHEETS
from cpi_tools.sheets.price_store import PriceStore
from cpi_tools.office.program import Cpi
from cpi_tools.sheets.sheet_files import Source
from cpi_tools.text.terminal import Fault
from cpi_tools.sheets.workbooks import MOST_CELLS, MOST_HELD, MOST_SHEET_ROWS, MOST_TEXT, MOST_UNPACKED
from lib.places import ROOT
from .habits import base, book, unpacks_to_much
from .ran import rows_of, run
from .spreadsheets import sheets, written
from .test_sheets import SHEET, changed

RUN = """\
import sys
from pathlib import Path
sys.path[:0] = [{tools!r}]
from cpi_tools.command_line import main
status = main(sys.argv[1:])
(most,) = [line.split()[1] for line in Path("/proc/self/status").read_text().splitlines() if line.startswith("VmHWM")]
print(status, most, file=sys.stderr)
"""
"""Runs cpi-tools, and prints its status and the most memory that it took, in kilobytes. (`ru_maxrss` would count the
memory of the tests, from whose process this one is made.)"""


def measured(cpi: Cpi, folder: Path, *words: str) -> tuple[int, int]:
    """The exit status of a check in a process of its own, and its memory in megabytes."""
    code = RUN.format(tools=str(ROOT / "tools"))
    given = ["take-in", str(folder), "--check", "--program", str(cpi.path), *words]
    ran = subprocess.run([sys.executable, "-B", "-c", code, *given], capture_output=True, text=True, check=True)
    status, kilobytes = ran.stderr.splitlines()[-1].split()
    return int(status), int(kilobytes) // 1024


def fault_of(path: Path) -> str:
    """The line that a workbook is refused by."""
    with pytest.raises(Fault) as told:
        stream = Source(path, SHEETS).stream("prices")
        assert stream
        for _ in stream.rows:
            pass
    return str(told.value)


# ---- workbooks


def test_a_workbook_that_unpacks_to_too_much_takes_no_memory(cpi: Cpi, tmp_path: Path) -> None:
    folder = base(tmp_path / "office")
    unpacks_to_much(folder)
    assert (folder / "prices.xlsx").stat().st_size < 2_000_000 and MOST_UNPACKED < 300_000_000
    status, megabytes = measured(cpi, folder)
    assert status == 1 and megabytes < 100
    assert f"{MOST_UNPACKED:,} are the most" in fault_of(folder / "prices.xlsx")
    assert f"{MOST_UNPACKED:,} bytes" in (ROOT / "docs/decide/MIGRATING-AN-OFFICE.md").read_text(encoding="utf-8")


def test_a_workbook_that_lies_about_its_size_takes_no_memory_either(cpi: Cpi, tmp_path: Path) -> None:
    folder = base(tmp_path / "office")
    unpacks_to_much(folder)
    path = folder / "prices.xlsx"
    data = bytearray(path.read_bytes())
    entry = data.rfind(b"PK\x01\x02")
    assert data[entry + 46 :].startswith(b"xl/sharedStrings2.xml")
    struct.pack_into("<L", data, entry + 24, 1000)
    path.write_bytes(data)
    status, megabytes = measured(cpi, folder)
    assert status == 1 and megabytes < 100
    assert fault_of(path).startswith("prices.xlsx can't be read as a workbook: Bad CRC-32")


ROWS = b"</sheetData>"


@pytest.mark.parametrize(
    ("change", "told"),
    [
        (
            lambda data: data.replace(b"<v>0.84</v>", b"<v>" + b"1" * (MOST_TEXT + 1) + b"</v>"),
            f"prices.xlsx has a text of more than {MOST_TEXT:,} characters, which are the most",
        ),
        (
            lambda data: data.replace(ROWS, b"<row/>" * (MOST_SHEET_ROWS - 3) + ROWS),
            f"prices.xlsx has more rows than {MOST_SHEET_ROWS:,}, which are the most",
        ),
        (
            lambda data: data.replace(ROWS, b'<row r="2000000"/>' + ROWS),
            f"prices.xlsx has more rows than {MOST_SHEET_ROWS:,}, which are the most",
        ),
        (
            lambda data: data.replace(ROWS, b'<row r="9">' + b"<c/>" * (MOST_CELLS + 1) + b"</row>" + ROWS),
            f"prices.xlsx has a row of more than {MOST_CELLS:,} cells, which are the most",
        ),
        (
            lambda data: b'<!DOCTYPE x [<!ENTITY a "x"><!ENTITY b "&a;&a;">]>' + data,
            "prices.xlsx can't be read as a workbook: a part of it declares a document type",
        ),
    ],
)
def test_a_sheet_that_no_spreadsheet_program_writes(
    tmp_path: Path, change: Callable[[bytes], bytes], told: str
) -> None:
    folder = base(tmp_path / "office")
    book(lambda _: None)(folder)
    path = changed(folder / "prices.xlsx", SHEET, change)
    assert fault_of(path) == told


def test_more_styles_than_a_spreadsheet_program_writes(tmp_path: Path) -> None:
    """openpyxl would hold 1.5 KB of each."""
    folder = base(tmp_path / "office")
    book(lambda _: None)(folder)
    many = b"<xf/>" * (MOST_HELD + 1) + b"</cellXfs>"
    path = changed(folder / "prices.xlsx", "xl/styles.xml", lambda data: data.replace(b"</cellXfs>", many))
    assert fault_of(path) == f"prices.xlsx has more styles and names than {MOST_HELD:,}, which are the most"


def test_a_part_that_is_no_sheet_may_be_of_any_kind(tmp_path: Path) -> None:
    """Drawings of older programs aren't XML of the kind that a parser takes."""
    folder = base(tmp_path / "office")
    book(lambda _: None)(folder)
    with ZipFile(folder / "prices.xlsx", "a", ZIP_DEFLATED) as parts:
        parts.writestr("xl/drawings/vmlDrawing1.vml", "<xml><br></xml>")
        parts.writestr("xl/media/image1.png", b"\x89PNG")
    sheet = Source(folder / "prices.xlsx", SHEETS).sheet("prices")
    assert sheet and len([*sheet.rows]) == 3


# ---- memory


def national(folder: Path, series: int, months: int) -> Path:
    """An office of some series over some months, each price in a row of its own."""
    of = sheets()
    del of["releases"], of["handovers"]
    names = [f"{2014 + at // 12}-{at % 12 + 1:02}" for at in range(months)]
    outlets = [*range(1, series // 2 + 1)]
    of["outlets"] = [["outlet", "name"], *([str(outlet), f"Shop {outlet}"] for outlet in outlets)]
    of["collectors"] = [
        ["collector", "key"],
        *([str(number), f"{number:032x}"] for number in range(1, series // 400 + 2)),
    ]
    slots = [(str(at // 400 + 1), str(at % 400 + 1)) for at in range(series)]
    kinds = zip(slots, [(str(outlet), item) for outlet in outlets for item in ("RICE", "FLOUR")])
    of["series"] = [["collector", "slot", "outlet", "item", "first", "last"],
                    *([*slot, *kind, names[0], "2199-12"] for slot, kind in kinds)]  # fmt: skip
    windows = [[name, str(at * 1000), str(at * 1000 + 900), str(at * 1000 + 900)] for at, name in enumerate(names)]
    of["calendar"] = [["month", "opens", "closes", "publishes"], *windows]
    del of["prices"]
    written(folder, of)
    with open(folder / "prices.csv", "w", encoding="utf-8", newline="") as file:
        out = csv.writer(file)
        out.writerow(["month", "collector", "slot", "value"])
        out.writerows([name, *slot, 100_000 + at % 50] for at, name in enumerate(names) for slot in slots)
    return folder


def test_memory_does_not_grow_with_the_prices(cpi: Cpi, tmp_path: Path) -> None:
    """72,000 prices, all of which would take more than 100 megabytes if they were held at once."""
    small, few = measured(cpi, national(tmp_path / "few", 20, 12))
    large, many = measured(cpi, national(tmp_path / "many", 600, 120))
    assert (small, large) == (0, 0)
    assert many - few < 30


def test_problems_are_told_up_to_a_number_and_counted(cpi: Cpi, tmp_path: Path) -> None:
    """None of 12,000 prices is whole in minor units."""
    folder = national(tmp_path / "office", 100, 120)
    heads, *rows = (folder / "prices.csv").read_text(encoding="utf-8").splitlines()
    (folder / "prices.csv").write_text("\n".join([heads, *(f"{row}.5" for row in rows)]), encoding="utf-8")
    ran = run(cpi, "take-in", folder, "--check")
    told = rows_of(folder / "check/problems.csv")
    assert ran.status == 1 and len(told) == MOST_TOLD + 1
    assert told[-1]["because"] == "2,000 more problems of this kind from here on"


def test_a_disk_without_room_for_the_prices_is_one_line(
    cpi: Cpi, tmp_path: Path, monkeypatch: pytest.MonkeyPatch
) -> None:
    """As SQLite tells it, when its file grows no more."""
    before = PriceStore.__init__

    def small(self: PriceStore) -> None:
        before(self)
        self._link.execute("PRAGMA max_page_count = 12")

    monkeypatch.setattr(PriceStore, "__init__", small)
    ran = run(cpi, "take-in", national(tmp_path / "office", 40, 60), "--check")
    told = f"cpi-tools take-in: the prices can't be stored in {tempfile.gettempdir()}: database or disk is full\n"
    assert ran == (1, "", told)

"""The report of take-in in other languages: nothing of it is left in English, and files and lines stay as they are."""

from __future__ import annotations

import html
import itertools
import re
from collections.abc import Mapping
from pathlib import Path

import openpyxl
import pytest
from openpyxl.styles import Font

from cpi_tools.office.program import Cpi
from cpi_tools.text.report_language import VARIABLE
from .nobodys import left_in_english, nobodys_in, seen
from .ran import Ran, run
from .spreadsheets import Change, add, drop, put, sheets, written


def refused(to: Path) -> Path:
    """Spreadsheets with faults of many kinds: of files, of sheets, of cells and of plans."""
    of = sheets()
    changes: tuple[Change, ...] = (
        put("prices", 4, "value", "12.345"),
        put("prices", 5, "value", "2100"),
        put("prices", 6, "value", "84.5"),
        put("prices", 8, "value", "snow"),
        put("prices", 9, "slot", "9"),
        put("classification", 7, "weight", "599999"),
        put("plans", 2, "reference", "1/2/25"),
        put("calendar", 4, "opens", "soon"),
        put("series", 2, "first", "2025-13"),
        put("series", 3, "slot", "1"),
        put("collectors", 3, "key", "secret"),
        put("outlets", 1, "name", "Name of the shop"),
        put("releases", 3, "revision", "first"),
        add("items", "RICE", "Rice, long", "1 kg", "500", "2000"),
        add("items", "item", "text", "unit", "low", "high"),
        add("outlets", "12", "Shop", "at the corner"),
        add("calendar", "2026-02", "2000", "4000", "6000"),
        add("prices", "2026-01", "7", "1", "price", "211", ""),
        add("prices", "first of all", "7", "1", "price", "211", ""),
    )
    for change in changes:
        change(of)
    of["other"] = [["x"]]
    folder = written(to, of)
    (folder / "more").mkdir()
    (folder / "notes.doc").write_text("no sheet")
    (folder / "places.csv").write_bytes(b"year,item,code\n2026,\xff,01.1.1.1-01\n")
    return folder


def plans(to: Path) -> Path:
    """Spreadsheets whose plan is refused as a whole, and whose months are."""
    of = sheets()
    for change in (drop("classification", 4), put("prices", 1, "confirm", "remark")):
        change(of)
    return written(to, of)


def taken(to: Path) -> Path:
    """Spreadsheets that are taken, with warnings and months in other spellings; weights are in percent."""
    of = sheets()
    changes = (
        put("classification", 7, "weight", "59.9"),
        put("classification", 9, "weight", "40"),
        put("handovers", 2, "month", "Feb 2026"),
        put("prices", 5, "value", "2100"),
        put("prices", 6, "value", "85"),
        add("calendar", "2026-02", "2000", "4000", "5000"),
        add("prices", "2026-01", "7", "2", "price", "85", ""),
    )
    for change in changes:
        change(of)
    del of["outlets"]
    folder = written(to, of)
    book = openpyxl.Workbook()
    for row in (["outlet", "name", "code"], [10, "Corner shop"], [11, "Market hall"], [None, "Total"]):
        book.active.append(row)
    book.active.delete_rows(4)
    book.active.row_dimensions[2].hidden = True
    book.active.column_dimensions["B"].hidden = True
    book.active["B3"].font = Font(strike=True)
    book.active.merge_cells("B3:C3")
    book.save(folder / "outlets.xlsx")
    return folder


WORDS: Mapping[str, tuple[str, ...]] = {
    "refused": (),
    "plans": (),
    "taken": ("--weights", "percent", "--confirm-history"),
}
FOLDERS = {"refused": refused, "plans": plans, "taken": taken}


def report(cpi: Cpi, name: str, folder: Path, out: Path, *words: str) -> Ran:
    """The check of a folder, whose page is in `out`."""
    return run(cpi, "take-in", folder, "--check", "--out", out, *WORDS[name], *words)


STACKED = re.compile('<table class="stacked">(.*?)</table>', re.S)
"""The table of problems, and that of warnings."""


def all_of_others(page: str) -> list[str]:
    """The cells that say why, or what to do, and are one text of others: a message that no catalogue has."""
    rows = [row for table in STACKED.findall(page) for row in re.findall("<tr><td.*?</tr>", table, re.S)]
    cells = [cell for row in rows for cell in re.findall("<td[^>]*>(.*?)</td>", row, re.S)[1:]]
    return [cell for cell in cells if is_one(cell)]


def is_one(cell: str) -> bool:
    """Whether one element is around all of a cell."""
    if not (cell.startswith("<bdi>") and cell.endswith("</bdi>")):
        return False
    tags = re.findall("</?bdi>", cell)[:-1]
    return min(itertools.accumulate(-1 if tag == "</bdi>" else 1 for tag in tags)) > 0


@pytest.mark.parametrize(("name", "status", "least"), [("refused", 1, 120), ("plans", 1, 40), ("taken", 0, 80)])
def test_no_word_of_the_report_is_left_in_english(
    cpi: Cpi, tmp_path: Path, monkeypatch: pytest.MonkeyPatch, name: str, status: int, least: int
) -> None:
    code = nobodys_in(tmp_path, monkeypatch)
    ran = report(cpi, name, FOLDERS[name](tmp_path / "office"), tmp_path / "out", "--language", code)
    assert ran.status == status
    page = seen(tmp_path / "out/report.html")
    assert len(page.texts) > least
    assert left_in_english(page) == []
    assert all_of_others((tmp_path / "out/report.html").read_text(encoding="utf-8")) == []


def test_a_message_that_no_catalogue_has_is_found() -> None:
    page = '<table class="stacked"><tr><td><bdi>a.csv</bdi></td><td>{}</td></tr></table>'
    assert all_of_others(page.format("<bdi>no price: <bdi>x</bdi> here</bdi>")) != []
    assert all_of_others(page.format("<bdi>items</bdi> appears twice: <bdi>b.csv</bdi>")) == []


def test_the_line_of_a_program_is_marked_in_a_sentence(cpi: Cpi, tmp_path: Path) -> None:
    """Python's own words for a quotation mark that isn't closed."""
    folder = written(tmp_path / "office", sheets())
    (folder / "outlets.csv").write_text('outlet,name\n10,"A\n', encoding="utf-8")
    assert report(cpi, "refused", folder, tmp_path / "out", "--language", "fr").status == 1
    page = (tmp_path / "out/report.html").read_text(encoding="utf-8")
    line = '<bdi lang="en" dir="ltr"><code>unexpected end of data</code></bdi>'
    assert re.search(f"la ligne n’est pas du CSV\\s?: {re.escape(line)}", page) and "vérifiez ses guillemets" in page


@pytest.mark.parametrize("language", ["ar", "es", "fr"])
def test_files_and_lines_stay_in_english(cpi: Cpi, tmp_path: Path, language: str) -> None:
    """To the byte; and the page has as many rows as the English one."""
    for name, make in FOLDERS.items():
        folder = make(tmp_path / name)
        english = report(cpi, name, folder, tmp_path / "en")
        other = report(cpi, name, folder, tmp_path / "xx", "--language", language)
        assert (english.status, english.out) == (other.status, other.out)
        assert english.err.replace("/en/", "/") == other.err.replace("/xx/", "/")
        for file in (tmp_path / "en").glob("*.csv"):
            assert file.read_bytes() == (tmp_path / "xx" / file.name).read_bytes(), file.name
        pages = [(tmp_path / text / "report.html").read_text(encoding="utf-8") for text in ("en", "xx")]
        assert pages[0].count("<tr>") == pages[1].count("<tr>") > 3
        assert f'<html lang="{language}"' in pages[1] and ('dir="rtl"' in pages[1]) == (language == "ar")


def text_of(page: Path) -> str:
    """The text of a page."""
    body = re.sub("<style>.*?</style>", "", page.read_text(encoding="utf-8"), flags=re.S)
    return html.unescape(re.sub("<[^>]*>", "", re.sub("</t[dh]>", "|", body)))


def test_problems_are_said_in_the_office_s_language(cpi: Cpi, tmp_path: Path, monkeypatch: pytest.MonkeyPatch) -> None:
    """By hand, in French: a price that has waited in the store, a refusal of the office, and a sum of a plan."""
    of = sheets()
    for change in (put("prices", 6, "value", "84.5"), put("classification", 7, "weight", "599999")):
        change(of)
    folder = written(tmp_path / "office", of)
    monkeypatch.setenv(VARIABLE, "fr")
    assert run(cpi, "take-in", folder, "--check").status == 1
    told = text_of(folder / "check/report.html").replace("\u00a0", " ").replace("\u202f", " ")
    assert (
        "prices.csv, ligne 6, value|10|84.5 n’est pas entier en petites unités (--minor)|écrivez un prix de 1 " in told
    )
    assert "classification.csv, ligne 9, weight|44 faute 4|le plan de 2026 : " in told
    assert "est 999 999.|Corrigez les pondérations.|" in told and "problèmes ; rien n’est " in told
    assert run(cpi, "take-in", folder, "--check", "--language", "en").status == 1
    assert "prices.csv, row 6, value|10|84.5 isn't a whole number of minor units (--minor)|write a price" in text_of(
        folder / "check/report.html"
    )


def test_figures_have_the_digits_of_the_office(cpi: Cpi, tmp_path: Path) -> None:
    """The level of all items, worked out in test_take_in.py."""
    folder = written(tmp_path / "office", sheets())
    assert run(cpi, "take-in", folder, "--check", "--language", "ar", "--digits", "arab").status == 0
    assert "١٠٧٫١٨١٨١٨" in text_of(folder / "check/report.html")
    assert run(cpi, "take-in", folder, "--check", "--language", "fr").status == 0
    assert "107,181818" in text_of(folder / "check/report.html")


def test_a_text_of_a_sheet_is_no_markup_in_any_language(cpi: Cpi, tmp_path: Path) -> None:
    of = sheets()
    put("prices", 5, "value", '<script>"&{month}')(of)
    folder = written(tmp_path / "office", of)
    assert run(cpi, "take-in", folder, "--check", "--language", "fr").status == 1
    page = (folder / "check/report.html").read_text(encoding="utf-8")
    assert "<bdi>&lt;script&gt;&quot;&amp;{month}</bdi>" in page and "<script" not in page


def test_a_language_without_a_catalogue_is_one_line(cpi: Cpi, tmp_path: Path, monkeypatch: pytest.MonkeyPatch) -> None:
    monkeypatch.setenv(VARIABLE, "xx")
    ran = run(cpi, "take-in", written(tmp_path / "office", sheets()), "--check")
    assert (ran.status, ran.out, ran.err.count("\n")) == (1, "", 1)
    assert "CPI_LANGUAGE is 'xx', which has no catalogue" in ran.err
    assert not (tmp_path / "office/check").exists()

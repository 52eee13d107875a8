"""Levels on the desk's pages: in the website's reference period, as the website publishes them, and named."""

from __future__ import annotations

import csv
import re
from collections.abc import Iterator
from pathlib import Path

import pytest

from cpi_tools.office import trial
from cpi_tools.command_line import main
from cpi_tools.office.copying import private_copy
from cpi_tools.desk.month.facts import chained_name, levels_now, levels_of, other_tables
from cpi_tools.desk.freeze.freezes import Prepared, table_sum
from cpi_tools.desk.freeze.freeze_steps import receipt_of
from cpi_tools.desk.looks.month_trials import beside
from cpi_tools.office.public import Listed
from cpi_tools.office.program import LAST_MOMENT, Cpi, Session
from cpi_tools.office.stored import read_copy
from cpi_tools.text.terminal import slot_text
from cpi_tools.text.message import message, place_text

from . import surveys
from .desk_apps import ADA, Application, Person, applied

MONTH = "2027-01"
OFFICE = "[office]\nagency = EX\narea = XX\noffice = Office of the example\nreference = {}\n"


@pytest.fixture(scope="module")
def office(cpi: Cpi, tmp_path_factory: pytest.TempPathFactory) -> Path:
    """A year of tables, and one month of the next one."""
    path = tmp_path_factory.mktemp("levels") / "office.db"
    surveys.long(cpi, path, "2027-02")
    return path


@pytest.fixture
def application(cpi: Cpi, office: Path, tmp_path: Path) -> Iterator[Application]:
    file = tmp_path / "office.db"
    file.write_bytes(office.read_bytes())
    with applied(cpi, file, tmp_path / "room") as it:
        it.desk.site_config.path = tmp_path / "office.ini"
        it.desk.site_config.path.write_text(OFFICE.format("2026"), encoding="utf-8")
        yield it


@pytest.fixture
def ada(application: Application) -> Person:
    person = application.person(ADA)
    application.tried(person, MONTH)
    return person


def published(cpi: Cpi, file: Path, folder: Path, reference: str) -> dict[str, tuple[str, str]]:
    """The website's reference period and level of each node in the month, with one decimal."""
    config = folder / "published.ini"
    config.write_text(OFFICE.format(reference), encoding="utf-8")
    words = ["publish", "--program", str(cpi.path), "--db", str(file), "--at", str(LAST_MOMENT), "--draft"]
    assert main([*words, "--config", str(config), "--out", str(folder / "public")]) == 0
    with (folder / "public/data/printed.csv").open(encoding="utf-8", newline="") as rows:
        return {row["code"]: (row["reference"], row["index"]) for row in csv.DictReader(rows) if row["month"] == MONTH}


@pytest.mark.parametrize("reference", ["2026", "2026-06", "2025-12"])
def test_each_level_is_the_one_that_is_published(cpi: Cpi, office: Path, tmp_path: Path, reference: str) -> None:
    others = other_tables(cpi, office, 202701)
    own = next(table for table in all_tables(cpi, office) if table[0] == MONTH)
    levels = levels_of(others, MONTH, own[1], reference)
    site = published(cpi, office, tmp_path, reference)
    assert "00" in site and len(site) > 10
    for code, (period, level) in site.items():
        assert levels.of(code) == (level if period == reference else ""), code
    assert levels.first == "2025-12"


def all_tables(cpi: Cpi, office: Path) -> list[tuple[str, bytes]]:
    """The latest table of each month."""
    return [(table.listed.month, table.table) for table in other_tables(cpi, office, 209912)]


def test_a_period_without_tables_leaves_the_chained_level(cpi: Cpi, office: Path) -> None:
    others = other_tables(cpi, office, 202701)
    table = dict(all_tables(cpi, office))[MONTH]
    for reference in ("", "2019"):
        levels = levels_of(others, MONTH, table, reference)
        assert not levels.has_reference and levels.of("00") == ""
        assert levels.name == "chained level, December 2025 = 100"
    assert chained_name("2025-12", True) == "chained level, December 2025 = 100 or a later December"


def test_each_page_with_levels_names_their_period(application: Application, ada: Person) -> None:
    found = application.desk.trials.latest(202701)
    assert found and found.report.levels
    level = found.report.levels.of("00")
    assert f"All items are at {level} (2026 = 100):" in ada.words(f"/month/{MONTH}/table")
    page = ada.get(f"/month/{MONTH}/table").text
    heads = re.findall("<th [^>]*>([^<]*)", page)
    assert "level, 2026 = 100" in heads and "month before: level, 2026 = 100" in heads
    assert "index, December 2026 = 100" in heads
    assert heads.index("level, 2026 = 100") < heads.index("chained level, December 2025 = 100")
    words = ada.words(f"/month/{MONTH}/explain/00")
    assert f"level, 2026 = 100 {found.report.levels.of('00', digits=6)} chained level, December 2025 = 100" in words
    assert "The level in these sentences is the chained level, December 2025 = 100; it is a level, 2026 = 100" in words


def test_what_if_has_the_levels_of_the_reference_period(application: Application, ada: Person) -> None:
    with private_copy(application.file) as copy, read_copy(copy) as office:
        slot = next(place for place, quote in office.quotes(202701).items() if quote.value)
    answer = ada.sent(f"/month/{MONTH}/what-if", text=f"{slot_text(slot)}=missing\n")
    assert answer.status_code == 200
    heads = re.findall("<th [^>]*>([^<]*)", answer.text)
    assert heads[:2] == ["code", "level, 2026 = 100"] and "what if: level, 2026 = 100" in heads


def test_each_of_two_tables_has_its_own_levels(cpi: Cpi, office: Path) -> None:
    """December is in the reference year, so another table of December moves the level of the year as well."""
    tables = dict(all_tables(cpi, office))
    table, others = tables["2026-12"], other_tables(cpi, office, 202612)
    levels = levels_of(others, "2026-12", table, "2026")
    changed = re.sub(rb"(?m)^(00,[0-9]+,[0-9.]+,)([0-9]+)", lambda it: it[1] + str(int(it[2]) + 1).encode(), table)
    section = beside("since", message("Since"), (changed, table), (place_text, place_text), levels)
    (row,) = section.rows
    assert (
        row[0] == "00"
        and row[4] == levels.of("00", digits=6)
        and row[1] == levels.with_table(changed).of("00", digits=6)
    )
    one, other = (float(str(cell)) for cell in (row[1], row[4]))
    assert 0 < one - other < 1


def test_known_tables_aren_t_printed_again(cpi: Cpi, office: Path, monkeypatch: pytest.MonkeyPatch) -> None:
    table = dict(all_tables(cpi, office))[MONTH]
    known = levels_now(cpi, office, 202701, table, "2026")
    assert known and known.others
    with monkeypatch.context() as patch:
        patch.setattr("cpi_tools.desk.month.facts.other_tables", None)
        again = levels_now(cpi, office, 202701, table, "2026-06", known)
    assert again and again.others == known.others and again.of("00") != known.of("00")
    anew = levels_now(cpi, office, 202701, table, "2026", known._replace(others=known.others[:-1]))
    assert anew and anew.others == known.others


def test_a_trial_prints_the_other_tables_in_the_run_that_freezes(
    application: Application, monkeypatch: pytest.MonkeyPatch
) -> None:
    """No further copy is opened for them, and a table that is at hand isn't printed again, nor for another month."""
    ada, printed = application.person(ADA), list[tuple[str, int]]()
    prints = trial.print_table

    def counted(session: Session, listed: Listed) -> bytes:
        printed.append((listed.month, listed.revision))
        return prints(session, listed)

    monkeypatch.setattr(trial, "print_table", counted)
    monkeypatch.setattr("cpi_tools.desk.month.facts.private_copy", None)
    application.tried(ada, MONTH)
    first = application.desk.trials.latest(202701)
    assert first and first.report.levels and first.report.levels.others
    others = [(it.listed.month, it.listed.revision) for it in first.report.levels.others]
    assert {*printed} == {*others, (MONTH, 1)} and "2026-06" in dict(others)
    # (the month before, a year before and the link month are printed by each trial, next to the month's own)
    printed.clear()
    application.tried(ada, MONTH)
    again = application.desk.trials.latest(202701)
    assert again and again.report.levels and again.report.levels.others == first.report.levels.others
    assert {*printed} == {("2026-12", 1), ("2026-01", 1), (MONTH, 1)}
    printed.clear()
    application.tried(ada, "2026-12")
    assert "2026-06" not in dict(printed)


def test_a_receipt_keeps_the_level_with_its_period(cpi: Cpi, office: Path) -> None:
    table = dict(all_tables(cpi, office))[MONTH]
    levels = levels_of(other_tables(cpi, office, 202701), MONTH, table, "2026")
    prepared = Prepared(ADA, 1, 202701, 1, [], [], table_sum(table), text=table.decode())
    receipt = receipt_of(prepared, table, levels)
    assert receipt.lead and receipt.lead.startswith(f"All items are at {levels.of('00')} (2026 = 100): ")
    heads = [str(column.name) for column in receipt.section.columns]
    assert heads[2:] == ["level, 2026 = 100", "month %", "year %", "chained level, December 2025 = 100"]
    row = receipt.section.rows[0]
    assert row[0] == "00" and row[2] == levels.of("00") and row[5] == levels.write_chained("00")
    plain = receipt_of(prepared, table)
    assert plain.lead and plain.lead.startswith(f"All items are at {levels.write_chained('00')}: ")
    assert [str(column.name) for column in plain.section.columns][2:] == ["level", "month %", "year %"]

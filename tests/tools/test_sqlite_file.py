"""The file of SQLite of a pack, with `with = sqlite`: it has what the CSV files have, and the same bytes each time."""

from __future__ import annotations

import contextlib
import csv
import io
import sqlite3
import zipfile
from pathlib import Path

import pytest

from cpi_tools.office.public import Published
from cpi_tools.publish.figures.config import SQLITE, BadConfig, Config, read_config
from cpi_tools.publish.figures.specials import Special
from cpi_tools.publish.pack import check, publish
from cpi_tools.publish.site.csvw import SQLITE_NAME as NAME, NoSqlite, write_sqlite
from cpi_tools.text.text_files import formulas_told
from lib.pack_sqlite import sqlite_faults

SETS = (Special("FRUIT", "Fruit", ("01.1.6",)), Special("REST", "Without food", ("00",), ("01",)))
WITHOUT = Config("NSO", "XX", "Office of prices", reference="2025", years=1, specials=SETS)
CONFIG = WITHOUT._replace(also=frozenset({SQLITE}))


def quiet(_: str) -> None:
    pass


@pytest.fixture(scope="module")
def pack(published: list[Published], tmp_path_factory: pytest.TempPathFactory) -> Path:
    """A pack whose first two years are in archives."""
    folder = tmp_path_factory.mktemp("sqlite") / "public"
    publish(published, CONFIG, folder, None, quiet)
    return folder


def rows_of_pack(pack: Path) -> dict[str, list[dict[str, str]]]:
    """The rows of all CSV files of the folder `data` but that of SDMX, those of archives first."""
    found: dict[str, list[dict[str, str]]] = {}
    for path in (pack / "data").glob("*.csv"):
        rows = found.setdefault(path.stem, [])
        for year in sorted((pack / "data/years").glob("*.zip")):
            with zipfile.ZipFile(year) as archive:
                if f"{year.stem}/{path.name}" in archive.namelist():
                    text = archive.read(f"{year.stem}/{path.name}").decode()
                    rows += csv.DictReader(io.StringIO(text, newline=""))
        rows += csv.DictReader(io.StringIO(path.read_text(encoding="utf-8"), newline=""))
    del found["cpi.sdmx"]
    return found


def test_the_tables_have_the_rows_of_the_csv_files_of_all_years(pack: Path) -> None:
    wanted = rows_of_pack(pack)
    assert len({row["month"][:4] for row in wanted["cpi"]}) == 3 and len(wanted) > 8
    assert [*sqlite_faults(pack / "data" / NAME, wanted)] == []


def test_a_wrong_or_missing_figure_would_be_found(pack: Path, tmp_path: Path) -> None:
    file, wanted = tmp_path / NAME, rows_of_pack(pack)
    for change in ("UPDATE cpi SET chained = chained + 1e-6 WHERE code = '00' AND month = '2026-05'",
                   "DELETE FROM contributions WHERE month = '2025-03' AND code = '01'",
                   "UPDATE printed SET year_change = 0 WHERE year_change IS NULL AND code = '01' AND month = '2025-02'",
                   "DROP TABLE averages"):  # fmt: skip
        file.write_bytes((pack / "data" / NAME).read_bytes())
        with contextlib.closing(sqlite3.connect(file)) as link, link:
            link.execute(change)
        assert [*sqlite_faults(file, wanted)] != [], change


def asked(pack: Path, question: str) -> list[tuple[object, ...]]:
    with contextlib.closing(sqlite3.connect(f"file:{pack / 'data' / NAME}?mode=ro", uri=True)) as link:
        return link.execute(question).fetchall()


def test_columns_have_types_and_keys(pack: Path) -> None:
    types = {str(row[1]): row[2] for row in asked(pack, "PRAGMA table_info(cpi)")}
    assert types == {
        "month": "TEXT", "revision": "INTEGER", "published": "TEXT", "code": "TEXT", "depth": "INTEGER", "title": "TEXT",
        "weight": "INTEGER", "index_value": "REAL", "chained": "REAL", "month_change": "REAL", "year_change": "REAL",
        "imputed": "INTEGER", "base": "TEXT", "is_break": "INTEGER",
    }  # fmt: skip
    kinds = asked(pack, "SELECT DISTINCT typeof(chained), typeof(weight), typeof(code), typeof(imputed) FROM cpi")
    assert kinds == [("real", "integer", "text", "integer")]
    # (nothing is an empty text: it is NULL)
    assert asked(pack, "SELECT count(*) FROM cpi WHERE year_change = ''") == [(0,)]
    assert asked(pack, "SELECT count(*) FROM cpi WHERE year_change IS NULL AND month < '2025-12'") != [(0,)]
    (plan,) = asked(pack, "EXPLAIN QUERY PLAN SELECT chained FROM cpi WHERE code = '01' AND month >= '2026-01'")
    assert "USING INDEX cpi_key (code=? AND month>?)" in str(plan[-1])
    assert asked(pack, "PRAGMA user_version") == [(1,)]


def test_the_same_tables_give_the_same_bytes(pack: Path, published: list[Published], tmp_path: Path) -> None:
    data = (pack / "data" / NAME).read_bytes()
    assert data[96:100] == bytes(4) and b"SQLite format 3" in data[:16]
    again = tmp_path / "again"
    publish(published[:-3], CONFIG, again, None, quiet)
    publish(published, CONFIG, again, None, quiet)
    assert (again / "data" / NAME).read_bytes() == data
    assert check(published, CONFIG, again, None, quiet) == []


def test_an_apostrophe_for_spreadsheets_is_in_no_text(pack: Path, published: list[Published], tmp_path: Path) -> None:
    """Also those of archives and of lines that are kept of the pack before."""
    safe = tmp_path / "safe"
    for tables in (published[:-3], published):
        with formulas_told("publish", True):
            publish(tables, CONFIG, safe, None, quiet)
    assert ",'=Mobile," in (safe / "data/cpi.csv").read_text(encoding="utf-8")
    assert (safe / "data" / NAME).read_bytes() == (pack / "data" / NAME).read_bytes()
    assert ("=Mobile",) in asked(safe, "SELECT title FROM cpi WHERE month < '2027-01'")


def test_a_changed_file_is_found(pack: Path, published: list[Published], tmp_path: Path) -> None:
    other = tmp_path / "public"
    publish(published, CONFIG, other, None, quiet)
    with contextlib.closing(sqlite3.connect(other / "data" / NAME)) as link, link:
        link.execute("UPDATE cpi SET weight = weight + 1 WHERE code = '01'")
    assert check(published, CONFIG, other, None, quiet) == [f"data/{NAME} differs"]


def test_an_office_that_doesnt_want_it_has_every_other_file_as_it_is(
    pack: Path, published: list[Published], tmp_path: Path
) -> None:
    plain = tmp_path / "public"
    publish(published, WITHOUT, plain, None, quiet)
    names = {str(path.relative_to(plain)) for path in plain.rglob("*") if path.is_file()}
    others = {str(path.relative_to(pack)) for path in pack.rglob("*") if path.is_file()}
    assert others - names == {f"data/{NAME}"} and names <= others
    differing = {name for name in names if (plain / name).read_bytes() != (pack / name).read_bytes()}
    assert differing == {"SHA256SUMS", "data.html"}
    assert NAME in (pack / "SHA256SUMS").read_text() and NAME not in (plain / "SHA256SUMS").read_text()


def test_a_word_that_is_no_form_is_refused(tmp_path: Path) -> None:
    file = tmp_path / "office.ini"
    file.write_text("[office]\nagency = NSO\narea = XX\noffice = Office\nwith = parquet\n")
    with pytest.raises(BadConfig, match="with: parquet is none of sqlite"):
        read_config(file)
    file.write_text("[office]\nagency = NSO\narea = XX\noffice = Office\nwith = sqlite\n")
    assert read_config(file).also == {SQLITE}


def test_a_file_that_cant_be_written_is_a_line(pack: Path, tmp_path: Path) -> None:
    (tmp_path / "cpi.csv").write_bytes((pack / "data/cpi.csv").read_bytes())
    (tmp_path / NAME).mkdir()
    with pytest.raises(NoSqlite, match="can't be written: unable to open database file"):
        write_sqlite(CONFIG, tmp_path)


def test_a_key_that_is_there_twice_is_refused(pack: Path, tmp_path: Path) -> None:
    lines = (pack / "data/cpi.csv").read_text().splitlines(keepends=True)
    (tmp_path / "cpi.csv").write_text("".join([*lines, lines[-1]]))
    with pytest.raises(NoSqlite, match="UNIQUE constraint failed: cpi.code, cpi.month"):
        write_sqlite(CONFIG, tmp_path)

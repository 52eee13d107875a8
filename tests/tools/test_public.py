"""`cpi_tools.office.public`: published tables by the public way only, so that nothing under embargo can leak."""

from __future__ import annotations

import ast
import http.server
import json
import threading
from collections.abc import Iterator
from pathlib import Path
from typing import Optional

import pytest

from cpi_tools.office.public import Listed, NotPublic, Published, from_file, from_url, listed_in
from cpi_tools.office.tables import NotATable, Series, table_of
from cpi_tools.office.program import Cpi
from lib.places import ROOT
from .published import HIDDEN_REVISION, LAST, LONG_AFTER, MONTHS, Office, shown

PACKAGE = ROOT / "tools" / "cpi_tools"


# ---- what is sent


def spying(cpi: Cpi, folder: Path) -> Cpi:
    """The program, with a note of its words and of all that is sent to it."""
    script = folder / "cpi"
    script.write_text(f'#!/bin/sh\necho "$@" >> "{folder}/words"\ntee -a "{folder}/sent" | "{cpi.path}" "$@"\n')
    script.chmod(0o755)
    return Cpi(script)


def test_only_two_records_of_the_public_are_sent_and_no_other_file_is_opened(
    cpi: Cpi, public_office: Office, tmp_path: Path
) -> None:
    found = from_file(spying(cpi, tmp_path), public_office.file, public_office.at)
    wanted = [f"{public_office.at},public,table,{month},csv,{revision}" for month, revision in shown()]
    sent = (tmp_path / "sent").read_text().splitlines()
    assert sent == [f"{public_office.at},public,tables", *wanted]
    (words,) = (tmp_path / "words").read_text().splitlines()
    job, flag, file = words.split(" ")
    assert (job, flag) == ("replay", "--db") and Path(file) != public_office.file and not Path(file).exists()
    assert [it.listed[:2] for it in found] == shown()


def test_the_office_is_not_written(cpi: Cpi, public_office: Office) -> None:
    before = public_office.file.read_bytes(), public_office.file.stat().st_mtime_ns
    from_file(cpi, public_office.file, public_office.at)
    assert (public_office.file.read_bytes(), public_office.file.stat().st_mtime_ns) == before


def imports(path: Path) -> Iterator[str]:
    """The modules that a module imports anywhere in it."""
    for node in ast.walk(ast.parse(path.read_text(encoding="utf-8"))):
        if isinstance(node, ast.Import):
            yield from (each.name for each in node.names)
        elif isinstance(node, ast.ImportFrom):
            named = "." * node.level + (node.module or "")
            yield named
            yield from (f"{named}.{each.name}" for each in node.names)


OF_AN_OFFICE = {"access", "copying", "frozen_quotes", "program", "recompute", "stored", "stored_pages", "trial"}
"""The modules of `office` with which an office can be asked, copied or read."""

OF_AN_OFFICES_COPY = {"average_prices.py", "quality_counts.py", "typeset/release_pdf.py"}
"""Tools of their own, which the desk runs over a copy of its office."""

REACHING = {"sqlite3", "subprocess", "socket", "urllib", "http", "ctypes"}
"""What another file, program or machine could be reached with."""

REACHED = {
    "average_prices.py": {"sqlite3"},
    "forms/manifest.py": {"subprocess"},
    "releases/cards.py": {"subprocess"},
    "seasonal.py": {"subprocess"},
    "site/csvw.py": {"sqlite3"},
}
"""What some modules reach: an office’s copy, `ssh-keygen`, a drawing program, R, and a file of figures."""


def test_no_other_module_of_publish_reaches_an_office() -> None:
    """The published tables come from `office.public` only."""
    publish = PACKAGE / "publish"
    asking, reached = set(), {}
    for path in sorted(publish.rglob("*.py")):
        name, named = str(path.relative_to(publish)), {*imports(path)}
        if any(each.lstrip(".").split(".")[1:2] == [office] for each in named for office in OF_AN_OFFICE):
            asking.add(name)
        if within := {each.split(".")[0] for each in named} & REACHING:
            reached[name] = within
    assert asking == OF_AN_OFFICES_COPY | {"sources.py"}
    assert reached == REACHED


# ---- the embargo


def test_what_is_under_embargo_is_not_there(published: list[Published], public_office: Office) -> None:
    known = {publication.listed[:2] for publication in published}
    assert known == {*shown()} and not known & {*public_office.hidden}


def test_at_its_moment_a_table_is_there(cpi: Cpi, public_office: Office) -> None:
    assert from_file(cpi, public_office.file, LONG_AFTER)[-1].listed == Listed(LAST, 1, LONG_AFTER)
    found = {it.listed for it in from_file(cpi, public_office.file, LONG_AFTER + 1)}
    assert {Listed(LAST, 2, LONG_AFTER + 1), Listed(HIDDEN_REVISION, 2, LONG_AFTER + 1)} <= found


# ---- by pages


class Pages(http.server.BaseHTTPRequestHandler):
    """Answers the two public pages of some tables, and keeps what was asked."""

    tables: list[Published] = []
    listed: Optional[bytes] = None
    asked: list[str] = []

    def do_GET(self) -> None:
        self.asked.append(self.path)
        bodies = {f"/table/{table.listed.month}/csv/{table.listed.revision}": table.table for table in self.tables}
        bodies["/tables"] = self.listed or json.dumps({"tables": [table.listed for table in self.tables]}).encode()
        body = bodies.get(self.path)
        self.send_response(404 if body is None else 200)
        self.end_headers()
        self.wfile.write(body or b"")

    def log_message(self, *_: object) -> None:
        pass


@pytest.fixture
def address(published: list[Published]) -> Iterator[str]:
    """Where the pages are."""
    Pages.tables, Pages.listed, Pages.asked = published, None, []
    with http.server.ThreadingHTTPServer(("127.0.0.1", 0), Pages) as server:
        thread = threading.Thread(target=server.serve_forever)
        thread.start()
        yield f"http://127.0.0.1:{server.server_address[1]}"
        server.shutdown()
        thread.join()


def test_only_two_pages_are_got(address: str, published: list[Published]) -> None:
    assert from_url(address + "/") == published
    assert Pages.asked == ["/tables", *(f"/table/{month}/csv/{revision}" for month, revision in shown())]


def test_a_table_that_is_not_there_is_told(address: str, published: list[Published]) -> None:
    Pages.listed = json.dumps({"tables": [["2030-01", 1, 5]]}).encode()
    with pytest.raises(NotPublic, match="/table/2030-01/csv/1 was answered with status 404"):
        from_url(address)
    Pages.listed = b"<html>"
    with pytest.raises(NotPublic, match="isn't the list of an office's tables"):
        from_url(address)
    with pytest.raises(NotPublic, match="http://127.0.0.1:1/tables can't be read"):
        from_url("http://127.0.0.1:1")


@pytest.mark.parametrize(
    "row", [["2026-1", 1, 5], ["../x", 1, 5], ["2026-01", 0, 5], ["2026-01", True, 5], ["2026-01", 1], "2026-01", None]
)
def test_a_list_that_is_none_is_refused(row: object) -> None:
    with pytest.raises(NotPublic, match="doesn't list its tables"):
        listed_in({"tables": [["2026-01", 1, 5], row]})
    assert listed_in({"tables": [["2026-01", 2, 6], ["2026-01", 1, 5]]}) == [("2026-01", 1, 5), ("2026-01", 2, 6)]


# ---- what is read of a table


def test_a_table_gives_the_programs_digits_again(published: list[Published]) -> None:
    for each in published:
        rows, lines = [*table_of(each).rows.values()], each.table.decode().splitlines()
        assert len(rows) == len(lines)
        assert all(line.startswith(",".join((row.code, *row.texts)) + ",") for row, line in zip(rows, lines))


ROW = "00,1000000,99.750000,99.750000,-0.3,,0,All\n"


@pytest.mark.parametrize(
    "rows",
    [
        "00,1,2\n",
        "00,1000000,99.75,99.750000,-0.3,,0,All\n",
        "00,x,99.750000,99.750000,-0.3,,0,All\n",
        "00,0,99.750000,99.750000,-0.3,,0,All\n",
        "00,1000000,99.750000,99.750000,-0.0,,0,All\n",
        "00,1000000,099.750000,99.750000,-0.3,,0,All\n",
        "00,1000000,99.750000,99.750000,-0.3,,2,All\n",
        "00,1000000,99.750000,99.750000,-0.3,,0\n",
        "../x,1000000,99.750000,99.750000,-0.3,,0,All\n",
        ROW + ROW,
        ROW.replace("00,", "01,", 1),
        ROW.replace("All", '"All'),
    ],
)
def test_what_is_no_table_is_refused(rows: str) -> None:
    table_of(Published(Listed("2026-01", 1, 1), ROW.encode()))
    with pytest.raises(NotATable, match="^2026-01, revision 1: no row of a table"):
        table_of(Published(Listed("2026-01", 1, 1), rows.encode()))


def test_bytes_that_are_no_text_are_refused() -> None:
    with pytest.raises(NotATable):
        table_of(Published(Listed("2026-01", 1, 1), b"\xff"))


def test_without_a_table_that_has_rows_there_is_nothing_to_publish(published: list[Published]) -> None:
    for some in ([], published[:1]):
        with pytest.raises(NotATable, match="no table with rows is published yet"):
            Series(some)
    assert Series(published).months == MONTHS[1:-1]

"""`cpi-tools doctor` of two damages at once, of a holder that nobody sees, and of a user whose rights it can't take."""

from __future__ import annotations

import contextlib
import shutil
import sqlite3
from pathlib import Path

import pytest

from cpi_tools.guard import doctor
from cpi_tools.office.access import user_of
from cpi_tools.office.copying import log_beside
from cpi_tools.office.program import Cpi
from .test_doctor import INDEX, as_root, by_nobody, open_folder, opens, told

RESTORE = "Restore the last good backup: `cpi-tools restore` puts the file and its log aside."

__all__ = ["open_folder"]


def changed(office: Path, *statements: str) -> None:
    """Another program changes the file, and leaves no log."""
    with contextlib.closing(sqlite3.connect(office)) as link:
        for statement in statements:
            link.execute(statement)
        link.commit()
        link.execute("PRAGMA wal_checkpoint(TRUNCATE)")


def test_a_row_that_names_none_is_told_before_others(cpi: Cpi, office: Path) -> None:
    """cpi refuses the file for a row that no office has; SQLite sees what else is lost."""
    changed(office, "DELETE FROM outlet WHERE number = (SELECT min(outlet) FROM assignment_2)")
    changed(office, "UPDATE calendar SET opens = -1 WHERE month = 202602")
    said = told(cpi, office)
    assert said.startswith("it is damaged: foreign_key_check: row ") and said.endswith(
        f" names no row of outlet. {RESTORE}"
    )
    assert not opens(cpi, office)


def test_a_log_isn_t_named_if_the_file_is_damaged_without_it_too(cpi: Cpi, office: Path, tmp_path: Path) -> None:
    """Whoever took the log away would have lost it for nothing."""
    changed(office, INDEX)
    folder = tmp_path / "copy"
    folder.mkdir()
    with contextlib.closing(sqlite3.connect(office)) as link:
        link.execute("CREATE INDEX by_value ON quote_2 (value)")
        link.commit()
        for path in (office, log_beside(office)):
            shutil.copy(path, folder)
    said = told(cpi, folder / office.name)
    assert said == f"it has tables or rows that no office has: another program changed it, or a disk did. {RESTORE}"


@as_root
def test_a_holder_that_isn_t_seen_is_looked_for_elsewhere(
    cpi: Cpi, office: Path, monkeypatch: pytest.MonkeyPatch
) -> None:
    monkeypatch.setattr(doctor, "holders_of", lambda _: iter(()))
    with cpi.session(office) as session:
        assert "tables" in session.ask("0,public,tables")
        said = told(cpi, office)
    assert said == "a process that isn't seen from here holds it. Look for it in the containers of this machine."


@as_root
def test_only_root_is_told_of_others_rights(cpi: Cpi, office: Path, open_folder: Path) -> None:
    file = open_folder / "office.db"
    shutil.copy(office, file)
    ran = by_nobody(cpi, "/usr/bin/python3", "-m", "cpi_tools", "doctor", file, "--user", "root", "--program", cpi.path)
    wanted = "cpi-tools doctor: only root can see what root may do\n"
    assert (ran.returncode, ran.stdout, ran.stderr) == (1, "", wanted)


def test_a_user_without_a_name_is_told_by_its_number() -> None:
    """As of a folder that came from another machine."""
    user = user_of(4_000_000_000)
    assert (user.name, user.number) == ("user 4000000000", 4_000_000_000)

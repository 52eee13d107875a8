"""The copies that the desk's pages read (`watched_office`), while the office goes on and as the application ends."""

from __future__ import annotations

from pathlib import Path

import pytest

from cpi_tools.office.copying import right_copy
from cpi_tools.desk.serve.watched_office import Copies
from cpi_tools.office.program import Cpi
from cpi_tools.text.terminal import Fault
from .loads import faults_of
from .test_copying import send


def test_a_copy_that_is_read_stays_while_a_newer_one_is_taken(cpi: Cpi, office: Path, tmp_path: Path) -> None:
    copies = Copies(office, tmp_path)
    with cpi.session(office) as session:
        last = send(session, 0, 3)
        assert copies.renew() and not copies.renew()
        with copies.latest() as old:
            newest = send(session, last, 2)
            assert copies.renew()
            with copies.latest() as new:
                assert new.path != old.path
                assert faults_of(new.path, newest) == []
            assert faults_of(old.path, last) == []
        assert not old.path.exists() and new.path.exists()
    copies.close()
    assert list(tmp_path.glob("cpi-desk-*")) == []


def test_no_copy_is_taken_once_the_application_ends(office: Path, tmp_path: Path) -> None:
    copies = Copies(office, tmp_path)
    copies.close()
    for ask in (copies.renew, copies.latest().__enter__):
        with pytest.raises(Fault, match="makes no further copy of the office"):
            ask()
    assert list(tmp_path.glob("cpi-desk-*")) == []


def test_a_copy_that_is_taken_while_the_application_ends_goes(
    office: Path, tmp_path: Path, monkeypatch: pytest.MonkeyPatch
) -> None:
    copies = Copies(office, tmp_path)

    def ends_meanwhile(file: Path, folder: Path) -> Path:
        copies.close()
        return right_copy(file, folder)

    monkeypatch.setattr("cpi_tools.desk.serve.watched_office.right_copy", ends_meanwhile)
    with pytest.raises(Fault, match="makes no further copy of the office"):
        copies.renew()
    assert list(tmp_path.glob("cpi-desk-*")) == []

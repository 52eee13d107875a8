"""A month frozen on a copy is the month as it is frozen, and a copy says what an office has stored."""

from __future__ import annotations

import contextlib
import sqlite3
from pathlib import Path

import pytest

from . import surveys
from cpi_tools.office.copying import private_copy
from cpi_tools.office.program import Cpi, record
from cpi_tools.office.stored import NotAnOffice, read_copy
from cpi_tools.office.trial import Refused, as_frozen, freeze_on_copy, reopen, state_of
from .surveys import bytes_of, key_of


@pytest.fixture
def small(cpi: Cpi, tmp_path: Path) -> Path:
    return surveys.small(cpi, tmp_path)


def test_a_copy_says_what_stands_for_a_month(cpi: Cpi, small: Path) -> None:
    sent = [
        "0,desk,collector,9," + key_of(9),
        "0,desk,handover,7,1,9,1,2026-03",
        record(3600, key_of(7), "quote", 2, "2026-02", "missing", "gone"),
    ]
    assert [*map(str, cpi.replay(sent, db=small))] == ["{'done': True}", "{'done': True}", "{'receipt': 7}"]
    with private_copy(small) as copy, read_copy(copy) as office:
        assert office.last_prices(202602) == {(7, 1): 210, (7, 2): 84, (8, 1): 246, (9, 1): 210}
        assert office.last_prices(202601) == {(7, 1): 200, (7, 2): 80, (8, 1): 240, (9, 1): 210}
        assert office.copied_prices() == {(9, 1): 210}
        assert office.months_of_last_prices(202603) == {(7, 1): 202601, (7, 2): 202601, (8, 1): 202602}
        assert office.latest_quotes(202603)[7, 2] == (202602, "gone")
        assert office.latest_quotes(202601)[7, 2] == (202601, "price")
        assert office.receipts(202602) == {(7, 1): 5, (7, 2): 7, (8, 1): 3}


def test_a_file_that_is_no_office_is_told(cpi: Cpi, tmp_path: Path) -> None:
    text = tmp_path / "text.db"
    text.write_text("no office at all")
    with pytest.raises(NotAnOffice, match="text.db can't be read as an office: file is not a database"):
        with read_copy(text):
            pass
    earlier = tmp_path / "earlier.db"
    surveys.small(cpi, tmp_path).rename(earlier)
    with contextlib.closing(sqlite3.connect(earlier)) as link:
        link.execute("UPDATE version SET number = 1")
        link.commit()
    with pytest.raises(NotAnOffice, match="earlier.db has tables of an earlier cpi"):
        with read_copy(earlier):
            pass


def test_a_month_is_frozen_on_a_copy_with_what_the_refusals_name(cpi: Cpi, small: Path) -> None:
    before = bytes_of(small)
    with private_copy(small) as copy:
        with read_copy(copy) as office:
            state = state_of(office, 202602)
        assert (state.revision, state.is_frozen, state.is_reopened) == (0, False, False)
        frozen = freeze_on_copy(cpi, copy, state, 4000)
    assert bytes_of(small) == before
    assert (frozen.revision, frozen.carry) == (1, ("01.1.1.2-01",))
    assert [each.listed for each in frozen.tables] == [("2025-12", 1, 1000), ("2026-01", 1, 3000), ("2026-02", 1, 5000)]
    sent = ["4000,desk,freeze,2026-02,01.1.1.2-01", "5000,public,table,2026-02,csv"]
    assert cpi.replay(sent, db=small)[1]["table"].encode() == frozen.table


def test_what_cannot_be_frozen_is_told_in_words(cpi: Cpi, small: Path) -> None:
    assert cpi.replay(["0,desk,calendar,2026-03,4000,6000,7000"], db=small) == [{"done": True}]
    with private_copy(small) as copy:
        with read_copy(copy) as office:
            ahead = state_of(office, 202603)
            with pytest.raises(Refused, match="2026-04, by the calendar, which ends with 2026-03: refused by 21: "):
                state_of(office, 202604)
        with pytest.raises(Refused, match="a freeze of 2026-03: refused by 46: the month is neither the last frozen "):
            freeze_on_copy(cpi, copy, ahead, 6000)


def test_a_frozen_month_stands_and_can_be_reopened_on_a_copy(cpi: Cpi, small: Path) -> None:
    assert cpi.replay(["4000,desk,freeze,2026-02,01.1.1.2-01"], db=small) == [{"done": True}]
    with private_copy(small) as copy:
        with read_copy(copy) as office:
            state = state_of(office, 202602)
        stands = as_frozen(cpi, copy, state, ("01.1.1.2-01",))
        assert state.is_frozen and stands.tables[-1].listed == ("2026-02", 1, 5000)
        after, sent = reopen(state)
        again = freeze_on_copy(cpi, copy, after, 4000, ["01.1.1.2-01"], [sent])
        assert again.tables[-1].listed == ("2026-02", 2, 5001) and again.table == stands.table
        with read_copy(copy) as office:
            assert state_of(office, 202602).is_frozen

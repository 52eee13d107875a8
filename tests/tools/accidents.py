"""Accidents of an office's file on the first machine, after prices that its copies have."""

from __future__ import annotations

import shutil
from collections.abc import Callable
from pathlib import Path

import pytest

from cpi_tools.office.copying import log_beside
from cpi_tools.office.program import Cpi, record
from cpi_tools.office.stored import stored_office
from .offices import LOAD_COLLECTOR, LOAD_KEY, LOAD_MONTH, LOAD_SLOTS

ANSWERED = 40
"""So many prices are answered before an accident; the copies have them."""

WANTED = {slot: 500 + slot for slot in range(1, ANSWERED + 1)}
"""Each of them, by its slot."""

PAGE = 4096


def priced(cpi: Cpi, office: Path, first: int, count: int, price: int = 500) -> None:
    """Sends prices of so many slots, and has the receipt of each."""
    slots = range(first, first + count)
    replies = cpi.replay(
        [record(50, LOAD_KEY, "quote", slot, LOAD_MONTH, "price", price + slot) for slot in slots], db=office
    )
    assert all("receipt" in reply for reply in replies) and len(replies) == count


def killed_after(cpi: Cpi, office: Path, count: int) -> None:
    """Sends so many prices, of the slots in turn, and kills the program: the last ones are only in the log."""
    with pytest.raises(KeyboardInterrupt), cpi.session(office) as session:
        for turn in range(count):
            slot = 1 + turn % LOAD_SLOTS
            sent = record(50, LOAD_KEY, "quote", slot, LOAD_MONTH, "price", 200 + turn)
            assert "receipt" in session.ask(sent)
        raise KeyboardInterrupt


def prices_in(cpi: Cpi, file: Path) -> dict[int, int]:
    """The prices of the collector's slots, once the program has opened the file."""
    (reply,) = cpi.replay([record(60, LOAD_KEY, "work", LOAD_MONTH)], db=file)
    assert "work" in reply
    with stored_office(file) as stored:
        rows = stored.ask("SELECT slot, value FROM quote_2 WHERE collector = ?", LOAD_COLLECTOR)
    return {int(slot): int(value) for slot, value in rows}


def backup_restored(_: Cpi, office: Path, backup: Path) -> None:
    """A backup of before these prices takes the place of the file, as by hand."""
    log_beside(office).unlink(missing_ok=True)
    shutil.copy(backup, office)


def made_anew(cpi: Cpi, office: Path, _: Path) -> None:
    """The file is gone, and the program makes another one, without a collector."""
    for path in (office, log_beside(office)):
        path.unlink(missing_ok=True)
    assert cpi.replay([], db=office) == []


def page_gone_bad(_: Cpi, office: Path, __: Path, part: float = 0.5) -> None:
    """A page in the midst of the file has zero bytes only, since its disk lost it."""
    with office.open("r+b") as file:
        file.seek(PAGE * int(office.stat().st_size // PAGE * part))
        file.write(bytes(PAGE))


ACCIDENTS: dict[str, Callable[[Cpi, Path, Path], None]] = {
    "backup restored": backup_restored,
    "file made anew": made_anew,
    "page gone bad": page_gone_bad,
}
"""What befalls the file, by name."""

SAID = {
    "backup restored": "it would take back what the copy has: ",
    "file made anew": "collectors 3 (here 0)",
    "page gone bad": "it is damaged: ",
}
"""What the follower says of each."""

"""The file by which phones show a deadline: the desk's application writes it when a window is sent, and says if it can't."""

from __future__ import annotations

import datetime
import json
from collections.abc import Iterator
from html import unescape
from pathlib import Path

import pytest

from cpi_tools.office.program import Cpi
from cpi_tools.office.stored import read_copy
from lib.served import heard, message, peer_of
from . import surveys
from .desk_apps import Application, Person, applied, words_of
from .loads import DESK_KEY
from .page_forms import forms_of
from .test_desk_app_publish import with_site
from .test_desk_app_shown import sends

FAR = 4_000_000_000
OLD = "Phones may show an old deadline, because their file couldn't be written."


@pytest.fixture
def application(cpi: Cpi, tmp_path: Path) -> Iterator[Application]:
    """The small office, with a folder for its website."""
    with applied(cpi, surveys.small(cpi, tmp_path), tmp_path / "room") as it:
        with_site(it, tmp_path)
        yield it


@pytest.fixture
def calendar(tmp_path: Path) -> Path:
    """Where the file is: beside the website."""
    return tmp_path / "calendar.json"


def closes_of(calendar: Path, month: str) -> list[int]:
    """When the window of a month closes, as phones read it."""
    return [it["closes"] for it in json.loads(calendar.read_bytes())["months"] if it["month"] == month]


def test_a_window_is_in_the_file_once_it_was_sent(application: Application, ada: Person, calendar: Path) -> None:
    assert not calendar.exists()
    sends(ada, f"calendar,2096-09,{FAR - 9},{FAR},{FAR}\n")
    assert closes_of(calendar, "2096-09") == [FAR]
    assert calendar.stat().st_mode & 0o777 == 0o644
    assert calendar.read_text() == ada.get("/calendar/calendar.json").text
    sends(ada, f"calendar,2096-09,{FAR - 9},{FAR + 60},{FAR + 60}\n")
    assert closes_of(calendar, "2096-09") == [FAR + 60]
    assert str(calendar) in ada.words("/calendar")
    before = calendar.stat().st_mtime_ns, calendar.stat().st_ino
    sends(ada, "outlet,77,Pier\n")
    application.desk.watch.renew()
    assert (calendar.stat().st_mtime_ns, calendar.stat().st_ino) == before


def test_a_window_of_the_form_of_a_year_is_in_the_file(ada: Person, calendar: Path) -> None:
    rows = "2096-09;2096-09-01T08:00;2096-09-24T18:00;2096-10-10T09:30"
    assert ada.fill("/sample/calendar", "/judge", 1, pasted=rows).status_code == 303
    assert ada.fill("/sample/calendar", "/send").status_code == 303
    # (18:00 in Prague is 16:00 UTC in September)
    closes = datetime.datetime(2096, 9, 24, 16, tzinfo=datetime.timezone.utc)
    assert closes_of(calendar, "2096-09") == [int(closes.timestamp())]


def test_a_window_that_was_sent_stays_sent_if_the_file_can_t_be_written(
    application: Application, ada: Person, calendar: Path
) -> None:
    calendar.write_text("a letter of somebody's\n", encoding="utf-8")
    judged = ada.follow(ada.fill("/records", "/records/judge", text=f"calendar,2096-09,{FAR - 9},{FAR},{FAR}\n"))
    (form,) = [form for form in forms_of(judged.text) if form.action == "/records/send"]
    assert OLD not in judged.text
    answer = ada.follow(ada.give(form))
    assert "1 of 1 done." in words_of(answer.text) and OLD in unescape(answer.text)
    assert "is no calendar: give the calendar a name of its own" in unescape(answer.text)
    assert calendar.read_text(encoding="utf-8") == "a letter of somebody's\n"
    with application.desk.copies_now() as copy, read_copy(copy.path) as office:
        assert office.calendar()[-1].closes == FAR
    calendar.unlink()
    application.desk.watch.renew()
    assert closes_of(calendar, "2096-09") == [FAR] and OLD not in unescape(ada.get("/calendar").text)


def test_a_window_of_elsewhere_is_followed(application: Application, calendar: Path) -> None:
    with peer_of(application.port) as peer:
        peer.sendall(message("POST /import", key=DESK_KEY, body=f"calendar,2096-09,9,{FAR},{FAR}\n".encode()))
        assert b"done" in heard(peer)
    application.desk.watch.renew()
    assert closes_of(calendar, "2096-09") == [FAR]


def test_without_a_website_no_file_is_written(cpi: Cpi, tmp_path: Path, calendar: Path) -> None:
    with applied(cpi, surveys.small(cpi, tmp_path), tmp_path / "room") as it:
        ada = it.person("Ada")
        sends(ada, f"calendar,2096-09,{FAR - 9},{FAR},{FAR}\n")
        assert "Put the new file there after each window that you set" in ada.words("/calendar")
        with it.desk.copies_now() as copy, read_copy(copy.path) as office:
            assert office.calendar()[-1].closes == FAR
    assert not calendar.exists()

"""What the desk's application says in another language when something goes wrong: each page has a sentence of its language
that says what happened and what to do, and shows the line of a program as it is, marked as English."""

from __future__ import annotations

import errno
import io
import os
import re
import time
from collections.abc import Callable, Iterator
from pathlib import Path
from typing import Any, NoReturn

import pytest

from . import surveys
from cpi_tools.office.program import Cpi
from cpi_tools.text.languages import Speech, speech_of
from .desk_apps import ADA, BEN, Application, Chosen, Person, applied
from lib.served import free_port
from .loads import served
from .nobodys import greek, nobodys_in, seen_of
from .test_desk_app_languages import left_on
from .test_desk_app_month import WHY
from .test_desk_app_publish import frozen as published_at, waited, with_site

MONTH = "2026-02"

OWN_LINE = re.compile(r'<bdi lang="en" dir="ltr"><code>(.*?)</code></bdi>')


@pytest.fixture
def speech(tmp_path: Path, monkeypatch: pytest.MonkeyPatch) -> Speech:
    """A language that nobody speaks."""
    return speech_of(nobodys_in(tmp_path, monkeypatch))


@pytest.fixture
def application(cpi: Cpi, tmp_path: Path, speech: Speech) -> Iterator[Application]:
    """An application whose pages speak it."""
    with applied(cpi, surveys.small(cpi, tmp_path), tmp_path / "room", Chosen(speech=speech)) as it:
        yield it


@pytest.fixture
def ada(application: Application) -> Person:
    return application.person(ADA)


def told(answer: Any, status: int, *texts: str) -> list[str]:
    """The own lines of a page, which has a status, no English of ours, and these sentences in the language."""
    page = answer.text
    assert answer.status_code == status, page
    assert left_on(page) == []
    seen = " ".join(" ".join(seen_of(re.sub("</?bdi[^>]*>", "", page)).texts).split())
    for text in texts:
        assert greek(text) in seen, (greek(text), seen)
    return OWN_LINE.findall(page)


def full(*_: object) -> NoReturn:
    raise OSError(errno.ENOSPC, os.strerror(errno.ENOSPC))


FULL = "The disk is full: free some space, then try again."


def test_a_full_disk_is_told_wherever_it_is_met(
    application: Application, ada: Person, monkeypatch: pytest.MonkeyPatch
) -> None:
    """Nothing is lost: what was typed is in its field again."""
    offered = ada.sent("/records/judge", text="outlet,12,\u0393\n").text
    (offer,) = re.findall('name="offer" value="([^"]+)"', offered)
    application.tried(ada, MONTH)
    look = ada.form(f"/month/{MONTH}/looks", "/looks", 1)
    monkeypatch.setattr(os, "fsync", full)
    room = f"{application.room}/"
    answer = ada.post("/records/send", offer=offer, left="")
    assert told(answer, 503, "Nothing was sent: ", "The desk's log can't be written, so nothing was done.", FULL) == [
        f"{room}desk.log: No space left on device"
    ]
    assert "outlet,12,\u0393" in answer.text.partition("<textarea")[2]
    rows = ada.post("/sample/outlets/judge", pasted="12,\u0393")
    assert told(rows, 400, FULL) == [f"{room}rows.json: No space left on device"]
    assert "12,\u0393" in rows.text.partition("<textarea")[2]
    note = ada.give(look, text="\u03b3")
    assert told(note, 503, "Nothing was noted: ", FULL) == [f"{room}looks.jsonl: No space left on device"]
    assert 'name="text" value="\u03b3"' in note.text


def test_an_office_that_is_away_is_told(cpi: Cpi, tmp_path: Path, speech: Speech) -> None:
    file, port = surveys.small(cpi, tmp_path), free_port()
    with served(cpi, file, port, 100_000) as office:
        application = Application(cpi, file, tmp_path / "room", port, Chosen(speech=speech))
        ada = application.person(ADA)
        offered = ada.sent("/records/judge", text="outlet,12,\u0393\n").text
        ada.post("/sample/outlets/judge", pasted="13,\u0393")
        (seen,) = re.findall('name="seen" value="([^"]+)"', ada.get("/sample/outlets").text)
        office.kill()
    refused, away = ["Connection refused"], "can't be reached: "
    (offer,) = re.findall('name="offer" value="([^"]+)"', offered)
    assert told(ada.post("/records/send", offer=offer, left=""), 503, "Nothing was sent: ", away) == refused
    assert told(ada.post("/sample/outlets/send", seen=seen), 503, "Nothing was sent: ", away)[:1] == refused
    assert told(application.person().signed_in(BEN, "e" * 32), 503, away) == refused
    assert told(ada.get("/log"), 200, "not sent")
    application.desk.close()


def garbage(file: Path) -> None:
    file.write_bytes(b"no office, but a longer text than the head of a file of SQLite" * 200)


@pytest.mark.parametrize(
    ("change", "told_so"),
    [
        (lambda file: file.write_bytes(b""), "The office's file can't be copied, or the copy can't be read."),
        (garbage, "The office's file can't be copied, or the copy can't be read."),
        (Path.unlink, "A file or a folder is missing: put it back, then try again."),
    ],
    ids=["empty", "garbage", "gone"],
)
def test_a_file_that_is_no_office_is_told(
    application: Application, ada: Person, change: Callable[[Path], object], told_so: str
) -> None:
    for name in (application.file, application.file.with_name(f"{application.file.name}-wal")):
        if name.exists():
            change(name)
    for path in ("/calendar", "/sample/items"):
        assert len(told(ada.get(path), 503, told_so)) >= 1
    application.desk.watch._try()
    if application.desk.watch.fault:
        assert told(ada.get("/records"), 200, "The office's file couldn't be copied, so these pages may be old:")


def test_a_program_that_ends_is_told(application: Application, ada: Person) -> None:
    application.desk.cpi.path = Path("/bin/false")
    answer = ada.post("/records/judge", text="outlet,12,\u0393\n")
    assert told(answer, 400, "cpi ended before it gave an answer.") == ["cpi ended with status 1"]
    answer = ada.post(f"/month/{MONTH}/what-if", text="8/1=missing")
    assert told(answer, 400, "cpi ended before it gave an answer.") == ["cpi ended with status 1"]
    application.tried(ada, MONTH)
    assert told(ada.get(f"/month/{MONTH}/table"), 200, "The last trial failed:", "cpi ended before it gave")


WHAT_IF = ("nonsense", "99/1=missing", "8/1=ten", "01.1.9=x", "8/1=", "8/1=0", "=", "\u03b3")


@pytest.mark.parametrize("text", WHAT_IF)
def test_what_cannot_be_tried_is_told(ada: Person, text: str) -> None:
    answer = ada.post(f"/month/{MONTH}/what-if", text=text)
    if text == "99/1=missing":
        assert told(answer, 400, "No collector has slot 99/1: write a collector and a slot") == []
    else:
        assert told(answer, 400, "Line 1: ", "can't be tried. Write a price like") == []
    assert text in answer.text.partition("<textarea")[2]


RECORDS = {
    'outlet,12,"A\n': "Line 1 can't be read as CSV: check its quotation marks.",
    'outlet,12,"A" B\n': "Line 1 can't be read as CSV: check its quotation marks.",
    "nothing,1\n": "Line 1: ",
    f"freeze,{MONTH}\n": "Line 1: freeze a month on its own page",
    "": "There are no records: write one record per line",
    "calendar,2026-03,1,2\n": "Refused with 10.",
    "calendar,2026-02,5000,4000,6000\n": "Refused with ",
    'plan,2027,"T,00,\u0391\nW,01.1.1.1-01,5\n"\n': "Refused with 44.",
    'plan,2026,"T,00,\u0391\nW,01.1.1.1-01,1000000\n"\n': "Refused with ",
}
"""Records that aren't taken, and what is said of them."""


@pytest.mark.parametrize(("text", "says"), RECORDS.items(), ids=range(len(RECORDS)))
def test_records_that_are_not_taken_are_told(ada: Person, text: str, says: str) -> None:
    answer = ada.sent("/records/judge", text=text)
    assert told(answer, answer.status_code, says) == [] and answer.status_code in (200, 400)


def posted_file(ada: Person, path: str, content: bytes, **form: str) -> Any:
    """The answer to a form with a file."""
    data = {"token": ada.token, "file": (io.BytesIO(content), "\u0391.csv"), **form}
    return ada.client.post(path, data=data, base_url="http://127.0.0.1:8090")


def test_files_that_are_not_taken_are_told(ada: Person) -> None:
    for content in (b"\xff\xfe\x00\x01", b"PK\x03\x04\x00\x00", "\u0391".encode("utf-16")):
        answer = posted_file(ada, "/records/judge", content)
        assert told(answer, 400, "isn't a text in UTF-8. Save the spreadsheet as CSV") == []
    both = posted_file(ada, "/records/judge", b"outlet,12,A\n", text="outlet,13,B\n")
    assert told(both, 400, "You chose a file, but the field contains text too") == []


PASTED = {
    "outlets": ('10,"a\n', "1,2,3", "outlet;outlet\n1;2", "outlet;name;name\n1;2;3", "x,y", ",", "12"),
    "items": ("RICE,\u0391", "item,text\nA,B", "A,B,C,D,E"),
    "assignments": ("7,1,10,NONE,2026-01,2026-12", "7;1;10;RICE;soon;later"),
    "handovers": ("7,1,99,2026-03", "99,1,7,2026-03"),
    "collectors": ("7,short", "x,y"),
    "calendar": ("2026-13,a,b,c", "2026-03,2026-03-01T00:00,x,y"),
}


@pytest.mark.parametrize("kind", PASTED)
def test_rows_that_are_not_taken_are_told(ada: Person, kind: str) -> None:
    for text in PASTED[kind]:
        answer = ada.post(f"/sample/{kind}/judge", pasted=text)
        page = answer if answer.status_code == 400 else ada.get(f"/sample/{kind}")
        assert told(page, page.status_code) == []
        assert ada.get(f"/sample/{kind}").status_code == 200


def test_a_sheet_that_cannot_be_made_is_told(application: Application, ada: Person) -> None:
    assert told(ada.post("/sample/collectors/sheet", collector="7"), 400, "No sheet was made: ") == []
    application.desk.given = application.desk.given._replace(phones="https://phones.example/")
    for form, says in (
        ({"collector": "x"}, " isn't the number of a collector: write a number like 7"),
        ({"collector": "99"}, "the office has no collector 99: register the collector first, or delete the row"),
        ({"collector": "7", "name": "\u0391" * 61}, "has 61 characters: write at most 60"),
        ({"collector": "7", "name": "\u0391\x07"}, "contains a control character: write it on one line"),
        ({"collector": "7", "language": "tlh"}, "There is no catalogue for the language "),
    ):
        assert told(ada.post("/sample/collectors/sheet", **form), 400, "No sheet was made: ", says) == []


ODD_FILES = {
    "rows.json": "/sample/outlets",
    "prepared-freeze.json": f"/month/{MONTH}/freeze",
    "to-publish.json": "/publish",
}
"""Files of the application that somebody else has changed, and a page that needs each."""


@pytest.mark.parametrize("name", ODD_FILES)
def test_a_file_that_something_else_has_changed_is_told(
    application: Application, ada: Person, tmp_path: Path, name: str
) -> None:
    with_site(application, tmp_path)
    (application.room / name).write_text("{", encoding="utf-8")
    answer = ada.get(ODD_FILES[name])
    (line,) = told(answer, answer.status_code, "isn't as the application wrote it: move it away, then try again.")
    assert line.startswith("Expecting property name")


def test_a_draft_that_cannot_be_made_or_read_is_told(application: Application, ada: Person) -> None:
    drafts = application.desk.drafts
    for year, says in (
        ("2030", "There is no plan of 2029 from which the plan of 2030 could be drafted."),
        ("2026", "is frozen, so 2026 has begun: name a later year."),
    ):
        ada.post("/year/make", year=year)
        waited(lambda: not drafts.running)
        assert told(ada.get("/year"), 200, says) == []
    ada.post("/year/make", year="2027")
    waited(lambda: not drafts.running)
    for text in ('"x', "a;b;c;d", "09;1", ";"):
        assert told(ada.fill("/year/2027/", "/put", 1, pasted=text), 400) == []
    ada.fill("/year/2027/", "/put", weight="many")
    ada.post("/year/2027/check")
    waited(lambda: not drafts.running)
    assert told(ada.get("/year/2027/"), 200, "Weights that aren't numbers: ", "What is refused") == []
    (application.room / "next-year/2027/settings.json").write_text("{", encoding="utf-8")
    assert len(told(ada.get("/year/2027/"), 503, "isn't as the application wrote it: move it away")) == 1


def test_requests_that_are_none_are_told(application: Application, ada: Person) -> None:
    assert ada.post("/year/make", year="2027").status_code == 303
    waited(lambda: not application.desk.drafts.running)
    answer = ada.post("/year/2027/put", sheet="nothing")
    assert told(answer, 400, "The application can't carry out this request: go back, reload the page") == [
        "400 Bad Request"
    ]
    assert told(ada.get("/nowhere"), 404, "There is no such page.") == []
    assert told(ada.post("/"), 405, "There is no such page.") == []
    assert told(ada.post("/records/judge", text="x" * 17_000_000), 413, "A form can have ") == []
    assert told(ada.post("/calendar/2026", token="wrong"), 403, "You sent this form after your session had ended") == []
    assert told(ada.get("/", headers={"Host": "other.example"}), 400, "This application can't be reached as ") == []


def test_a_window_that_is_open_or_closed_is_told(application: Application, ada: Person) -> None:
    far = int(time.time()) + 86_400
    for closes, says in ((far, "The window is open until "), (5000, "Nothing was tried since")):
        text = f"calendar,{MONTH},2000,{closes},{max(closes, 6000)}\n"
        offered = ada.sent("/records/judge", text=text).text
        ada.post("/records/send", left="", offer=re.findall('name="offer" value="([^"]+)"', offered)[0])
        if closes == far:
            application.tried(ada, MONTH)
            assert told(ada.fill(f"/month/{MONTH}/freeze", "/prepare", **WHY), 409, says) == []
        assert told(ada.get(f"/month/{MONTH}/freeze"), 200) == []
        assert told(ada.get("/calendar"), 200) == []


WRONG_CONFIG = {
    "[office]\n": "agency is missing in [office]",
    "nothing": "File contains no section headers.",
    "[office]\nagency = EX\narea = XX\noffice = Office\naddress = nowhere\n": "address: nowhere is no address of a site",
}


@pytest.mark.parametrize("text", WRONG_CONFIG, ids=range(len(WRONG_CONFIG)))
def test_a_website_that_cannot_be_written_is_told(cpi: Cpi, tmp_path: Path, speech: Speech, text: str) -> None:
    moment = int(time.time()) + 86_400
    with applied(cpi, published_at(cpi, tmp_path, moment), tmp_path / "room", Chosen(speech=speech)) as application:
        publisher, ada = with_site(application, tmp_path, text), application.person(ADA)
        (line,) = told(ada.get("/publish"), 200, "A file of the website can't be read. Correct what this line names")
        assert WRONG_CONFIG[text] in line
        ada.fill("/publish", "/publish/now")
        waited(lambda: not publisher.running)
        lines = told(
            ada.get("/publish"),
            200,
            "The website couldn't be written, and is unchanged:",
            "Correct the fault that this line of cpi-tools",
        )
        assert WRONG_CONFIG[text] in lines[-1]
        assert told(ada.get("/log"), 200, "The log lists what people did, in English.")

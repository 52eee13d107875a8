"""The application of the desk in other languages: nothing is left in English, and its figures are the same."""

from __future__ import annotations

import re
import time
from pathlib import Path
from typing import Any

import pytest

from . import surveys
from cpi_tools.office.program import Cpi
from cpi_tools.text.languages import speech_of
from .desk_apps import ADA, BEN, LISTEN, Application, Chosen, Person, applied
from .nobodys import NAMES, greek, left_in_english, nobodys_in, seen_of, unmarked
from .test_desk_app_publish import frozen as published_at, waited, with_site

MONTH, CODE = "2026-02", "01.1.1.2-01"
WHY = {f"why-{CODE}": "\u03b3\u03b4 \u03b5"}
PAGES = (
    *("/", f"/month/{MONTH}/", f"/month/{MONTH}/looks?all=1", f"/month/{MONTH}/table", f"/month/{MONTH}/freeze"),
    *(
        f"/month/{MONTH}/what-if",
        f"/month/{MONTH}/field-notes",
        f"/month/{MONTH}/questions",
        "/calendar",
        "/records",
        "/log",
    ),
)

SAME = re.compile(rf"{NAMES.pattern}|\b(?:CET|CEST|CSV|cpi|COLLECTOR/SLOT)\b")
"""What each language has: names of files and zones, and of the program."""


def left_on(answer: str) -> list[str]:
    """What of a page is in English: what people and the office called something is in elements of its own, and so are a
    record and the line of a program, which is marked."""
    found = seen_of(re.sub(r"<(code|textarea|style)\b.*?</\1>", "", answer, flags=re.S))
    return [*left_in_english(found, SAME), *unmarked(found)]


def steps(application: Application, ada: Person) -> None:
    """A month that was tried, a price that somebody noted, a record that was refused, and one without a reply."""
    application.tried(ada, MONTH)
    ada.fill(f"/month/{MONTH}/looks", "/looks", 1, text="γ")
    asked_twice(application, ada)
    offered = ada.sent("/records/judge", text="outlet,12,Γ\n").text
    ada.post("/records/send", left="", offer=re.findall('name="offer" value="([^"]+)"', offered)[0])


def asked_twice(application: Application, ada: Person) -> None:
    """A question that was answered, one in its place that another took, and one that was withdrawn."""
    for _ in range(2):
        ada.fill(f"/month/{MONTH}/looks", "/looks/ask", text="γ")
    phoned(application, f"{MONTH}/questions/2", what="confirmed", receipt="3", text="γ")
    ada.fill(f"/month/{MONTH}/looks", "/looks/ask", text="γ")
    ada.fill(f"/month/{MONTH}/looks", "/withdraw")
    ada.fill(f"/month/{MONTH}/looks", "/looks/ask", text="γ")


def phoned(application: Application, path: str, **form: str) -> Any:
    """What a collector's phone is answered."""
    fields = {"Authorization": f"CPI-Key {surveys.key_of(8)}"}
    client = application.app.test_client()
    return client.post(f"/notes/{path}", data=form, headers=fields, base_url=f"http://{LISTEN}").json


def noted(application: Application, **said: str) -> Any:
    """What a collector's phone is answered to a note of a price."""
    return phoned(application, f"{MONTH}/1", **{"receipt": "2", **said})


def test_no_word_of_a_page_is_left_in_english(cpi: Cpi, tmp_path: Path, monkeypatch: pytest.MonkeyPatch) -> None:
    speech = speech_of(nobodys_in(tmp_path, monkeypatch))
    with applied(cpi, surveys.small(cpi, tmp_path), tmp_path / "room", Chosen(12_000, speech)) as application:
        left = {"sign-in": left_on(application.person().get("/sign-in").text)}
        assert noted(application)["wanted"] == greek("Some text: the note is empty.")
        assert noted(application, text="γ", brand="γ", quantity="γ", sale="yes") == {"note": 1}
        wrong = application.person().signed_in(ADA, "e" * 32).text
        assert greek("This isn't the desk's key")[:20] in seen_text(wrong) and left_on(wrong) == []
        ada, ben = application.person(ADA), application.person(BEN)
        steps(application, ada)
        for path in PAGES:
            answer = ada.get(path, follow_redirects=True)
            assert answer.status_code == 200 and 'lang="el"' in answer.text
            left[path] = left_on(answer.text)
        for told in refused(ada):
            left[told] = left_on(told)
        left["moved"] = left_on(ada.fill(f"/month/{MONTH}/freeze", "/prepare", trial="x", **WHY).text)
        ada.fill(f"/month/{MONTH}/freeze", "/prepare", **WHY)
        for person in (ada, ben):
            left[f"prepared, {person}"] = left_on(person.get(f"/month/{MONTH}/freeze").text)
        form = ben.form(f"/month/{MONTH}/freeze", "/confirm")
        left["late"] = left_on(ben.give(form, prepared="x", because="γ").text)
        left["no reason"] = left_on(ben.give(form).text)
        left["frozen"] = left_on(ben.follow(ben.give(form, because="γ")).text)
        left["again"] = left_on(ben.give(form).text)
    assert {name[:60]: texts for name, texts in left.items() if texts} == {}


def seen_text(page: str) -> str:
    return " ".join(seen_of(page).texts)


def refused(ada: Person) -> list[str]:
    """The pages of what is refused."""
    return [
        ada.sent("/records/judge", text="outlet,10,Other\nitem,X,1,2,3,4\n").text,
        ada.post("/records/judge", text="nothing,1\n").text,
        ada.post("/records/judge", text=f"freeze,{MONTH}\n").text,
        ada.post("/records/judge", text="\n").text,
        ada.post("/records/send", offer="gone", left="").text,
        ada.post("/calendar", token="wrong").text,
        ada.get("/nowhere").text,
        ada.sent(f"/month/{MONTH}/what-if", text="8/1=missing").text,
        ada.get(f"/month/{MONTH}/freeze/confirm").text,
        ada.post(f"/month/{MONTH}/looks", collector="8", slot="1", price="290", what="note", text="").text,
        ada.post(f"/month/{MONTH}/looks", collector="8", slot="1", price="291", what="note", text="γ").text,
        ada.post(f"/month/{MONTH}/freeze/prepare").text,
        ada.post("/month/2026-03/freeze/confirm", prepared="x", trial="x", seen="x").text,
    ]


FIGURES = str.maketrans({**dict.fromkeys("\u2066\u2069\u200e\u061c", ""), "\u2212": "-", "\u066b": ".", "\u066c": ","})
EASTERN = str.maketrans("٠١٢٣٤٥٦٧٨٩", "0123456789")


def test_the_figures_are_the_same_in_arabic_with_its_own_digits(cpi: Cpi, tmp_path: Path) -> None:
    """Those of the response and of the provisional table; the page runs from right to left."""
    file, found = surveys.small(cpi, tmp_path), dict[str, list[list[str]]]()
    for code in ("en", "ar"):
        with applied(cpi, file, tmp_path / code, Chosen(speech=speech_of(code, "arab"))) as application:
            ada = application.person(ADA)
            application.tried(ada, MONTH)
            pages = [ada.get(f"/month/{MONTH}/{page}").text for page in ("", "table")]
            found[code] = [
                [figure.translate(FIGURES).translate(EASTERN) for figure in seen_of(page).figures] for page in pages
            ]
            assert ('<html lang="ar" dir="rtl">' in pages[0]) == (code == "ar")
            assert bool(re.search("[٠-٩]", seen_text(pages[0]))) == (code == "ar")
    assert found["en"] == found["ar"] and min(map(len, found["en"])) > 10


def test_moments_are_those_of_the_office_s_clock(cpi: Cpi, tmp_path: Path) -> None:
    """The window of April opens at noon in Prague, where it is summer: in words of the language, with the zone's name."""
    with applied(cpi, surveys.small(cpi, tmp_path), tmp_path / "room", Chosen(speech=speech_of("fr"))) as application:
        ada = application.person(ADA)
        fields = ["2026-04", "2026-07-01T12:00", "2026-07-02T12:00", "2026-07-03T12:00"]
        data = {"token": ada.token, "word": "calendar", "field": fields}
        offered = ada.follow(ada.client.post("/records/judge", data=data, base_url="http://127.0.0.1:8090")).text
        ada.post("/records/send", left="", offer=re.findall('name="offer" value="([^"]+)"', offered)[0])
        words = ada.words("/calendar")
        assert "avril 2026 1 juillet 2026 à 12:00 CEST 2 juillet 2026 à 12:00 CEST" in words
        assert time.strftime("%Y") not in re.findall(r"\b(\d{4})-\d\d-\d\d", words)


KEPT = (
    *(f"/sample/{kind}" for kind in ("items", "outlets", "collectors", "assignments", "handovers", "calendar")),
    *("/calendar", "/calendar/2026", "/publish", "/year", "/year/2027/"),
    *(f"/year/2027/?sheet={sheet}" for sheet in ("classification", "places", "series", "gone")),
)


def given(ada: Person) -> list[str]:
    """The pages of rows that were given, of what isn't taken, and of what is sent."""
    ada.post("/sample/collectors/judge", pasted="9\n8\n")
    ada.post("/sample/handovers/judge", pasted="7,1,8,2026-03\n7,9,8,2026-03\n")
    ada.post("/sample/outlets/judge", pasted="12;Γ")
    (seen,) = re.findall('name="seen" value="([^"]+)"', ada.get("/sample/outlets").text)
    texts = ("1,2,3", "outlet;outlet\n1;2", '1,"2', "outlet;name", "outlet;name;name\n1;2;3")
    return [
        ada.sent("/sample/outlets/send", seen=seen).text,
        ada.post("/sample/outlets/send", seen=seen).text,
        ada.post("/sample/outlets/drop", shown="x", all="1").text,
        *(ada.post("/sample/outlets/judge", pasted=text).text for text in texts),
        ada.post("/sample/collectors/sheet", collector="7").text,
        ada.post("/publish/plan", month="2026-03", revision="1", what="plan", shown="x").text,
        ada.fill("/publish", "/publish/plan", shown="x").text,
        ada.fill("/publish", "/publish/now", written="x").text,
        ada.post("/year/make", year="x").text,
        ada.post("/year/make", year="2027").text,
        ada.fill("/year/2027/", "/put", code="09", weight="1").text,
        ada.post("/year/2027/send", seen="x").text,
        ada.post("/year/2028/send", seen="x").text,
        ada.fill("/calendar/2026", "/calendar/2026", opens="", closes="", publishes="").text,
        ada.fill("/calendar/2026", "/calendar/2026", was="x").text,
        ada.post("/calendar/2026", token="x", opens="γ").text,
    ]


def test_no_word_of_the_sample_and_the_year_is_left_in_english(
    cpi: Cpi, tmp_path: Path, monkeypatch: pytest.MonkeyPatch
) -> None:
    speech, moment = speech_of(nobodys_in(tmp_path, monkeypatch)), int(time.time()) + 86_400
    with applied(cpi, published_at(cpi, tmp_path, moment), tmp_path / "room", Chosen(speech=speech)) as application:
        publisher, ada = with_site(application, tmp_path), application.person(ADA)
        for path in ("/year/make", "/year/2027/check"):
            ada.post(path, year="2027")
            waited(lambda: not application.desk.drafts.running)
        ada.fill("/publish", "/publish/now")
        waited(lambda: not (application.desk.drafts.running or publisher.running))
        left = {str(number): left_on(text) for number, text in enumerate(given(ada))}
        for path in KEPT:
            answer = ada.get(path, follow_redirects=True)
            assert answer.status_code == 200 and 'lang="el"' in answer.text
            left[path] = left_on(answer.text)
    assert {name: texts for name, texts in left.items() if texts} == {}


def test_what_cpi_refuses_of_a_draft_is_said_in_the_language(
    cpi: Cpi, tmp_path: Path, monkeypatch: pytest.MonkeyPatch
) -> None:
    speech, moment = speech_of(nobodys_in(tmp_path, monkeypatch)), int(time.time()) + 86_400
    with applied(cpi, published_at(cpi, tmp_path, moment), tmp_path / "room", Chosen(speech=speech)) as application:
        ada = application.person(ADA)
        ada.post("/year/make", year="2027")
        waited(lambda: not application.desk.drafts.running)
        ada.fill("/year/2027/", "/put", weight="599000")
        ada.post("/year/2027/check")
        waited(lambda: not application.desk.drafts.running)
        text = ada.get("/year/2027/").text
    assert greek("Correct the weights.") in text
    assert left_on(text) == []

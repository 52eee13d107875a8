"""Each form of the desk's application carries what its page showed: if somebody was quicker, nothing is done, the page says
who and when, and what was filled in is there. No form that did something answers with a page, and none ends in an error of
ours, whatever is missing or odd in it."""

from __future__ import annotations

import csv
import re
import time
from collections.abc import Callable, Iterator
from pathlib import Path
from typing import Any, NamedTuple

import pytest

from cpi_tools.desk.year import drafts
from cpi_tools.desk.records import sending
from cpi_tools.desk.freeze.freezes import PreparedFreeze
from cpi_tools.office.program import Cpi
from lib.served import heard, message, peer_of
from . import surveys
from .desk_apps import ADA, BEN, LISTEN, PATIENCE, Application, Chosen, Person, applied, words_of
from .loads import DESK_KEY
from .page_forms import PageForm, forms_of, with_row
from .surveys import key_of
from .test_desk_app_month import MONTH, SIGNED, WHY, frozen_months
from .test_desk_app_publish import OFFICE, frozen as published_at, with_site

CEM = "Cem"
FREEZE, LOOKS, NOTES, QUESTIONS = (f"/month/{MONTH}/{text}" for text in ("freeze", "looks", "field-notes", "questions"))
YEAR, RICE, FLOUR = "/year/2027/", "01.1.1.1-01", "01.1.1.2-01"
MAY = ["2026-05-01T08:00", "2026-05-24T18:00", "2026-06-10T09:30"]
MAYS = f"calendar,2026-05,{','.join(MAY)}\n"
OTHER_MAY = MAYS.replace("05-24", "05-20")
JUNE = MAYS.replace("2026-06", "2026-07").replace("2026-05", "2026-06")


def waited(condition: Callable[[], object]) -> None:
    begun = time.monotonic()
    while not condition():
        assert time.monotonic() - begun < PATIENCE
        time.sleep(0.02)


@pytest.fixture
def application(cpi: Cpi, tmp_path: Path) -> Iterator[Application]:
    """The small office, with notes of the field, sheets with keys, and a website whose tables are due."""
    with applied(cpi, surveys.small(cpi, tmp_path), tmp_path / "room", Chosen(13)) as it:
        it.desk.given = it.desk.given._replace(phones="https://prices.example")
        with_site(it, tmp_path)
        yield it


@pytest.fixture
def ada(application: Application) -> Person:
    return application.person(ADA)


@pytest.fixture
def ben(application: Application) -> Person:
    return application.person(BEN)


def sends(person: Person, text: str) -> None:
    """A person has records judged, and sends them."""
    judged = person.follow(person.fill("/records", "/records/judge", text=text))
    (form,) = [form for form in forms_of(judged.text) if form.action == "/records/send"]
    assert "done." in words_of(person.follow(person.give(form)).text)


def prepares(application: Application, person: Person) -> None:
    """A person has the month tried, and prepares its freeze."""
    application.tried(person, MONTH)
    assert person.fill(FREEZE, "/prepare", **WHY).status_code == 303


def another_price(application: Application) -> None:
    """A collector sends a price in a window that is opened for it."""
    far = int(time.time()) + 86_400
    rows = f"calendar,{MONTH},2000,{far},{far}\n", f"calendar,{MONTH},2000,4000,5000\n"
    for key, body in ((DESK_KEY, rows[0]), (key_of(7), f"quote,1,{MONTH},price,214\n"), (DESK_KEY, rows[1])):
        with peer_of(application.port) as peer:
            peer.sendall(message("POST /import", key=key, body=body.encode()))
            assert b"refused" not in heard(peer)


def drafted(application: Application, person: Person) -> None:
    """A draft of the coming year is there."""
    assert person.post("/year/make", year="2027").status_code == 303
    waited(lambda: not application.desk.drafts.running)


def noted(application: Application) -> None:
    """A collector sends a note of the field."""
    fields = {"Authorization": f"CPI-Key {key_of(7)}"}
    client = application.app.test_client()
    address, data = f"/notes/{MONTH}/1", {"receipt": "5", "text": "Behind the till"}
    assert client.post(address, data=data, headers=fields, base_url=f"http://{LISTEN}").status_code == 200


def late(answer: Any, *texts: str) -> str:
    """The page of a form that came too late: it says who was quicker, and has what was filled in."""
    words = words_of(answer.text)
    assert answer.status_code == 409, (answer.status_code, words)
    for text in texts:
        assert text in words or f'value="{text}"' in answer.text or text in answer.text, (text, words)
    assert 'http-equiv="refresh"' not in answer.text
    return words


BY_BEN = "Ben changed this after your page was loaded, "


# ---- the freeze


def test_another_trial_isn_t_prepared(application: Application, ada: Person, ben: Person) -> None:
    application.tried(ada, MONTH)
    form = ada.form(FREEZE, "/prepare")
    application.tried(ben, MONTH)
    another_price(application)
    assert ada.give(form, trial="x", **WHY).status_code == 409
    application.tried(ben, MONTH)
    late(ada.give(form, **WHY), "Ben ran a new trial of the month, ", "read it. Nothing was done.", *WHY.values())
    assert PreparedFreeze(application.room / "prepared-freeze.json").read() is None
    # (a trial in which all is as it was is the one that the page showed)
    form = ada.form(FREEZE, "/prepare")
    application.tried(ben, MONTH)
    assert ada.give(form, **WHY).status_code == 303


def test_another_freeze_isn_t_confirmed(application: Application, ada: Person, ben: Person) -> None:
    prepares(application, ada)
    form = ben.form(FREEZE, "/confirm")
    assert ada.fill(FREEZE, "/drop").status_code == 303
    late(ben.give(form, **SIGNED), "There is no longer a prepared freeze: Ada sent it or discarded it, ")
    another_price(application)
    prepares(application, ada)
    late(ben.give(form, **SIGNED), "Ada prepared another freeze, ", SIGNED["because"])
    application.tried(ada, MONTH)
    assert [month[0] for month in frozen_months(application)] == [202512, 202601]
    assert ben.sent(form.action, **{**dict(ben.form(FREEZE, "/confirm").fields), **SIGNED}).status_code == 200
    assert [month[0] for month in frozen_months(application)] == [202512, 202601, 202602]


def test_another_s_freeze_isn_t_dropped(application: Application, ada: Person, ben: Person) -> None:
    prepares(application, ada)
    form = ben.form(FREEZE, "/drop")
    assert ada.fill(FREEZE, "/drop").status_code == 303
    assert application.person(CEM).fill(FREEZE, "/prepare", **WHY).status_code == 303
    late(ben.give(form), "Cem prepared another freeze, ")
    kept = PreparedFreeze(application.room / "prepared-freeze.json").read()
    assert kept and kept.by == CEM


def test_a_look_of_another_price_isn_t_marked(application: Application, ada: Person, ben: Person) -> None:
    application.tried(ada, MONTH)
    seen, note = (ada.form(LOOKS, "/looks", at) for at in (0, 1))
    many = ada.form(LOOKS, "/many")
    with peer_of(application.port) as peer:
        far = int(time.time()) + 86_400
        peer.sendall(message("POST /import", key=DESK_KEY, body=f"calendar,{MONTH},2000,{far},{far}\n".encode()))
        assert b"done" in heard(peer)
    with peer_of(application.port) as peer:
        peer.sendall(message(f"PUT /quote/1/{MONTH}", key=key_of(8), body=b"price,260"))
        assert b"receipt" in heard(peer)
    application.tried(ben, MONTH)
    late(ada.give(note, text="it is right"), BY_BEN, "it is right")
    late(ada.give(seen), BY_BEN)
    late(ada.give(many, what="seen", checked="8-1-252"), BY_BEN)
    assert not application.desk.marks.seen_by_anybody(202602) and not application.desk.marks.notes_of(202602)


# ---- windows


def with_window(form: PageForm, month: str, closes: str) -> PageForm:
    """The form of a year in which a person changed when a window closes, and emptied what is only a proposal."""
    fields, at = list[tuple[str, str]](), ""
    for name, text in form.fields:
        at = text if name == "month" else at
        is_proposed = name in ("opens", "closes", "publishes") and at not in ("2026-05", "2026-06")
        changed = closes if (at, name) == (month, "closes") else text
        fields.append((name, "" if is_proposed else changed))
    return form._replace(fields=fields)


def test_a_window_that_somebody_set_isn_t_taken_back(application: Application, ada: Person, ben: Person) -> None:
    """A person who changes June doesn't send May, and one who changes May is told who did before."""
    sends(ben, MAYS + JUNE)
    form = ada.form("/calendar/2026", "/calendar/2026")
    sends(ben, OTHER_MAY)
    assert ada.give(with_window(form, "2026-06", "2026-06-22T18:00")).status_code == 303
    words = ada.words("/sample/calendar")
    assert "Not accepted yet 1 " in words and "2026-06-22T18:00" in words
    answer = ada.give(with_window(form, "2026-05", "2026-05-28T18:00"))
    late(answer, "Ben sent another window of May 2026, ", "2026-05-28T18:00", "2026-05-20T18:00")
    assert "Not accepted yet 1 " in ada.words("/sample/calendar")
    again = [form for form in forms_of(answer.text) if form.action == "/calendar/2026"]
    assert ("closes", "2026-05-28T18:00") in again[0].fields and ada.give(again[0]).status_code == 303


def test_a_window_that_was_judged_before_another_isn_t_sent(application: Application, ada: Person, ben: Person) -> None:
    sends(ben, MAYS)
    judged = ada.follow(ada.fill("/records", "/records/judge", text=OTHER_MAY))
    (form,) = [form for form in forms_of(judged.text) if form.action == "/records/send"]
    rows = ada.fill("/sample/calendar", "/judge", 1, pasted=f"2026-05,{','.join(MAY).replace('24T', '21T')}")
    assert rows.status_code == 303
    waiting = ada.form("/sample/calendar", "/send")
    sends(ben, MAYS.replace("24T", "27T"))
    sent = len(application.desk.log.entries)
    late(ada.give(form), "changed after yours was checked. Ben sent it, ", "calendar,2026-05,")
    late(ada.give(waiting), "changed after yours was checked. Ben sent it, ")
    assert len(application.desk.log.entries) == sent
    assert ada.fill("/sample/calendar", "/judge", 0).status_code == 303
    assert "1 row sent" in words_of(ada.follow(ada.fill("/sample/calendar", "/send")).text)


# ---- rows that wait


def test_rows_that_changed_in_another_window_stay(application: Application, ada: Person) -> None:
    own = application.person(ADA)
    assert ada.fill("/sample/outlets", "/judge", 1, pasted="10;Other\n12;Harbour").status_code == 303
    (number, *_) = re.findall("mend=([0-9]+)", ada.get("/sample/outlets").text)
    mending = ada.form(f"/sample/outlets?mend={number}", "/judge", 1)
    every, one = ada.form("/sample/outlets", "/drop"), ada.form("/sample/outlets", "/drop", 1)
    sending = ada.form("/sample/outlets", "/send")
    assert own.fill("/sample/outlets", "/drop", 1).status_code == 303
    assert own.fill("/sample/outlets", "/judge", 1, outlet="13", name="Pier").status_code == 303
    late(ada.give(mending, name="Mended here"), "These rows were sent, corrected or discarded", "Mended here")
    for form in (every, one):
        late(ada.give(form), "These rows were sent, corrected or discarded after your page was loaded")
    late(ada.give(sending), "These rows were already sent, or have changed since they were shown")
    assert "Not accepted yet 2 " in ada.words("/sample/outlets")


# ---- the draft of a year


def test_a_weight_that_somebody_put_stays(application: Application, ada: Person, ben: Person) -> None:
    """Each saves the rows of their own; a row that both change is refused to the second one, who sees both."""
    drafted(application, ada)
    table, paste, settings = ada.form(YEAR, "/put", 0), ada.form(YEAR, "/put", 1), ada.form(YEAR, "/set")
    reference, dropping = ada.form(YEAR, "/reference"), ada.form(YEAR, "/drop")
    assert ben.give(with_row(ben.form(YEAR, "/put"), RICE, weight="590000", source="Ben's")).status_code == 303
    both = with_row(with_row(table, RICE, weight="610000"), FLOUR, weight="390000")
    was = f"{RICE} was 600000 , and is 590000, Ben's now."
    late(ada.give(both), BY_BEN, was, "here: 590000", 'value="610000"', 'value="390000"')
    late(ada.give(paste, pasted=f"{RICE};1"), BY_BEN, was, f"{RICE};1")
    late(ada.give(paste, pasted=f"{FLOUR};1000000", whole="1"), BY_BEN, was, f"{FLOUR};1000000")
    late(ada.give(dropping), BY_BEN)
    # (what nobody else touched is saved, by a page of before too)
    assert ada.give(with_row(table, FLOUR, weight="380000")).status_code == 303
    assert ada.give(paste, pasted=f"{FLOUR};410000", source="Ada's").status_code == 409
    assert ada.fill(YEAR, "/put", 1, pasted=f"{FLOUR};410000", source="Ada's").status_code == 303
    assert ben.fill(YEAR, "/set", unit="percent").status_code == 303
    late(ada.give(settings, decimal=","), BY_BEN)
    assert ben.fill(YEAR, "/reference", reference="2026-02").status_code == 303
    late(ada.give(reference, reference="2026-01"), BY_BEN, "2026-01")
    rows = [*csv.reader(ada.get(f"{YEAR}weights.csv").text.splitlines())][1:]
    assert [row[2:] for row in rows] == [["60.0000", "590000", "Ben's"], ["40.0000", "410000", "Ada's"]]


def test_what_was_typed_in_a_row_that_is_found_no_more_is_on_the_page(
    application: Application, ada: Person, ben: Person
) -> None:
    """It was found by its weight, which Ben changes: Ada has both weights before her all the same."""
    drafted(application, ada)
    form = with_row(ada.form(f"{YEAR}?query=600000", "/put"), RICE, weight="610000")
    assert ben.give(with_row(ben.form(YEAR, "/put"), RICE, weight="590000")).status_code == 303
    late(ada.give(form), BY_BEN, "here: 590000", 'value="610000"')


def test_who_changed_what_is_on_the_page_and_in_a_file(application: Application, ada: Person, ben: Person) -> None:
    drafted(application, ada)
    assert ben.give(with_row(ben.form(YEAR, "/put"), RICE, weight="590000")).status_code == 303
    assert ada.fill(YEAR, "/put", 1, pasted=f"code;title;weight\n{FLOUR};Flour;410000").status_code == 303
    words = ada.words(YEAR)
    assert "Ada changed this draft last, " in words
    assert re.search(f"{RICE} Rice, packed 600000 60.000 % 59.000 % \u22121.000 Ben , [0-9]+ ", words), words
    rows = [line.split(",", 1)[1] for line in ada.get(f"{YEAR}who-changed-what.csv").text.splitlines()]
    assert rows == [
        "person,sheet,before,after",
        "Ada,made,,",
        f'Ben,weights,"{RICE},600000,","{RICE},590000,"',
        f'Ada,weights,"{FLOUR},400000,","{FLOUR},410000,"',
    ]
    # (a form that changes nothing is no change)
    assert ada.give(ada.form(YEAR, "/put")).status_code == 303
    assert len(ada.get(f"{YEAR}who-changed-what.csv").text.splitlines()) == 4


def test_a_draft_that_is_made_anew_is_no_draft_of_before(application: Application, ada: Person, ben: Person) -> None:
    drafted(application, ada)
    table, paste = (with_row(ada.form(YEAR, "/put"), RICE, weight="1"), ada.form(YEAR, "/put", 1))
    assert ben.fill(YEAR, "/drop").status_code == 303
    drafted(application, ben)
    assert ben.give(with_row(ben.form(YEAR, "/put"), RICE, weight="590000")).status_code == 303
    late(ada.give(paste, pasted=f"{FLOUR};1"), BY_BEN)
    late(ada.give(table), BY_BEN, "here: 590000")


def test_a_draft_that_changes_as_it_is_judged_isn_t_sent(
    application: Application, ada: Person, ben: Person, monkeypatch: pytest.MonkeyPatch
) -> None:
    """The page would show another plan than the one that was judged."""
    drafted(application, ada)
    stands = sending.what_stands

    def changes_meanwhile(*of: Any) -> Any:
        assert ben.give(with_row(ben.form(YEAR, "/put"), RICE, weight="590000")).status_code == 303
        return stands(*of)

    monkeypatch.setattr(drafts, "what_stands", changes_meanwhile)
    assert ada.post(f"{YEAR}check").status_code == 303
    waited(lambda: not application.desk.drafts.running)
    assert "Ben changed the draft while it was checked: check it again." in ada.words(YEAR)
    assert application.desk.drafts.find_checked(2027) is None


def test_a_row_of_a_draft_that_somebody_changed_stays(application: Application, ada: Person, ben: Person) -> None:
    drafted(application, ada)
    page = f"{YEAR}?sheet=series"
    put = ada.form(page, "/put")
    (out,) = [form for form in forms_of(ada.get(page).text) if ("cell", "8") in form.fields]
    row = {"collector": "8", "slot": "2", "outlet": "10", "item": "RICE", "first": "2026-12", "last": "2027-12"}
    assert ben.fill(page, "/put", **row).status_code == 303
    late(ada.give(out), BY_BEN)
    late(ada.give(put, **{**row, "item": "FLOUR"}), BY_BEN, "FLOUR")
    assert "8,2,10,RICE,2026-12,2027-12" in ada.get(f"{YEAR}series.csv").text


def test_a_draft_that_was_dropped_or_sent_is_told(application: Application, ada: Person, ben: Person) -> None:
    drafted(application, ada)
    weight = ada.form(YEAR, "/put")
    assert ada.post(f"{YEAR}check").status_code == 303
    waited(lambda: not application.desk.drafts.running)
    sending = ada.form(YEAR, "/send")
    assert ben.fill(YEAR, "/drop").status_code == 303
    for form in (weight, sending):
        late(ada.give(form), BY_BEN)
    assert ada.get(YEAR).status_code == 404


def test_a_plan_that_was_judged_before_another_isn_t_sent(application: Application, ada: Person, ben: Person) -> None:
    drafted(application, ada)
    assert ada.post(f"{YEAR}check").status_code == 303
    waited(lambda: not application.desk.drafts.running)
    sending = ada.form(YEAR, "/send")
    records = application.desk.drafts.find_checked(2027)
    assert records
    (plan,) = [record for record in records.records if record[0] == "plan"]
    given = ben.follow(ben.fill("/records", "/records/judge", 1, year="2027", text=plan[2].replace("Rice,", "Rices,")))
    (form,) = [form for form in forms_of(given.text) if form.action == "/records/send"]
    assert ben.give(form).status_code == 303
    late(ada.give(sending), "plan,2027", "changed after yours was checked. Ben sent it, ")


# ---- the website, and notes of the field


def test_what_is_to_be_published_is_what_the_page_showed(cpi: Cpi, tmp_path: Path) -> None:
    moment = int(time.time()) + 86_400
    with applied(cpi, published_at(cpi, tmp_path, moment), tmp_path / "room") as application:
        publisher, ada, ben = with_site(application, tmp_path), application.person(ADA), application.person(BEN)
        now, plan = ada.form("/publish", "/now"), ada.form("/publish", "/plan")
        assert ben.give(ben.form("/publish", "/plan")).status_code == 303
        late(ada.give(plan), BY_BEN)
        dropping = ada.form("/publish", "/plan")
        assert ben.fill("/publish", "/plan").status_code == 303
        late(ada.give(dropping), BY_BEN)
        assert publisher.read_planned() == []
        refused_in_words(ada, ada.form("/publish", "/plan"))
        assert ben.fill("/publish", "/now").status_code == 303
        waited(lambda: not publisher.running)
        late(ada.give(now), BY_BEN)
        assert not publisher.running


def test_a_note_that_somebody_removed_is_told(application: Application, ada: Person, ben: Person) -> None:
    noted(application)
    form = ada.form(NOTES, "/remove")
    assert ben.fill(NOTES, "/remove").status_code == 303
    late(ada.give(form), BY_BEN)


def test_a_question_that_somebody_asked_or_took_back_is_told(
    application: Application, ada: Person, ben: Person
) -> None:
    application.tried(ada, MONTH)
    asking = ada.form(LOOKS, "/looks/ask")
    assert ben.fill(LOOKS, "/looks/ask", text="Is it still 1 kg?").status_code == 303
    late(ada.give(asking, text="Which brand?"), "Ben asked this in the meantime (", "Is it still 1 kg?", "Which brand?")
    withdrawing, removing = (ada.form(QUESTIONS, text) for text in ("/withdraw", "/remove"))
    assert ben.fill(QUESTIONS, "/withdraw").status_code == 303
    late(ada.give(withdrawing), BY_BEN)
    assert ben.fill(QUESTIONS, "/remove").status_code == 303
    late(ada.give(removing), BY_BEN)


# ---- the reason of a revision


def test_a_reason_that_somebody_wrote_stays(application: Application, ada: Person, ben: Person, tmp_path: Path) -> None:
    (tmp_path / "revisions.csv").write_text("month,revision,reason,added\n", encoding="utf-8")
    with_site(application, tmp_path, f"{OFFICE}revisions = revisions.csv\n")
    sends(ben, f"calendar,2026-01,1000,2000,{int(time.time()) + 86_400}\n")
    form = ada.form("/month/2026-01/reason", "/reason")
    assert ben.fill("/month/2026-01/reason", "/reason", **{"reason-en": "Rice was wrong."}).status_code == 303
    late(ada.give(form, **{"reason-en": "Flour was wrong."}), BY_BEN, "Rice was wrong.", "Flour was wrong.")
    assert [it.texts for it in application.desk.reasons.all()] == [{"en": "Rice was wrong."}]
    refused_in_words(ada, ada.form("/month/2026-01/reason", "/reason"))


# ---- every form


class Harmless(NamedTuple):
    """Why a change in between doesn't matter to a form."""

    why: str


COVERED: dict[str, object] = {
    "freeze.prepare": test_another_trial_isn_t_prepared,
    "freeze.confirm": test_another_freeze_isn_t_confirmed,
    "freeze.drop": test_another_s_freeze_isn_t_dropped,
    "looks.mark": test_a_look_of_another_price_isn_t_marked,
    "looks.mark_many": test_a_look_of_another_price_isn_t_marked,
    "calendar.judge_year": test_a_window_that_somebody_set_isn_t_taken_back,
    "records.send": test_a_window_that_was_judged_before_another_isn_t_sent,
    "sample.send_rows": test_a_window_that_was_judged_before_another_isn_t_sent,
    "sample.judge_rows": test_rows_that_changed_in_another_window_stay,
    "sample.drop_rows": test_rows_that_changed_in_another_window_stay,
    "year.put": test_a_weight_that_somebody_put_stays,
    "year.set_all": test_a_weight_that_somebody_put_stays,
    "year.out": test_a_row_of_a_draft_that_somebody_changed_stays,
    "year.set_reference": test_a_weight_that_somebody_put_stays,
    "year.drop": test_a_weight_that_somebody_put_stays,
    "year.send": test_a_plan_that_was_judged_before_another_isn_t_sent,
    "reason.keep": test_a_reason_that_somebody_wrote_stays,
    "publish.now": test_what_is_to_be_published_is_what_the_page_showed,
    "publish.plan": test_what_is_to_be_published_is_what_the_page_showed,
    "field_notes.remove": test_a_note_that_somebody_removed_is_told,
    "asking.ask": test_a_question_that_somebody_asked_or_took_back_is_told,
    "asking.withdraw": test_a_question_that_somebody_asked_or_took_back_is_told,
    "asking.remove": test_a_question_that_somebody_asked_or_took_back_is_told,
    "sign_in.enter": Harmless("it begins a session"),
    "sign_in.leave": Harmless("it ends the own session"),
    "table.begin": Harmless("it tries the month as it is now"),
    "table.try_prices": Harmless("nothing is changed by it"),
    "records.judge": Harmless("it judges on a copy of now, and sends nothing"),
    "year.make": Harmless("a draft that is there isn't made anew"),
    "year.check": Harmless("it judges the draft as it is now, and sends nothing"),
    "log.settle": Harmless("it looks up what has no reply now"),
    "keys.ask_sheet": Harmless("it prints the key that the office has now"),
    "held.drop": Harmless("the form is the own one"),
}
"""The test of a change in between for each form, by the name of its view; a form without one fails the test below."""


def views_of(application: Application) -> set[str]:
    """The views that take forms; what phones send to the notes of the field is no form of the desk."""
    rules = [rule for rule in application.app.url_map.iter_rules() if "POST" in (rule.methods or ())]
    return {rule.endpoint for rule in rules if not rule.rule.startswith("/notes/")}


def view_of(application: Application, form: PageForm) -> str:
    """The view that takes a form."""
    return str(application.app.url_map.bind(LISTEN).match(form.action, method="POST")[0])


PAGES = (
    *(
        "/",
        FREEZE,
        LOOKS,
        NOTES,
        QUESTIONS,
        f"/month/{MONTH}/table",
        f"/month/{MONTH}/what-if",
        "/calendar",
        "/calendar/2026",
    ),
    *(f"/sample/{text}" for text in ("items", "outlets", "collectors", "assignments", "handovers", "calendar")),
    *(f"{YEAR}?sheet={text}" for text in ("weights", "classification", "places", "series")),
    *("/year", "/publish", "/records", "/log"),
)


def shown_forms(application: Application, ada: Person) -> dict[str, list[PageForm]]:
    """The forms of all pages, by their views, once there is something on each page."""
    making = ada.get("/year").text
    noted(application)
    drafted(application, ada)
    assert ada.post(f"{YEAR}check").status_code == 303
    waited(lambda: not application.desk.drafts.running)
    prepares(application, application.person(BEN))
    assert ada.fill(LOOKS, "/looks/ask", text="Is it still 1 kg?").status_code == 303
    for kind, text in (("outlets", "10;Other\n12;Harbour"), ("calendar", f"2026-05;{';'.join(MAY)}")):
        assert ada.fill(f"/sample/{kind}", "/judge", 1, pasted=text).status_code == 303
    forms = dict[str, list[PageForm]]()
    judged = ada.follow(ada.fill("/records", "/records/judge", text="outlet,14,Quay"))
    (number, *_) = re.findall("mend=([0-9]+)", ada.get("/sample/outlets").text)
    mending = ada.get(f"/sample/outlets?mend={number}")
    pages = [making, judged.text, mending.text, *(ada.get(path, follow_redirects=True).text for path in PAGES)]
    for form in (form for page in pages for form in forms_of(page) if form.method == "post"):
        forms.setdefault(view_of(application, form), []).append(form)
    return forms


HIDDEN_HERE = {"sign_in.enter", "log.settle", "held.drop", "freeze.prepare", "publish.plan", "reason.keep"}
"""Forms that these pages don't show: before a session, without a reply, of an ended session, once a freeze is prepared,
without a table that is to come, and a month that is reopened."""


def test_each_form_has_a_test_of_a_change_in_between(application: Application, ada: Person) -> None:
    assert views_of(application) == COVERED.keys()
    assert views_of(application) - shown_forms(application, ada).keys() == HIDDEN_HERE
    assert all(isinstance(it, Harmless) or it in globals().values() for it in COVERED.values())


NEEDED = frozenset(
    "shown seen prepared trial was offer left what sheet unit decimal reference revision month written".split()
)
"""Fields without which a form is none of these pages."""

ODD = ("x", "\u0661" * 30, "\x00\u202e\u2029", '"', "a,b\n;\t'=1+1", "<b>")


def refused_in_words(ada: Person, form: PageForm) -> None:
    """Each field of a form is left out, and has odd texts: what isn't carried out is refused on a page that doesn't load
    itself."""
    for at, name in enumerate(dict.fromkeys(name for name, _ in form.fields if name != "token")):
        left_out = ada.give(form._replace(fields=[field for field in form.fields if field[0] != name]))
        assert name not in NEEDED or left_out.status_code in (400, 409), (form.action, name, left_out.status_code)
        odd = ("", "9" * 5_000, ODD[at % len(ODD)])
        for answer in (left_out, *(ada.give(form, **{name: text}) for text in odd)):
            assert answer.status_code in (303, 400, 403, 409, 413, 503), (form.action, name, answer.status_code)
            assert 'http-equiv="refresh"' not in answer.text, (form.action, name)
    empty = ada.give(form._replace(fields=form.fields[:1]))
    assert empty.status_code in (303, 400, 409), (form.action, empty.status_code)


def test_a_form_with_a_missing_or_an_odd_field_is_refused_in_words(application: Application, ada: Person) -> None:
    for view, forms in shown_forms(application, ada).items():
        if view != "sign_in.leave":
            refused_in_words(ada, forms[0])
            waited(lambda: not application.desk.drafts.running and not application.desk.trials.running)

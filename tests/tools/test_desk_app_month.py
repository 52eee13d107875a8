"""A month in the desk's application: prices to look at, the provisional table, and the freeze by two people."""

from __future__ import annotations

import re
import resource
import time
from pathlib import Path

import pytest

from . import surveys
from cpi_tools.desk.freeze.freezes import PreparedFreeze
from cpi_tools.desk.looks.looks_views import line_of
from cpi_tools.text.report_language import ENGLISH
from cpi_tools.desk.looks.looks import NOTE, SEEN, UNSEEN, Marks, Price
from cpi_tools.desk.looks.month_trials import TablesKept
from cpi_tools.office.program import Cpi, record
from cpi_tools.text.terminal import Fault
from .desk_apps import ADA, BEN, LISTEN, Application, Person, applied, words_of
from .page_forms import forms_of
from lib.served import heard, message, peer_of
from .loads import DESK_KEY
from .surveys import key_of

MONTH = "2026-02"
CODE = "01.1.1.2-01"
WHY = {f"why-{CODE}": "the shop is closed for a week"}


@pytest.fixture
def tried(application: Application, ada: Person) -> Application:
    application.tried(ada, MONTH)
    return application


# ---- the provisional table


def test_the_provisional_table_is_the_one_that_is_published(cpi: Cpi, tried: Application, ada: Person) -> None:
    provisional = ada.get(f"/month/{MONTH}/table/provisional.csv").data
    frozen = [record(4000, "desk", "freeze", MONTH, CODE)]
    copy = tried.room.parent / "frozen.db"
    copy.write_bytes(tried.file.read_bytes())
    log = tried.file.with_name(f"{tried.file.name}-wal")
    if log.exists():
        copy.with_name(f"{copy.name}-wal").write_bytes(log.read_bytes())
    assert cpi.replay(frozen, db=copy) == [{"done": True}]
    assert provisional == cpi.table(copy, MONTH, "csv", 9000)
    words = ada.words(f"/month/{MONTH}/table")
    assert "all items would be at 105.7 (December 2025 = 100): the monthly change would be 1.5 percent" in words
    assert ada.get(f"/month/{MONTH}/table/imputed.csv").text.startswith("division,title,")


def test_a_page_names_the_file_that_has_its_other_rows(
    tried: Application, ada: Person, monkeypatch: pytest.MonkeyPatch
) -> None:
    """There are two collectors: of one row a page, the other one is in the file."""
    found, glance = tried.desk.trials.latest(202602), tried.desk.watch.glance(202602)
    assert found
    report = found.report._replace(sections=[section._replace(shown=1) for section in found.report.sections])
    short = glance._replace(sections=[section._replace(shown=1) for section in glance.sections])
    monkeypatch.setattr(tried.desk.trials, "latest", lambda month: found._replace(report=report))
    monkeypatch.setattr(tried.desk.watch, "glance", lambda month: short)
    for page, file in (("table", "table/collectors.csv"), ("", "glance/collectors.csv")):
        assert f"One more row is in {MONTH}-collectors.csv." in ada.words(f"/month/{MONTH}/{page}")
        kept = ada.get(f"/month/{MONTH}/{file}").headers["Content-Disposition"]
        assert kept == f'attachment; filename="{MONTH}-collectors.csv"'


def test_a_figure_is_explained_down_to_its_receipts(tried: Application, ada: Person) -> None:
    page = ada.get(f"/month/{MONTH}/table").text
    assert f'href="/month/{MONTH}/explain/01.1.1.1-01"' in page
    words = ada.words(f"/month/{MONTH}/explain/01.1.1.1-01")
    assert "every line is true" in words and "= 2520000 / 2460000" in words
    assert "price, by collector 8, slot 1, receipt 3" in words
    answer = ada.get(f"/month/{MONTH}/explain/05")
    assert answer.status_code == 503 and "05 isn't a node of February 2026" in words_of(answer.text)


def test_what_a_handful_of_prices_would_change(ada: Person) -> None:
    """Rice 220 and 252 over 200 and 240 is 1.07272727..; with flour unchanged at 84/80: 0.6 * 107.272727 + 0.4 *
    105."""
    words = words_of(ada.sent(f"/month/{MONTH}/what-if", text="7/1=220\n").text)
    assert "00 105.698455 +1.5 106.363636 +2.1" in words and "01.1.1.1-01 106.164091 +2.4 107.272727 +3.5" in words
    refused = ada.post(f"/month/{MONTH}/what-if", text="7/1=220\n7/x=1\n")
    assert refused.status_code == 400 and "Line 2: 7/x=1 can't be tried. Write a price like 7/2=210" in words_of(
        refused.text
    )
    assert "7/1=220\n7/x=1" in refused.text


def test_a_month_that_can_t_be_frozen_says_why(application: Application, ada: Person) -> None:
    application.tried(ada, "2026-03")
    assert "refused by 21: the month has no calendar row" in ada.words("/month/2026-03/table")


def test_a_day_s_table_is_set_beside_the_one_before(tmp_path: Path) -> None:
    kept = TablesKept(tmp_path / "tables")
    kept.keep(202602, 86_400 * 3 + 10, b"third")
    kept.keep(202602, 86_400 * 4, b"fourth, early")
    kept.keep(202602, 86_400 * 4 + 9, b"fourth")
    kept.keep(202603, 86_400 * 4, b"another month")
    assert kept.before(202602, 86_400 * 4 + 20) == ("1970-01-04", b"third")
    assert kept.before(202602, 86_400 * 9) == ("1970-01-05", b"fourth")
    assert kept.before(202602, 86_400 * 3) is None


# ---- prices to look at


def test_a_price_is_seen_by_a_person_and_noted_for_all(tried: Application, ada: Person) -> None:
    ben = tried.person(BEN)
    page = f"/month/{MONTH}/looks"
    assert "1 to look at; you have seen 0" in ada.words(page)
    assert "Why: the only compared price in its aggregate." in ada.words(page)
    of = {"collector": "8", "slot": "1", "price": "252"}
    assert ada.post(page, what=SEEN, **of).status_code == 303
    assert ada.post(page, what=NOTE, text="called <b>on Monday</b>", **of).status_code == 303
    assert "0 to look at; you have seen 1" in ada.words(page) and "No prices are left" in ada.words(page)
    assert "1 to look at; you have seen 0" in ben.words(page) and "called <b>on Monday</b>" in ben.words(page)
    assert "called <b>" not in ben.get(page).text
    tried.again()
    tried.tried(ada := tried.person(ADA), MONTH)
    assert "0 to look at; you have seen 1" in ada.words(page)
    assert ada.post(page, what=NOTE, text=" ", **of).status_code == 400
    assert ada.post(page, what=SEEN, collector="x", slot="1", price="2").status_code == 400
    late = ada.post(page, what=NOTE, text="a word on it", collector="8", slot="1", price="251")
    assert late.status_code == 409 and "Ada changed this after your page was loaded" in words_of(late.text)
    assert "a word on it" in late.text


def test_a_list_for_a_collector_has_that_one_s_prices(tried: Application, ada: Person) -> None:
    assert ada.get(f"/month/{MONTH}/looks/8.txt").headers["Content-Type"] == "text/plain; charset=utf-8"
    text = ada.get(f"/month/{MONTH}/looks/8.txt").text
    assert "last price 246, now 252, 2.4 percent" in text and "check this one twice" in text
    assert ada.get(f"/month/{MONTH}/looks/7.txt").status_code == 404


def test_prices_that_are_unusual_come_in_the_order_of_their_weight(cpi: Cpi, tmp_path: Path) -> None:
    path = surveys.small(cpi, tmp_path)
    sent = [
        record(3600, key_of(7), "quote", 1, MONTH, "price", 421, "confirm"),
        record(3600, key_of(7), "quote", 2, MONTH, "other", 300),
        record(3600, key_of(8), "quote", 1, MONTH, "price", 252),
    ]
    assert not [it for it in cpi.replay(sent, db=path) if "refused" in it]
    with applied(cpi, path, tmp_path / "room") as application:
        application.tried(ada := application.person(ADA), MONTH)
        found = application.desk.trials.latest(202602)
        assert found and [(look.name, look.why) for look in found.looks] == [
            ("7/1", ["confirmed"]),
            ("7/2", ["a replacement of different quality"]),
        ]
        words = ada.words(f"/month/{MONTH}/looks")
        assert words.index("Slot 7/1") < words.index("Slot 7/2")
        assert "last price 210 , now 421 (+100.5" in words and "Another product was priced" in words


def test_marks_are_of_one_price_and_outlive_a_crash(tmp_path: Path) -> None:
    path, price = tmp_path / "looks", Price(202602, 8, 1, 252)
    marks = Marks(path)
    marks.add(ADA, price, SEEN)
    marks.add(ADA, price._replace(month=202601), SEEN)
    marks.add(BEN, price, SEEN)
    marks.add(BEN, price, UNSEEN)
    marks.add(ADA, price, NOTE, "a note")
    whole = path.read_bytes()
    path.write_bytes(whole + whole[:20])
    again = Marks(path)
    assert (again.seen_by(ADA, 202602), again.seen_by(BEN, 202602)) == ({price}, set())
    assert [note.text for note in again.notes_of(202602)[price]] == ["a note"] and path.read_bytes() == whole
    assert again.seen_by_anybody(202602) == {price} and again.seen_by_anybody(202603) == set()
    with pytest.raises(Fault, match="at most 1,000 characters"):
        again.add(ADA, price, NOTE, "x" * 1001)
    path.write_bytes(b"{}\n" + whole)
    with pytest.raises(Fault, match="line 1 isn't as it was written"):
        Marks(path)


def test_a_full_disk_takes_all_marks_or_none(tmp_path: Path) -> None:
    path, price = tmp_path / "looks", Price(202602, 8, 1, 252)
    marks = Marks(path)
    marks.add(ADA, price, SEEN)
    whole, limits = path.read_bytes(), resource.getrlimit(resource.RLIMIT_FSIZE)
    try:
        resource.setrlimit(resource.RLIMIT_FSIZE, (len(whole) * 5 // 2, limits[1]))
        with pytest.raises(Fault, match="Nothing was noted: The disk is full"):
            marks.add_all(BEN, [price, price._replace(slot=2), price._replace(slot=3)], SEEN)
    finally:
        resource.setrlimit(resource.RLIMIT_FSIZE, limits)
    assert path.read_bytes() == whole and marks.seen_by(BEN, 202602) == set()


def test_a_history_is_a_line_with_gaps() -> None:
    quotes = {202512: ("price", 200), 202601: ("missing", 0), 202602: ("price", 300)}
    drawn = str(line_of(quotes, 202602, ENGLISH.render))
    assert drawn.count("<circle") == 2 and drawn.count("M") == 2 and "2 prices in 13 months, from 200 to 300" in drawn
    assert line_of({}, 202602, ENGLISH.render) == ""


# ---- the freeze


SIGNED = {"because": "called the shop: it is right"}
"""Why a month is frozen with a price that nobody has seen: rice of one shop moves all items by more than is left open."""


def told(person: Person, step: str, **form: str) -> str:
    """What comes of a form of the page: fields that it has carry what the page showed."""
    return words_of(person.follow(person.fill(f"/month/{MONTH}/freeze", f"/freeze/{step}", **form)).text)


def frozen_months(application: Application) -> list[tuple[int, tuple[str, ...]]]:
    with application.desk.copies_now() as copy:
        from cpi_tools.office.stored import read_copy

        with read_copy(copy.path) as office:
            return [(release.month, release.carry) for release in office.releases()]


def test_two_people_freeze_a_month(tried: Application, ada: Person) -> None:
    ben, page = tried.person(BEN), f"/month/{MONTH}/freeze"
    assert "1 aggregate with nothing to compare" in ada.words(page) and "1 closed" in ada.words(page)
    assert f"Give the reason for carrying {CODE}" in told(ada, "prepare")
    assert "There is no prepared freeze of this month" in words_of(
        ben.post(f"{page}/confirm", prepared="x", trial="x", seen="x").text
    )
    assert ada.fill(page, "/prepare", **WHY).status_code == 303
    assert "You prepared the freeze, so another person has to confirm it" in ada.words(page)
    form = ben.form(page, "/confirm")
    for same in (ADA, "ADA", "\uff21da"):
        own = tried.person(same)
        assert not [form for form in forms_of(own.get(page).text) if form.action.endswith("/confirm")]
        answer = own.post(form.action, **{**dict(form.fields), "token": own.token, **SIGNED})
        assert answer.status_code == 403 and "another person has to confirm it" in words_of(answer.text)
    assert [month[0] for month in frozen_months(tried)] == [202512, 202601]
    assert "February 2026 is frozen, revision 1" in told(ben, "confirm", **SIGNED)
    assert frozen_months(tried)[-1] == (202602, (CODE,))
    assert "There is no longer a prepared freeze: Ben sent it or discarded it" in words_of(
        ben.give(form, **SIGNED).text
    )
    log = ada.get("/log.csv").text
    assert "prepared: freeze 2026-02" in log and "the shop is closed for a week" in log
    assert re.search(f'Ben,"freeze,{MONTH},{CODE}",done', log)


def test_what_was_prepared_outlives_the_application_and_can_be_dropped(tried: Application, ada: Person) -> None:
    page = f"/month/{MONTH}/freeze"
    assert ada.fill(page, "/prepare", **WHY).status_code == 303
    tried.again()
    assert "Run a trial of the month: then this page shows the figures to confirm" in tried.person(BEN).words(page)
    tried.tried(ben := tried.person(BEN), MONTH)
    assert "Prepared, but not sent yet" in ben.words(page) and "By Ada" in ben.words(page)
    assert ben.fill(page, "/drop").status_code == 303
    assert "Prepared, but not sent yet" not in ben.words(page)
    assert tried.desk.log.entries[-1].by == BEN and tried.desk.log.entries[-1].text.startswith("dropped: freeze")


def test_a_freeze_that_would_make_another_table_isn_t_sent(tried: Application, ada: Person) -> None:
    ben, page = tried.person(BEN), f"/month/{MONTH}/freeze"
    assert ada.fill(page, "/prepare", **WHY).status_code == 303
    form = ben.form(page, "/confirm")
    far = int(time.time()) + 86_400
    rows = f"calendar,{MONTH},2000,{far},{far}\n", f"calendar,{MONTH},2000,4000,5000\n"
    for key, body in ((DESK_KEY, rows[0]), (key_of(7), f"quote,1,{MONTH},price,214\n"), (DESK_KEY, rows[1])):
        with peer_of(tried.port) as peer:
            peer.sendall(message("POST /import", key=key, body=body.encode()))
            assert b"refused" not in heard(peer)
    answer = ben.give(form, **SIGNED)
    assert (
        answer.status_code == 409
        and "the table would be different: discard the freeze, and prepare it again" in answer.text
    )
    assert f'value="{SIGNED["because"]}"' in answer.text
    assert [month[0] for month in frozen_months(tried)] == [202512, 202601]
    assert PreparedFreeze(tried.room / "prepared-freeze.json").read()
    tried.tried(ben, MONTH)
    words = ben.words(page)
    assert "The table differs from the prepared one. Discard the freeze, and prepare it again." in words
    assert "What has changed since the freeze was prepared" in words and "Confirm, and freeze" not in words


def test_before_its_window_has_closed_a_month_isn_t_prepared(application: Application, ada: Person) -> None:
    far = int(time.time()) + 86_400
    with peer_of(application.port) as peer:
        peer.sendall(message("POST /import", key=DESK_KEY, body=f"calendar,{MONTH},2000,{far},{far}\n".encode()))
        assert b"done" in heard(peer)
    application.tried(ada, MONTH)
    assert "open until" in ada.words(f"/month/{MONTH}/freeze")
    assert "The freeze can be prepared once the window has closed" in ada.words(f"/month/{MONTH}/freeze")
    answer = ada.fill(f"/month/{MONTH}/freeze", "/prepare", **WHY)
    assert answer.status_code == 409 and "The window is open until" in words_of(answer.text)
    assert f'value="{WHY[f"why-{CODE}"]}"' in answer.text


def test_the_freeze_isn_t_a_record_among_others(ada: Person) -> None:
    for text, says in (
        (f"freeze,{MONTH}\n", "Line 1: freeze a month on its own page"),
        ("\noutlet,12,A\nquote,1,2026-02,price,3\n", "Line 3: no record on this page begins with quote"),
        ('outlet,12,"A\n', "Line 1 can't be read as CSV: check its quotation marks."),
        ("\n", "There are no records"),
    ):
        answer = ada.post("/records/judge", text=text)
        assert answer.status_code == 400 and says in words_of(answer.text), answer.text


def test_records_are_judged_before_they_are_sent_and_once(application: Application, ada: Person) -> None:
    text = f"outlet,12,Harbour\noutlet,10,Other\nassign,7,3,12,RICE,2026-03,2026-12\ncollector,9,{key_of(9)}\n"
    judged = ada.sent("/records/judge", text=text)
    words = words_of(judged.text)
    assert "outlet,10,Other refused by 40" in words and "Send 3 records" in words
    assert not application.desk.log.entries and "\noutlet,10,Other\n</textarea>" in judged.text
    (offer,) = re.findall('name="offer" value="([^"]+)"', judged.text)
    assert "3 of 3 done" in words_of(ada.sent("/records/send", offer=offer, left="outlet,10,Other\n").text)
    again = ada.post("/records/send", offer=offer, left="outlet,10,Other\n")
    assert again.status_code == 409 and "were already sent" in words_of(again.text)
    assert len(application.desk.log.entries) == 2


def test_times_of_the_calendar_are_those_of_the_office_s_clock(application: Application, ada: Person) -> None:
    """10:00 UTC is 11:00 in Prague in winter, and noon in summer."""
    judged = ada.sent("/records/judge", text="calendar,2026-03,2026-03-01T11:00,2026-07-01T12:00,2026-07-01T12:00\n")
    assert "calendar,2026-03,1772359200,1782900000,1782900000 done" in words_of(judged.text)
    (offer,) = re.findall('name="offer" value="([^"]+)"', judged.text)
    assert "1 of 1 done" in words_of(ada.sent("/records/send", offer=offer, left="").text)
    assert "1 July 2026, 12:00 CEST (10:00 UTC)" in ada.words("/month/2026-03/")
    odd = ada.sent("/records/judge", text="calendar,2026-03,2026-03-01 11:00,2,3\n")
    assert "calendar,2026-03,2026-03-01 11:00,2,3 refused by 10" in words_of(odd.text)


def test_a_window_is_set_by_a_form_in_the_office_s_time(application: Application, ada: Person) -> None:
    words = ada.words("/calendar")
    assert "follow the office's clock, Europe/Prague" in words
    assert "January 2026 1 January 1970, 01:16 CET 1 January 1970, 01:33 CET 1 January 1970, 01:50 CET frozen" in words
    assert "February 2026 1 January 1970, 01:33 CET" in words and "closed, not frozen" in words
    fields = ["2026-03", "2030-03-01T11:00", "2030-07-01T12:00", "2030-07-05T12:00"]
    form = {"token": ada.token, "word": "calendar", "field": fields}
    judged = ada.follow(ada.client.post("/records/judge", data=form, base_url=f"http://{LISTEN}"))
    assert "calendar,2026-03,1898589600,1909130400,1909476000 done" in words_of(judged.text)
    (offer,) = re.findall('name="offer" value="([^"]+)"', judged.text)
    assert "1 of 1 done" in words_of(ada.sent("/records/send", offer=offer, left="").text)
    window = "1 March 2030, 11:00 CET 1 July 2030, 12:00 CEST 5 July 2030, 12:00 CEST not open yet"
    assert f"March 2026 {window}" in ada.words("/calendar")

"""The sample in the desk's application: rows that are written and pasted, judged on a copy, sent, and kept until they are
carried out or dropped."""

from __future__ import annotations

import re
from typing import Any

import pytest

from cpi_tools.office.copying import private_copy
from cpi_tools.desk.records.record_judge import NotRead
from cpi_tools.desk.serve.watched_office import NoReply, Office
from cpi_tools.desk.records.sample_kinds import KINDS, read_pasted
from cpi_tools.desk.year.calendar_views import move_time
from cpi_tools.office.stored import Assignment, read_copy
from .desk_apps import ADA, BEN, Application, Person, words_of
from lib.served import free_port
from .surveys import key_of


def judged(person: Person, kind: str, **form: str) -> str:
    """The words of a kind's page after rows were given."""
    answer = person.post(f"/sample/{kind}/judge", **form)
    assert answer.status_code == 303, words_of(answer.text)
    return person.words(f"/sample/{kind}")


def sent(person: Person, kind: str) -> str:
    """The words of a kind's page after its good rows were sent."""
    answer = person.fill(f"/sample/{kind}", f"/{kind}/send")
    assert answer.status_code == 303, words_of(answer.text)
    return words_of(person.follow(answer).text)


def slots(application: Application) -> dict[tuple[int, int], Assignment]:
    with private_copy(application.file) as copy, read_copy(copy) as office:
        return {(assignment.collector, assignment.slot): assignment for assignment in office.assignments()}


# ---- a text that is pasted

ROWS = [["10", "Corner shop"], ["11", "Market, hall"]]


@pytest.mark.parametrize(
    "text",
    [
        "10\tCorner shop\n11\tMarket, hall\n",
        "\ufeff10;Corner shop\r\n11;Market, hall\r\n",
        '10,Corner shop\n\n11,"Market, hall"',
        "name\tOutlet\nCorner shop\t10\nMarket, hall\t 11 \n",
        "Number;Name;slots\n10;Corner shop;3\n11;Market, hall;\n",
        "10\tCorner shop\t\t\n11\tMarket, hall\t\t\n",
    ],
)
def test_a_text_is_read_with_each_separator_with_a_heading_and_without(text: str) -> None:
    assert read_pasted(text, KINDS["outlets"]).rows == ROWS


def test_what_may_be_missing_and_months_of_a_spreadsheet() -> None:
    short, whole = ["7", "", "10", "RICE", "2025-12", "2026-12"], ["7", "3", "10", "RICE", "2025-12", "2026-12"]
    assert read_pasted("7,10,RICE,2025-12,Dec 2026", KINDS["assignments"]).rows == [short]
    assert read_pasted("7;3;10;RICE;12/2025;2026M12", KINDS["assignments"]).rows == [whole]
    heading = "last\tfirst month\titem\toutlet\tcollector\tname\n2026-12\t2025-12\tRICE\t10\t7\tCorner"
    assert read_pasted(heading, KINDS["assignments"]) == ([short], ["name"])
    assert read_pasted("collector\n7\n8\n", KINDS["collectors"]).rows == [["7", ""], ["8", ""]]
    assert read_pasted("7,2,8,2026-03", KINDS["handovers"]).rows == [["7", "2", "8", "", "2026-03"]]


@pytest.mark.parametrize(
    ("text", "told"),
    [
        ("", "There are no rows: write or paste one row per line, with the cells outlet, name."),
        ("outlet,name\n", "There are no rows: write or paste one row per line, with the cells outlet, name."),
        ("10,a\n\n11,b,c", 'Line 3, split at commas, has 3 cells: "11", "b", "c". Write the cells outlet, name.'),
        ("10", 'Line 1, split at commas, has one cell: "10". Write the cells outlet, name.'),
        ('10,"a\n', "Line 1 can't be read as CSV: check its quotation marks."),
        ("outlet;name;name\n10;a;b", "Line 1 is a heading that contains name twice: rename one of the two."),
        ("10,a\n" * 20_001, "There are 20,001 rows: at most 20,000 can be sent at once."),
    ],
)
def test_a_text_that_isn_t_read_says_what_was_read_where_and_what_is_wanted(text: str, told: str) -> None:
    with pytest.raises(NotRead, match=f"^{re.escape(told)}$"):
        read_pasted(text, KINDS["outlets"])
    with pytest.raises(NotRead, match="Line 2 is a heading without unit, low: it contains"):
        read_pasted("\nitem,text,high\nA,b,3", KINDS["items"])


# ---- from a paste to the office


def test_rows_are_judged_on_a_copy_sent_and_only_the_refused_ones_stay(application: Application, ada: Person) -> None:
    words = judged(ada, "outlets", pasted="outlet\tname\n12\tHarbour\n10\tAnother shop\n13\tMarket, <b>east</b>\n")
    assert "refused by 40: the code, number, key or slot exists with other content" in words and "Send 2 rows" in words
    assert "12 Harbour" in words and 12 not in outlets(application)
    assert "Market, <b>east</b>" not in ada.get("/sample/outlets").text
    words = sent(ada, "outlets")
    assert "2 rows sent and accepted." in words and "Not accepted yet 1 " in words
    assert outlets(application)[13] == "Market, <b>east</b>" and outlets(application)[10] == "Corner shop"
    (number,) = re.findall('name="number" value="([0-9]+)"', ada.get("/sample/outlets").text)
    application.again()
    ada = application.person(ADA)
    assert "refused by 40" in ada.words("/sample/outlets")
    assert "Another shop" not in application.person(BEN).words("/sample/outlets")
    assert 'value="Another shop"' in ada.get(f"/sample/outlets?mend={number}").text
    mended = ada.fill(f"/sample/outlets?mend={number}", "/judge", 1, outlet="14", name="Another shop")
    assert "Send 1 row" in words_of(ada.follow(mended).text)
    assert "Not accepted yet" not in sent(ada, "outlets") and outlets(application)[14] == "Another shop"


def outlets(application: Application) -> dict[int, str]:
    with private_copy(application.file) as copy, read_copy(copy) as office:
        return office.outlets()


def test_a_row_stays_until_it_is_dropped(ada: Person) -> None:
    for number in ("9999", "10000"):
        judged(ada, "outlets", outlet=number, name="")
    words = ada.words("/sample/outlets")
    assert "Not accepted yet 2 " in words and words.count("refused by 10") == 2
    numbers = re.findall('name="number" value="([0-9]+)"', ada.get("/sample/outlets").text)
    assert ada.post("/sample/outlets/drop", number=numbers[0], shown="").status_code == 409
    ada.fill("/sample/outlets", "/drop", 1)
    assert "Not accepted yet 1 " in ada.words("/sample/outlets")
    ada.fill("/sample/outlets", "/drop")
    assert "Not accepted yet" not in ada.words("/sample/outlets")


def test_a_form_has_a_field_for_each_column(application: Application, ada: Person) -> None:
    tea = {"item": "TEA", "text": "Tea, black", "unit": "100 g", "low": "-50", "high": "+100 %"}
    assert "TEA Tea, black 100 g −50 % +100 %" in judged(ada, "items", **tea)
    assert "1 row sent and accepted." in sent(ada, "items")
    assert "TEA Tea, black 100 g −50 % +100 % 0" in ada.words("/sample/items?query=black+TEA")


# ---- slots, hand-overs, windows


def test_a_slot_that_nobody_named_is_the_next_free_one_and_never_a_second_series(
    application: Application, ada: Person
) -> None:
    given = "7,11,RICE,2026-03,2026-12\n7,10,RICE,2025-12,2026-12\n8,10,FLOUR,2026-03,2026-12"
    words = judged(ada, "assignments", pasted=given)
    assert "7 3 11 RICE 2026-03 2026-12" in words and "8 2 10 FLOUR 2026-03 2026-12" in words
    # (the office has the second row as slot 1)
    assert "7 1 10 RICE 2025-12 2026-12" in words and "Send 3 rows" in words
    sent(ada, "assignments")
    assert sorted(slots(application)) == [(7, 1), (7, 2), (7, 3), (8, 1), (8, 2)]
    judged(ada, "assignments", pasted=given)
    sent(ada, "assignments")
    assert len(slots(application)) == 5


def test_a_series_is_handed_over_once_and_listed(application: Application, ada: Person) -> None:
    for _ in range(2):
        assert "7 1 8 2 2026-03" in judged(ada, "handovers", pasted="collector;slot;to;month\n7;1;8;Mar 2026")
        assert "1 row sent and accepted." in sent(ada, "handovers")
    assert slots(application)[8, 2].series == (7, 1) and (8, 3) not in slots(application)
    assert "7 1 8 2 2026-03 10 Corner shop RICE Rice" in ada.words("/sample/handovers")
    # (the first holder's slot ends in February now, so this is another place)
    assert "refused by 40" in judged(ada, "assignments", pasted="7,10,RICE,2025-12,2026-12")
    assert "refused by 51" in judged(ada, "handovers", pasted="7,2,8,2026-02")


def test_windows_are_set_by_the_office_s_clock(application: Application, ada: Person) -> None:
    text = "2026-03\t2026-03-02T08:00\t2026-03-24T18:00\t2026-04-01T09:30\n"
    assert "2026-03 2026-03-02T08:00 2026-03-24T18:00 2026-04-01T09:30 Correct" in judged(ada, "calendar", pasted=text)
    assert "2026-03 2 March 2026, 08:00 CET 24 March 2026, 18:00 CET 1 April 2026, 09:30 CEST" in sent(ada, "calendar")


# ---- keys


def test_a_key_is_drawn_or_kept_in_memory_and_is_nowhere_to_be_read(application: Application, ada: Person) -> None:
    words = judged(ada, "collectors", pasted=f"9\n12,{key_of(12)}\n8,{key_of(13)}\n")
    assert "9 (key)" in words and "12 (key)" in words and "refused by 40" in words and "Send 2 rows" in words
    assert "2 rows sent and accepted." in sent(ada, "collectors")
    with private_copy(application.file) as copy, read_copy(copy) as office:
        keys = office.keys()
    assert keys[12] == key_of(12) and re.fullmatch("[0-9a-f]{32}", keys[9])
    ada.get("/sample/collectors.csv")
    seen = [path.read_bytes() for path in application.room.rglob("*") if path.is_file()]
    seen += [ada.get(f"/sample/{path}").data for path in ("collectors", "collectors.csv", "collectors?query=9")]
    seen.append(ada.get("/log").data)
    assert not any(key.encode() in each for each in seen for key in (*keys.values(), key_of(13)))


def test_a_key_goes_with_its_row_and_is_gone_after_a_new_start(application: Application, ada: Person) -> None:
    judged(ada, "collectors", collector="8", key=key_of(13))
    (number,) = re.findall('name="number" value="([0-9]+)"', ada.get("/sample/collectors").text)
    ada.fill(f"/sample/collectors?mend={number}", "/judge", 1, collector="13")
    judged(ada, "collectors", pasted=f"8,{key_of(14)}")
    assert "1 row sent and accepted." in sent(ada, "collectors")
    with private_copy(application.file) as copy, read_copy(copy) as office:
        assert office.keys()[13] == key_of(13)
    application.again()
    ada = application.person(ADA)
    assert "A key is kept only in memory" in judged(ada, "collectors")


def test_a_sheet_has_the_key_and_the_log_says_who_printed_it(application: Application, ada: Person) -> None:
    assert "(--phones)" in ada.words("/sample/collectors")
    assert ada.post("/sample/collectors/sheet", collector="7").status_code == 400
    application.desk.given = application.desk.given._replace(phones="https://prices.example")
    answer = ada.sent("/sample/collectors/sheet", collector="7", name="Lovelace <b>", language="en")
    groups = [key_of(7)[at : at + 4] for at in range(0, 32, 4)]
    assert answer.status_code == 200 and all(f"<span>{group}</span>" in answer.text for group in groups)
    assert "Lovelace &lt;b&gt;" in answer.text and "https://prices.example/collect/" in answer.text
    assert answer.headers["Cache-Control"] == "no-store" and "script" not in answer.headers["Content-Security-Policy"]
    assert "printed the sheet with the key of collector 7" in ada.words("/log")
    for form in ({"collector": "70"}, {"collector": "x"}, {"collector": "7", "name": "x" * 61}, {"language": "tlh"}):
        refused = ada.post("/sample/collectors/sheet", **{"collector": "7", **form})
        assert refused.status_code == 400 and "No sheet was made" in words_of(refused.text)


# ---- whatever is killed


def test_what_was_on_its_way_is_found_in_the_log(
    application: Application, ada: Person, monkeypatch: pytest.MonkeyPatch
) -> None:
    """The reply is lost, and so is the first look: the row stays until the log says what became of it."""
    desk = application.desk
    judged(ada, "outlets", pasted="12,Harbour")
    carry_out = desk.office.carry_out

    def lost(*given: object) -> None:
        carry_out(*given)  # type: ignore[arg-type]
        raise NoReply("lost")

    monkeypatch.setattr(desk.office, "carry_out", lost)
    monkeypatch.setattr(desk.office, "wait", lambda: (_ for _ in ()).throw(NoReply("lost")))
    words = sent(ada, "outlets")
    assert (
        "0 of 1 row accepted" in words
        and "no reply yet: the page looks this record up before it sends anything else" in words
    )
    assert ada.fill("/sample/outlets", "/drop").status_code == 303
    assert "Not accepted yet 1 " in ada.words("/sample/outlets")
    application.again()
    ada = application.person(ADA)
    assert "no reply yet" in ada.words("/sample/outlets")
    ada.post("/log/settle")
    assert "Not accepted yet" not in ada.words("/sample/outlets") and outlets(application)[12] == "Harbour"


def test_an_end_before_anything_was_sent_says_so(
    application: Application, ada: Person, monkeypatch: pytest.MonkeyPatch
) -> None:
    judged(ada, "outlets", pasted="12,Harbour")

    class Killed(BaseException):
        pass

    def killed(*given: object) -> None:
        raise Killed

    monkeypatch.setattr(application.desk, "send", killed)
    with pytest.raises(Killed):
        sent(ada, "outlets")
    application.again()
    ada = application.person(ADA)
    assert "Not sent: the application was stopped first." in ada.words("/sample/outlets")
    assert "Send 1 row" in judged(ada, "outlets") and "1 row sent" in sent(ada, "outlets")


def test_nothing_is_sent_but_what_was_seen(application: Application, ada: Person) -> None:
    judged(ada, "outlets", pasted="12,Harbour")
    (seen,) = re.findall('name="seen" value="([^"]+)"', ada.get("/sample/outlets").text)
    judged(ada, "outlets", pasted="13,Other")
    answer = ada.post("/sample/outlets/send", seen=seen)
    assert answer.status_code == 409 and "see the current state" in words_of(answer.text)
    assert 12 not in outlets(application)
    sent(ada, "outlets")
    assert ada.post("/sample/outlets/send", seen=seen).status_code == 409


def test_without_an_office_nothing_is_sent_and_the_rows_stay(application: Application, ada: Person) -> None:
    judged(ada, "outlets", pasted="12,Harbour")
    (seen,) = re.findall('name="seen" value="([^"]+)"', ada.get("/sample/outlets").text)
    application.desk.sender._office = Office(f"http://127.0.0.1:{free_port()}")
    answer = ada.post("/sample/outlets/send", seen=seen)
    assert answer.status_code == 503 and "Nothing was sent: The office at" in words_of(answer.text)
    words = ada.words("/sample/outlets")
    assert "Not sent: The office at" in words and "Send 1 row" in words
    application.desk.sender._office = application.desk.office
    assert "1 row sent and accepted." in sent(ada, "outlets")


# ---- lists


def test_a_list_is_searched_cut_down_and_saved(application: Application, ada: Person) -> None:
    assert "RICE Rice 1 kg −50 % +100 % 2" in ada.words("/sample/items")
    assert "10 Corner shop 2" in ada.words("/sample/outlets") and "7 2 8 1" in ada.words("/sample/collectors")
    words = ada.words("/sample/assignments?query=market+rice")
    assert "In the office 1 " in words and "8 1 11 Market hall RICE Rice 2025-12 2026-12 8/1" in words
    for query, count in (("7/2", 1), ("2025-12", 3), ("7", 2), ("CORNER", 2), ("<b>", 1), ("none", 0)):
        assert f"In the office {count} " in ada.words(f"/sample/assignments?query={query}"), query
    assert "In the office 2 " in ada.words("/sample/assignments?collector=7")
    assert "In the office 1 " in ada.words("/sample/assignments?collector=7&item=RICE")
    lines = ada.get("/sample/assignments.csv?outlet=10").text.splitlines()
    assert lines[0] == "collector,slot,outlet,name,item,text,first,last,series"
    assert lines[1:] == [
        "7,1,10,Corner shop,RICE,Rice,2025-12,2026-12,7/1",
        '7,2,10,Corner shop,FLOUR,"Flour, <b>wheat</b>",2025-12,2026-12,7/2',
    ]
    assert ada.get("/sample/nothing").status_code == 404 and ada.get("/sample/calendar.csv").status_code == 404


# ---- the calendar of a year


def test_a_year_is_set_in_one_form_by_the_office_s_clock(application: Application, ada: Person) -> None:
    """March is moved forward from February, by its days and hours; the office's clock is in summer time from April on."""
    judged(ada, "calendar", pasted="2026-02,2026-02-02T08:00,2026-02-24T18:00,2026-03-02T09:30")
    sent(ada, "calendar")
    page = ada.get("/calendar/2026").text
    assert '<p class="note">January 2026: frozen' in page and 'id="opens-2026-01"' not in page
    for field in ('"opens" value="2026-03-02T08:00"', '"closes" value="2026-04-24T18:00"'):
        assert f"name={field}" in page
    # (December would be as the year before, whose window is in 1970: its times are emptied)
    rows = re.findall('name="(month|was|opens|closes|publishes)" value="([^"]*)"', page)
    data: dict[str, Any] = {"token": ada.token}
    for name, value in rows:
        data.setdefault(name, []).append("" if value.startswith("197") else value)
    answer = ada.client.post("/calendar/2026", data=data, base_url="http://127.0.0.1:8090")
    assert answer.status_code == 303
    words = ada.words("/sample/calendar")
    assert "Not accepted yet 9 " in words and "2026-02 2026-02-02T08:00" not in words
    assert "9 rows sent and accepted." in sent(ada, "calendar")
    with private_copy(application.file) as copy, read_copy(copy) as office:
        windows = {it.month: it for it in office.calendar()}
    # (08:00 CEST and 09:30 CEST, two hours before UTC)
    assert windows[202604].opens == 1_775_109_600 and windows[202604].publishes == 1_777_707_000
    assert 202612 not in windows
    late = ada.client.post("/calendar/2026", data=data, base_url="http://127.0.0.1:8090")
    assert late.status_code == 409 and "Ada sent another window of" in words_of(late.text)
    assert "Not accepted yet" not in ada.words("/sample/calendar")
    assert ada.get("/calendar/1999").status_code == 404


def test_a_day_that_a_month_hasn_t_is_its_last_one() -> None:
    assert (
        move_time("2026-01-31T08:00", 1) == "2026-02-28T08:00"
        and move_time("2024-02-29T23:59", 12) == "2025-02-28T23:59"
    )
    assert move_time("2026-12-15T00:00", 1) == "2027-01-15T00:00"

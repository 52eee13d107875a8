"""Records that a person types, pastes or chooses as a file at the desk's application, and what is said of them."""

from __future__ import annotations

import io
import json
import re
from typing import Any

import pytest

from cpi_tools.desk.records import records_views
from cpi_tools.desk.serve.sent_forms import MOST_BYTES
from cpi_tools.desk.records.record_judge import lines_of
from .desk_apps import LISTEN, Application, Person, words_of

PLAN = """T,00,All
T,01,Food
T,01.1,Food
T,01.1.1,Cereals
T,01.1.1.1,Rice
T,01.1.1.1-01,Rice
W,01.1.1.1-01,{weight}
"""


def chosen(person: Person, content: bytes, name: str = "rows.csv", **form: str) -> Any:
    """Has a file judged that a person chose."""
    data = {"token": person.token, "file": (io.BytesIO(content), name), **form}
    return person.follow(
        person.client.post("/records/judge", data=data, base_url=f"http://{LISTEN}", content_type="multipart/form-data")
    )


def offer_of(page: str) -> str:
    (offer,) = re.findall('name="offer" value="([^"]+)"', page)
    return str(offer)


def test_of_a_file_each_refusal_has_its_line(ada: Person) -> None:
    rows = '\ufeffoutlet,50,"New, with a comma"\r\n\r\noutlet,51,"Shop\r\nof two lines"\r\noutlet,10,Other shop\r\nitem,X\r\n'
    answer = chosen(ada, rows.encode(), text=" \n")
    words = words_of(answer.text)
    assert answer.status_code == 200
    assert "1 would be accepted, 3 refused." in words
    refused = re.findall('<tr class="refused"><th [^>]*>([0-9]+)</th>', answer.text)
    assert refused == ["3", "5", "6"]  # (the second of these records begins in the third line)
    assert "refused by 40: the code, number, key or slot exists with other content;" in words
    assert "Send one record" in words
    sent = ada.sent("/records/send", offer=offer_of(answer.text), left="")
    assert "1 of 1 done." in words_of(sent.text)


@pytest.mark.parametrize("more", [{}, {"word": "plan", "year": "2027"}])
def test_a_file_and_a_typed_text_are_refused_together_since_one_would_be_lost(
    ada: Person, more: dict[str, str]
) -> None:
    answer = chosen(ada, b"outlet,50,Chosen\n", text="outlet,60,Typed", **more)
    assert answer.status_code == 400 and 'name="offer"' not in answer.text
    assert "You chose a file, but the field contains text too" in words_of(answer.text)
    kept = re.findall("<textarea[^>]*>([^<]*)</textarea>", answer.text)
    assert [element.strip() for element in kept] == (["", "outlet,60,Typed"] if more else ["outlet,60,Typed", ""])


@pytest.mark.parametrize(
    ("name", "content"),
    [("plan.xlsx", b"PK\x03\x04\xff\xfe"), ("sixteen.csv", "outlet,60,Shop\n".encode("utf-16")), ("zero.csv", b"a\0b")],
)
@pytest.mark.parametrize("word", ["", "plan"])
def test_a_file_that_is_no_text_is_told_and_what_was_typed_stays(
    ada: Person, name: str, content: bytes, word: str
) -> None:
    more = {"word": word, "year": "2027"} if word else {}
    answer = chosen(ada, content, name, text="outlet,60,Typed", **more)
    assert answer.status_code == 400
    assert f"{name} isn't a text in UTF-8. Save the spreadsheet as CSV" in words_of(answer.text).replace(
        "\u2068", ""
    ).replace("\u2069", "")
    assert "outlet,60,Typed" in answer.text and 'name="offer"' not in answer.text


def test_a_line_within_a_text_is_no_record_of_its_own(application: Application, ada: Person) -> None:
    """Else a freeze could be sent by one person, as a part of an outlet's name."""
    answer = ada.sent("/records/judge", text='outlet,51,"Shop\nfreeze,2026-02"\noutlet,52,Shop')
    assert "1 would be accepted, 1 refused." in words_of(answer.text)
    assert "1 of 1 done." in words_of(ada.sent("/records/send", offer=offer_of(answer.text), left="").text)
    assert "freeze" not in (application.room / "desk.log").read_text(encoding="utf-8")


def test_a_form_that_is_too_long_is_told(ada: Person) -> None:
    answer = chosen(ada, b"outlet,60,Shop\n" * (MOST_BYTES // 15 + 1))
    assert answer.status_code == 413
    assert "A form can have at most 16,000,000 bytes: send a longer file in parts" in words_of(answer.text)


def test_of_many_rows_the_refused_ones_are_listed_first_and_all_of_them_stay(
    ada: Person, monkeypatch: pytest.MonkeyPatch
) -> None:
    monkeypatch.setattr(records_views, "SHOWN", 3)
    good = [f"outlet,{number},Shop" for number in range(100, 120)]
    bad = [f"outlet,{number},No" for number in range(10, 12)] + ["item,X"] * 8
    answer = chosen(ada, "\n".join([*good, *bad]).encode())
    assert "20 would be accepted, 10 refused. The first few of each kind are listed." in words_of(answer.text)
    lines = re.findall('<tr(?: class="refused")?><th [^>]*>([0-9]+)</th>', answer.text)
    assert lines == ["21", "22", "23", "1", "2", "3"]
    left = re.findall('<textarea[^>]* id="text"[^>]*>\n(.*?)</textarea>', answer.text, re.S)[0]
    assert left.splitlines() == bad
    sent = ada.sent("/records/send", offer=offer_of(answer.text), left=left)
    words = words_of(sent.text)
    assert "20 of 20 done." in words and "only those that weren't accepted are listed" in words
    assert "item,X" in words  # (they are in the field)


def test_a_plan_is_typed_or_chosen_and_stays_until_it_is_right(ada: Person) -> None:
    wrong = ada.sent("/records/judge", word="plan", year="2027", text=PLAN.format(weight=999_000).replace("\n", "\r\n"))
    assert "refused by 44, fault 4, found 999000" in words_of(wrong.text)
    assert 'value="2027"' in wrong.text and "W,01.1.1.1-01,999000" in wrong.text and 'name="offer"' not in wrong.text
    arabic = "".join(chr(0x660 + int(it)) for it in "2027")
    right = chosen(ada, PLAN.format(weight=1_000_000).encode(), "plan.csv", word="plan", year=arabic)
    assert "1 would be accepted, 0 refused." in words_of(right.text)
    assert "1 of 1 done." in words_of(ada.sent("/records/send", offer=offer_of(right.text), left="").text)


def test_a_window_that_lets_a_table_out_too_early_is_warned_of_before_it_is_sent(
    application: Application, ada: Person
) -> None:
    """The table of 2026-03 would come out before the revision of 2026-02, which it is computed from."""
    far, further = 4_000_000_000, 4_100_000_000
    form = {"text": f"calendar,2026-02,1,{far},{further}\ncalendar,2026-03,1,{far},{far}\n"}
    answer = ada.sent("/records/judge", **form)
    words = words_of(answer.text)
    assert "2 would be accepted" in words
    assert "Warning. The table of March 2026 is published at 2 October 2096, 09:06 CEST" in words
    assert "from which it is computed, only at 3 December 2099" in words and "set a later release time for it" in words
    later = ada.sent("/records/judge", text=f"calendar,2026-03,1,{far},{further}\n")
    assert "Warning." not in words_of(later.text)


def test_the_file_for_the_phones_is_that_of_the_calendar(application: Application, ada: Person) -> None:
    far = 4_000_000_000
    judged = ada.sent("/records/judge", text=f"calendar,2096-09,{far - 9},{far},{far}\n")
    ada.sent("/records/send", offer=offer_of(judged.text), left="")
    answer = ada.get("/calendar/calendar.json")
    summer = {"opens_zone": ["CEST", 7200], "closes_zone": ["CEST", 7200]}
    assert json.loads(answer.text)["months"][-1] == {"month": "2096-09", "opens": far - 9, "closes": far, **summer}
    assert str(application.person().get("/calendar/calendar.json").headers["Location"]).startswith("/sign-in?")


def test_lines_are_those_at_which_records_begin() -> None:
    assert lines_of('\na,1\n\n\nb,"x\ny"\nc\n') == [2, 5, 7]


def test_a_month_is_read_whatever_digits_the_keyboard_writes(ada: Person) -> None:
    month = "".join(chr(0x660 + int(it)) if it.isdigit() else it for it in "2026-09")
    data = {
        "token": ada.token,
        "word": "calendar",
        "field": [month, "2026-09-01T06:00", "2026-09-30T18:00", "2026-10-10T09:00"],
    }
    answer = ada.follow(ada.client.post("/records/judge", data=data, base_url=f"http://{LISTEN}"))
    assert "calendar,2026-09," in answer.text and "1 would be accepted" in words_of(answer.text)

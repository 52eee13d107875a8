"""The prices to look at as a table: filters, orders, pages that skip nothing, marks of many at once, and what stands next
to a price."""

from __future__ import annotations

import re
from collections.abc import Iterator
from html import unescape
from pathlib import Path
from typing import Any

import pytest

from cpi_tools.desk.month.unusual import CONFIRMED, OF_AGGREGATE, OTHER
from cpi_tools.desk.looks.looks import SHOWN, Chosen, Look, change_of, chosen_of, key_of, part_of
from cpi_tools.desk.looks.month_trials import Running
from cpi_tools.office.program import Cpi, record
from . import surveys
from .desk_apps import ADA, BEN, LISTEN, Application, Person, applied, words_of
from .surveys import key_of as key_of_collector

MONTH = "2026-02"
LOOKS = f"/month/{MONTH}/looks"


def look(collector: int, slot: int, percent: str = "1.0", code: str = "01.1.1.1-01", why: Any = CONFIRMED) -> Look:
    """A price that moves all items by its slot."""
    return Look(
        (collector, slot), (collector, slot), code, f"Item {slot:03}", "Shop", 100, 101, percent, [why], [], slot
    )


MANY = [look(1 + at % 3, at) for at in range(130)]


def keys(looks: list[Look]) -> list[str]:
    return [key_of(look) for look in looks]


# ---- which are shown


def test_a_page_begins_after_a_price_so_none_is_skipped_if_some_were_seen_meanwhile() -> None:
    seen = set[tuple[int, int]]()
    shown, chosen = list[str](), Chosen()
    while True:
        part = part_of(MANY, seen, chosen)
        shown += keys(part.looks)
        seen |= {
            look.slot for look in part.looks[::2]
        }  # (every other one is marked, so the page before is shorter now)
        if part.further is None:
            break
        chosen = chosen_of(part.further)
    assert shown == keys(MANY)


def test_earlier_ones_are_those_just_before() -> None:
    last = part_of(MANY, set(), Chosen(after=key_of(MANY[99])))
    assert keys(last.looks) == keys(MANY[100:]) and last.further is None and last.earlier
    middle = part_of(MANY, set(), chosen_of(last.earlier))
    assert keys(middle.looks) == keys(MANY[100 - SHOWN : 100])
    first = part_of(MANY, set(), chosen_of(middle.earlier or {}))
    assert keys(first.looks) == keys(MANY[:SHOWN]) and first.earlier is None
    assert keys(part_of(MANY, set(), Chosen(after="9-9999")).looks) == keys(MANY[:SHOWN])


def test_filters_go_together_and_what_no_page_said_counts_for_nothing() -> None:
    looks = [
        look(1, 1, code="01.1.1.1-01"),
        look(1, 2, code="02.1.1.1-01"),
        look(2, 3, code="02.1.1.1-01", why=OF_AGGREGATE),
        look(2, 4, code="02.1.1.1-01", why=OTHER),
    ]
    seen = {(2, 3)}

    def of(**asked: str) -> list[str]:
        return keys(part_of(looks, seen, chosen_of(asked)).looks)

    assert of() == ["1-1", "1-2", "2-4"] and of(show="seen") == ["2-3"]
    assert of(show="all") == of(all="1") == ["1-1", "1-2", "2-3", "2-4"]
    assert of(show="all", division="02") == ["1-2", "2-3", "2-4"] and of(who="1") == ["1-1", "1-2"]
    assert of(reason="quality") == ["2-4"] and of(show="all", division="02", reason="aggregate") == ["2-3"]
    assert of(only="2-3") == ["2-3"] and part_of(looks, seen, chosen_of({"only": "2-3"})).number == 3
    assert of(show="x", reason="x", sort="x") == of()


def test_orders() -> None:
    looks = [look(2, 1, "5.0"), look(1, 2, "-9.0"), look(1, 3, "")]
    for order, first in (("", "2-1"), ("change", "1-2"), ("item", "2-1"), ("slot", "1-2"), ("code", "2-1")):
        assert keys(part_of(looks, set(), chosen_of({"sort": order})).looks)[0] == first, order


# ---- what stands next to a price


@pytest.fixture
def application(cpi: Cpi, tmp_path: Path) -> Iterator[Application]:
    """Rice of two collectors, one far up; a replacement that can't be compared; flour of one of them."""
    file = surveys.small(cpi, tmp_path)
    sent = [
        record(3600, key_of_collector(7), "quote", 1, MONTH, "price", 421, "confirm"),
        record(3600, key_of_collector(7), "quote", 2, MONTH, "other", 300),
        record(3600, key_of_collector(8), "quote", 1, MONTH, "price", 252),
    ]
    assert not [it for it in cpi.replay(sent, db=file) if "refused" in it]
    with applied(cpi, file, tmp_path / "room") as it:
        it.tried(it.person(ADA), MONTH)
        yield it


def test_each_page_counts_the_same_prices(application: Application) -> None:
    """Rice of 7 and 8 and the replacement of 7: the card and the part of the table, the table of prices, the freeze."""
    ada = application.person(BEN)
    table, shown = ada.get(f"/month/{MONTH}/table").text, ada.get(f"{LOOKS}?show=all").text
    (card,) = re.findall(r"<dt>to look at</dt><dd>([0-9,]+)", table)
    (part,) = re.findall(r'<h2>Prices to look at <span class="count">([0-9,]+)</span>', table)
    rows, trial = re.findall(r'<tr class="look', shown), application.desk.trials.latest(202602)
    assert trial and int(card) == int(part) == len(rows) == len(trial.looks)
    assert "a replacement of different quality" in table
    assert f"{card} of {card}" in words_of(ada.get(f"/month/{MONTH}/freeze").text)
    slots = [line.split(",")[0] for line in ada.get(f"/month/{MONTH}/table/outliers.csv").text.splitlines()[1:]]
    assert "7/2" in slots and len(slots) == len(rows)


def test_the_same_item_elsewhere_and_the_aggregate_stand_beside_a_price(application: Application) -> None:
    """Rice: (421 + 252) / (210 + 246) = 673 / 456 = 1.4758772, and from 246 to 252 it is 2.4 percent."""
    found = application.desk.trials.latest(202602)
    assert found
    rice, replaced = found.looks
    assert [(it.outlet, it.price, it.percent) for it in rice.others] == [("Market hall", 252, "2.4")]
    assert (rice.percent, rice.aggregate) == ("100.5", "47.6")
    # (of another quality: what it was before is no price to compare it with)
    assert replaced.last and replaced.percent == ""
    assert change_of(None, 300) == "" and change_of(200, 100) == "-50.0"


def test_a_page_with_rows_doesn_t_load_itself_while_a_trial_runs(
    application: Application, ada: Person, monkeypatch: pytest.MonkeyPatch
) -> None:
    """Somebody may be writing in it: its script looks for the trial's end."""
    monkeypatch.setattr(application.desk.trials, "running", Running(202602, 0, "reading", BEN))
    page = ada.get(LOOKS).text
    assert 'http-equiv="refresh"' not in page and 'data-running="1"' in page
    assert f'<a href="{LOOKS}">See its progress</a>' in page and "This page refreshes itself." not in page
    monkeypatch.setattr(application.desk.trials, "latest", lambda month: None)
    assert 'http-equiv="refresh"' in ada.get(LOOKS).text


# ---- marks


def checked(person: Person, what: str, *prices: str) -> Any:
    """Marks the prices of checked rows."""
    (form,) = [form for form in [person.form(LOOKS, "/many")]]
    data = {"token": dict(form.fields)["token"], "what": what, "checked": list(prices)}
    return person.client.post(form.action, data=data, base_url=f"http://{LISTEN}")


def test_many_are_marked_at_once_or_none(application: Application, ada: Person) -> None:
    page = unescape(ada.get(LOOKS).text)
    prices = re.findall('name="checked" value="([^"]+)"', page)
    assert prices == ["7-1-421", "7-2-300"]
    assert checked(ada, "seen", *prices).status_code == 303
    assert "0 to look at; you have seen 2" in ada.words(LOOKS)
    assert "No prices are left to look at." in ada.words(LOOKS)
    assert application.desk.marks.seen_by(BEN, 202602) == set()
    ben = application.person(BEN)
    late = checked(ben, "seen", "7-1-421", "7-2-999")
    words = words_of(late.text)
    assert late.status_code == 409 and "These prices have changed since your page was loaded: 7/2 ." in words
    assert "2 to look at; you have seen 0" in words and re.search('value="7-1-421"[^>]* checked', late.text)
    assert checked(ben, "seen").status_code == 400
    assert "No price is selected" in words_of(checked(ben, "seen").text)
    for odd in ("7-1", "7-1-x", "7-1-421-1", "-1-1-1", ""):
        assert checked(ben, "seen", odd).status_code == 400, odd


def test_a_mark_leads_to_the_next_row_with_the_same_filters(application: Application, ada: Person) -> None:
    form = ada.form(f"{LOOKS}?sort=slot", "/looks")
    assert ("sort", "slot") in form.fields and ("slot", "1") in form.fields
    assert ada.give(form).headers["Location"] == f"{LOOKS}?sort=slot#look-7-2"
    noted = ada.form(f"{LOOKS}?show=all", "/looks", 1)
    assert ada.give(noted, text="a word").headers["Location"] == f"{LOOKS}?show=all#look-7-1"
    only = [form for form in [ada.form(LOOKS, "/looks")] if ("slot", "2") in form.fields]
    assert ada.give(only[0], only="7-2").headers["Location"].startswith(f"{LOOKS}?only=7-2#look-7-2")
    words = ada.words(f"{LOOKS}?only=7-2")
    assert "0 to look at; you have seen 2" in words and "Slot 7/2" in words and "Slot 7/1" not in words

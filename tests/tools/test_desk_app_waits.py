"""Waiting is seen at the desk: a form that is sent twice is carried out once, a page says how long what runs took the last
time, and the first page after signing in is of now."""

from __future__ import annotations

import threading
import time
from typing import Any, NoReturn

import pytest

from cpi_tools.office.copying import CopyFailed
from cpi_tools.desk.serve import watched_office
from cpi_tools.desk.serve.watched_office import Durations
from cpi_tools.desk.serve.sent_forms import KNOWN_FOR, MOST_WAITING, Answer, NoAnswerYet, Once
from .desk_apps import PATIENCE, Application, Person, words_of
from .page_forms import PageForm, forms_of
from .test_desk_app_shown import another_price

MONTH = "2026-02"
DONE, REFUSED = Answer(303, [("Location", "/log")], b""), Answer(400, [], b"why not")


class Clock:
    """A clock that stands still."""

    def __init__(self) -> None:
        self.now = 1000.0

    def __call__(self) -> float:
        return self.now


# ---- a form that is sent twice


def test_the_second_one_waits_for_the_first_one_s_answer() -> None:
    once, answers = Once(PATIENCE), list[Any]()
    assert once.begin("a") is None and once.begin("b") is None
    others = [threading.Thread(target=lambda: answers.append(once.begin("a"))) for _ in range(2)]
    for each in others:
        each.start()
    once.end("b", DONE)
    assert not answers
    once.end("a", REFUSED)
    for each in others:
        each.join(PATIENCE)
    assert answers == [REFUSED, REFUSED] and once.begin("a") is None


def test_what_was_carried_out_is_known_for_a_moment_and_what_was_refused_isn_t() -> None:
    clock = Clock()
    once = Once(PATIENCE, clock)
    assert once.begin("a") is None
    once.end("a", DONE)
    clock.now += KNOWN_FOR / 2
    assert once.begin("a") == DONE
    clock.now += KNOWN_FOR / 2
    assert once.begin("a") is None
    once.end("a", REFUSED)
    assert once.begin("a") is None
    once.end("a", None)
    assert once.begin("a") is None


def test_nobody_waits_without_an_end() -> None:
    once = Once(0.05)
    assert once.begin("a") is None
    with pytest.raises(NoAnswerYet):
        once.begin("a")
    once = Once(PATIENCE)
    assert once.begin("a") is None
    faults, waiting = list[NoAnswerYet](), list[threading.Thread]()

    def waits() -> None:
        try:
            once.begin("a")
        except NoAnswerYet as fault:
            faults.append(fault)

    for _ in range(MOST_WAITING + 1):
        waiting.append(threading.Thread(target=waits))
        waiting[-1].start()
    begun = time.monotonic()
    while not faults:
        assert time.monotonic() - begun < PATIENCE
        time.sleep(0.01)
    assert len(faults) == 1
    once.end("a", None)
    for each in waiting:
        each.join(PATIENCE)
    assert len(faults) == MOST_WAITING + 1


def doubled(person: Person, form: PageForm, **fields: str) -> list[Any]:
    """The answers to a form that is sent twice, the second time before the first one is answered."""
    answers = list[Any]()
    both = [threading.Thread(target=lambda: answers.append(person.give(form, **fields))) for _ in range(2)]
    for each in both:
        each.start()
    for each in both:
        each.join(PATIENCE)
    return answers


def test_records_that_are_sent_twice_are_sent_once(application: Application, ada: Person) -> None:
    judged = ada.follow(ada.fill("/records", "/records/judge", text="outlet,14,Quay"))
    form = next(form for form in forms_of(judged.text) if form.action == "/records/send")
    application.desk.once = Once()
    first, second = doubled(ada, form)
    assert (first.status_code, second.status_code) == (303, 303)
    assert first.headers["Location"] == second.headers["Location"]
    assert [entry.records for entry in application.desk.log.entries if entry.what == "sent"] == [
        [["outlet", "14", "Quay"]]
    ]


def test_another_form_of_the_page_or_another_text_is_no_second_one(application: Application, ada: Person) -> None:
    application.desk.once = Once()
    form = ada.form("/records", "/records/judge")
    for text in ("outlet,14,Quay", "outlet,15,Pier"):
        assert text in words_of(ada.follow(ada.give(form, text=text)).text)
    assert len(application.desk.once._forms) == 2
    again = ada.form("/records", "/records/judge")
    assert dict(form.fields)["once"] != dict(again.fields)["once"]


def test_without_an_answer_the_page_leads_to_the_log(
    application: Application, ada: Person, monkeypatch: pytest.MonkeyPatch
) -> None:
    form = ada.form("/records", "/records/judge")
    monkeypatch.setattr(application.desk, "once", Once(0.01))
    monkeypatch.setattr(application.desk.once, "end", lambda name, answer: None)
    assert ada.give(form, text="outlet,14,Quay").status_code == 303
    second = ada.give(form, text="outlet,14,Quay")
    words = words_of(second.text)
    assert second.status_code == 409 and "No answer yet" in words
    assert (
        "This form was sent twice, and the first copy has no answer yet: the log will say what happened to it." in words
    )


# ---- for how long


def test_a_page_says_how_long_its_forms_took(application: Application, ada: Person) -> None:
    kept = application.desk.durations
    assert ada.fill("/records", "/records/judge", text="outlet,14,Quay").status_code == 303
    assert "records.judge" in kept._seconds
    kept.keep("records.judge", 16.2)
    kept.keep("freeze.confirm", 150.0)
    kept.keep("records.send", 0.3)
    page = ada.get("/records").text
    says = "This is being carried out. Last time, it took about 16 seconds."
    assert f'<li data-address="/records/judge">{says}</li>' in page and '/records/send">This' not in page
    assert "/freeze/confirm" not in page
    freeze = ada.get(f"/month/{MONTH}/freeze").text
    assert f'data-address="/month/{MONTH}/freeze/confirm"' in freeze and "took about 3 minutes." not in freeze
    assert "took about 2 minutes." in freeze


def test_what_runs_says_how_long_the_last_one_took(
    application: Application, ada: Person, monkeypatch: pytest.MonkeyPatch
) -> None:
    clock, goes_on = Clock(), threading.Event()
    monkeypatch.setattr(application.desk.trials, "_durations", Durations(clock))
    run = application.desk.trials.run

    def slow(month: int) -> Any:
        clock.now += 46
        return run(month)

    monkeypatch.setattr(application.desk.trials, "run", slow)
    application.tried(ada, MONTH)
    monkeypatch.setattr(application.desk.trials, "run", lambda month: goes_on.wait(PATIENCE))
    assert ada.post(f"/month/{MONTH}/try").status_code == 303
    assert "copying the office. Last time, it took about 46 seconds." in ada.words(f"/month/{MONTH}/freeze")
    goes_on.set()


def test_what_fails_or_is_short_isn_t_told() -> None:
    clock = Clock()
    kept = Durations(clock)
    with pytest.raises(ValueError), kept.measure("a"):
        clock.now += 50
        raise ValueError
    with kept.measure("b"):
        clock.now += watched_office.SHORT - 1
    assert kept.kinds() == [] and not kept.about("a") and not kept.about("b")


# ---- the first page


def test_the_first_page_after_signing_in_is_of_now(application: Application, ada: Person) -> None:
    """Nobody looked for a while, and a price came."""
    page = f"/month/{MONTH}/"
    assert "33.3 % 1 of 3" in ada.words(page)
    another_price(application)
    assert "33.3 % 1 of 3" in ada.words(page)
    assert "66.7 % 2 of 3" in application.person("Ben").words(page)


def test_a_copy_that_can_t_be_taken_then_is_told(
    application: Application, ada: Person, monkeypatch: pytest.MonkeyPatch
) -> None:
    def fails() -> NoReturn:
        raise CopyFailed("no room")

    page = f"/month/{MONTH}/"
    ada.get(page)
    monkeypatch.setattr(application.desk.copies, "renew", fails)
    answer = application.person("Ben").get(page)
    assert answer.status_code == 200 and "so these pages may be old:" in answer.text

"""The freeze in the desk's application, if the office or the disk fails, or somebody was quicker: nothing is frozen twice,
nothing that was prepared is lost, and the page says what was done."""

from __future__ import annotations

import errno
import os
import re
import threading
import time
from pathlib import Path
from typing import NoReturn

import pytest

from cpi_tools.desk.freeze import freeze_steps, freeze_views
from cpi_tools.desk.freeze.freezes import PreparedFreeze
from cpi_tools.text.others import Worded
from cpi_tools.office.program import Cpi
from cpi_tools.text.terminal import Fault
from lib.served import free_port
from . import surveys
from .desk_apps import ADA, BEN, PATIENCE, Application, Person, words_of
from .loads import DESK_KEY, served
from .test_desk_app_month import CODE, MONTH, SIGNED, WHY, frozen_months

PAGE = f"/month/{MONTH}/freeze"
FREEZE = ["freeze", MONTH, CODE]
BEFORE = [202512, 202601]


def full(*_: object) -> NoReturn:
    raise OSError(errno.ENOSPC, os.strerror(errno.ENOSPC))


@pytest.fixture
def prepared(application: Application, ada: Person) -> Application:
    """The month was tried, and Ada has prepared its freeze."""
    application.tried(ada, MONTH)
    assert ada.fill(PAGE, "/prepare", **WHY).status_code == 303
    return application


def kept(application: Application) -> bool:
    """Whether a freeze waits for a second person."""
    return PreparedFreeze(application.room / "prepared-freeze.json").read() is not None


def frozen_elsewhere(application: Application) -> None:
    """Freezes the month at the office, as when the reply to the desk was lost and its application ended."""
    assert application.desk.office.carry_out(DESK_KEY, [FREEZE]) == [{"done": True}]


def test_without_an_office_nothing_is_frozen_and_it_stays_prepared(cpi: Cpi, tmp_path: Path) -> None:
    file, port = surveys.small(cpi, tmp_path), free_port()
    with served(cpi, file, port, 100_000) as office:
        application = Application(cpi, file, tmp_path / "room", port)
        ada, ben = application.person(ADA), application.person(BEN)
        application.tried(ada, MONTH)
        assert ada.fill(PAGE, "/prepare", **WHY).status_code == 303
        form = ben.form(PAGE, "/confirm")
        office.kill()
    answer = ben.give(form, **SIGNED)
    assert answer.status_code == 503 and "Nothing was sent: The office at" in words_of(answer.text)
    assert kept(application) and "Prepared, but not sent yet" in ben.words(PAGE)
    assert [month[0] for month in frozen_months(application)] == BEFORE
    log = [(entry.what, entry.by) for entry in application.desk.log.entries[-3:]]
    assert log == [("said", BEN), ("sent", BEN), ("not sent", BEN)]
    application.desk.close()


def test_what_the_office_carried_out_already_waits_no_longer(prepared: Application, ada: Person) -> None:
    form = prepared.person(BEN).form(PAGE, "/confirm")
    frozen_elsewhere(prepared)
    assert kept(prepared) and "Prepared, but not sent yet" in ada.words(PAGE)
    prepared.tried(ada, MONTH)
    assert "Prepared, but not sent yet" not in ada.words(PAGE) and not kept(prepared)
    assert f"carried out already: freeze {MONTH} {CODE}, revision 1" in ada.words("/log")
    ben = prepared.person(BEN)
    answer = ben.post(form.action, **{**dict(form.fields), "token": ben.token})
    assert (
        answer.status_code == 409
        and "There is no longer a prepared freeze: Ada sent it or discarded it" in words_of(answer.text)
    )
    assert frozen_months(prepared)[-1] == (202602, (CODE,))


def test_what_is_frozen_already_isn_t_sent_once_more(prepared: Application) -> None:
    """Before anybody tried the month again."""
    ben = prepared.person(BEN)
    form = ben.form(PAGE, "/confirm")
    frozen_elsewhere(prepared)
    sent = len(prepared.desk.log.entries)
    answer = ben.give(form, **SIGNED)
    assert answer.status_code == 409 and "The month can't be frozen now: " in words_of(answer.text)
    assert len(prepared.desk.log.entries) == sent and kept(prepared)


def test_a_refusal_of_the_office_is_told_and_logged(prepared: Application, monkeypatch: pytest.MonkeyPatch) -> None:
    """If somebody is quicker between the last trial and the sending."""

    def quicker(_: object) -> Worded:
        frozen_elsewhere(prepared)
        return freeze_steps.NOTHING

    monkeypatch.setattr(freeze_views, "what_differs", quicker)
    ben = prepared.person(BEN)
    answer = ben.fill(PAGE, "/confirm", **SIGNED)
    words = words_of(answer.text)
    assert answer.status_code == 409 and "is frozen, revision 1" not in words
    refused = prepared.desk.log.entries[-1]
    assert refused.what == "answered" and refused.replies == [{"refused": 50}] and "refused by 50" in ben.words("/log")
    assert not kept(prepared) and [month[0] for month in frozen_months(prepared)] == [*BEFORE, 202602]


def test_a_full_disk_or_a_wrong_file_is_told(
    application: Application, ada: Person, monkeypatch: pytest.MonkeyPatch
) -> None:
    application.tried(ada, MONTH)
    file = application.room / "prepared-freeze.json"
    with monkeypatch.context() as patch:
        patch.setattr("cpi_tools.text.text_files.os.fchmod", full)
        answer = ada.fill(PAGE, "/prepare", **WHY)
    assert answer.status_code == 400 and f"{file}: No space left on device" in words_of(answer.text)
    assert not file.exists() and "Prepared, but not sent yet" not in ada.words(PAGE)
    file.mkdir()
    for answer in (ada.get(PAGE), application.person(BEN).post(f"{PAGE}/confirm", prepared="x", trial="x", seen="x")):
        assert answer.status_code >= 400 and f"{file}: Is a directory" in words_of(answer.text)


# ---- the trial before it


@pytest.mark.filterwarnings("ignore::pytest.PytestUnhandledThreadExceptionWarning")
def test_an_error_of_ours_in_a_trial_is_on_the_page(
    application: Application, ada: Person, monkeypatch: pytest.MonkeyPatch
) -> None:
    def fails(*_: object) -> NoReturn:
        raise RuntimeError("what nobody thought of")

    monkeypatch.setattr(application.desk.trials, "_try_on_copy", fails)
    application.tried(ada, MONTH)
    for page in (PAGE, f"/month/{MONTH}/table"):
        assert "The application had an internal error." in ada.words(page)
    assert "what nobody thought of" in ada.words(PAGE) and not [*application.desk.given.copies.glob("cpi-desk-trial-*")]
    monkeypatch.undo()
    application.tried(ada, MONTH)
    assert "what nobody thought of" not in ada.words(PAGE)


def test_one_trial_at_a_time_and_two_months_stay(application: Application, monkeypatch: pytest.MonkeyPatch) -> None:
    trials, begun, goes_on = application.desk.trials, threading.Event(), threading.Event()
    run = trials.run

    def waits(month: int) -> None:
        begun.set()
        assert goes_on.wait(PATIENCE)
        run(month)

    monkeypatch.setattr(trials, "run", waits)
    assert trials.begin(202602) and begun.wait(PATIENCE) and not trials.begin(202601)
    goes_on.set()
    until = time.monotonic() + PATIENCE
    while trials.running and time.monotonic() < until:
        time.sleep(0.01)
    found = trials.latest(202602)
    assert found and found.copy.exists()
    for month in (202512, 202601):
        run(month)
    assert trials.latest(202602) is None and not found.copy.exists()
    assert all(it and it.copy.exists() for it in (trials.latest(202512), trials.latest(202601)))


def test_all_seen_and_nothing_to_carry(application: Application, ada: Person, monkeypatch: pytest.MonkeyPatch) -> None:
    """The steps of a month whose slots have their prices, all of them seen."""
    application.tried(ada, MONTH)
    found = application.desk.trials.latest(202602)
    assert found and found.closed
    whole = found._replace(looks=[], closed=found.closed._replace(named=[]))
    monkeypatch.setattr(application.desk.trials, "latest", lambda month: whole)
    words = ada.words(PAGE)
    assert "Prices to look at all seen" in words and "Carry list empty: nothing needs to be carried" in words


# ---- the folder of the application


@pytest.mark.parametrize("name", ["desk.log", "looks.jsonl", "heard.json", "response.csv"])
def test_a_file_that_can_t_be_read_ends_the_start(cpi: Cpi, tmp_path: Path, name: str) -> None:
    """Nobody works without what was noted, and nothing of it is begun anew."""
    room = tmp_path / "room"
    (room / name).mkdir(parents=True)
    with pytest.raises(Fault, match=re.escape(f"{room / name}: Is a directory")):
        Application(cpi, surveys.small(cpi, tmp_path), room, free_port())
    assert (room / name).is_dir()

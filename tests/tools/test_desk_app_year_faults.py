"""The draft of the coming year, if the office, the disk or a file fails: the draft stays, and the page says what it is."""

from __future__ import annotations

import errno
import os
import sqlite3
import threading
from typing import NoReturn

import pytest

from cpi_tools.desk.serve.watched_office import NotSent
from .desk_apps import PATIENCE, Application, Person, words_of
from .test_desk_app_year import PAGE, judged, made, sent, waited


def test_what_couldn_t_be_sent_is_judged_and_sent_again(
    application: Application, ada: Person, monkeypatch: pytest.MonkeyPatch
) -> None:
    def away(*_: object) -> NoReturn:
        raise NotSent("The office can't be reached")

    made(application, ada)
    judged(application, ada)
    with monkeypatch.context() as patch:
        patch.setattr(application.desk.office, "carry_out", away)
        words = sent(ada)
    assert "Nothing was sent: " in words and "The office can't be reached" in words
    assert application.desk.drafts.years() == [2027] and application.desk.log.entries[-1].what == "not sent"
    judged(application, ada)
    assert "sent and accepted." in sent(ada)


FAULTS = {
    "disk": (OSError(errno.ENOSPC, os.strerror(errno.ENOSPC), "/a/b"), "The disk is full: free some space"),
    "copy": (sqlite3.DatabaseError("malformed"), "The copy can't be read: malformed"),
    "ours": (RuntimeError("nobody thought of it"), "The application had an internal error."),
}


@pytest.mark.filterwarnings("ignore::pytest.PytestUnhandledThreadExceptionWarning")
@pytest.mark.parametrize("name", FAULTS)
def test_a_fault_in_the_background_is_on_the_page_until_it_is_done(
    application: Application, ada: Person, monkeypatch: pytest.MonkeyPatch, name: str
) -> None:
    fault, told = FAULTS[name]
    made(application, ada)

    def fails(_: int) -> NoReturn:
        raise fault

    with monkeypatch.context() as patch:
        patch.setattr(application.desk.drafts, "_check", fails)
        assert told in judged(application, ada)
    assert application.desk.drafts.years() == [2027] and not application.desk.drafts.running
    assert told not in judged(application, ada)


def test_one_job_at_a_time(application: Application, monkeypatch: pytest.MonkeyPatch) -> None:
    begun, goes_on, drafts = threading.Event(), threading.Event(), application.desk.drafts

    def waits(_: int) -> None:
        begun.set()
        assert goes_on.wait(PATIENCE)

    monkeypatch.setattr(drafts, "_make", waits)
    assert drafts.make(2027) and begun.wait(PATIENCE) and not drafts.make(2027) and not drafts.check(2027)
    goes_on.set()
    waited(application)


def test_a_file_of_the_draft_that_can_t_be_read_is_told(application: Application, ada: Person) -> None:
    """Nothing is read of it, and nothing is written over it."""
    made(application, ada)
    file = next((application.room / "next-year/2027").rglob("places.csv"))
    for content, told in ((b"\xff,\n", "isn't as the application wrote it: move it away"), (None, "Is a directory")):
        file.unlink()
        file.write_bytes(content) if content else file.mkdir()
        answer = ada.get(f"{PAGE}?sheet=places")
        assert told in words_of(answer.text) and str(file) in words_of(answer.text), words_of(answer.text)
        assert (file.read_bytes() if content else [*file.iterdir()]) == (content or [])

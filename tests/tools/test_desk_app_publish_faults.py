"""The website, written from the desk's application, if its disk is full or its files can't be read: the page says what was
done, and what wasn't."""

from __future__ import annotations

import errno
import os
import time
from collections.abc import Iterator
from pathlib import Path
from typing import NoReturn

import pytest

from cpi_tools.desk.freeze.publication import AGAIN_AFTER, LOOKS_EVERY, Planned, Publisher
from cpi_tools.office.program import Cpi
from .desk_apps import ADA, Application, Person, applied
from .test_desk_app_publish import frozen, waited, with_site, written

FULL = "The disk is full: free some space, then try again. The system says: "
WRITTEN = "The website was written. cpi-tools publish says: "
NOT_WRITTEN = "The website couldn't be written, and is unchanged: "


def full(*_: object) -> NoReturn:
    raise OSError(errno.ENOSPC, os.strerror(errno.ENOSPC))


@pytest.fixture
def application(cpi: Cpi, tmp_path: Path) -> Iterator[Application]:
    with applied(cpi, frozen(cpi, tmp_path, int(time.time()) + 86_400), tmp_path / "room") as it:
        yield it


@pytest.fixture
def publisher(application: Application, tmp_path: Path) -> Publisher:
    """What writes its website, which isn't there yet."""
    return with_site(application, tmp_path)


def test_a_website_that_was_written_is_told_so_if_the_log_has_no_room(
    application: Application, publisher: Publisher, ada: Person, monkeypatch: pytest.MonkeyPatch
) -> None:
    with monkeypatch.context() as patch:
        patch.setattr(os, "fsync", full)
        words = written(publisher, ada)
    assert publisher.read_published() and WRITTEN in words and NOT_WRITTEN not in words
    assert f"{FULL}{application.room}/desk.log: No space left on device" in words and "nothing was done" not in words
    assert "the website" not in ada.words("/log")
    words = written(publisher, ada)
    assert WRITTEN in words and FULL not in words and "the website was written, with what is out" in ada.words("/log")


def test_a_fault_is_on_the_page_if_the_log_has_no_room_for_it(
    publisher: Publisher, ada: Person, tmp_path: Path, monkeypatch: pytest.MonkeyPatch
) -> None:
    """The log has it once there is room."""
    (tmp_path / "office.ini").write_text("[office]\n", encoding="utf-8")
    with monkeypatch.context() as patch:
        patch.setattr(os, "fsync", full)
        words = written(publisher, ada)
    assert (
        f"{NOT_WRITTEN}Correct the fault that this line of cpi-tools publish names" in words
        and "agency is missing" in words
    )
    assert "couldn't be written" not in ada.words("/log")
    for _ in range(2):
        assert NOT_WRITTEN in written(publisher, ada)
    assert ada.words("/log").count("the website couldn't be written: ") == 1


def test_a_plan_that_is_done_and_can_t_be_taken_away_waits(
    publisher: Publisher, tmp_path: Path, application: Application, ada: Person, monkeypatch: pytest.MonkeyPatch
) -> None:
    """It isn't published again and again meanwhile."""
    done = Planned(ADA, "2025-12", 1, 1)
    publisher.plan(done)
    with monkeypatch.context() as patch:
        patch.setattr(os, "fsync", full)
        words = written(publisher, ada)
        assert WRITTEN in words and f"{FULL}{publisher._plan}: No space left on device" in words
        assert publisher._look() > 0 and not publisher.running and publisher.read_planned() == [done]
    publisher._failed_at -= AGAIN_AFTER
    publisher._look()
    waited(lambda: not publisher.running)
    assert publisher.read_planned() == [] and FULL not in ada.words("/publish")


def test_a_plan_that_can_t_be_kept_is_refused(
    publisher: Publisher, ada: Person, monkeypatch: pytest.MonkeyPatch
) -> None:
    form = ada.form("/publish", "/publish/plan")
    for what in ("plan", "drop"):
        with monkeypatch.context() as patch:
            patch.setattr("cpi_tools.text.text_files.os.fchmod", full)
            answer = ada.give(form, what=what)
        assert answer.status_code == 400 and f"{publisher._plan}: No space left on device" in answer.text
    assert publisher.read_planned() == []


def test_a_plan_that_can_t_be_read_is_told_and_nothing_is_published(publisher: Publisher, ada: Person) -> None:
    publisher._plan.write_text("[[1]]", encoding="utf-8")
    assert publisher._look() == LOOKS_EVERY and not publisher.running
    assert "isn't as the application wrote it: move it away, then try again." in ada.words("/publish")
    publisher._plan.unlink()
    publisher._plan.mkdir()
    assert publisher._look() == LOOKS_EVERY and not publisher.running
    assert f"{publisher._plan}: Is a directory" in ada.words("/publish")


@pytest.mark.filterwarnings("ignore::pytest.PytestUnhandledThreadExceptionWarning")
def test_an_error_of_the_application_is_told(
    publisher: Publisher, ada: Person, monkeypatch: pytest.MonkeyPatch
) -> None:
    """The journal has it too, since the thread raises it."""

    def fails(_: int) -> NoReturn:
        raise RuntimeError("what nobody thought of")

    monkeypatch.setattr(publisher, "_write_website", fails)
    assert f"{NOT_WRITTEN}The application had an internal error." in written(publisher, ada)
    assert "what nobody thought of" in ada.words("/log")


def test_a_tool_that_ends_without_a_word_is_told(
    publisher: Publisher, ada: Person, monkeypatch: pytest.MonkeyPatch
) -> None:
    monkeypatch.setattr("cpi_tools.desk.freeze.publication.sys.executable", "/bin/false")
    assert f"{NOT_WRITTEN}cpi-tools publish ended with status 1." in written(publisher, ada)


def test_the_end_of_the_application_ends_what_writes(
    publisher: Publisher, tmp_path: Path, monkeypatch: pytest.MonkeyPatch
) -> None:
    """The website stays as it is: there is none, so there is none afterwards."""
    slow = tmp_path / "slow"
    slow.write_text("#!/bin/sh\nexec sleep 600\n", encoding="utf-8")
    slow.chmod(0o755)
    monkeypatch.setattr("cpi_tools.desk.freeze.publication.sys.executable", str(slow))
    assert publisher.begin(ADA) and not publisher.begin(ADA)
    waited(lambda: publisher._process)
    publisher.stop()
    waited(lambda: not publisher.running)
    assert publisher._process and publisher._process.returncode == -15 and not (tmp_path / "public").exists()

"""What the desk's pages say of the copy that they show, if the office's file can't be copied."""

from __future__ import annotations

import html
import re
from typing import NoReturn

import pytest

from cpi_tools.office.copying import CopyFailed
from .desk_apps import Application, Person

PAGE = "/month/2026-02/"
OLD = "The office's file couldn't be copied, so these pages may be old:"


def all_of(person: Person) -> str:
    """The words of the whole page, its head too."""
    return " ".join(html.unescape(re.sub("<[^>]*>", "", person.get(PAGE).text)).split())


def fails(*_: object) -> NoReturn:
    raise CopyFailed("office.db is written so fast that it wasn't quiet for one copy in 60 seconds (see --pause)")


def test_after_a_record_was_sent_no_page_is_old_without_saying_so(
    application: Application, ada: Person, monkeypatch: pytest.MonkeyPatch
) -> None:
    watch = application.desk.watch
    assert OLD not in all_of(ada)
    watch.note_change()
    with monkeypatch.context() as patch:
        patch.setattr(application.desk.copies, "renew", fails)
        for _ in range(3):
            assert "wasn't quiet for one copy" in all_of(ada)
    watch._try()
    assert OLD not in all_of(ada)


def test_an_error_of_ours_is_told_and_the_watch_goes_on(
    application: Application, ada: Person, monkeypatch: pytest.MonkeyPatch, capfd: pytest.CaptureFixture[str]
) -> None:
    """The journal has all of it."""

    def errs() -> NoReturn:
        raise RuntimeError("what nobody thought of")

    # (the first page after signing in takes a copy of its own)
    assert OLD not in all_of(ada)
    with monkeypatch.context() as patch:
        patch.setattr(application.desk.copies, "renew", errs)
        application.desk.watch._try()
    words = all_of(ada)
    assert f"{OLD} The application had an internal error." in words and "what nobody thought of" in words
    assert "RuntimeError: what nobody thought of" in capfd.readouterr().err
    application.desk.watch._try()
    assert OLD not in all_of(ada)

"""Why a month is revised: the desk is asked once it has reopened the month, the second person reads it before the freeze,
and it goes into the website's file once the revision is frozen, and out with it. Whatever fails, the text stays."""

from __future__ import annotations

import codecs
import errno
import os
import re
import time
from collections.abc import Iterator
from pathlib import Path
from typing import Any, NoReturn

import pytest

from cpi_tools.desk.freeze.publication import Site
from cpi_tools.desk.freeze.reason_file import ReasonFile, Row, add, with_row
from cpi_tools.text.clocks import UTC, clock_of
from cpi_tools.publish.figures.config import read_config
from cpi_tools.publish.figures.announcements import reasons_of
from cpi_tools.office.program import Cpi
from . import surveys
from .desk_apps import ADA, BEN, Application, Person, applied, words_of
from .page_forms import forms_of
from .test_desk_app_publish import OFFICE, with_site, written

MONTH = "2026-01"
PAGE, FREEZE = f"/month/{MONTH}/reason", f"/month/{MONTH}/freeze"
SITE = f"{OFFICE}languages = en fr\nzone = Europe/Prague\nrevisions = revisions.csv\n"
HEAD = "month,revision,reason\n"
WHY, POURQUOI = "A price of rice had been entered per 100 g.", "Un prix du riz avait \u00e9t\u00e9 saisi pour 100 g."
TEXTS = {"reason-en": WHY, "reason-fr": POURQUOI}
SIGNED = {"because": "read by both"}


@pytest.fixture
def moment() -> int:
    """When the revision is out: a whole minute, which a civil time names."""
    return (int(time.time()) // 60 + 1440) * 60


@pytest.fixture
def application(cpi: Cpi, tmp_path: Path) -> Iterator[Application]:
    """The small office with a website whose configuration names a file of reasons."""
    (tmp_path / "revisions.csv").write_text(HEAD, encoding="utf-8")
    with applied(cpi, surveys.small(cpi, tmp_path), tmp_path / "room") as it:
        with_site(it, tmp_path, SITE)
        yield it


@pytest.fixture
def reasons(tmp_path: Path) -> Path:
    """The website's file of reasons."""
    return tmp_path / "revisions.csv"


def reopens(person: Person, moment: int) -> Any:
    """A person reopens the month, with a window that has closed; the page that says so."""
    text = f"calendar,{MONTH},1000,2000,{moment}\n"
    judged = person.follow(person.fill("/records", "/records/judge", text=text))
    (form,) = [form for form in forms_of(judged.text) if form.action == "/records/send"]
    return person.follow(person.give(form))


def prepares(application: Application, person: Person) -> Any:
    """A person has the month tried, and prepares its freeze; the answer."""
    application.tried(person, MONTH)
    return person.fill(FREEZE, "/prepare")


def signed(person: Person, **fields: str) -> Any:
    """The page after another person has confirmed the freeze."""
    return person.follow(person.fill(FREEZE, "/confirm", **{**SIGNED, **fields}))


def full(*_: object) -> NoReturn:
    raise OSError(errno.ENOSPC, os.strerror(errno.ENOSPC))


# ---- asked, read, and written


def test_who_reopens_a_month_is_asked_why_and_the_website_says_it(
    application: Application, ada: Person, reasons: Path, moment: int, tmp_path: Path
) -> None:
    page = reopens(ada, moment)
    assert "1 of 1 done." in words_of(page.text) and "Why is January 2026 revised (revision 2)?" in words_of(page.text)
    assert re.search(
        "Reason for the revision \\( English \\).*Reason for the revision \\( fran\u00e7ais \\)", words_of(page.text)
    )
    for path in ("/calendar", "/sample/calendar"):
        assert "Why is January 2026 revised" in ada.words(path)
    (form,) = [form for form in forms_of(page.text) if form.action == PAGE]
    kept = ada.give(form, **{**TEXTS, "reason-en": f"  {WHY}\n "})
    assert (kept.status_code, kept.headers["Location"]) == (303, PAGE) and WHY in ada.words(PAGE)
    assert "Why is January 2026 revised" not in ada.words("/calendar") and reasons.read_text() == HEAD
    assert prepares(application, ada).status_code == 303
    ben = application.person(BEN)
    words = ben.words(FREEZE)
    assert (
        WHY in words
        and POURQUOI in words
        and f"Once the freeze is confirmed, the application adds this reason to {reasons}" in words
    )
    assert reasons.read_text() == HEAD
    receipt = words_of(signed(ben).text)
    assert "January 2026 is frozen, revision 2." in receipt and WHY in receipt and POURQUOI in receipt
    (reason,) = read_config(tmp_path / "office.ini").reasons
    assert (reason.month, reason.revision, reason.text, reason.added) == (MONTH, 2, WHY, moment)
    assert reason.texts == {"fr": POURQUOI} and application.desk.reasons.all() == []
    assert f"why {MONTH}, revision 2: en: {WHY}" in ben.words("/log")


def test_the_reason_comes_out_with_its_revision(
    application: Application, ada: Person, reasons: Path, tmp_path: Path
) -> None:
    """It is in no file of the website before."""
    moment = int(time.time()) + 5
    reopens(ada, moment)
    ada.fill("/calendar", "/reason", **TEXTS)
    prepares(application, ada)
    signed(application.person(BEN))
    publisher = application.desk.publisher
    assert publisher and WHY in reasons.read_text(encoding="utf-8")
    if time.time() < moment - 1:
        assert "up to" in written(publisher, ada) and not publisher.fault
        assert not [
            path for path in (tmp_path / "public").rglob("*") if path.is_file() and WHY.encode() in path.read_bytes()
        ]
    time.sleep(max(0.0, moment + 1 - time.time()))
    assert "up to" in written(publisher, ada) and not publisher.fault
    release = (tmp_path / f"public/release/{MONTH}-r2.html").read_text(encoding="utf-8")
    assert f"Why the office revised this month: {WHY}" in words_of(release) and "The office added" not in release


def test_a_revision_isn_t_prepared_without_its_reason(application: Application, ada: Person, moment: int) -> None:
    """The page asks for one thing at a time, so that nothing is typed beside the form that is sent."""
    reopens(ada, moment)
    application.tried(ada, MONTH)
    trial = application.desk.trials.latest(202601)
    assert (
        trial
        and [form.action for form in forms_of(ada.get(FREEZE).text) if form.action.startswith("/month/")][-1] == PAGE
    )
    refused = ada.post(f"{FREEZE}/prepare", trial=trial.sum, reason="")
    assert refused.status_code == 400 and "Give the reason for the revision." in words_of(refused.text)
    ben = application.person(BEN)
    assert ben.fill(PAGE, "/reason", **{**TEXTS, "reason-en": "At first"}).status_code == 303
    stale = ada.form(FREEZE, "/prepare")
    assert ben.fill(PAGE, "/reason", **TEXTS).status_code == 303
    late = ada.give(stale)
    assert late.status_code == 409 and "Ben changed this after your page was loaded, " in words_of(late.text)
    assert ada.fill(FREEZE, "/prepare").status_code == 303
    refused = ben.fill(PAGE, "/reason", **{"reason-en": "Another one"})
    assert refused.status_code == 409 and "A freeze with this reason is already prepared" in words_of(refused.text)
    assert "Another one" in refused.text


# ---- refused


def test_what_isn_t_taken_stays_on_the_page(
    application: Application, ada: Person, moment: int, monkeypatch: pytest.MonkeyPatch
) -> None:
    reopens(ada, moment)
    for text, says in (("  ", "Give the reason for the revision."), ("x" * 1001, "and one has 1,001.")):
        refused = ada.fill(PAGE, "/reason", **{**TEXTS, "reason-en": text})
        assert refused.status_code == 400 and says in words_of(refused.text), words_of(refused.text)
        assert POURQUOI in refused.text and text.strip() in refused.text
    with monkeypatch.context() as patch:
        patch.setattr("cpi_tools.text.text_files.os.fchmod", full)
        refused = ada.fill(PAGE, "/reason", **TEXTS)
    assert refused.status_code == 503 and "The disk is full" in words_of(refused.text) and WHY in refused.text
    form = ada.form(PAGE, "/reason")
    ben = application.person(BEN)
    assert ben.fill(PAGE, "/reason", **{"reason-en": "Of Ben"}).status_code == 303
    late = ada.give(form, **TEXTS)
    words = words_of(late.text)
    assert late.status_code == 409 and "Ben changed this after your page was loaded, " in words and "Of Ben" in words
    assert WHY in late.text and POURQUOI in late.text


def test_a_reason_of_another_revision_isn_t_taken(application: Application, ada: Person, moment: int) -> None:
    reopens(ada, moment)
    form = ada.form(PAGE, "/reason")
    ada.give(form, **TEXTS)
    prepares(application, ada)
    signed(application.person(BEN))
    late = ada.give(form, **TEXTS)
    assert late.status_code == 409 and "January 2026 is no longer reopened for that revision." in words_of(late.text)
    assert WHY in late.text and "The month isn't reopened, so no reason is needed." in ada.words(PAGE)


def test_without_a_file_the_page_says_where_to_write_it(
    application: Application, ada: Person, moment: int, tmp_path: Path
) -> None:
    with_site(application, tmp_path)
    reopens(ada, moment)
    assert "names no file of reasons. Add the line revisions = revisions.csv there" in ada.words("/calendar")
    application.desk.publisher = None
    assert "The desk can't save the reason: the application was started without the website's options" in ada.words(
        "/calendar"
    )
    answer = ada.post(PAGE, **{"revision": "2", "was": "", **TEXTS})
    assert answer.status_code == 503 and words_of(answer.text).count("The desk can't save the reason") == 1
    assert WHY in words_of(answer.text)
    assert prepares(application, ada).status_code == 303
    assert "is frozen, revision 2." in words_of(signed(application.person(BEN)).text)


def test_a_file_that_can_t_be_replaced_stops_no_freeze(
    application: Application, ada: Person, moment: int, reasons: Path, monkeypatch: pytest.MonkeyPatch
) -> None:
    """As under /etc, which the service only reads: the page says so, and the month can be frozen."""
    reopens(ada, moment)
    monkeypatch.setattr("cpi_tools.desk.freeze.reason_file.os.access", lambda path, mode: False)
    assert f"has no permission to write in {reasons.parent} . Write the reason into revisions.csv by hand" in ada.words(
        "/calendar"
    )
    assert prepares(application, ada).status_code == 303
    assert "is frozen, revision 2." in words_of(signed(application.person(BEN)).text)
    assert reasons.read_text() == HEAD


def test_a_folder_that_can_t_be_written_any_more_stops_no_freeze(
    prepared: Application, ada: Person, reasons: Path, monkeypatch: pytest.MonkeyPatch
) -> None:
    monkeypatch.setattr("cpi_tools.desk.freeze.reason_file.os.access", lambda path, mode: False)
    assert signed(prepared.person(BEN)).status_code == 503
    assert ada.fill(FREEZE, "/drop").status_code == 303
    words = ada.words(FREEZE)
    assert "Write the reason into revisions.csv by hand" in words and WHY in words and POURQUOI in words
    assert ada.fill(FREEZE, "/prepare").status_code == 303
    assert "is frozen, revision 2." in words_of(signed(prepared.person(BEN)).text) and reasons.read_text() == HEAD


def test_a_damaged_file_of_the_application_stops_no_page(
    application: Application, ada: Person, moment: int, tmp_path: Path
) -> None:
    reopens(ada, moment)
    own = next((tmp_path / "room").rglob("revision-reasons.json"), tmp_path / "room/revision-reasons.json")
    own.write_text("[", encoding="utf-8")
    application.tried(ada, MONTH)
    for path in (FREEZE, "/publish", "/calendar", "/sample/calendar", PAGE):
        assert "revision-reasons.json isn't as the application wrote it" in ada.words(path), path
    assert WHY in ada.post(PAGE, revision="2", was="", **TEXTS).text


# ---- the website's file


@pytest.fixture
def prepared(application: Application, ada: Person, moment: int) -> Application:
    """The month is reopened, the reason is kept, and Ada has prepared the freeze."""
    reopens(ada, moment)
    assert ada.fill(PAGE, "/reason", **TEXTS).status_code == 303
    assert prepares(application, ada).status_code == 303
    return application


def test_what_somebody_wrote_into_the_file_stays(prepared: Application, reasons: Path) -> None:
    ben = prepared.person(BEN)
    form = ben.form(FREEZE, "/confirm")
    own = f'{HEAD}2026-01,2,"By hand, with a comma",\n'.replace("reason\n", "reason,added\n")
    reasons.write_text(own.replace(f"{MONTH},2", "2025-12,2"), encoding="utf-8")
    late = ben.give(form, **SIGNED)
    assert late.status_code == 409 and "was changed after your page was loaded." in words_of(late.text)
    reasons.write_text(own, encoding="utf-8")
    refused = ben.fill(FREEZE, "/confirm", **SIGNED)
    assert refused.status_code == 409 and "already contains a reason for this revision" in words_of(refused.text)
    assert reasons.read_text(encoding="utf-8") == own and prepared.desk.prepared.read()


def test_a_full_disk_freezes_nothing(prepared: Application, reasons: Path, monkeypatch: pytest.MonkeyPatch) -> None:
    with monkeypatch.context() as patch:
        patch.setattr("cpi_tools.desk.freeze.reason_file.write_whole", full)
        refused = prepared.person(BEN).fill(FREEZE, "/confirm", **SIGNED)
    assert refused.status_code == 503 and "Nothing was sent: The disk is full" in words_of(refused.text)
    assert WHY in words_of(refused.text) and reasons.read_text() == HEAD
    assert not [*reasons.parent.glob(".revisions*")]


def test_what_can_t_be_written_after_the_freeze_is_told_and_written_later(
    prepared: Application, ada: Person, reasons: Path, monkeypatch: pytest.MonkeyPatch
) -> None:
    with monkeypatch.context() as patch:
        patch.setattr("cpi_tools.desk.freeze.reason_file.add", full_disk)
        words = words_of(signed(prepared.person(BEN)).text)
        assert "The reason for January 2026, revision 2, isn't in the website's file yet." in words and WHY in words
        assert "isn't in the website's file yet." in ada.words("/publish") and reasons.read_text() == HEAD
    prepared.again()
    with_site(prepared, reasons.parent, SITE)
    assert "isn't in the website's file yet" not in prepared.person(ADA).words("/publish")
    assert WHY in reasons.read_text(encoding="utf-8")


def test_a_receipt_that_is_there_is_shown_though_the_reason_waits(
    prepared: Application, monkeypatch: pytest.MonkeyPatch
) -> None:
    with monkeypatch.context() as patch:
        patch.setattr(prepared.desk.reasons, "go_out", full_disk)
        words = words_of(signed(prepared.person(BEN)).text)
    assert "January 2026 is frozen, revision 2." in words and "The disk is full" in words and "Its receipt" not in words


def full_disk(*_: object) -> NoReturn:
    from cpi_tools.text.terminal import Fault, because_of

    try:
        full()
    except OSError as fault:
        raise Fault(because_of(fault)) from fault


def test_a_reason_goes_out_whatever_languages_the_website_has_now(
    prepared: Application, reasons: Path, tmp_path: Path
) -> None:
    config = tmp_path / "office.ini"
    config.write_text(SITE.replace("languages = en fr", "languages = es en"), encoding="utf-8")
    assert "is frozen, revision 2." in words_of(signed(prepared.person(BEN)).text)
    (reason,) = read_config(config).reasons
    assert {reason.text, *reason.texts.values()} == {WHY, POURQUOI} and prepared.desk.reasons.all() == []


def test_the_website_is_written_whatever_comes_before(prepared: Application, ada: Person) -> None:
    publisher = prepared.desk.publisher
    assert publisher
    publisher.before = lambda: int("x")
    assert "up to" in written(publisher, ada) and not publisher.fault


def test_the_file_that_a_link_names_keeps_its_mark(tmp_path: Path) -> None:
    """The link stays, and so does the mark of UTF-8 that a spreadsheet needs."""
    config, real, link = tmp_path / "office.ini", tmp_path / "kept/r.csv", tmp_path / "revisions.csv"
    real.parent.mkdir()
    real.write_text(f"\ufeff{HEAD}", encoding="utf-8")
    link.symlink_to(real)
    config.write_text(SITE, encoding="utf-8")
    add(Site(tmp_path / "public", config), Row(MONTH, 2, {"en": WHY}, 1_767_225_660))
    assert link.is_symlink() and WHY in real.read_text(encoding="utf-8-sig")
    assert real.read_bytes().startswith(codecs.BOM_UTF8)


@pytest.mark.parametrize("content", [HEAD, f"\ufeff{HEAD}2025-12,2,Why", f"{HEAD}2025-12,2,Why\n\n"])
def test_a_row_is_added_behind_all_others(content: str) -> None:
    """The row needs two columns more; what is there stays."""
    file = ReasonFile(Path("r.csv"), content.encode(), ("en", "fr"), clock_of("Europe/Prague"))
    made = with_row(file, Row(MONTH, 2, {"en": 'Of "rice", later', "fr": POURQUOI}, 1_767_225_660)).decode("utf-8-sig")
    assert made.splitlines()[0] == "month,revision,reason,added,reason-fr"
    assert made.splitlines()[-1] == f'2026-01,2,"Of ""rice"", later",2026-01-01T01:01,{POURQUOI}'
    assert ("2025-12,2,Why,," in made.splitlines()) == ("Why" in content)


def test_a_moment_that_no_civil_time_names_is_in_seconds() -> None:
    head = "month,revision,reason,added\n2025-12,2,Why,\n"
    made = with_row(ReasonFile(Path("r.csv"), head.encode(), ("en",), UTC), Row(MONTH, 2, {"en": "x"}, 1_767_225_661))
    assert made.decode() == f"{head}2026-01,2,x,1767225661\n"
    rows = [line.split(",") for line in made.decode().splitlines()]
    assert reasons_of(rows, UTC)[1].added == 1_767_225_661

"""The draft of a release in the desk's application: marked until the embargo ends, in each language, never in the website's
folder, and with who opened it in the log."""

from __future__ import annotations

import re
import time
from collections.abc import Iterator
from pathlib import Path

import pytest

from cpi_tools.desk.serve.site_config import SiteConfig
from cpi_tools.office.program import Cpi
from . import surveys, test_desk_app_revisions as revisions
from .desk_apps import ADA, BEN, Application, Person, applied
from .test_desk_app_publish import MONTH, OFFICE, frozen, with_site
from .test_release_pdf import words_in

LANGUAGES = f"{OFFICE}languages = en, ar\n"


@pytest.fixture(scope="module")
def application(cpi: Cpi, tmp_path_factory: pytest.TempPathFactory) -> Iterator[Application]:
    """An office whose third month is frozen, and out tomorrow; the application knows the website."""
    folder = tmp_path_factory.mktemp("draft")
    with applied(cpi, frozen(cpi, folder, int(time.time()) + 86_400), folder / "room") as it:
        publisher = with_site(it, folder, LANGUAGES)
        it.desk.site_config = SiteConfig(publisher.site.config, "en")
        yield it


@pytest.fixture
def ada(application: Application) -> Person:
    return application.person(ADA)


def test_without_a_trial_there_is_none(application: Application, ada: Person) -> None:
    said = ada.words(f"/month/{MONTH}/release")
    assert "Draft of the release" in said and "No trial of this month yet." in said
    assert ada.get(f"/month/{MONTH}/release/en.pdf").status_code == 404


def test_a_draft_is_marked_shown_in_each_language_and_logged(application: Application, ada: Person) -> None:
    application.tried(ada, MONTH)
    page = ada.get(f"/month/{MONTH}/release")
    mark = re.findall("<title>(Draft, under embargo until [^:]*:[0-9]{2} [^:]*): ", page.text)[0]
    assert page.text.count(f"<b>{mark}</b>") == 2 and page.headers["Cache-Control"] == "no-store"
    said = ada.words(f"/month/{MONTH}/release")
    assert "In February 2026, consumer prices" in said and "Contri\u00adbution" in said
    arabic = ada.get(f"/month/{MONTH}/release?language=ar")
    assert (
        '<article class="draft" lang="ar" dir="rtl">' in arabic.text
        and arabic.text.count("مسودة، محظور نشرها حتى") >= 2
    )
    assert ada.get(f"/month/{MONTH}/release?language=fr").status_code == 404
    pdf = application.person(BEN).get(f"/month/{MONTH}/release/en.pdf")
    assert pdf.headers["Content-Type"] == "application/pdf"
    assert pdf.headers["Content-Disposition"] == f'attachment; filename="draft-{MONTH}-r1-en.pdf"'
    # (at the head and at the foot of each of both pages)
    assert [word.count(mark) for word in words_in(pdf.data)] == [2, 2]
    steps = [(entry.by, entry.text) for entry in application.desk.log.entries if "opened the draft" in entry.text]
    of = f"opened the draft of the release of {MONTH}, revision 1:"
    assert steps[:3] == [(ADA, f"{of} page, en"), (ADA, f"{of} page, en"), (ADA, f"{of} page, ar")]
    assert steps[-1] == (BEN, f"{of} PDF, en")
    site = application.desk.given.site
    assert site and not site.folder.exists()
    assert not [path for path in Path(application.desk.given.room).rglob("*") if path.suffix in (".pdf", ".html")]


def test_nobody_sees_it_who_isnt_signed_in(application: Application) -> None:
    stranger = application.person()
    for path in (f"/month/{MONTH}/release", f"/month/{MONTH}/release/en.pdf"):
        assert stranger.get(path).status_code == 302


def test_the_table_leads_to_it_only_if_it_is_known_who_publishes(application: Application, ada: Person) -> None:
    application.tried(ada, MONTH)
    link = f'href="/month/{MONTH}/release"'
    assert link in ada.get(f"/month/{MONTH}/table").text and link in ada.get(f"/month/{MONTH}/freeze").text
    known, application.desk.site_config = application.desk.site_config, SiteConfig(None, "en")
    try:
        assert link not in ada.get(f"/month/{MONTH}/table").text
        assert "was started without the website's configuration" in ada.words(f"/month/{MONTH}/release")
    finally:
        application.desk.site_config = known


def test_a_draft_of_a_revision_gives_the_reason_that_waits(cpi: Cpi, tmp_path: Path) -> None:
    """In the language of the draft; once the file of the website has a reason, that one counts."""
    (tmp_path / "revisions.csv").write_text(revisions.HEAD, encoding="utf-8")
    with applied(cpi, surveys.small(cpi, tmp_path), tmp_path / "room") as application:
        publisher = with_site(application, tmp_path, revisions.SITE)
        application.desk.site_config = SiteConfig(publisher.site.config, "en")
        ada = application.person(ADA)
        revisions.reopens(ada, int(time.time()) + 86_400)
        ada.fill("/calendar", "/reason", **revisions.TEXTS)
        application.tried(ada, revisions.MONTH)
        page = f"/month/{revisions.MONTH}/release"
        assert f"Reason: {revisions.WHY}" in ada.words(page)
        assert revisions.POURQUOI in ada.words(f"{page}?language=fr")
        assert revisions.WHY in " ".join(words_in(ada.get(f"{page}/en.pdf").data))
        written = f"{revisions.HEAD}{revisions.MONTH},2,Written by hand.\n"
        (tmp_path / "revisions.csv").write_text(written, encoding="utf-8")
        assert "Written by hand." in ada.words(page) and revisions.WHY not in ada.words(page)


def test_a_release_that_is_out_has_no_draft(application: Application, ada: Person) -> None:
    """The second month of the small office was published long ago."""
    application.tried(ada, "2026-01")
    assert "This release is already published, so there is no draft of it." in ada.words("/month/2026-01/release")
    assert ada.get("/month/2026-01/release/en.pdf").status_code == 404

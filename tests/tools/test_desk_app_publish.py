"""Publishing from the desk's application: the website is written now or at a table's moment, with what is out and nothing
else."""

from __future__ import annotations

import json
import time
from collections.abc import Callable, Iterator
from pathlib import Path
from typing import Any

import pytest

from . import surveys
from cpi_tools.command_line import main
from cpi_tools.desk.freeze.publication import Planned, Publisher, Site
from cpi_tools.office.program import Cpi, record
from .desk_apps import ADA, BEN, PATIENCE, Application, Person, applied, words_of
from .ran import run

OFFICE = "[office]\nagency = EX\narea = XX\noffice = Office of the example\naddress = https://prices.example/index/\n"
MONTH = "2026-02"


def frozen(cpi: Cpi, folder: Path, moment: int) -> Path:
    """The small office with its third month frozen, whose table is out at a moment."""
    file = surveys.small(cpi, folder)
    replies = cpi.replay(
        [
            record(2500, "desk", "calendar", MONTH, 2000, 4000, moment),
            record(4000, "desk", "freeze", MONTH, "01.1.1.2-01"),
        ],
        db=file,
    )
    assert replies == [{"done": True}] * 2
    return file


def with_site(application: Application, folder: Path, text: str = OFFICE) -> Publisher:
    """The application over a folder for the website, which it wasn't told before."""
    config = folder / "office.ini"
    config.write_text(text, encoding="utf-8")
    desk = application.desk
    desk.given = desk.given._replace(site=Site(folder / "public", config))
    assert desk.given.site
    desk.publisher, desk.deadlines = desk._publisher(desk.given.site), desk._deadlines(desk.given.site)
    return desk.publisher


@pytest.fixture
def moment() -> int:
    """A moment that is still to come."""
    return int(time.time()) + 86_400


@pytest.fixture
def application(cpi: Cpi, tmp_path: Path, moment: int) -> Iterator[Application]:
    with applied(cpi, frozen(cpi, tmp_path, moment), tmp_path / "room") as it:
        yield it


def waited(condition: Callable[[], object]) -> None:
    """Waits for something that another process does."""
    begun = time.monotonic()
    while not condition():
        assert time.monotonic() - begun < PATIENCE
        time.sleep(0.05)


def written(publisher: Publisher, person: Person) -> str:
    """The page's words after the website was written now."""
    assert person.fill("/publish", "/publish/now").status_code == 303
    waited(lambda: not publisher.running)
    return person.words("/publish")


def test_what_is_out_is_published_now_and_nothing_else(application: Application, ada: Person, tmp_path: Path) -> None:
    assert "was started without the website's options" in ada.words("/publish")
    assert ada.post("/publish/now").status_code == 404
    publisher = with_site(application, tmp_path)
    words = ada.words("/publish")
    assert "There is no website in" in words and "Published, but not on the website yet 2 " in words
    assert "Publish now" in words and "Frozen, but not published yet 1 " in words
    words = written(publisher, ada)
    assert "2 tables up to 2026-01, 8 items" in words and "On the website 2 " in words and "Write it again" in words
    tables = json.loads((tmp_path / "public/manifest.json").read_text(encoding="utf-8"))["tables"]
    assert [(table["month"], table["revision"]) for table in tables] == [("2025-12", 1), ("2026-01", 1)]
    assert (tmp_path / "public/index.html").stat().st_mode & 0o044 == 0o044
    page = ada.get("/publish").text
    assert 'href="https://prices.example/index/release/2026-01-r1.html"' in page and "2026-02-r1" not in page
    assert (tmp_path / "public/release/2026-01-r1.html").is_file()
    assert "the website was written, with what is out at" in ada.words("/log")


def test_a_table_is_published_at_its_moment(cpi: Cpi, tmp_path: Path) -> None:
    """The moment is in a few seconds; if the machine is slower than that, it has passed, and the table is due at once."""
    with applied(cpi, frozen(cpi, tmp_path, int(time.time()) + 6), tmp_path / "room") as application:
        publisher, ada = with_site(application, tmp_path), application.person(ADA)
        assert ada.fill("/publish", "/publish/plan").status_code == 303
        publisher.start()
        waited(lambda: not publisher.read_planned())
        waited(lambda: not publisher.running)
        assert (MONTH, 1) in publisher.read_published()
        assert "On the website 3 " in ada.words("/publish")
        log = ada.words("/log")
        assert "to be published at its moment" in log and f"{MONTH}, revision 1" in log
        assert "couldn't be written" not in log


def test_a_plan_outlives_the_application_and_anybody_takes_it_back(
    application: Application, ada: Person, tmp_path: Path, moment: int
) -> None:
    with_site(application, tmp_path)
    form = ada.form("/publish", "/publish/plan")
    assert [ada.give(form).status_code for _ in range(2)] == [303, 409]
    assert "Ada decided to publish it then." in ada.words("/publish")
    application.again()
    publisher, ben = with_site(application, tmp_path), application.person(BEN)
    assert publisher.read_planned() == [Planned(ADA, MONTH, 1, moment)]
    assert publisher._look() > 0 and not publisher.running
    assert ben.fill("/publish", "/publish/plan").status_code == 303
    assert publisher.read_planned() == [] and "Publish it at its release time" in ben.words("/publish")
    words = ben.words("/log")
    assert (
        words.count("to be published at its moment,") == 1
        and "Ben not to be published at its moment after all" in words
    )


@pytest.mark.parametrize("form", [{"month": "2026-03", "revision": "1"}, {"month": MONTH, "revision": "2"}, {}])
def test_what_isn_t_frozen_can_t_be_planned(application: Application, ada: Person, tmp_path: Path, form: Any) -> None:
    with_site(application, tmp_path)
    answer = ada.post("/publish/plan", **{"month": "", "revision": "", "what": "plan", "shown": "", **form})
    assert answer.status_code == 400 and "There is nothing to publish:" in words_of(answer.text)


def test_a_website_that_couldn_t_be_written_says_why_and_stays(
    application: Application, ada: Person, tmp_path: Path
) -> None:
    publisher = with_site(application, tmp_path)
    written(publisher, ada)
    before = (tmp_path / "public/SHA256SUMS").read_bytes()
    manifest = tmp_path / "public/manifest.json"
    manifest.write_text(manifest.read_text(encoding="utf-8").replace('"sha256": "', '"sha256": "0'), encoding="utf-8")
    for _ in range(2):
        words = written(publisher, ada)
        assert (
            "The website couldn't be written, and is unchanged: Correct the fault that this "
            "line of cpi-tools publish names, then write"
            " the website again: the table of 2025-12, revision 1, isn't the one" in words
        )
    assert (tmp_path / "public/SHA256SUMS").read_bytes() == before
    assert (
        ada.words("/log").count("the website couldn't be written: the table of 2025-12, revision 1, isn't the one") == 1
    )
    (tmp_path / "office.ini").write_text("[office]\n", encoding="utf-8")
    assert "agency" in ada.words("/publish")


def test_words_that_don_t_go_together_are_refused(tmp_path: Path, capsys: pytest.CaptureFixture[str]) -> None:
    file = tmp_path / "office.db"
    file.touch()
    words = ["desk", "serve", "--file", str(file), "--room", str(tmp_path / "room")]
    site = ["--site", str(tmp_path / "public")]
    with pytest.raises(SystemExit, match="2"):
        main([*words, *site])
    assert "--site and --site-config go together" in capsys.readouterr().err
    nothing = run(None, *words, *site, "--site-config", str(tmp_path / "none.ini"))
    assert nothing.status == 1 and "none.ini is no file: --site-config names" in nothing.err

"""The site of an office written month by month over two years: nothing that was published disappears or changes without
a word, addresses stay, and all of it is valid at each run."""

from __future__ import annotations

import hashlib
import json
import re
from collections.abc import Iterator
from pathlib import Path
from typing import NamedTuple
from xml.etree import ElementTree

import feedparser  # type: ignore[import]
import html5lib
import icalendar  # type: ignore[import]
import pytest
import rdflib

from cpi_tools.text.clocks import clock_of
from cpi_tools.publish.figures.config import Config
from cpi_tools.publish.figures.config import Dated
from cpi_tools.publish.figures.announcements import Planned, Reason
from cpi_tools.office.public import Published
from cpi_tools.publish.figures.specials import Special
from cpi_tools.publish.pack import publish
from .published import HIDDEN_REVISION, LAST, REVISED

ADDRESS = "https://prices.example/index/"
FIRST, SECOND_YEAR = "2025-05", "2026-01"
REVISION = f"release/{REVISED}-r2.html"
ADDED = 86_400
"""When the office gives its second reason, long after the first one."""

CONFIG = Config(
    "NSO", "XX", 'Office of <prices> & "rates"', address=ADDRESS, clock=clock_of("Europe/Prague"), years=1, provisional=2,
    reference="2025", references=(Dated("2024-12"), Dated("2025", SECOND_YEAR)),
    specials=(Special("FOODS", "Foods", ("01",)),), reasons=(Reason(REVISED, 2, "A slip in rice."),),
)  # fmt: skip

Files = dict[str, bytes]
"""By their names in the site."""


class Run(NamedTuple):
    """What the site has after a run, and the releases that came with it: `2026-03-r2`."""

    files: Files
    new: list[str]

    def of(self, *folders: str) -> Files:
        """The files of some folders that belong to releases."""
        form = re.compile(rf"({'|'.join(folders)})/[0-9]{{4}}-[0-9]{{2}}-r[0-9]")
        return {name: data for name, data in self.files.items() if form.match(name)}


def planned(published: list[Published]) -> tuple[Planned, ...]:
    """All releases are announced from the first day on, also two that never come."""
    listed = [publication.listed for publication in published if publication.table]
    never = [(HIDDEN_REVISION, 2, 9_000_000_001), (LAST, 1, 9_000_000_000)]
    return tuple(Planned(*it) for it in [*listed, *never])


@pytest.fixture(scope="module")
def runs(published: list[Published], tmp_path_factory: pytest.TempPathFactory) -> list[Run]:
    """One after the other in the same folder, as on the days of the releases."""
    out, config = tmp_path_factory.mktemp("months") / "public", CONFIG._replace(planned=planned(published))
    runs, before = list[Run](), set[str]()
    for moment in sorted(
        {
            publication.listed.moment
            for publication in published
            if publication.table and publication.listed.month >= FIRST
        }
    ):
        tables = [publication for publication in published if publication.listed.moment <= moment]
        publish(tables, config, out, None, lambda _: None)
        now = {table.name[:-4] for table in tables if table.table}
        files = {path.relative_to(out).as_posix(): path.read_bytes() for path in out.rglob("*") if path.is_file()}
        runs.append(Run(files, sorted(now - before)))
        before = now
    return runs


def pairs(runs: list[Run]) -> Iterator[tuple[Run, Run]]:
    """Each run with the one before."""
    return zip(runs, runs[1:])


def test_it_is_two_years_with_a_revision(runs: list[Run]) -> None:
    assert len(runs) == 26 and sum(f"{REVISED}-r2" in run.new for run in runs) == 1
    assert all(len(run.new) == 1 for run in runs[1:])


# ---- that it stays


OF_ITEMS = "data/sdmx/data/", "data/json-stat/"
"""The folders of files that have what `data/` has of one item: those of an item that left go once its months are in an
archive only."""


def test_no_address_is_lost(runs: list[Run]) -> None:
    for before, now in pairs(runs):
        lost = before.files.keys() - now.files.keys()
        assert not {name for name in lost if not name.startswith(OF_ITEMS)}
        assert not lost or {name for name in now.files.keys() - before.files.keys() if name.startswith("data/years/")}
        assert mapped(before) <= mapped(now)


def mapped(run: Run) -> set[str]:
    """The addresses of the map of all pages."""
    return set(re.findall("<loc>(.*?)</loc>", run.files["sitemap.xml"].decode()))


def test_a_release_stays_as_it_is(runs: list[Run]) -> None:
    """Pages, texts for the press, cards, citations, pictures, pages to embed and tables of all releases; only the page of a month
    that is revised gets a line, which leads to the revision."""
    folders = "release", "picture", "embed", "data/tables"
    for before, now in pairs(runs):
        # (what describes the tables names each of them, and so the new one)
        described = {"data/tables/csv-metadata.json"}
        kept = {name: data for name, data in before.of(*folders).items() if name not in described}
        changed = {name for name, data in kept.items() if now.files[name] != data}
        assert changed == ({f"release/{REVISED}-r1.html"} if f"{REVISED}-r2" in now.new else set())
        for name in changed:
            old, new = (run.files[name].decode().splitlines() for run in (before, now))
            (line,) = (it for it in new if it not in old)
            assert [it for it in new if it != line] == old and f'<a href="{REVISED}-r2.html">Revision 2 of' in line
    each = {name: len([it for it in runs[-1].of(name) if "-r1" in it]) for name in folders}
    # (the first December has a table, and no page)
    assert each == {"release": 145, "picture": 87, "embed": 29, "data/tables": 30}


def test_an_archive_stays_once_its_months_are_final(runs: list[Run]) -> None:
    """That of the first year comes with January's release, which has a provisional December, and February's makes it anew.
    No later table changes it, since its own year isn't revised."""
    latest, changed = "", set[str]()
    for before, now in pairs(runs):
        latest = max(latest, *before.new)
        if any(name.startswith("data/years/2025") and now.files[name] != data for name, data in before.files.items()):
            changed.add(latest[:7])
    assert changed == {"2026-01"}
    assert "data/years/2025.zip" in runs[-1].files and "data/years/2026.zip" in runs[-1].files


def test_entries_and_events_stay(runs: list[Run]) -> None:
    """A reader of the feed, or of the calendar, isn't told of anything again."""
    for before, now in pairs(runs):
        old, new = entries(before), entries(now)
        assert all(new[key] == old[key] for key in old.keys() & new.keys())
        assert {f"{ADDRESS}release/{it}.html" for it in now.new} == new.keys() - old.keys()
        out = [f"{it}.XX.NSO@cpi" for it in now.new]
        then, events = (events_of(run) for run in (before, now))
        assert then.keys() - events.keys() <= {min(then)}
        assert all(events[key] == then[key] for key in then.keys() & events.keys() if key not in out)
        assert all(events[text][:2] == then[text][:2] and events[text][2] for text in out)


def entries(run: Run) -> dict[str, str]:
    """The entries of the feed by their ids."""
    matches = re.findall(r"<entry><id>(.*?)</id>.*?</entry>", run.files["feed.xml"].decode(), flags=re.S)
    return dict(zip(matches, re.findall(r"<entry>.*?</entry>", run.files["feed.xml"].decode(), flags=re.S)))


def events_of(run: Run) -> dict[str, tuple[object, str, str]]:
    """The events of the calendar by their ids: when, what, and what is said of them once they are over."""
    events = icalendar.Calendar.from_ical(run.files["calendar.ics"]).walk("VEVENT")
    return {
        str(event["UID"]): (event["DTSTART"].dt, str(event["SUMMARY"]), str(event.get("DESCRIPTION", "")))
        for event in events
    }


def test_an_event_leads_to_a_page_that_is_there(runs: list[Run]) -> None:
    """On the day on which somebody takes the calendar, and on each day after it; in the calendar's page the release is
    listed until it is out, and as long as it is one of the last."""
    for at, run in enumerate(runs):
        led = set[str]()
        for node in icalendar.Calendar.from_ical(run.files["calendar.ics"]).walk("VEVENT"):
            page, _, name = str(node["URL"]).removeprefix(ADDRESS).partition("#")
            led.add(page)
            assert all(page in later.files for later in runs[at:]) and name in str(node["UID"])
            if name:
                listed = [later for later in runs[at : at + 5] if name in later.new or later is run]
                assert all(f'id="{name}"' in later.files[page].decode() for later in listed)
        assert led >= {"calendar.html", f"release/{run.new[-1]}.html"}


def test_each_manifest_follows_the_one_before(runs: list[Run]) -> None:
    for before, now in pairs(runs):
        previous = json.loads(now.files["manifest.json"])["previous"]
        assert previous == hashlib.sha256(before.files["manifest.json"]).hexdigest()


def test_what_is_written_month_by_month_is_what_is_written_at_once(
    runs: list[Run], published: list[Published], tmp_path: Path
) -> None:
    tables = [
        publication
        for publication in published
        if publication.name[:-4] in {name for run in runs for name in run.new} or not publication.table
    ]
    site, last, before = tmp_path / "public", runs[-1].files, tmp_path / "before"
    for name in ("manifest.json", "data/artefacts.json", "data/revision-reasons.csv"):
        (before / name).parent.mkdir(parents=True, exist_ok=True)
        (before / name).write_bytes(last[name])
    config = CONFIG._replace(planned=planned(published))
    publish(tables, config, site, before / "manifest.json", lambda _: None)
    at_once = {path.relative_to(site).as_posix(): path.read_bytes() for path in site.rglob("*") if path.is_file()}
    # (what changed with a release is known only from the pack before)
    apart = {name for name in at_once.keys() | last.keys() if at_once.get(name) != last.get(name)}
    described = {"manifest.json", "SHA256SUMS", "data.html"}
    assert {name for name in apart if not name.startswith("data/changes/")} == described


def test_a_reason_that_is_added_changes_one_page(runs: list[Run], published: list[Published], tmp_path: Path) -> None:
    """The page of the revision, by a paragraph, and its entry in the feed."""
    site, last = tmp_path / "public", runs[-1].files
    tables = [
        publication
        for publication in published
        if publication.name[:-4] in {name for run in runs for name in run.new} or not publication.table
    ]
    reasons = (*CONFIG.reasons, Reason(REVISED, 2, "Wheat too.", ADDED))
    publish(tables, CONFIG._replace(planned=planned(published), reasons=reasons), site, None, lambda _: None)
    now = Run({path.relative_to(site).as_posix(): path.read_bytes() for path in site.rglob("*") if path.is_file()}, [])
    assert {it for it, data in now.of("release", "picture", "embed").items() if last[it] != data} == {REVISION}
    old, new = entries(runs[-1]), entries(now)
    assert {it for it in old if old[it] != new[it]} == {f"{ADDRESS}{REVISION}"}


# ---- that it is valid


def test_new_pages_and_files_are_valid_at_each_run(runs: list[Run]) -> None:
    """Feed, calendar, the map, the first page and the pages of new releases, each by the reader of its format."""
    for run in runs:
        feed = feedparser.parse(run.files["feed.xml"])
        assert not feed.bozo and feed.version == "atom10"
        assert icalendar.Calendar.from_ical(run.files["calendar.ics"]).errors == []
        ElementTree.fromstring(run.files["sitemap.xml"])
        for name in ("index.html", "releases.html", "data.html", *(f"release/{it}.html" for it in run.new[-1:])):
            read_html(run.files[name], name)


def read_html(page: bytes, name: str) -> None:
    """By the parser of the standard, which raises at the first fault; and what the page says as JSON-LD."""
    tree = html5lib.HTMLParser(strict=True, namespaceHTMLElements=False).parse(page)
    assert tree.find(".//h1") is not None, name
    for block in tree.iterfind('.//script[@type="application/ld+json"]'):
        found = {**json.loads(str(block.text)), "@context": {"@vocab": "https://schema.org/"}}
        assert len(rdflib.Graph().parse(data=json.dumps(found), format="json-ld")) > 10, name


def test_all_is_valid_at_the_end(runs: list[Run]) -> None:
    files = runs[-1].files
    for name, data in files.items():
        if name.endswith(".html"):
            read_html(data, name)
        elif name.endswith(".svg"):
            ElementTree.fromstring(data)
    assert sum(file.endswith(".svg") for file in files) > 100

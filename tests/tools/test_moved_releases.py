"""A release that moved: the calendar's page says what was announced, `calendar.ics` counts it, and the feed tells it."""

from __future__ import annotations

import html
import json
import re
from collections.abc import Iterator
from pathlib import Path
from typing import Optional
from xml.etree import ElementTree

import icalendar  # type: ignore[import]
import pytest

from cpi_tools.publish import pack as publish_module
from cpi_tools.publish.figures.announcements import (
    Announced,
    BadAnnounced,
    BadCalendar,
    Planned,
    announced_after,
    announced_in,
    planned_of,
)
from cpi_tools.publish.releases.cards import NO_CARDS
from cpi_tools.text.clocks import UTC
from cpi_tools.publish.figures.config import Config
from cpi_tools.publish.figures.own_words import OfficeLanguages
from cpi_tools.office.tables import Series
from cpi_tools.publish.pack import check, publish
from .test_measures import two_years

DAY = 86_400
FIRST, SECOND, THIRD = 1_801_125_000, 1_801_125_000 + DAY, 1_801_125_000 + 2 * DAY
"""28, 29 and 30 January 2027, 08:30 UTC."""

MONTH = "2027-01"
CONFIG = Config("NSO", "XX", "Office of prices", address="https://prices.example/")
TABLES = two_years()[:13]


@pytest.fixture(scope="module", autouse=True)
def no_cards() -> Iterator[None]:
    """Nothing draws cards meanwhile, which takes a second for a few releases."""
    with pytest.MonkeyPatch.context() as patch:
        patch.setattr(publish_module, "cards_after", lambda _: NO_CARDS)
        patch.setattr(publish_module, "cards_like", lambda _: NO_CARDS)
        yield


def written(out: Path, *planned: Planned, tables: int = 13) -> Path:
    publish(two_years()[:tables], CONFIG._replace(planned=planned), out, None, lambda _: None)
    return out


def event(out: Path) -> icalendar.Event:
    """The event of the release."""
    events = icalendar.Calendar.from_ical((out / "calendar.ics").read_bytes()).walk("VEVENT")
    return next(node for node in events if node["UID"].startswith(MONTH))


def updates(out: Path) -> list[str]:
    """When the feed changed, and then each of its entries."""
    feed = ElementTree.parse(out / "feed.xml").getroot()
    return [element.text or "" for element in feed.iter() if element.tag.endswith("updated")]


def words(out: Path, page: str = "calendar.html") -> str:
    text = html.unescape(re.sub(r"<[^>]*>", "", (out / page).read_text(encoding="utf-8")))
    return " ".join(text.split())


def test_a_moved_release_is_said_with_what_was_announced_and_why(tmp_path: Path) -> None:
    out = written(tmp_path / "public", Planned(MONTH, 1, FIRST))
    assert "Moved releases" not in words(out) and "SEQUENCE" not in event(out)
    written(out, Planned(MONTH, 1, SECOND, None, "A holiday <1>."))
    said = "January 2027 was announced for 28 January 2027, 08:30 UTC, and will be published on 29 January 2027, 08:30 UTC."
    assert f"Moved releases {said} The office gives this reason: A holiday <1>." in words(out)
    assert event(out)["SEQUENCE"] == 1 and event(out).decoded("DTSTART").timestamp() == SECOND
    feed = ElementTree.parse(out / "feed.xml").getroot()
    (entry,) = [it for it in feed if it.tag.endswith("entry") and "Moved: January 2027" in "".join(it.itertext())]
    assert f"{said} The office gives this reason: A holiday <1>." in "".join(entry.itertext())
    # what is published again says the same, and a further move counts on, without the reason of the first
    sums = (out / "SHA256SUMS").read_bytes()
    written(out, Planned(MONTH, 1, SECOND, None, "A holiday <1>."))
    assert (out / "SHA256SUMS").read_bytes() == sums
    stamp, updated = event(out).decoded("DTSTAMP"), updates(out)
    assert updated[0] == max(updated)
    written(out, Planned(MONTH, 1, THIRD))
    assert "for 29 January 2027, 08:30 UTC, and will be published on 30 January 2027, 08:30 UTC. Published" in words(
        out
    )
    assert event(out)["SEQUENCE"] == 2 and event(out).decoded("DTSTAMP") > stamp
    assert updates(out)[0] == max(updates(out)) > updated[0]
    assert check(TABLES, CONFIG._replace(planned=(Planned(MONTH, 1, THIRD),)), out, None, lambda _: None) == []


def test_an_event_that_moved_has_the_moment_of_the_last_table(tmp_path: Path) -> None:
    """Other programs take an event with a later DTSTAMP, which the next table changes as it does in all events."""
    out = written(tmp_path / "public", Planned(MONTH, 1, FIRST), tables=12)
    for tables in (12, 13, 13):
        written(out, Planned(MONTH, 1, SECOND), tables=tables)
        assert event(out).decoded("DTSTAMP").timestamp() == two_years()[tables - 1].listed.moment
        assert event(out)["SEQUENCE"] == 1


ISOLATES = {"\u2066": 1, "\u2067": 1, "\u2068": 1, "\u2069": -1}


def test_a_feed_from_right_to_left_keeps_its_isolates(tmp_path: Path) -> None:
    """A time and its zone stay in their order, and a reason of another direction turns nothing beside it."""
    config = CONFIG._replace(speaks=OfficeLanguages(("ar",), "latn", {}))
    out = tmp_path / "public"
    for moment in (FIRST, SECOND):
        planned = Planned(MONTH, 1, moment, None, "A holiday (1)")
        publish(TABLES, config._replace(planned=(planned,)), out, None, lambda _: None)
    texts = "".join(ElementTree.parse(out / "feed.xml").getroot().itertext())
    assert "\u206608:30 UTC\u2069" in texts and "\u2068A holiday (1)\u2069" in texts
    assert sum(ISOLATES.get(text, 0) for text in texts) == 0


def test_a_table_that_came_later_than_announced_is_said(tmp_path: Path) -> None:
    late = two_years()[13].listed
    assert late.month == MONTH
    out = written(tmp_path / "public", Planned(MONTH, 1, late.moment - 60))
    written(out, Planned(MONTH, 1, late.moment - 60), tables=14)
    assert "January 2027 was announced for 1 January 1970" in words(out) and "and was published on" in words(out)
    assert event(out)["SEQUENCE"] == 1


def test_a_late_release_that_moves_after_its_moment_is_said() -> None:
    """The announced moment passed, another table came out, and then the office announces a new moment."""
    series, last = Series(TABLES), two_years()[12].listed.moment
    early = announced_after({}, [Planned(MONTH, 1, last - 1)], series)
    assert [(it.moment, it.moves) for it in early] == [(last - 1, 0)]
    (moved,) = announced_after({it.of: it for it in early}, [Planned(MONTH, 1, FIRST)], series)
    assert (moved.before, moved.moment, moved.moves, moved.said) == (last - 1, FIRST, 1, series.moment)


def test_the_file_says_what_no_pack_knows(tmp_path: Path) -> None:
    rows = [["month", "publishes", "moved", "reason"], [MONTH, str(SECOND), str(FIRST), " A  strike. "]]
    (planned,) = planned_of(rows, UTC)
    assert planned == Planned(MONTH, 1, SECOND, FIRST, "A strike.")
    out = written(tmp_path / "public", planned)
    assert "was announced for 28 January 2027, 08:30 UTC" in words(out) and "reason: A strike." in words(out)


@pytest.mark.parametrize(
    ("head", "row", "said"),
    [
        ("moved", str(SECOND), "row 2: moved is .*, the moment of publishing itself"),
        ("moved", "soon", "row 2: moved: soon is no time like"),
        ("reason", "x", None),
    ],
)
def test_a_column_with_a_fault_is_refused(head: str, row: str, said: Optional[str]) -> None:
    rows = [["month", "publishes", head], [MONTH, str(SECOND), row]]
    if said is None:
        assert planned_of(rows, UTC)[0].reason == "x"
        return
    with pytest.raises(BadCalendar, match=said):
        planned_of(rows, UTC)
    with pytest.raises(BadCalendar, match="has the column moved twice"):
        planned_of([["month", "publishes", "moved", "moved"]], UTC)


# ---- packs without the file, and with one that is damaged


def test_the_calendar_of_an_earlier_version_counts(tmp_path: Path) -> None:
    """Its events to come; a long line goes on behind a blank."""
    out = written(tmp_path / "public", Planned(MONTH, 1, FIRST))
    (out / "data/announced.json").unlink()
    text = (out / "calendar.ics").read_bytes().decode()
    (out / "calendar.ics").write_bytes(text.replace("UID:2027-01-r1", "UID:2027-0\r\n 1-r1").encode())
    assert announced_in([out]) == {(MONTH, 1): Announced(MONTH, 1, FIRST)}
    written(out, Planned(MONTH, 1, SECOND))
    assert event(out)["SEQUENCE"] == 1 and "was announced for 28 January 2027" in words(out)


@pytest.mark.parametrize("turned", [False, True])
def test_of_two_packs_the_one_counts_in_which_a_release_moved(tmp_path: Path, turned: bool) -> None:
    """Whichever pack is named first: one that --previous names may be older than the one that is replaced."""
    one = written(tmp_path / "one", Planned(MONTH, 1, FIRST))
    other = written(tmp_path / "other", Planned(MONTH, 1, FIRST))
    written(other, Planned(MONTH, 1, SECOND))
    found = announced_in([other, one] if turned else [one, other])
    assert found == announced_in([other]) and found[MONTH, 1].moves == 1


ROW = Announced(MONTH, 1, FIRST)._asdict()


@pytest.mark.parametrize(
    "text",
    ["", "[]", "{}", '{"announced": [[]]}', '{"announced": [{}]}', "[" * 100_000]
    + [json.dumps({"announced": [{**ROW, name: value}]}) for name, value in
       [("month", "2027-13"), ("moment", "1"), ("moves", -1), ("before", 0.5), ("planned", "1"), ("reason", 1), ("more", 1)]],
)  # fmt: skip
def test_a_damaged_file_is_refused_with_its_remedy(tmp_path: Path, text: str) -> None:
    (tmp_path / "data").mkdir()
    (tmp_path / "data/announced.json").write_text(text, encoding="utf-8")
    with pytest.raises(BadAnnounced, match="announced.json isn't what cpi-tools publish wrote there: .* or remove it"):
        announced_in([tmp_path])

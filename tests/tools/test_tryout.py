"""A trial of the made-up country: its website, phones and desk name the same moments on each day, and it goes on where
it was stopped."""

from __future__ import annotations

import configparser
import csv
import datetime
import itertools
import re
from pathlib import Path

import pytest

from cpi_tools.desk.teams.supervisor_rows import read_supervisors
from cpi_tools.office.public import Listed
from cpi_tools.office.stored import Window
from cpi_tools.publish.figures.config import read_config
from cpi_tools.publish.figures.announcements import read_planned
from cpi_tools.text.clocks import Clock, clock_of
from cpi_tools.text.languages import list_known
from cpi_tools.text.terminal import Fault
from cpi_tools.tryout.trial_calendar import ANNOUNCED, MONTHS_AHEAD, later_month, month_now, write_announced
from cpi_tools.tryout.trial_keys import DESK_KEY, first_key, kept_desk_key, kept_supervisors
from cpi_tools.tryout.trial_services import TrialSite, write_site_config
from lib.places import ROOT

NATION = ROOT / "examples/national"
CET = clock_of("CET-1CEST,M3.5.0,M10.5.0/3")


# ---- the calendar


def text_of(month: int) -> str:
    """`2026-12` of 202612."""
    return f"{month // 100}-{month % 100:02}"


def opened(month: int) -> Window:
    """The window of this month, as examples/national/run opens it: for two months from its first day on."""
    until = CET.moment(f"{text_of(later_month(month, 2))}-01T00:00")
    return Window(month, CET.moment(f"{text_of(month)}-01T00:00"), until, until)


def tables_before(month: int) -> list[Listed]:
    """The tables of two years before a month, one of them revised, each out on the 28th of its month."""
    months = [later_month(month, -by) for by in range(25, 0, -1)]
    out = [Listed(text_of(each), 1, CET.moment(f"{text_of(each)}-28T09:30")) for each in months]
    return [*out, Listed(text_of(months[9]), 2, CET.moment(f"{text_of(months[9])}-28T18:00"))]


@pytest.mark.parametrize("year", [2026, 2028])
def test_on_each_day_of_a_year_all_announced_moments_are_those_of_the_office(year: int, tmp_path: Path) -> None:
    """Also on 29 February. What is out is announced as it came, this month as its window says, later ones after it."""
    for month in [year * 100 + number for number in range(1, 13)]:
        published, window = tables_before(month), opened(month)
        planned = read_planned(write_announced(tmp_path, published, [window]), CET)
        moments = {(it.month, it.revision): it.moment for it in planned}
        assert {(listing.month, listing.revision): listing.moment for listing in published}.items() <= moments.items()
        assert moments[text_of(month), 1] == window.publishes and len(moments) == len(published) + 1 + MONTHS_AHEAD
        coming = [it for it in planned if it.moment > CET.moment(f"{text_of(month)}-01T00:00")]
        assert [it.month for it in coming] == [text_of(later_month(month, by)) for by in range(MONTHS_AHEAD + 1)]
        assert all(one.moment < other.moment for one, other in zip(coming, coming[1:]))


def test_each_moment_of_a_day_is_in_the_window_of_its_month() -> None:
    """By the country's clock, wherever the machine is: the first and the last second of a month too."""
    for month in (202602, 202612, 202702, 202802):
        window, last = opened(month), datetime.date(month // 100, month % 100, 28)
        for day in ("01T00:00", "15T12:00", "28T23:59", f"{last.day:02}T00:00"):
            at = CET.moment(f"{text_of(month)}-{day}")
            assert month_now(CET, at) == text_of(month) and window.opens <= at < window.closes
        assert month_now(CET, window.opens - 1) == text_of(later_month(month, -1))
    leap = CET.moment("2028-02-29T23:59")
    assert month_now(CET, leap) == "2028-02" and month_now(CET, leap + 60) == "2028-03"
    assert month_now(Clock(), CET.moment("2026-12-01T00:30")) == "2026-11"


def test_a_window_that_the_desk_has_moved_is_announced_so(tmp_path: Path) -> None:
    """A reopened month has its first release as it came, and its next one by the window."""
    published, window = tables_before(202612), opened(202612)
    again = Window(202611, 0, window.closes - 2, window.closes - 1)
    planned = read_planned(write_announced(tmp_path, published, [again, window]), CET)
    of = [(it.revision, it.moment) for it in planned if it.month == "2026-11"]
    assert of == [(1, CET.moment("2026-11-28T09:30")), (2, window.closes - 1)]
    assert write_announced(tmp_path, [], []).read_text() == "month,publishes\n"


# ---- the website


def site_of(folder: Path, language: str) -> TrialSite:
    return TrialSite("https://localhost:8443/published/", folder / "reasons.csv", language)


@pytest.mark.parametrize(("language", "first"), [("en", "en"), ("fr", "fr"), ("ar", "ar")])
def test_the_country_s_website_speaks_each_language_with_its_own_titles(
    language: str, first: str, tmp_path: Path
) -> None:
    write_announced(tmp_path, tables_before(202612), [opened(202612)])
    config = read_config(write_site_config(tmp_path, NATION / "office.ini", "2024-12", site_of(tmp_path, language)))
    assert config.speaks.languages[0] == first and sorted(config.speaks.languages) == sorted(list_known())
    for tag, own in config.speaks.own.items():
        assert tag == "en" or set(own.words) == {"office", "title", "country", "licence", "currency"}, tag
    assert config.reference == "2024" and len(config.planned) == 26 + 1 + MONTHS_AHEAD


def codes_of(name: str, column: str) -> list[str]:
    """A column of a file of the made-up country."""
    with (NATION / name).open(encoding="utf-8", newline="") as file:
        return [row[column] for row in csv.DictReader(file)]


@pytest.mark.parametrize("tag", ["fr", "es", "ar"])
def test_each_item_and_each_set_has_a_title_of_its_own_in_each_language(tag: str) -> None:
    """What has one title in English has one in another language, and two titles of neighbours differ."""
    codes = [*codes_of("basket.csv", "code"), *codes_of("aggregates.csv", "id")]
    english = dict(zip(codes, [*codes_of("basket.csv", "title"), *codes_of("aggregates.csv", "title")]))
    titles = dict(zip(codes_of(f"titles-{tag}.csv", "code"), codes_of(f"titles-{tag}.csv", "title")))
    assert [*titles] == codes
    assert len(set(zip(english.values(), titles.values()))) == len(set(english.values()))
    for one, other in itertools.combinations(english, 2):
        if one.rpartition("." if "-" not in one else "-")[0] == other.rpartition("." if "-" not in other else "-")[0]:
            assert english[one] == english[other] or titles[one] != titles[other], (one, other)
    letters = "[؀-ۿ]" if tag == "ar" else "[A-Za-z]"
    assert all(re.search(letters, title) and title == title.strip() for title in titles.values())


def test_another_office_has_none_of_the_country_s_texts(tmp_path: Path) -> None:
    """Even if the country was tried in the same folder before."""
    write_announced(tmp_path, [], [opened(202612)])
    for country in (NATION / "office.ini", None):
        file = write_site_config(tmp_path, country, "2024-12", site_of(tmp_path, "fr"))
    parser = configparser.ConfigParser()
    parser.read(file, encoding="utf-8")
    assert parser.sections() == ["office"] and parser["office"]["languages"] == "fr, en"
    assert "calendar" not in parser["office"] and not [*tmp_path.glob("titles-*")]
    file = write_site_config(tmp_path, None, "2024-12", site_of(tmp_path, "en"))
    assert "languages" not in file.read_text(encoding="utf-8") and (tmp_path / ANNOUNCED).exists()


# ---- the keys


def test_keys_are_drawn_once_and_only_their_owner_reads_them(tmp_path: Path) -> None:
    key, supervisors = kept_desk_key(tmp_path), kept_supervisors(tmp_path)
    assert kept_desk_key(tmp_path) == key and re.fullmatch("[0-9a-f]{32}", key)
    text = supervisors.read_bytes()
    assert kept_supervisors(tmp_path).read_bytes() == text
    rows = read_supervisors(supervisors)
    assert rows[0].has_all and rows[0].key == first_key(supervisors) and len({key, *(row.key for row in rows)}) == 4
    assert all((tmp_path / name).stat().st_mode & 0o077 == 0 for name in (DESK_KEY, supervisors.name))
    (tmp_path / DESK_KEY).write_text("none")
    with pytest.raises(Fault, match="desk-key contains no key of 32 characters 0-9 and a-f: remove it, and another"):
        kept_desk_key(tmp_path)

"""The releases that an office announces: the file, the clock, the pages, and `calendar.ics`."""

from __future__ import annotations

import datetime
from pathlib import Path

import icalendar  # type: ignore[import]
import pytest

from cpi_tools.sheets.judge import moments_of
from cpi_tools.text.clocks import UTC, NoZone, clock_of
from cpi_tools.publish.figures.config import BadConfig, Config, read_config
from cpi_tools.publish.figures.announcements import BadCalendar, Planned, planned_of
from cpi_tools.office.program import Cpi
from cpi_tools.publish.pack import check, publish
from .test_measures import two_years
from .test_site import words_of

PRAGUE = "CET-1CEST,M3.5.0,M10.5.0/3"
HEAD = ["month", "opens", "closes", "publishes"]
JANUARY = 1_801_125_000
"""28 January 2027, 08:30 UTC."""

INI = """\
[office]
agency = NSO
area = XX
office = Office of prices
zone = Europe/Prague
calendar = calendar.csv
"""
ROWS = """\
month,opens,closes,publishes
2026-12,2026-12-01T06:00,2026-12-24T18:00,2026-12-28T09:30
2027-01,2027-01-01T06:00,2027-01-24T18:00,2027-01-28T09:30
2027-06,2027-06-01T06:00,2027-06-24T18:00,2027-07-28T09:30
2027-12,2027-12-01T06:00,2027-12-24T18:00,2028-01-28T00:30
2026-12,1,2,1817000000
"""


@pytest.fixture(scope="module")
def config(tmp_path_factory: pytest.TempPathFactory) -> Config:
    """That of an office in Prague."""
    folder = tmp_path_factory.mktemp("office")
    (folder / "calendar.csv").write_text(ROWS)
    (folder / "office.ini").write_text(INI)
    return read_config(folder / "office.ini")


@pytest.fixture(scope="module")
def site(config: Config, tmp_path_factory: pytest.TempPathFactory) -> Path:
    """The site of its first year, up to December 2026."""
    out = tmp_path_factory.mktemp("site") / "public"
    publish(two_years()[:13], config, out, None, lambda _: None)
    return out


# ---- the clock


@pytest.mark.parametrize("zone", [PRAGUE, "NZST-12NZDT,M9.5.0,M4.1.0/3", "IST-5:30", "<-03>3"])
def test_civil_times_are_the_moments_that_the_program_reads(cpi: Cpi, zone: str) -> None:
    """Round changes of the clock too: times that it shows twice, and times that it leaves out."""
    days = [
        "2026-01-28",
        "2026-03-28",
        "2026-03-29",
        "2026-04-05",
        "2026-09-27",
        "2026-10-25",
        "2026-10-26",
        "2199-07-01",
    ]
    texts = [f"{day}T{hour:02}:{minute:02}" for day in days for hour in range(24) for minute in (0, 30)]
    clock = clock_of(zone)
    assert {text: clock.moment(text) for text in texts} == moments_of(cpi, texts, zone)


def test_a_place_has_the_clock_of_its_rule() -> None:
    for text in ("2026-01-28T09:30", "2026-03-29T02:30", "2026-10-25T02:30", "2026-07-28T09:30"):
        assert clock_of("Europe/Prague").moment(text) == clock_of(PRAGUE).moment(text)


def test_moments_are_told_by_the_clock_and_in_utc() -> None:
    assert clock_of("Europe/Prague").day(JANUARY) == "28 January 2027, 09:30 CET (08:30 UTC)"
    assert clock_of(PRAGUE).local(JANUARY + 180 * 86_400) == "27 July 2027, 10:30 CEST"
    assert UTC.day(JANUARY) == UTC.local(JANUARY) == "28 January 2027, 08:30 UTC"
    assert clock_of("Pacific/Auckland").day(JANUARY + 8 * 3600) == (
        "29 January 2027, 05:30 NZDT (28 January 2027, 16:30 UTC)"
    )
    assert clock_of("Asia/Kathmandu").local(JANUARY) == "28 January 2027, 14:15 UTC+05:45"


@pytest.mark.parametrize(
    "text", ["Nowhere", "Europe/Nowhere", "../etc/passwd", "/etc/passwd", "CET-1CEST,garbage", "5"]
)
def test_what_is_no_zone_is_refused(text: str) -> None:
    with pytest.raises(NoZone, match="is neither a place such as Europe/Prague nor a rule"):
        clock_of(text)


# ---- the file


def test_rows_are_releases_and_revisions(config: Config) -> None:
    assert config.planned == (
        Planned("2026-12", 1, JANUARY - 31 * 86_400),
        Planned("2027-01", 1, JANUARY),
        Planned("2027-06", 1, JANUARY + 181 * 86_400 - 3600),
        Planned("2026-12", 2, 1_817_000_000),
        Planned("2027-12", 1, JANUARY + 365 * 86_400 - 9 * 3600),
    )


@pytest.mark.parametrize(
    ("rows", "line"),
    [
        ([], "its first row is , and needs one column month"),
        ([["month", "opens"]], "its first row is month,opens, and needs one column publishes"),
        ([HEAD, ["2026-13", "", "", "5"]], "row 2: 2026-13 is no month like 2026-01"),
        ([HEAD, [], ["2026-12", "", "", ""]], "row 3: an empty text is no time like 2026-01-28T09:30, and no seconds"),
        (
            [HEAD, ["2026-12", "", "", "28.12.2026"]],
            "row 2: 28.12.2026 is no time like 2026-01-28T09:30, and no seconds",
        ),
        ([HEAD, ["2026-12", "", "5"]], "row 2 has 3 cells, and not 4"),
        ([HEAD, *[["2026-12", "", "", "5"]] * 10], "row 11: 2026-12 has more than 9 rows"),
    ],
)
def test_a_row_that_cannot_be_read_is_told_in_a_line(rows: list[list[str]], line: str) -> None:
    with pytest.raises(BadCalendar) as told:
        planned_of(rows, UTC)
    assert str(told.value) == line


@pytest.mark.parametrize(
    ("more", "line"),
    [
        ("zone = Nowhere", "zone: Nowhere is neither a place"),
        ("calendar = none.csv", "none.csv: No such file"),
        ("address = prices.example", "address: prices.example is no address of a site, such as https://"),
        ("address = https://prices.example/?a=b", "address: https://prices.example/?a=b is no address of a site"),
        ("reference = 2015, 2025", "reference: each value but the first needs the month of the first release"),
        ("reference = 2015, soon from 2026-01", "reference: soon is neither a year like 2025 nor a month like 2025-12"),
        ("rates = exact, printed from 2026-01", "rates: printed is neither exact nor published"),
    ],
)
def test_a_wrong_configuration_is_told_in_a_line(tmp_path: Path, more: str, line: str) -> None:
    (tmp_path / "office.ini").write_text(f"[office]\nagency = NSO\narea = XX\noffice = Prices\n{more}\n")
    with pytest.raises((BadConfig, BadCalendar)) as told:
        read_config(tmp_path / "office.ini")
    assert line in str(told.value) and "\n" not in str(told.value)


def test_an_address_ends_with_a_slash(tmp_path: Path) -> None:
    for text in ("https://prices.example", "https://prices.example/"):
        (tmp_path / "office.ini").write_text(f"[office]\nagency = N\narea = X\noffice = P\naddress = {text}\n")
        assert read_config(tmp_path / "office.ini").address == "https://prices.example/"


# ---- the pages


def test_the_first_page_tells_the_next_release_and_those_of_its_year(site: Path) -> None:
    told = words_of(site / "index.html")
    assert "Next release: January 2027, on 28 January 2027, 09:30 CET (08:30 UTC) ( calendar )." in told
    coming = told[told.index("Releases in 2027") :]
    assert coming.startswith(
        "Releases in 2027: January 2027, 28 January 2027, 09:30 CET June 2027, 28 July 2027, 09:30 CEST"
        " December 2026, revision 2, 31 July 2027, 04:13 CEST Calendar"
    )


def test_the_calendar_has_all_by_the_year_in_which_they_come(site: Path) -> None:
    """December 2027 comes in 2028 by the clock of Prague, half an hour after midnight of the 28th."""
    told = words_of(site / "calendar.html")
    assert "The next release is for January 2027, on 28 January 2027, 09:30 CET (08:30 UTC) ." in told
    assert "Times are in the office’s time zone ( Europe/Prague ) and in UTC." in told
    assert "Coming releases in 2028 Index of When December 2027 28 January 2028, 00:30 CET (27 January 2028" in told
    assert 'datetime="2027-01-28T08:30:00Z"' in (site / "calendar.html").read_text(encoding="utf-8")


def test_what_comes_is_told_by_the_tables_and_not_by_a_clock(config: Config, site: Path, tmp_path: Path) -> None:
    """All of this is years ahead of the tables by hand, or years ago for who reads it: the pages are the same."""
    assert check(two_years()[:13], config, site, None, lambda _: None) == []
    out = tmp_path / "public"
    publish(two_years()[:14], config, out, None, lambda _: None)
    assert "Next release: June 2027, on 28 July 2027" in words_of(out / "index.html")
    publish(two_years()[:14], config._replace(planned=()), tmp_path / "none", None, lambda _: None)
    assert "No further release is announced." in words_of(tmp_path / "none/calendar.html")
    assert "Next release" not in words_of(tmp_path / "none/index.html")


# ---- for other programs


def test_other_programs_read_the_calendar(site: Path) -> None:
    data = (site / "calendar.ics").read_bytes()
    lines = data.split(b"\r\n")
    assert lines[-1] == b"" and b"\n" not in data.replace(b"\r\n", b"") and max(map(len, lines)) <= 75
    events = icalendar.Calendar.from_ical(data).walk("VEVENT")
    assert len({str(event["UID"]) for event in events}) == len(events) == 12 + 4
    by_title = {str(event["SUMMARY"]): event for event in events}
    coming = by_title["Consumer price index, January 2027"]
    assert coming.decoded("DTSTART") == datetime.datetime(2027, 1, 28, 8, 30, tzinfo=datetime.timezone.utc)
    assert "Consumer price index, December 2026, revision 2" in by_title and "DESCRIPTION" not in coming
    assert "URL" not in coming  # (this office says no address)
    said = str(by_title["Consumer price index, December 2026"]["DESCRIPTION"])
    assert said == "In December 2026, consumer prices were 5.0 percent higher than a year earlier."


def test_texts_of_the_calendar_are_whole_whatever_is_in_them(config: Config, tmp_path: Path) -> None:
    """Letters of several bytes where a line is cut, and signs that a value has otherwise."""
    title = "Spotřebitelské ceny; a, b\\c " + "ř" * 60
    publish(two_years()[:3], config._replace(title=title), tmp_path / "public", None, lambda _: None)
    data = (tmp_path / "public/calendar.ics").read_bytes()
    assert max(map(len, data.split(b"\r\n"))) <= 75
    events = icalendar.Calendar.from_ical(data).walk("VEVENT")
    assert str(events[0]["SUMMARY"]) == f"{title}, January 2026"

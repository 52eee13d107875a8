"""The sentences of releases for the press: by hand over two years, and as a pack of the release's day has the figures."""

from __future__ import annotations

import csv
import re
from pathlib import Path

import pytest

from cpi_tools.office.public import Listed, Published
from cpi_tools.publish.figures.config import BadConfig, Config, read_config
from cpi_tools.publish.figures.specials import CoreDefinition, Special
from cpi_tools.publish.figures.own_words import OfficeLanguages
from cpi_tools.publish.figures.announcements import Reason
from cpi_tools.publish.pack import publish
from cpi_tools.office.program import Cpi
from lib.places import ROOT
from .published import REVISED
from .ran import run
from .test_measures import tea_again, two_years
from .test_site import words_of

CONFIG = Config("NSO", "XX", "Office of prices", contact="press@prices.example", address="https://prices.example/")
SETS = (Special("REST", "All items without food", ("00",), ("01",)),)
CORE = (
    CoreDefinition("MEDIAN", "Weighted median", "median"),
    CoreDefinition("RISING", "Items that rise", "items-rising"),
)
NAMED = CONFIG._replace(specials=SETS, core=CORE, press=("REST", "MEDIAN"), without=frozenset({"pictures"}))


def made(published: list[Published], out: Path, config: Config) -> Path:
    publish(published, config, out, None, lambda _: None)
    return out


@pytest.fixture(scope="module")
def by_hand(tmp_path_factory: pytest.TempPathFactory) -> Path:
    config = CONFIG._replace(speaks=OfficeLanguages(("en", "ar", "es", "fr")))
    return made([*two_years(), tea_again()], tmp_path_factory.mktemp("by-hand") / "public", config)


def text_of(site: Path, name: str, tag: str = "") -> list[str]:
    return (site / tag / "release" / f"{name}.txt").read_text(encoding="utf-8").splitlines()


def test_the_text_of_a_january_is_worked_by_hand(by_hand: Path) -> None:
    """Coffee gives 100 * 0.75 * 6 / 99.75 + 105 / 99.75 * 0.5 * 2 = 5.56, tea 100 * 0.25 * 3 / 99.75 = 0.75, milk
    105 / 99.75 * 0.5 * 6 = 3.16; in December these were 3, 2 and none."""
    assert text_of(by_hand, "2027-01-r1") == [
        "Office of prices",
        "Consumer price index, January 2027",
        "Published 1 January 1970, 00:01 UTC.",
        "",
        "In January 2027, consumer prices were 9.5 percent higher than a year earlier.",
        "The index is 109.2 (December 2025 = 100).",
        "",
        "The largest upward contributions, in percentage points, came from Title of 01 (+5.56), Title of 03 (+3.16) and"
        " Title of 02 (+0.75).",
        "",
        "Compared with the previous month, prices rose by 4.0 percent.",
        "",
        "In December 2026, the annual change was +5.0\u202f%. Compared with that month, in percentage points, the"
        " contribution of Title of 03 rose most (+3.16), and the contribution of Title of 02 fell most (\u22121.25).",
        "",
        "Contact: press@prices.example",
        "This release: https://prices.example/release/2027-01-r1.html",
        "Method: https://prices.example/method.html",
    ]


def test_contributions_up_and_down_are_each_in_a_sentence(by_hand: Path) -> None:
    """In the first month coffee gives 0.75 * -2, and tea 0.25 * 5; in March nothing moves."""
    assert text_of(by_hand, "2026-01-r1")[7] == (
        "The largest upward contribution, in percentage points, came from Title of 02 (+1.25). The largest downward"
        " contribution, in percentage points, came from Title of 01 (\u22121.50)."
    )
    still = text_of(by_hand, "2026-03-r1")
    assert still[4] == "In March 2026, consumer prices didn't change from the previous month."
    assert [line for line in still if re.search("contribution|annual|a year earlier", line)] == []


def test_the_page_says_what_the_text_says(by_hand: Path) -> None:
    said = words_of(by_hand / "release/2027-01-r1.html").replace(" )", ")").replace(" (+", "(+")
    for line in text_of(by_hand, "2027-01-r1")[7:11:2]:
        assert " ".join(line.split()).replace(" (+", "(+") in said
    page = (by_hand / "release/2027-01-r1.html").read_text(encoding="utf-8")
    assert '<a href="2027-01-r1.txt">' in page and "came from <bdi>Title of 01</bdi> (+5.56)" in page


@pytest.mark.parametrize(
    ("tag", "contributions", "month"),
    [("fr", "Principales contributions à la hausse", "En décembre 2026, la variation sur un an était de +5,0"),
     ("es", "Las mayores contribuciones al alza", "En diciembre de 2026, la variación"),
     ("ar", "جاءت أكبر المساهمات في الارتفاع", "في ديسمبر 2026 كان التغير")],
)  # fmt: skip
def test_each_language_has_its_own_text(by_hand: Path, tag: str, contributions: str, month: str) -> None:
    lines = text_of(by_hand, "2027-01-r1", tag)
    assert len(lines) == 16 and lines[7].startswith(contributions) and lines[11].startswith(month)
    english = {*text_of(by_hand, "2027-01-r1")} - {"", "Office of prices"}
    assert not english & {*lines}
    if tag != "ar":
        assert not re.search("[\u2066-\u2069\u200e\u200f]", "\n".join(lines))


LATE = ["After the release of January 2026, December 2025 was revised: it is the base month of the index, so it has no"
        " levels of its own.", "Après la publication", "Después de la publicación", "بعد إصدار"]  # fmt: skip


def test_a_late_revision_of_the_month_in_which_the_index_begins(tmp_path: Path) -> None:
    """Its table has no rows, so neither has it a release; it comes after the first release, with a reason."""
    tables, tags = two_years()[:3], ("en", "fr", "es", "ar")
    late = Published(Listed("2025-12", 2, tables[1].listed.moment + 1), b"")
    assert tables[1].listed.moment < late.listed.moment <= tables[2].listed.moment
    reasons = (Reason("2025-12", 2, "A shop was late."),)
    config = CONFIG._replace(speaks=OfficeLanguages(tags), reasons=reasons)
    site = made(sorted([*tables, late]), tmp_path / "public", config)
    for tag, wanted in zip(tags, LATE):
        folder = "" if tag == "en" else tag
        assert [it for it in text_of(site, "2026-02-r1", folder) if it.startswith(wanted) and "A shop was late." in it]
        for page in ("release/2026-02-r1.html", "revisions.html"):
            assert "2025-12-r2.html" not in (site / folder / page).read_text(encoding="utf-8")
    assert "December 2025, revision 2, published" in words_of(site / "release/2026-02-r1.html")
    assert "It is the base month of the index, so it has no levels of its own." in words_of(site / "revisions.html")
    assert not (site / "release/2025-12-r2.html").exists()


# ---- what the office names


@pytest.fixture(scope="module")
def named(published: list[Published], tmp_path_factory: pytest.TempPathFactory) -> Path:
    config = NAMED._replace(reasons=(Reason(REVISED, 2, "A shop was late."),))
    return made(published, tmp_path_factory.mktemp("named") / "public", config)


def sentences(lines: list[str]) -> list[str]:
    """Those of a special aggregate and of core inflation."""
    (sentences,) = [line for line in lines if line.startswith("The index of")]
    return re.split(r"(?<=month\.) ", sentences)


def changes_in(pack: Path, file: str, month: str, id: str, columns: tuple[str, str]) -> tuple[str, str]:
    with (pack / "data" / file).open(encoding="utf-8", newline="") as rows:
        (row,) = [row for row in csv.DictReader(rows) if (row["month"], row.get("id", row.get("code"))) == (month, id)]
    monthly, annual = (signed(row[column]) for column in columns)
    return annual, monthly


def signed(text: str) -> str:
    """A change as a page has it."""
    return f"\u2212{text[1:]}" if text.startswith("-") else f"+{text}" if float(text) else text


@pytest.mark.parametrize("name", [f"{REVISED}-r1", f"{REVISED}-r2", "2027-02-r1"])
def test_named_figures_are_those_of_the_day(published: list[Published], named: Path, tmp_path: Path, name: str) -> None:
    """A pack that was made on the day of the release is the other way to them; shares of items that rise are no changes."""
    (of,) = (publication for publication in published if publication.name == f"{name}.csv")
    then = made(
        [publication for publication in published if publication.listed.moment <= of.listed.moment],
        tmp_path / "then",
        NAMED,
    )
    month, core = name[:7], ("monthly", "annual")
    annual, monthly = changes_in(then, "aggregates.csv", month, "REST", ("month_change", "year_change"))
    mean, by_month = changes_in(then, "core.csv", month, "MEDIAN", core)
    assert sentences(text_of(named, name)) == [
        f"The index of All items without food changed by {annual}\u202f% from a year earlier and by {monthly}\u202f%"
        " from the previous month.",
        f"Analytical core inflation (Weighted median) was {mean}\u202f% compared with a year earlier and {by_month}\u202f%"
        " compared with the previous month.",
    ]


def test_a_revision_is_told_with_its_reason(named: Path) -> None:
    of, after = (" ".join(text_of(named, text)) for text in (f"{REVISED}-r2", "2026-04-r1"))
    assert re.search(r"This release revises March 2026: the index .*? before\. Reason: A shop was late\.", of)
    assert re.search(r"After the release of March 2026, March 2026 was revised: .*? Reason: A shop was late\.", after)
    assert "revise" not in " ".join(text_of(named, f"{REVISED}-r1"))


def test_earlier_releases_say_nothing_of_what_is_named_later(published: list[Published], tmp_path: Path) -> None:
    """Nor of a set that got another definition for all months since."""
    later = made(published, tmp_path / "later", NAMED._replace(press_since="2027-01"))
    assert "All items without" not in " ".join(text_of(later, "2026-12-r1"))
    assert len(sentences(text_of(later, "2027-01-r1"))) == 2
    last = max(publication.listed.moment for publication in published)
    other = NAMED._replace(press=("REST",), reasons=(Reason("REST", 2, "Alcohol was left out.", last),))
    again = made(published, tmp_path / "again", other)
    assert not [it for it in text_of(again, "2026-12-r1") if it.startswith("The index of")]


@pytest.mark.parametrize(
    ("words", "wanted"),
    [("REST MEDIAN", ("REST", "MEDIAN")), ("REST, MEDIAN from 2027-01", ("REST", "MEDIAN"))],
)
def test_the_office_names_them(tmp_path: Path, words: str, wanted: tuple[str, ...]) -> None:
    config = read_config(office(tmp_path, words))
    assert (config.press, config.press_since) == (wanted, "2027-01" if "from" in words else "")


@pytest.mark.parametrize(
    ("words", "fault"),
    [("FOOD", "FOOD is no id"), ("REST REST", "names an id twice"), ("REST from 2027-13", "from is no id"),
     ("from 2027-01", "from is no id"), ("REST RISING", "RISING is a share, and no sentence says one"),
     ("FUEL from 2028-01", "FUEL ends before 2028-01"), ("MEDIAN TRIM from 2028-02", "TRIM ends before 2028-02"),
     ("REST\nrates = published", "rates is published"),
     ("REST from 2027-06\nrates = exact, published from 2027-01", "rates is published")],
)  # fmt: skip
def test_what_no_sentence_has_is_refused(tmp_path: Path, words: str, fault: str) -> None:
    with pytest.raises(BadConfig, match=f"office.ini: press.*{fault}"):
        read_config(office(tmp_path, words))


@pytest.mark.parametrize(
    "words", ["FUEL TRIM", "FUEL from 2027-12", "OLD from 2028-01", "REST\nrates = exact, published from 2027-01"]
)
def test_what_some_release_has_is_taken(tmp_path: Path, words: str) -> None:
    """A set ends later, or is back; the first releases have exact changes."""
    assert read_config(office(tmp_path, words)).press == tuple(words.partition("\n")[0].partition(" from")[0].split())


def test_a_name_without_figures_is_told(cpi: Cpi, tmp_path: Path) -> None:
    """The set has no aggregate; the one that begins later is told from its January on."""
    db, config = tmp_path / "office.db", office(tmp_path, "NONE REST FUEL")
    cpi.replay((ROOT / "examples/table.csv").read_text(encoding="utf-8").splitlines(), db=db)
    ran = run(cpi, "publish", "--db", db, "--at", 5000, "--config", config, "--out", tmp_path / "public")
    assert ran.status == 0 and "press names what has no figures in 2026-02: NONE, FUEL\n" in ran.err
    config = office(tmp_path, "NONE from 2026-03")
    ran = run(cpi, "publish", "--db", db, "--at", 5000, "--config", config, "--out", tmp_path / "public")
    assert ran.status == 0 and "press names" not in ran.err


def office(folder: Path, words: str) -> Path:
    """The configuration of an office whose fuels end in 2028, and whose old set is back then."""
    sets = ["id,title,in,out,from", "REST,All items without food,00,02,", "FUEL,Fuels,07,,", "FUEL,Fuels,,,2028-01",
            "OLD,Old one,01,,", "OLD,Old one,,,2027-01", "OLD,Old one,01,,2029-01", "NONE,None,13,,"]  # fmt: skip
    core = ["id,title,measure,trim,from", "MEDIAN,Weighted median,median,,", "RISING,Items that rise,items-rising,,",
            "TRIM,Trimmed mean,trimmed-mean,15,", "TRIM,Trimmed mean,,,2028-01"]  # fmt: skip
    text = "[office]\nagency = NSO\narea = XX\noffice = Office\naggregates = sets.csv\ncore = core.csv\n"
    for name, lines in (("sets.csv", sets), ("core.csv", core), ("office.ini", [f"{text}press = {words}"])):
        (folder / name).write_text("\n".join([*lines, ""]), encoding="utf-8")
    return folder / "office.ini"

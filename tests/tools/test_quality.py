"""Quality in figures: counts from a copy, the rule of few outlets, and the page and the files of a pack.

All figures are computed once more by `lib.quality`, from the records that were sent and from the published tables.
"""

from __future__ import annotations

import csv
import io
import json
import random
import re
import zoneinfo
from collections.abc import Iterator, Mapping
from fractions import Fraction
from pathlib import Path
from typing import NamedTuple

import pytest

from cpi_tools.command_line import main
from cpi_tools.publish.figures.announcements import Announced, Planned
from cpi_tools.text.clocks import clock_of
from cpi_tools.publish.figures.config import BadConfig, Config, read_config
from cpi_tools.office.public import Published
from cpi_tools.publish.figures.survey_rows import COUNTS as HEAD, BadCounts, Choice, choice_of, counts_of
from cpi_tools.office.program import Cpi, record
from cpi_tools.publish.pack import publish
from cpi_tools.publish.quality_counts import read_office, untold, write_counts
from cpi_tools.text.terminal import Fault
from lib.offices import plan_with
from lib.pack_faults import text
from lib.page_texts import Texts
from lib.quality import (
    COUNTS,
    Shown,
    Slot,
    days_after,
    exposed,
    exposed_between,
    imputed_weight,
    percent,
    response,
    revision_sizes,
    triangle,
)

CONFIG = Config("NSO", "XX", "Office of prices", has_quality=True)


def quiet(_: str) -> None:
    """Tells nobody."""


# ---- the rule


def names_of(choice: Choice) -> frozenset[str]:
    """What has figures."""
    return choice.divisions - choice.hidden | ({"00"} if choice.has_total else set())


@pytest.mark.parametrize("least", [2, 3, 5])
def test_no_group_of_few_outlets_can_be_computed(least: int) -> None:
    """Of two thousand random surveys; in some all is shown, in some one division is hidden for another."""
    drawn, hidden_counts = random.Random(least), set[int]()
    for _ in range(700):
        divisions = [f"{number:02}" for number in range(1, drawn.randint(2, 7))]
        numbers = range(drawn.randint(1, 12))
        outlets = {division: frozenset(drawn.sample(numbers, drawn.randint(0, len(numbers)))) for division in divisions}
        choice = choice_of(outlets, least, ())
        assert not exposed(sorted(names_of(choice)), outlets, least), outlets
        if all(len(own) >= least for own in outlets.values()):
            assert not choice.hidden
        hidden_counts.add(len(choice.hidden))
    assert {0, 2, 3} <= hidden_counts and (1 not in hidden_counts or least)


def test_a_hidden_division_takes_that_with_the_fewest_outlets_along() -> None:
    """02 has one outlet. With 04, which has five, both have six; 01 and 03 stay. If both had the same outlets, one more
    has to go."""
    outlets = {"01": frozenset(range(9)), "02": frozenset({1}), "03": frozenset(range(6)), "04": frozenset(range(2, 7))}
    assert choice_of(outlets, 5, ()) == Choice(frozenset(outlets), frozenset({"02", "04"}), True)
    few = {"01": frozenset(range(9)), "02": frozenset({1}), "03": frozenset({2}), "04": frozenset(range(6))}
    assert choice_of(few, 5, ()).hidden == {"02", "03", "04"}
    assert choice_of({"01": frozenset(range(9))}, 5, ()).hidden == frozenset()
    assert not choice_of({"01": frozenset({1, 2})}, 5, ()).has_total


# ---- the rule between releases

Outlets = dict[str, frozenset[int]]


def surveys(drawn: random.Random, count: int) -> Iterator[Outlets]:
    """Those of releases one after the other: outlets come and go, and now and then a whole division."""
    numbers, all_divisions = range(drawn.randint(3, 12)), [f"{number:02}" for number in range(1, drawn.randint(3, 7))]
    outlets = {division: {*drawn.sample(numbers, drawn.randint(1, len(numbers)))} for division in all_divisions}
    absent = set[str]()
    for _ in range(count):
        for own in outlets.values():
            for number in drawn.sample(numbers, drawn.randint(0, 2)):
                own.symmetric_difference_update({number})
        absent ^= {drawn.choice(all_divisions)} if drawn.random() < 0.15 else set()
        yield {it: frozenset(own) for it, own in outlets.items() if own and it not in absent}


def released(outlets: Outlets, choice: Choice) -> Shown:
    assert choice.divisions == outlets.keys() and choice.hidden <= choice.divisions
    return Shown(outlets, names_of(choice))


@pytest.mark.parametrize("least", [2, 3, 5])
def test_no_two_releases_give_a_hidden_division_by_subtraction(least: int) -> None:
    """Each of eight releases with each other one, for 150 random offices. The totals aren't just left out: of offices in which
    something is hidden from the first release on, many show all items in all eight."""
    drawn, hides, shows = random.Random(100 + least), 0, 0
    for _ in range(150):
        choices, found = list[Choice](), list[Shown]()
        for outlets in surveys(drawn, 8):
            choices.append(choice_of(outlets, least, choices))
            found.append(released(outlets, choices[-1]))
            assert not exposed(sorted(names_of(choices[-1])), outlets, least)
        for one in found:
            for other in found:
                assert exposed_between(one, other, least) == [], (one, other)
        hides += any(choice.hidden for choice in choices)
        shows += all(choice.has_total for choice in choices) and any(choice.hidden for choice in choices)
    assert hides > 50 and shows > 5


def test_the_subtraction_is_found_where_a_partner_changes() -> None:
    """04 is hidden with 08 in one release and 07 in the next: what the first one hides of 08 is the sum of both less the
    04 of the second."""
    outlets = {"01": frozenset(range(9)), "04": frozenset(range(5)), "07": frozenset(range(5)), "08": frozenset({9})}
    first, second = Shown(outlets, frozenset({"00", "01", "07"})), Shown(outlets, frozenset({"00", "01", "04"}))
    assert exposed_between(first, second, 5) == [{"04"}, {"08"}][1:]
    assert exposed_between(first, first, 5) == []


def test_what_is_hidden_first_stays_hidden() -> None:
    """The partner stays though another division has fewer outlets later, and though nothing has to be hidden any more."""
    few = {"01": frozenset(range(9)), "04": frozenset(range(5)), "07": frozenset(range(6)), "08": frozenset({9})}
    first = choice_of(few, 5, ())
    other = {**few, "04": frozenset(range(8)), "07": frozenset(range(5))}
    assert (set(first.hidden), first.has_total) == ({"04", "08"}, True) and choice_of(other, 5, [first]) == first
    enough = {**few, "08": frozenset(range(7))}
    assert choice_of(enough, 5, [first]) == first
    # (a division that was shown has too few: it goes alone, and all items with it, for that release)
    fewer = {**few, "07": frozenset({1})}
    second = choice_of(fewer, 5, [first])
    assert (set(second.hidden), second.has_total) == ({"04", "07", "08"}, False)
    assert choice_of(few, 5, [first, second]) == first
    all_shown = choice_of(enough, 5, ())
    assert choice_of(few, 5, [all_shown]) == Choice(frozenset(few), frozenset({"08"}), False)


def test_releases_that_are_out_stay_as_they_are() -> None:
    """A file of an earlier version hid 04 with 08, then 07: both stay hidden, and as no sum of theirs is safe any more, all
    items have no figures."""
    outlets = {"01": frozenset(range(9)), "04": frozenset(range(5)), "07": frozenset(range(5)), "08": frozenset({9})}
    every = frozenset(outlets)
    known = [Choice(every, frozenset({"04", "08"}), True), Choice(every, frozenset({"07", "08"}), True)]
    assert choice_of(outlets, 5, known) == Choice(every, frozenset({"04", "07", "08"}), False)
    assert choice_of(outlets, 5, known[:1]) == known[0]


# ---- an office with few outlets in a division

MONTHS = ["2025-12", "2026-01", "2026-02", "2026-03"]
ITEMS = {"RICE": "01.1.1.1-01", "RENT": "04.1.1.0-01", "FUEL": "07.2.2.1-01", "PHONE": "08.1.1.1-01"}
OUTLETS = {"RICE": range(1, 9), "RENT": range(3, 9), "FUEL": range(1, 7), "PHONE": range(8, 9)}
"""One outlet has telephones."""

WEIGHTS = {"01.1.1.1-01": 400_000, "04.1.1.0-01": 300_000, "07.2.2.1-01": 200_000, "08.1.1.1-01": 100_000}
CODES = {"00", *(code[:end] for code in WEIGHTS for end in (2, 4, 6, 8, 11))}
KEY = "0123456789abcdef0123456789abcdef"


class Survey(NamedTuple):
    """The file of an office, and by month and revision what was frozen of each slot."""

    file: Path
    slots: Mapping[tuple[str, int], list[Slot]]


def answers(drawn: random.Random, slot: int, month: str) -> list[object]:
    """What is sent for a slot; nothing of some. In the first month each has a price."""
    if month != MONTHS[0] and drawn.random() < 0.25:
        return [["missing", "stock"], ["missing", "closed"], []][drawn.randint(0, 2)]  # type: ignore[return-value]
    mark = "comparable" if month == "2026-02" and slot % 5 == 0 else "price"
    return [mark, 1000 + 7 * slot]


class Life:
    """The office while it lives."""

    def __init__(self) -> None:
        self.places = [(item, outlet) for item in ITEMS for outlet in OUTLETS[item]]
        self.sent: dict[int, str] = {}
        self.frozen: dict[tuple[str, int], list[Slot]] = {}

    def registered(self) -> Iterator[str]:
        yield from (record(0, "desk", "item", item, item.title(), "1", 1, 10_000) for item in ITEMS)
        yield from (record(0, "desk", "outlet", number, f"Shop {number}") for number in range(1, 9))
        yield record(0, "desk", "collector", 1, KEY)
        for slot, (item, outlet) in enumerate(self.places, 1):
            yield record(0, "desk", "assign", 1, slot, outlet, item, MONTHS[0], MONTHS[-1])

    def quoted(self, at: int, slot: int, month: str, answer: list[object]) -> Iterator[str]:
        if answer:
            self.sent[slot] = "missing" if answer[0] == "missing" else str(answer[0])
            yield record(at, KEY, "quote", slot, month, *answer)

    def froze(self, at: int, month: str, revision: int) -> str:
        of = [(ITEMS[item][:2], outlet) for item, outlet in self.places]
        self.frozen[month, revision] = [Slot(*each, self.sent.get(slot)) for slot, each in enumerate(of, 1)]
        return record(at, "desk", "freeze", month)

    def lived(self) -> Iterator[str]:
        """Its records: in the revision of the last but one month, what was silent comes. The last table is under embargo."""
        drawn = random.Random(7)
        yield from self.registered()
        for number, month in enumerate(MONTHS):
            opens, self.sent = 1000 * number, {}
            publishes = 9_000_000_000 if month == MONTHS[-1] else opens + 900
            yield record(opens, "desk", "calendar", month, opens, opens + 500, publishes)
            if number == 1:
                yield record(opens, "desk", "plan", "2026", plan_with(dict.fromkeys(CODES, "Node"), WEIGHTS, ITEMS))
            for slot in range(1, len(self.places) + 1):
                yield from self.quoted(opens + 1, slot, month, answers(drawn, slot, month))
            yield self.froze(opens + 500, month, 1)
            if month == "2026-02":
                yield record(opens + 550, "desk", "calendar", month, opens + 550, opens + 600, opens + 950)
                for slot in range(1, len(self.places) + 1):
                    if slot not in self.sent:
                        yield from self.quoted(opens + 560, slot, month, ["price", 1000 + 8 * slot])
                yield self.froze(opens + 600, month, 2)


@pytest.fixture(scope="module")
def survey(cpi: Cpi, tmp_path_factory: pytest.TempPathFactory) -> Survey:
    file, life = tmp_path_factory.mktemp("survey") / "office.db", Life()
    refused = [reply for reply in cpi.replay([*life.lived()], db=file) if "refused" in reply]
    assert not refused
    return Survey(file, life.frozen)


def test_the_counts_are_those_of_what_was_frozen(cpi: Cpi, survey: Survey) -> None:
    """With a rule of five outlets 08 has none, and one more: 04 and 07 have six outlets each, and 04 comes first. The
    table under embargo has no row, nor has the first December."""
    cells = read_office(cpi, survey.file, 1_700_000_000, 5)
    wanted = [(month, revision) for month, revision in survey.slots if month in ("2026-01", "2026-02")]
    assert sorted({cell.of for cell in cells}) == wanted and len(cells) == 5 * len(wanted)
    for cell in cells:
        if cell.division in ("04", "08"):
            assert cell.figures is None
        else:
            assert cell.figures and cell.figures[: len(COUNTS)] == response(survey.slots[cell.of], cell.division)
    silent = [
        cell.figures.silent for cell in cells if cell.figures and cell.of[0] == "2026-02" and cell.division == "00"
    ]
    assert silent[0] > 0 and silent[1] == 0


def test_imputed_prices_are_counted(cpi: Cpi, survey: Survey) -> None:
    """All had a price in December, so the index counts with each slot, and a price that didn't come is imputed."""
    for cell in read_office(cpi, survey.file, 1_700_000_000, 2):
        if cell.figures:
            asked, priced = response(survey.slots[cell.of], cell.division)[1:3]
            assert (cell.figures.counted, cell.figures.imputed) == (asked, asked - priced)


def run(*words: object) -> int:
    return main([*map(str, words)])


def test_the_tool_writes_what_publish_takes(
    cpi: Cpi, survey: Survey, tmp_path: Path, capsys: pytest.CaptureFixture[str]
) -> None:
    """No price, no outlet's and no collector's key is in the file, and a later run goes on from it."""
    ini, file = tmp_path / "office.ini", tmp_path / "counts.csv"
    ini.write_text("[office]\nagency = NSO\narea = XX\noffice = Office\nquality = counts.csv\nleast_outlets = 6\n")
    words = ("quality", "--db", survey.file, "--config", ini, "--out", file, "--program", cpi.path)
    before = survey.file.read_bytes()
    assert run(*words, "--at", 1950) == 0
    first = file.read_text()
    assert run(*words, "--at", 1_700_000_000) == 0
    assert file.read_text().startswith(first) and {"2026-01", "2026-02"} == set(
        re.findall("^2026-..", file.read_text(), re.M)
    )
    assert survey.file.read_bytes() == before and KEY not in file.read_text() and "Shop" not in file.read_text()
    assert "3 releases" in capsys.readouterr().out
    assert read_config(ini).least_outlets == 6 and len(read_config(ini).counts) == 15
    assert run(*words, "--at", 1950) == 1
    assert "has another row of 2026-02" in capsys.readouterr().err
    assert run(*words, "--at", 9_100_000_000) == 1
    assert "still to come" in capsys.readouterr().err
    other = tmp_path / "notes.csv"
    other.write_text("a,b\n")
    assert run(*words[:-4], "--out", other, "--program", cpi.path, "--at", 1950) == 1
    assert "no file of counts" in capsys.readouterr().err and other.read_text() == "a,b\n"


def test_the_tool_goes_on_from_what_the_file_shows(
    cpi: Cpi, survey: Survey, tmp_path: Path, capsys: pytest.CaptureFixture[str]
) -> None:
    """An earlier version hid 07 with 08: it stays so, though 04 would be the one now. A file that was changed by hand, or
    shows divisions with fewer outlets than are wanted now, is refused."""
    file, every = tmp_path / "counts.csv", frozenset({"01", "04", "07", "08"})
    known = {("2026-01", 1): Choice(every, frozenset({"07", "08"}), True)}
    write_counts(read_office(cpi, survey.file, 1950, 5, known), file)
    first = file.read_text()
    words = ("quality", "--db", survey.file, "--out", file, "--program", cpi.path, "--at", 1_700_000_000)
    assert run(*words) == 0 and file.read_text().startswith(first)
    rows = [row for row in csv.reader(io.StringIO(file.read_text())) if not any(row[3:])]
    releases = {("2026-01", "1"), ("2026-02", "1"), ("2026-02", "2")}
    assert {tuple(row[:3]) for row in rows} == {(*of, division) for of in releases for division in ("07", "08")}
    whole, edited = file.read_text(), [row.split(",") for row in file.read_text().splitlines()]
    place = next(at for at, row in enumerate(edited) if row[2] == "01")
    edited[place][5:9] = str(int(edited[place][5]) + 1), *edited[place][6:8], str(int(edited[place][8]) - 1)
    less = [line for line in whole.splitlines() if not line.startswith("2026-01,1,04,")]
    for other in ("\n".join(map(",".join, edited)), "\n".join(less)):
        file.write_text(other)
        assert run(*words) == 1 and file.read_text() == other
        assert "has another row of 2026-01, revision 1, division 0" in capsys.readouterr().err
    file.write_text(whole)
    ini = tmp_path / "office.ini"
    ini.write_text("[office]\nagency = NSO\narea = XX\noffice = Office\nleast_outlets = 7\n")
    assert run(*words, "--config", ini) == 1 and file.read_text() == whole
    assert "has 04 of 2026-01, revision 1, with 6 outlets, and least_outlets is 7: take" in capsys.readouterr().err


def test_all_items_without_figures_are_said(cpi: Cpi, survey: Survey) -> None:
    """A file that shows 08 in January: later it has too few outlets, and so have all items no figures."""
    known = {("2026-01", 1): Choice(frozenset({"01", "04", "07", "08"}), frozenset(), True)}
    cells = read_office(cpi, survey.file, 1_700_000_000, 5, known)
    assert {(cell.of[0], cell.division) for cell in cells if not cell.figures} == {("2026-02", "00"), ("2026-02", "08")}
    (line,) = untold(cells)
    assert line.startswith("all items have no figures in 2026-02, revision 2: ")
    assert [*untold(read_office(cpi, survey.file, 1_700_000_000, 5))] == []


# ---- a file with a fault

GOOD = ["2026-01", "1", "01", "9", "20", "18", "2", "1", "1", "19", "2"]
ALL = ["2026-01", "1", "00", *GOOD[3:]]


def rows_with(**changed: str) -> list[list[str]]:
    return [[*HEAD], ALL, [changed.get(name, cell) for name, cell in zip(HEAD, GOOD)]]


@pytest.mark.parametrize(
    "rows, says",
    [
        ([], "its first row is missing, and not month,revision,division,outlets"),
        ([["month"]], "its first row is month, and not"),
        (rows_with(month="2026-13"), "row 3: month is 2026-13, and not like 2026-01"),
        (rows_with(revision="0"), "row 3: revision is 0, and not like 1 to 9"),
        (rows_with(division="14"), "row 3: division is 14, and not like 00 to 13"),
        (rows_with(priced="18.0"), "row 3: priced is 18.0, and no whole number"),
        (rows_with(priced=""), "row 3: priced is empty, and no whole number"),
        (rows_with(asked="21"), "row 3: asked is 21, and not the sum of priced, missing and silent"),
        (rows_with(imputed="20"), "imputed more than counted"),
        (rows_with(outlets="4"), "row 3: 01 has 4 outlets, and least_outlets is 5: make the file anew"),
        (rows_with(division="00"), "row 3: 00 of 2026-01, revision 1, is there twice"),
        ([[*HEAD], GOOD], "2026-01, revision 1, has no row of all items, whose division is 00"),
        ([*rows_with(), ["2026-01", "1", "02", *[""] * 8]], "only 02 is hidden, so its figures are those of all items"),
        ([*rows_with(), GOOD[:4]], "row 4 has 4 cells, and not 11"),
    ],
)
def test_a_fault_is_one_line(rows: list[list[str]], says: str) -> None:
    with pytest.raises(BadCounts) as fault:
        counts_of(rows, 5)
    assert says in str(fault.value) and "\n" not in str(fault.value)


def test_a_division_of_another_office_is_one_line(published: list[Published], tmp_path: Path) -> None:
    cells = counts_of([[*HEAD], [*ALL[:2], "00", *GOOD[3:]], [*ALL[:2], "13", *GOOD[3:]]], 5)
    with pytest.raises(BadCounts, match="have division 13 in 2026-01, revision 1, and no table has it"):
        publish(published, CONFIG._replace(counts=cells), tmp_path / "public", None, quiet)
    assert not (tmp_path / "public").exists()


@pytest.mark.parametrize("number", ["1", "100", "five"])
def test_a_number_of_outlets_is_tested(number: str, tmp_path: Path) -> None:
    ini = tmp_path / "office.ini"
    ini.write_text(f"[office]\nagency = NSO\narea = XX\noffice = Office\nleast_outlets = {number}\n")
    with pytest.raises(BadConfig, match=f"least_outlets: {number} isn't 2 to 99"):
        read_config(ini)


# ---- the pack


class Pack(NamedTuple):
    folder: Path
    rows: list[dict[str, str]]

    def values(self, indicator: str, *by: str) -> dict[tuple[str, ...], str]:
        """The values of an indicator by some columns, each once."""
        own = [row for row in self.rows if row["indicator"] == indicator]
        values = {tuple(row[name] for name in by): row["value"] for row in own}
        assert len(values) == len(own)
        return values


def packed(published: list[Published], config: Config, folder: Path) -> Pack:
    publish(published, config, folder, None, quiet)
    wrote = (folder / "data/quality.csv").read_text(encoding="utf-8")
    return Pack(folder, [*csv.DictReader(io.StringIO(wrote))])


def tables(published: list[Published]) -> list[tuple[str, int, int, bytes]]:
    """Those with rows, by month and revision."""
    return sorted((*each.listed, each.table) for each in published if each.table)


@pytest.fixture(scope="module")
def pack(published: list[Published], tmp_path_factory: pytest.TempPathFactory) -> Pack:
    return packed(published, CONFIG, tmp_path_factory.mktemp("quality") / "public")


def test_revisions_are_computed_again(pack: Pack, published: list[Published]) -> None:
    """Of each change of all items and of divisions; rice was revised once, so some means aren't zero."""
    names = ("months", "revised_months", "mean_revision", "mean_absolute_revision")
    wrote = {name: pack.values(name, "of", "code") for name in names}
    wanted: dict[str, dict[tuple[str, ...], str]] = {name: {} for name in names}
    for code in ("00", "01", "07", "08"):
        for is_annual, of in ((False, "month_change"), (True, "year_change")):
            sizes = revision_sizes(tables(published), code, is_annual)
            for name, value in zip(names, sizes or ()):
                wanted[name][of, code] = value
    assert wrote == wanted
    assert {*wrote["mean_revision"].values()} > {"0.000000"} and wrote["revised_months"]["month_change", "00"] == "1"


def test_the_triangle_is_computed_again(pack: Pack, published: list[Published]) -> None:
    """On the page, with the letter r in one cell at least if the revision is one of the last publications."""
    until = [each for each in published if each.listed.month <= "2026-06"]
    out = packed(until, CONFIG, pack.folder.parent / "until")
    heads, wanted = triangle(tables(until), True, 12, 12)
    page = Texts.of_page(out.folder / "quality.html")
    table = page.markup.partition('id="triangle"')[2].partition("</table>")[0]
    rows = [Texts(row).of("th") + Texts(row).of("td") for row in re.findall("<tr>.*?</tr>", table, re.S)]
    assert len(rows[0]) == 1 + len(heads) == 13
    assert rows[0][1 + heads.index(["2026-03 2"])] == "March 2026, revision 2"
    wrote = [[cell.replace("\u2212", "-").replace("+", "") for cell in row[1:]] for row in rows[1:]]
    assert wrote == [*wanted.values()] and any("r" in cell for row in wrote for cell in row)
    published_changes = out.values("published_change", "of", "month", "revision")
    for month, revision, _, content in tables(until):
        printed = next(csv.reader(io.StringIO(content.decode())))
        assert published_changes["month_change", month, str(revision)] == printed[4]
        assert published_changes.get(("year_change", month, str(revision)), "") == printed[5]


def test_imputed_weights_are_computed_again(pack: Pack, published: list[Published]) -> None:
    last = tables(published)[-1]
    wanted = {(code,): imputed_weight(last[3], code) for code in ("00", "01", "07", "08")}
    assert pack.values("imputed_weight", "code") == wanted
    # (each May a price of rice is missing)
    assert last[0] == "2027-05" and wanted[("01",)] not in ("0.00", "100.00")


def test_time_lags_are_by_the_clock_of_the_office(published: list[Published], tmp_path: Path) -> None:
    """The tables are of 1970, so they came long before their months: by another clock some by a day more."""
    places = ("Asia/Tokyo", "Pacific/Honolulu")
    lags = []
    for place in places:
        out = packed(published, CONFIG._replace(clock=clock_of(place)), tmp_path / place.replace("/", "-"))
        zone = zoneinfo.ZoneInfo(place)
        wanted = {
            (month, str(revision)): str(days_after(month, at, zone)) for month, revision, at, _ in tables(published)
        }
        lags.append(out.values("time_lag", "month", "revision"))
        assert lags[-1] == wanted
    assert lags[0] != lags[1]
    page = " ".join(Texts.of_page(tmp_path / "Asia-Tokyo/quality.html").of("p"))
    days = [int(lag) for (month, revision), lag in lags[0].items() if revision == "1"]
    assert f"The first table of May 2027 was published {-days[-1]:,} days before the month ended." in page
    mean = Fraction(sum(days[-12:]), 12)
    assert f"Over the latest 12 first releases, the mean is {text(mean, 1)} days.".replace("-", "\u2212") in page
    assert days_after("2026-01", 1_772_267_400, zoneinfo.ZoneInfo("UTC")) == 28


def test_delays_are_against_what_was_announced(published: list[Published], tmp_path: Path) -> None:
    """By the pack before, by the calendar, and if a release moved, by what was announced before."""
    out = {(each.listed.month, each.listed.revision): each.listed.moment for each in published}
    names = [("2026-05", 1), ("2026-06", 1), ("2026-07", 1), ("2026-08", 1)]
    early, late, kept, moved = names
    announced = (Announced(*late, out[late] - 60), Announced(*kept, out[kept]))
    planned = (Planned(*early, out[early] + 60), Planned(*moved, out[moved], moved=out[moved] - 7200))
    folder = tmp_path / "public"
    publish([each for each in published if each.listed.month < "2026-06"], CONFIG, folder, None, quiet)
    (folder / "data/announced.json").write_text(
        json.dumps({"announced": [announcement._asdict() for announcement in announced]})
    )
    pack = packed(published, CONFIG._replace(planned=planned), folder)
    assert pack.values("delay", "month", "revision") == {
        ("2026-05", "1"): "-60", ("2026-06", "1"): "60", ("2026-07", "1"): "0", ("2026-08", "1"): "7200",
    }  # fmt: skip
    page = Texts.of_page(folder / "quality.html")
    sentence = "The calendar had announced 4 of the published releases. The office published 2 of them no later than announced."
    assert sentence in " ".join(page.of("p"))
    table = page.markup.partition("Releases that were published later than")[2].partition("</table>")[0]
    assert Texts(table).of('th scope="row"') == ["June 2026", "August 2026"]


def test_the_page_and_the_files_have_the_counts(cpi: Cpi, survey: Survey, tmp_path: Path) -> None:
    """Those that are hidden are in no form."""
    from cpi_tools.office.public import from_file

    cells = read_office(cpi, survey.file, 1_700_000_000, 5)
    config = CONFIG._replace(counts=tuple(cells))
    told: list[str] = []
    public, folder = from_file(cpi, survey.file, 1_700_000_000), tmp_path / "public"
    pack = packed(public, config, folder)
    for index, name in enumerate(COUNTS):
        wanted = {
            (*cell.of, cell.division): str(response(survey.slots[cell.of], cell.division)[index])
            if cell.figures
            else ""
            for cell in cells
        }
        wrote = {
            (month, int(revision), code): value
            for (month, revision, code), value in pack.values(name, "month", "revision", "code").items()
        }
        assert wrote == wanted
    hidden = [row for row in pack.rows if row["code"] in ("04", "08") and row["section"] in ("S.13.3.3", "S.18.5")]
    assert {row["indicator"] for row in hidden if row["value"]} == {"imputed_weight"}
    assert {row["status"] for row in hidden if not row["value"]} == {"hidden"}
    page = Texts.of_page(folder / "quality.html")
    table = page.markup.partition('id="response"')[2].partition("</table>")[0]
    rows = [Texts(row).of("th") + Texts(row).of("td") for row in re.findall("<tr>.*?</tr>", table, re.S)]
    slots = survey.slots["2026-02", 2]
    for row, code in zip(rows[1:], ("00", "01", "04", "07", "08")):
        outlets, asked, priced, replaced, _, _ = response(slots, code)
        rates = f"{percent(priced, asked)} %", f"{percent(asked - priced, asked)} %"
        figures = [str(outlets), str(asked), rates[0], str(replaced), str(asked), rates[1]]
        assert row == [f"Node {code}", *(["not shown"] if code in ("04", "08") else figures)]
    assert "at least 5 outlets" in " ".join(page.of("p"))
    assert "6 of 15 rows aren't shown" in " ".join(page.of("p"))
    publish(public, config._replace(counts=tuple(cells[:5])), tmp_path / "fewer", None, quiet, tell=told.append)
    assert told == [
        "the counts of quality lack 2 releases, such as 2026-02, revision 2: cpi-tools quality writes them anew"
    ]


def test_the_json_has_the_same_figures(pack: Pack) -> None:
    book = json.loads((pack.folder / "data/quality.json").read_text(encoding="utf-8"))
    assert (book["structure"], book["least_outlets"]) == ("SIMS 2.0", 5)
    rows = [{"section": part["section"], **row} for part in book["sections"] for row in part["figures"]]
    assert rows == [{name: cell for name, cell in row.items() if cell} for row in pack.rows]
    numbers = [[int(word) for word in part["section"].split(".")[1:]] for part in book["sections"]]
    assert numbers == sorted(numbers)


def test_changes_of_printed_indices_are_those_of_the_pages(published: list[Published], tmp_path: Path) -> None:
    """With rates = published the triangle has what releases show."""
    pack = packed(published, CONFIG._replace(rates="published"), tmp_path / "public")
    changes = pack.values("published_change", "of", "month", "revision")
    page = Texts.of_page(pack.folder / "releases.html")
    for row in re.findall("<tr>(.*?)</tr>", page.markup, re.S):
        for month, revision in re.findall("release/(2[0-9-]+)-r([0-9]).html", row):
            shown = [cell.replace("\u2212", "-").lstrip("+").removesuffix("\u202f%") for cell in Texts(row).of("td")][
                1:3
            ]
            year = changes.get(("year_change", month, revision), "\u2013")
            assert [changes["month_change", month, revision], year] == shown


def test_an_office_without_it_publishes_what_it_did(published: list[Published], tmp_path: Path) -> None:
    """No page, no file and no word of it; with it, all other files but those that name it are the same."""
    plain, with_quality = tmp_path / "plain", tmp_path / "with"
    publish(published, CONFIG._replace(has_quality=False), plain, None, quiet)
    publish(published, CONFIG, with_quality, None, quiet)
    names = {path.relative_to(plain).as_posix() for path in plain.rglob("*") if path.is_file()}
    more = {path.relative_to(with_quality).as_posix() for path in with_quality.rglob("*") if path.is_file()}
    assert more - names == {"quality.html", "data/quality.csv", "data/quality.json"} and not names - more
    differing = {name for name in names if (plain / name).read_bytes() != (with_quality / name).read_bytes()}
    described = {"data/csv-metadata.json", "data.html"}
    assert differing == {*described, "SHA256SUMS", "method.html", "revisions.html"}
    assert not any(
        "quality.html" in (plain / name).read_text(encoding="utf-8") for name in names if name.endswith("html")
    )


def test_a_file_that_cannot_be_written_is_one_line(tmp_path: Path) -> None:
    with pytest.raises(Fault, match="nowhere"):
        write_counts([], tmp_path / "nowhere/counts.csv")


@pytest.mark.parametrize(
    "tag, says", [("fr", "Triangle des révisions"), ("es", "Triángulo de revisiones"), ("ar", "مثلث")]
)
def test_the_page_is_there_in_each_language(cpi: Cpi, survey: Survey, tmp_path: Path, tag: str, says: str) -> None:
    """With counts that are hidden and others, and a release that came late; no English heading is left."""
    from cpi_tools.publish.figures.own_words import OfficeLanguages
    from cpi_tools.office.public import from_file

    public = from_file(cpi, survey.file, 1_700_000_000)
    late = Planned("2026-02", 1, max(each.listed.moment for each in public) - 3600)
    config = CONFIG._replace(
        counts=tuple(read_office(cpi, survey.file, 1_700_000_000, 5)),
        planned=(late,),
        speaks=OfficeLanguages((tag, "en")),
    )
    folder = tmp_path / "public"
    publish(public, config, folder, None, quiet)
    own, english = (Texts.of_page(folder / name) for name in ("quality.html", "en/quality.html"))
    assert any(says in heading for heading in own.of("h3")) and "%(" not in own.markup
    for element in ("h1", "h2", "h3", "caption", 'th scope="col" class="n"'):
        texts, sources = own.of(element), english.of(element)
        assert len(texts) == len(sources) and not {*texts} & {*sources} - {"Imputation"}, element
    assert own.markup.count("<tr>") == english.markup.count("<tr>")

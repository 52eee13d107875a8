"""`cpi-tools average-prices`: means of frozen prices by hand and once more, what is hidden, what stays, and the pack."""

from __future__ import annotations

import csv
import io
import re
from collections.abc import Sequence
from itertools import combinations_with_replacement
from pathlib import Path

import pytest

from cpi_tools.command_line import main
from cpi_tools.office.price_rules import may_show
from cpi_tools.office.folders import files_of
from cpi_tools.office.program import Cpi
from cpi_tools.office.public import Published, from_file
from cpi_tools.publish.average_prices import BadItems, average_prices, read_items
from cpi_tools.publish.figures.survey_rows import HEAD, Average, BadAverages, Mean, parse_averages, read_averages
from cpi_tools.publish.figures.config import AverageRule, BadConfig, Config, read_config
from cpi_tools.publish.figures.own_words import OfficeLanguages
from cpi_tools.publish.pack import check, publish
from cpi_tools.publish.releases.published_before import OtherAverages
from lib.page_texts import Texts
from lib.single_prices import is_shown, mean_again

from .priced_offices import DRAWN_MONTHS, FIRST_OUT, ITEMS, NOW, PricedOffice, Sent, draw_office, make_worked_office

LISTED = '[items]\nRICE = "Rice, packed"\nFLOUR = "Flour, wheat"\nPEAR = "Pears"\n'
CORRECTED = '[[corrections]]\nmonth = "2026-02"\nitem = "RICE"\nreason = "One packet was counted as two."\n'
RULE = AverageRule(4, 2)
CONFIG = Config("NSO", "XX", "Office of prices", currency="crowns", least_outlets=4)

JANUARY = """\
month,revision,item,title,unit,outlets,prices,average,status,reason
2026-01,1,FLOUR,"Flour, wheat",1 kg,,,,hidden,
2026-01,1,PEAR,Pears,1 kg,,,,hidden,
2026-01,1,RICE,"Rice, packed",1 kg,5,5,2.20,,
"""
FEBRUARY = """\
2026-02,1,FLOUR,"Flour, wheat",1 kg,4,6,1.01,,
2026-02,1,PEAR,Pears,1 kg,,,,hidden,
2026-02,1,RICE,"Rice, packed",1 kg,5,5,2.22,,
"""
"""By hand: of rice in January (2.00 + 2.10 + 2.20 + 2.30 + 2.41) / 5 = 2.202, in February 11.09 / 5 = 2.218. One outlet has
4 of 7 prices of flour in January, and 3 of 6 in February: 6.03 / 6 = 1.005, and a half rounds up. Pears have two outlets."""


@pytest.fixture(scope="module")
def office(cpi: Cpi, tmp_path_factory: pytest.TempPathFactory) -> PricedOffice:
    return make_worked_office(cpi, tmp_path_factory.mktemp("worked") / "office.db")


@pytest.fixture(scope="module")
def tables(cpi: Cpi, office: PricedOffice) -> list[Published]:
    return from_file(cpi, office.file, NOW)


def run(cpi: Cpi, office: PricedOffice, folder: Path, at: int = NOW, items: str = LISTED, least: int = 4) -> int:
    """Runs the tool in a folder: its file is `averages.csv`."""
    (folder / "items.toml").write_text(items)
    (folder / "office.ini").write_text(
        f"[office]\nagency = NSO\narea = XX\noffice = Office\nleast_outlets = {least}\naverage_prices = averages.csv\n"
    )
    words = ["average-prices", "--db", office.file, "--at", at, "--config", folder / "office.ini", "--items"]
    words += [folder / "items.toml", "--out", folder / "averages.csv", "--program", cpi.path]
    return main([*map(str, words)])


# ---- the rule


@pytest.mark.parametrize(
    "outlets, least, is_enough",
    [
        ([1, 2, 3], 3, True),
        ([1, 2, 3], 4, False),
        ([1, 1, 2, 3], 3, True),  # (a half isn't more than half)
        ([1, 1, 1, 2, 3], 3, False),
        ([1, 2], 2, False),  # (each of two could compute the other's price)
        ([], 3, False),
    ],
)
def test_the_rule_of_few_outlets(outlets: list[int], least: int, is_enough: bool) -> None:
    assert may_show(outlets, least) is is_enough


# ---- figures


def test_the_averages_are_those_worked_out_by_hand(
    cpi: Cpi, office: PricedOffice, tmp_path: Path, capsys: pytest.CaptureFixture[str]
) -> None:
    """With the first revision out, and then with the second one: what was published stays. The first December has no
    table, and that of March is under embargo. The office's file stays as it is."""
    before = office.file.read_bytes()
    assert run(cpi, office, tmp_path, FIRST_OUT) == 0
    assert (tmp_path / "averages.csv").read_text() == JANUARY + FEBRUARY
    assert run(cpi, office, tmp_path) == 0
    assert (tmp_path / "averages.csv").read_text() == JANUARY + FEBRUARY
    assert capsys.readouterr().out.endswith("averages.csv: 2 months, 3 rows of 6 hidden\n")
    assert office.file.read_bytes() == before and (tmp_path / "averages.csv").stat().st_mode & 0o777 == 0o644


def test_a_month_without_a_row_has_its_last_published_revision(cpi: Cpi, office: PricedOffice, tmp_path: Path) -> None:
    """An office that begins later: 11.19 / 5 = 2.238."""
    assert run(cpi, office, tmp_path, items='[items]\nRICE = "Rice"\n') == 0
    assert (tmp_path / "averages.csv").read_text().endswith("\n2026-02,2,RICE,Rice,1 kg,5,5,2.24,,\n")


def test_a_corrected_average_has_a_reason_and_the_earlier_one_stays(
    cpi: Cpi, office: PricedOffice, tmp_path: Path
) -> None:
    """Once: the tool may run again with the same file of items, and after the item has left it."""
    assert run(cpi, office, tmp_path, FIRST_OUT) == 0
    wanted = (JANUARY + FEBRUARY).replace("5,5,2.22,,", "5,5,2.22,superseded,")
    wanted += '2026-02,2,RICE,"Rice, packed",1 kg,5,5,2.24,,One packet was counted as two.\n'
    for items in (LISTED + CORRECTED, LISTED + CORRECTED, '[items]\nFLOUR = "Flour"\n' + CORRECTED):
        assert run(cpi, office, tmp_path, items=items) == 0
        assert (tmp_path / "averages.csv").read_text() == wanted


def test_a_correction_can_hide_an_average(
    cpi: Cpi, office: PricedOffice, tmp_path: Path, capsys: pytest.CaptureFixture[str]
) -> None:
    """With a stricter rule, rows of fewer outlets are refused until the office says why they are hidden; what was shown is
    no longer in the file then."""
    assert run(cpi, office, tmp_path, FIRST_OUT) == 0
    assert run(cpi, office, tmp_path, FIRST_OUT, least=5) == 1
    assert "row 5: FLOUR of 2026-02 has 4 outlets: wanted least_outlets, 5, or a correction" in capsys.readouterr().err
    assert (tmp_path / "averages.csv").read_text() == JANUARY + FEBRUARY
    hidden = CORRECTED.replace("RICE", "FLOUR")
    assert run(cpi, office, tmp_path, FIRST_OUT, LISTED + hidden, 5) == 0
    wanted = FEBRUARY.replace("4,6,1.01,,", ",,,hidden,One packet was counted as two.")
    assert (tmp_path / "averages.csv").read_text() == JANUARY + wanted


@pytest.mark.parametrize("seed", [1, 2, 3])
def test_the_averages_are_computed_again(cpi: Cpi, tmp_path: Path, seed: int) -> None:
    """Of random offices, from what was sent: series are handed over, prices are missing or of replacements."""
    office = draw_office(cpi, tmp_path / "office.db", seed)
    toml = "[items]\n" + "".join(f'{item} = "{item.title()}"\n' for item in ITEMS)
    (tmp_path / "items.toml").write_text(toml)
    items = read_items(tmp_path / "items.toml")
    rows = average_prices(cpi, office.file, NOW, AverageRule(4, 2), items, tmp_path / "averages.csv")
    means = {(row.month, row.revision, row.item): row.mean and tuple(row.mean) for row in rows}
    last = {month: revision for month, revision in office.frozen}
    wanted = {
        (month, last[month], item): mean_again(prices_of(office.frozen[month, last[month]], item), 4)
        for month in DRAWN_MONTHS[1:-1]
        for item in ITEMS
    }
    assert means == wanted and last["2026-02"] == 2
    assert None in means.values() and sum(mean is not None for mean in means.values()) > 5


def prices_of(sent: Sequence[Sent], item: str) -> list[tuple[int, int]]:
    return [(sending.outlet, sending.price) for sending in sent if sending.item == item and sending.price is not None]


def test_the_rule_is_the_same_once_more() -> None:
    """Of all lists of at most six prices of four outlets."""
    lists = [own for count in range(7) for own in combinations_with_replacement(range(4), count)]
    assert len(lists) == 210
    for own in lists:
        for least in (3, 4):
            assert may_show(own, least) is is_shown(own, least), own


# ---- the list of items


@pytest.mark.parametrize(
    "toml, says",
    [
        ("[items]\n", "line 1: items has no item: wanted lines like RICE"),
        ("", "line 1: items has no item"),
        ("item = 1\n", "line 1: item is no word here: wanted [items] or [[corrections]]"),
        (
            '[items]\nRICE = "Rice"\nrice = "Rice"\n',
            "line 3: rice is no code of an item: wanted 1 to 12 of A-Z and 0-9",
        ),
        ("[items]\nRICE = 5\n", "line 2: RICE is 5: wanted a text of one line"),
        ('[items]\nRICE = ""\n', "line 2: RICE is '': wanted a text of one line"),
        ('[items]\nRICE = "=1+1"\n', "line 2: RICE is =1+1, which a spreadsheet computes"),
        (LISTED + "[corrections]\n", "line 5: corrections is {}: wanted tables [[corrections]]"),
        (LISTED + CORRECTED + 'why = "x"\n', "line 9: why is no word here: wanted month, item, reason"),
        (LISTED + '[[corrections]]\nmonth = "2026-02"\n', "line 5: item is missing: wanted month, item, reason"),
        (LISTED + CORRECTED.replace("2026-02", "2026-13"), "line 6: month is 2026-13: wanted a month like 2026-02"),
        (LISTED + CORRECTED.replace("RICE", "Rice"), "line 7: item is Rice: wanted the code of an item"),
        (LISTED + CORRECTED + CORRECTED, "line 9: it is the correction of line 5: wanted another reason"),
        (LISTED + "RICE = 1\n", "Cannot overwrite a value"),
    ],
)
def test_a_list_of_items_is_refused_with_its_line(toml: str, says: str, tmp_path: Path) -> None:
    path = tmp_path / "items.toml"
    path.write_text(toml)
    with pytest.raises(BadItems) as fault:
        read_items(path)
    assert str(fault.value).startswith(f"{path}, ") and says in str(fault.value) and "\n" not in str(fault.value)


def test_what_the_office_has_not_is_refused_and_nothing_is_written(
    cpi: Cpi, office: PricedOffice, tmp_path: Path, capsys: pytest.CaptureFixture[str]
) -> None:
    for items, says in (
        (LISTED + 'BREAD = "Bread"\n', "items.toml, line 5: BREAD is no item of the office: wanted the code of one"),
        (
            LISTED + CORRECTED.replace("-02", "-03"),
            "line 5: RICE of 2026-03 has no row to correct: wanted one of the file",
        ),
    ):
        assert run(cpi, office, tmp_path, items=items) == 1
        told = capsys.readouterr().err
        assert says in told and told.count("\n") == 1 and not (tmp_path / "averages.csv").exists()
    assert run(cpi, office, tmp_path, at=9_100_000_000) == 1
    assert "still to come: its tables may be under embargo now" in capsys.readouterr().err
    assert run(cpi, office, tmp_path, least=2) == 1
    assert "least_outlets is 2: wanted 3 or more for average prices" in capsys.readouterr().err
    (tmp_path / "averages.csv").write_text("a,b\n")
    assert run(cpi, office, tmp_path) == 1
    assert "averages.csv: its first row is a,b: wanted month,revision" in capsys.readouterr().err
    assert (tmp_path / "averages.csv").read_text() == "a,b\n"


# ---- its file

GOOD = ["2026-01", "1", "RICE", "Rice", "1 kg", "5", "6", "2.20", "", ""]


def rows_with(**others: str) -> list[list[str]]:
    return [[*HEAD], [*GOOD], [others.get(name, cell) for name, cell in zip(HEAD, ["2026-02", *GOOD[1:]])]]


@pytest.mark.parametrize(
    "rows, says",
    [
        ([], "its first row is missing: wanted month,revision,item"),
        ([[*HEAD], GOOD[:4]], "row 2 has 4 cells: wanted 10"),
        (rows_with(month="2026-13"), "row 3: month is 2026-13: wanted a month like 2026-01"),
        (rows_with(revision="0"), "row 3: revision is 0: wanted 1 to 9"),
        (rows_with(item="rice"), "row 3: item is rice: wanted the code of an item"),
        (rows_with(status="gone"), "row 3: status is gone: wanted nothing, hidden or superseded"),
        (rows_with(outlets="0"), "row 3: outlets is 0: wanted a whole number from 1 on"),
        (rows_with(prices=""), "row 3: prices is empty: wanted a whole number from 1 on"),
        (rows_with(average="2.2"), "row 3: average is 2.2: wanted an amount with 2 decimals, as minor_digits says"),
        (rows_with(status="hidden"), "row 3: it is hidden and has figures: wanted none"),
        (rows_with(outlets="3"), "row 3: RICE of 2026-02 has 3 outlets: wanted least_outlets, 4"),
        (rows_with(outlets="2", status="superseded"), "row 3: RICE of 2026-02 has 2 outlets: wanted least_outlets, 3"),
        (rows_with(month="2026-01"), "row 3: RICE of 2026-01 is in row 2 too: wanted one row"),
    ],
)
def test_a_fault_of_the_file_is_one_line(rows: list[list[str]], says: str) -> None:
    with pytest.raises(BadAverages) as fault:
        parse_averages(rows, 2, 4)
    assert says in str(fault.value) and "\n" not in str(fault.value)


@pytest.mark.parametrize("digits, text", [(0, "220"), (2, "2.20"), (4, "0.0220")])
def test_an_average_has_the_decimals_of_the_money(digits: int, text: str) -> None:
    row = Average("2026-01", 1, "RICE", "Rice", "1 kg", Mean(5, 6, 220))
    assert row.texts(digits)[7] == text and parse_averages([HEAD, row.texts(digits)], digits, 5) == (row,)


# ---- the pack


def write_pack(tables: Sequence[Published], rows: Sequence[Average], folder: Path, config: Config = CONFIG) -> Path:
    publish(tables, config._replace(has_averages=True, averages=tuple(rows)), folder, None, lambda _: None)
    return folder


def parse_rows(text: str) -> tuple[Average, ...]:
    return parse_averages([*csv.reader(io.StringIO(text))], 2, 4)


ALL = parse_rows(JANUARY + FEBRUARY)
FIXED = parse_rows(
    (JANUARY + FEBRUARY).replace("2.22,,", "2.22,superseded,")
    + '2026-02,2,RICE,"Rice, packed",1 kg,5,5,2.24,,Two packets.\n'
)


def cells(page: Path) -> list[list[str]]:
    table = Texts.of_page(page).markup.partition("<table>")[2].partition("</table>")[0]
    return [Texts(row).of("th") + Texts(row).of("td") for row in re.findall("<tr>.*?</tr>", table, re.S)]


def test_the_pack_has_the_file_and_the_page(tables: list[Published], tmp_path: Path) -> None:
    pack = write_pack(tables, FIXED, tmp_path / "public")
    assert read_averages(pack / "data/average-prices.csv", 2, 4) == FIXED
    assert cells(pack / "average-prices.html") == [
        ["Item", "Unit", "February 2026", "January 2026", "Outlets"],
        ["Flour, wheat", "1 kg", "1.01", "not shown", "4"],
        ["Pears", "1 kg", "not shown", "not shown", "–"],
        ["Rice, packed", "1 kg", "2.24", "2.20", "5"],
    ]
    page = Texts.of_page(pack / "average-prices.html")
    said = " ".join(page.of("p"))
    assert "at least 4 outlets, and no outlet has more than half of them" in said
    assert page.of("caption") == ["In crowns, per unit of each item."]
    assert page.of("dt") == ["February 2026, Rice, packed"] and page.of("dd") == ["Two packets."]
    config = CONFIG._replace(has_averages=True, averages=FIXED)
    assert check(tables, config, pack, None, lambda _: None) == []


def test_an_office_without_it_publishes_what_it_did(tables: list[Published], tmp_path: Path) -> None:
    """No page, no file and no word of it; with it, all files but those that name it are the same."""
    plain, pack = tmp_path / "plain", write_pack(tables, ALL, tmp_path / "with")
    publish(tables, CONFIG, plain, None, lambda _: None)
    names, more = {*files_of(plain)}, {*files_of(pack)}
    assert more - names == {"average-prices.html", "data/average-prices.csv"} and not names - more
    differing = {name for name in names if (plain / name).read_bytes() != (pack / name).read_bytes()}
    assert differing == {"data/csv-metadata.json", "data.html", "method.html", "SHA256SUMS"}
    assert not any("average-prices" in (plain / name).read_text(errors="replace") for name in names)


@pytest.mark.parametrize(
    "before, after, says",
    [
        (ALL, ALL[:-1], "RICE in 2026-02: 2.22 was published, and no row is in the file now"),
        (ALL, [*ALL[:-1], FIXED[-1]._replace(reason="")], "RICE in 2026-02: 2.22 was published, and 2.24 is in the file"),
        (ALL, [*ALL[:-1], FIXED[-1]], "RICE in 2026-02: 2.22 was published, and 2.24 is in the file"),
        (ALL, [ALL[0]._replace(mean=Mean(4, 4, 99), status=""), *ALL[1:]], "FLOUR in 2026-01: a hidden average was"),
        (FIXED, [*FIXED[:-2], FIXED[-1]], "RICE in 2026-02: 2.22 was published, and no such superseded row is in the file"),
        (FIXED, ALL, "RICE in 2026-02: 2.24 was published, and 2.22 is in the file"),
    ],
)  # fmt: skip
def test_a_published_average_stays(
    tables: list[Published], tmp_path: Path, before: Sequence[Average], after: Sequence[Average], says: str
) -> None:
    """Another one is refused without a new reason, and with one if the earlier one is left out."""
    pack = write_pack(tables, before, tmp_path / "public")
    sums = (pack / "SHA256SUMS").read_bytes()
    with pytest.raises(OtherAverages) as fault:
        write_pack(tables, after, pack)
    assert says in str(fault.value) and "\n" not in str(fault.value) and (pack / "SHA256SUMS").read_bytes() == sums


def test_averages_cannot_leave_the_pack(tables: list[Published], tmp_path: Path) -> None:
    pack = write_pack(tables, ALL, tmp_path / "public")
    with pytest.raises(OtherAverages, match="`average_prices` has to stay in the configuration"):
        publish(tables, CONFIG, pack, None, lambda _: None)


def test_a_correction_is_published_and_the_next_one(tables: list[Published], tmp_path: Path) -> None:
    """One with the earlier average, then another title, then one that hides the average and all earlier ones."""
    pack = write_pack(tables, ALL, tmp_path / "public")
    titled = [row._replace(title="Rice") if row.item == "RICE" else row for row in FIXED]
    hidden = FIXED[-1]._replace(mean=None, status="hidden", reason="Too few outlets.")
    for rows in (FIXED, titled, [*FIXED[:-2], hidden]):
        assert read_averages(write_pack(tables, rows, pack) / "data/average-prices.csv", 2, 4) == tuple(rows)


def test_an_average_of_what_is_not_published_is_refused(tables: list[Published], tmp_path: Path) -> None:
    for row in (ALL[-1]._replace(month="2026-03"), ALL[-1]._replace(month="2025-12"), ALL[-1]._replace(revision=3)):
        with pytest.raises(BadAverages, match=f"is of {row.month}, revision {row.revision}, which isn't published"):
            write_pack(tables, [row], tmp_path / "public")
        assert not (tmp_path / "public").exists()


def test_the_configuration_names_the_file(
    cpi: Cpi, office: PricedOffice, tables: list[Published], tmp_path: Path
) -> None:
    assert run(cpi, office, tmp_path, FIRST_OUT) == 0
    config = read_config(tmp_path / "office.ini")
    assert config.has_averages and config.averages == parse_rows(JANUARY + FEBRUARY)
    publish(tables, config, tmp_path / "public", None, lambda _: None)
    assert (tmp_path / "public/data/average-prices.csv").read_text() == JANUARY + FEBRUARY
    assert "Shop" not in (tmp_path / "averages.csv").read_text()
    for word, says in (
        ("least_outlets = 5", "row 5: FLOUR of 2026-02 has 4 outlets"),
        ("least_outlets = 2", "wanted 3"),
    ):
        text = (tmp_path / "office.ini").read_text()
        (tmp_path / "office.ini").write_text(text.replace("least_outlets = 4", word))
        with pytest.raises((BadAverages, BadConfig), match=says):
            read_config(tmp_path / "office.ini")
        (tmp_path / "office.ini").write_text(text)


@pytest.mark.parametrize("tag, says", [("fr", "Prix moyens"), ("es", "Precios medios"), ("ar", "متوسط الأسعار")])
def test_the_page_is_there_in_each_language(tables: list[Published], tmp_path: Path, tag: str, says: str) -> None:
    """No English text is left but what the office wrote."""
    config = CONFIG._replace(speaks=OfficeLanguages((tag, "en")))
    pack = write_pack(tables, FIXED, tmp_path / "public", config)
    own, english = (Texts.of_page(pack / name) for name in ("average-prices.html", "en/average-prices.html"))
    assert own.of("h1") == [says] and "%(" not in own.markup
    for element in ("h1", "h2", "caption", "p"):
        texts, sources = own.of(element), english.of(element)
        assert len(texts) == len(sources) and not {*texts} & {*sources} - {"Office of prices."}, element

"""The sentences of `cpi-tools explain`: by hand for a small office, and each figure against the lines below for a long
one, in which each kind of month comes."""

from __future__ import annotations

import contextlib
import re
import sqlite3
from collections import Counter
from collections.abc import Iterator
from decimal import ROUND_HALF_UP, Decimal
from pathlib import Path
from string import Formatter
from typing import Optional

import pytest

from . import surveys
from cpi_tools.explain import sentence_texts
from cpi_tools.explain.sentences import count_words, way
from cpi_tools.office.program import Cpi
from .ran import run
from .surveys import key_of

EUR = ("--currency", "EUR")


@pytest.fixture(scope="module")
def whole(cpi: Cpi, tmp_path_factory: pytest.TempPathFactory) -> Path:
    """The long office, all of its months frozen."""
    path = tmp_path_factory.mktemp("whole") / "office.db"
    surveys.long(cpi, path)
    return path


@pytest.fixture(scope="module")
def small(cpi: Cpi, tmp_path_factory: pytest.TempPathFactory) -> Path:
    """The small office with 2026-02 frozen: a price of rice is imputed, and flour is carried."""
    path = surveys.small(cpi, tmp_path_factory.mktemp("small"))
    assert cpi.replay(["4000,desk,freeze,2026-02,01.1.1.2-01"], db=path) == [{"done": True}]
    return path


def sentences(path: Path, month: str, code: str, *words: object) -> list[str]:
    """The sentences of a node: they are between its head and the first empty line."""
    told = run(None, "explain", path, month, code, *words)
    assert told.status == 0
    return told.out.partition("\n\n")[0].splitlines()[1:]


# ---- by hand


def test_the_first_month_of_rice(small: Path) -> None:
    """2.00 and 2.40 became 2.10 and 2.46: 4.56 / 4.40 = 1.03636."""
    assert sentences(small, "2026-01", "01.1.1.1-01", *EUR) == [
        "Rice, packed: prices rose by 3.6 percent from December 2025 to January 2026; January 2025 has no figure, so no"
        " annual change is given.",
        "2 prices in 2 shops (Corner shop; Market hall) could be compared: 2 rose and 0 fell; Rice, 1 kg at Corner shop"
        " changed most, from 2.00 EUR to 2.10 EUR.",
        "Together the 2 prices were 4.40 EUR in December 2025 and now count as 4.56 EUR, so the level, which was"
        " 100.0 then, is 103.6.",
    ]


def test_an_imputed_price_of_rice(small: Path) -> None:
    """2.46 became 2.52, so 2.10 counts as 2.10 * 2.52 / 2.46 = 2.1512. Together that is 4.6712, which is 106.164 percent
    of 4.40, and 2.439 percent more than 103.636."""
    assert sentences(small, "2026-02", "01.1.1.1-01", *EUR) == [
        "Rice, packed: prices rose by 2.4 percent from January 2026 to February 2026; February 2025 has no figure, so no"
        " annual change is given.",
        "One price could be compared: Rice, 1 kg at Market hall went from 2.46 EUR to 2.52 EUR.",
        "Rice, 1 kg was out of stock at Corner shop, so its price is imputed: it moves with the prices that could be"
        " compared (2.46 EUR to 2.52 EUR), from 2.10 EUR to 2.15 EUR.",
        "Together the 2 prices were 4.40 EUR in December 2025 and now count as 4.67 EUR, so the level, which was"
        " 100.0 then, is 106.2.",
    ]


def test_a_carried_aggregate_of_one_series(small: Path) -> None:
    """Flour was 0.80 and 0.84, and its shop was closed in February: 0.84 / 0.80 = 1.05 in both months."""
    assert sentences(small, "2026-02", "01.1.1.2-01", *EUR) == [
        "Flour, wheat: prices didn't change from January 2026 to February 2026; February 2025 has no figure, so no annual"
        " change is given.",
        "Nothing could be compared (Corner shop: closed), so the desk decided to carry the price of Flour, <b>wheat</b>,"
        " 1 kg at Corner shop: it counts as 0.84 EUR, as it did in January 2026.",
        "It is the only price; it was 0.80 EUR in December 2025 and now counts as 0.84 EUR, so the level, which was 100.0"
        " then, is 105.0.",
    ]


def test_all_items(small: Path) -> None:
    """0.6 * 106.1641 + 0.4 * 105 = 105.6985, after 0.6 * 103.6364 + 0.4 * 105 = 104.1818: 1.456 percent more. All of
    it comes from rice: 0.6 * (106.1641 - 103.6364) / 104.1818 = 1.4557 percentage points."""
    assert sentences(small, "2026-02", "00", *EUR) == [
        "All items: prices rose by 1.5 percent from January 2026 to February 2026; February 2025 has no figure, so no"
        " annual change is given.",
        "All of the month's change comes from Rice, packed: +1.46 percentage points.",
        "It rests on 3 prices in 2 shops; 2 of these prices are imputed (closed: 1; out of stock: 1; nothing to compare, so"
        " carried by the desk: Flour, wheat).",
        "The weighted mean of the indices of its 2 aggregates is 105.7 (December 2025 is 100), so the level, which was"
        " 100.0 then, is 105.7.",
    ]


def test_a_node_of_one_price(small: Path) -> None:
    """Flour by itself: 0.84 / 0.80 = 1.05."""
    assert sentences(small, "2026-01", "01.1.1.2")[1:] == [
        "All of the month's change comes from Flour, wheat: +5.00 percentage points.",
        "It rests on one price, which was found at Corner shop.",
        "Its only aggregate has the index 105.0 (December 2025 is 100), so the level, which was 100.0 then, is 105.0.",
    ]
    assert sentences(small, "2026-02", "01.1.1.2")[1:3] == [
        "None of its aggregates changed the index in the month.",
        "It rests on one price, at Corner shop, which is imputed (closed: 1; nothing to compare, so carried by the desk:"
        " Flour, wheat).",
    ]


def test_a_great_count_is_grouped() -> None:
    assert (count_words(5892), count_words(12)) == ("5,892", "12")


@pytest.mark.parametrize(("words", "amount"), [((), "2.00"), (("--minor", 1, *EUR), "200 EUR"),
                                               (("--minor", 1000, "--currency", "{KWD}"), "0.200 {KWD}")])  # fmt: skip
def test_amounts_are_in_the_money_of_the_office(small: Path, words: tuple[object, ...], amount: str) -> None:
    (compared,) = [
        sentence for sentence in sentences(small, "2026-01", "01.1.1.1-01", *words) if "changed most" in sentence
    ]
    assert f"changed most, from {amount} to " in compared


def test_a_revision_says_what_became_of_the_level(cpi: Cpi, tmp_path: Path) -> None:
    """January is reopened, and 2.46 put right to 2.42: 4.52 / 4.40 = 1.0273 in place of 1.0364."""
    path = surveys.small(cpi, tmp_path)
    sent = [
        "2100,desk,calendar,2026-01,2000,2500,3500",
        f"2200,{key_of(8)},quote,1,2026-01,price,242",
        "2500,desk,freeze,2026-01",
    ]
    assert not [reply for reply in cpi.replay(sent, db=path) if "refused" in reply]
    now, before = (sentences(path, "2026-01", "01.1.1.1-01", "--revision", it)[-1] for it in (2, 1))
    assert now == "This is revision 2; in revision 1 the level was 103.6."
    assert before == "This is revision 1; revision 2, with the level 102.7, has replaced it."


Prices = dict[str, tuple[int, int]]
"""By month, the prices of rice in two shops, in minor units."""

TENTHS: Prices = {"2026-12": (110, 330), "2027-01": (121, 330)}


def two_years(dearer: Prices = TENTHS, usual: tuple[int, int] = (100, 300)) -> Iterator[str]:
    """Rice costs 1.00 and 3.00 in two shops until November, 10 percent more in December 2026; in January one of them
    rises by 10 percent once more, and the other goes to another collector. Flour costs 0.80 throughout."""
    head, rest = surveys.SMALL.split("0,desk,calendar,2025-12", 1)
    plan = "0,desk,plan,2026," + rest.partition("0,desk,plan,2026,")[2].partition("10,a")[0].rstrip()
    yield head.replace(",2026-12\n", ",2027-12\n").rstrip()
    yield f"0,desk,collector,9,{key_of(9)}"
    yield plan
    for at, month in enumerate(surveys.MONTHS[:14]):
        opens, closes = at * 1000 + 10, at * 1000 + 500
        first, second = dearer.get(month, usual)
        yield f"{opens},desk,calendar,{month},{opens},{closes},{closes}"
        if month == "2027-01":
            yield plan.replace("plan,2026", "plan,2027").replace("0,desk", f"{opens},desk", 1)
            yield f"{opens},desk,handover,8,1,9,1,2027-01"
        who = 9 if month == "2027-01" else 8
        for collector, slot, price in ((7, 1, first), (7, 2, 80), (who, 1, second)):
            yield f"{opens},{key_of(collector)},quote,{slot},{month},price,{price}"
        yield f"{closes},desk,freeze,{month}"


def test_over_a_link_month_and_a_hand_over(cpi: Cpi, tmp_path: Path) -> None:
    """December: 4.40 / 4.00 = 1.1. January: 4.51 / 4.40 = 1.025, and 110 * 1.025 = 112.75, after 100 a year before.
    All items: 0.6 * 110 + 0.4 * 100 = 106 in December; 0.6 * 102.5 + 0.4 * 100 = 101.5 within the new year, and
    106 * 1.015 = 107.59, which is 7.59 percent above 100."""
    path = tmp_path / "office.db"
    assert [reply for reply in cpi.replay(two_years(), db=path) if "refused" in reply] == []
    assert sentences(path, "2026-12", "01.1.1.1-01", *EUR) == [
        "Rice, packed: prices rose by 10.0 percent from November 2026 to December 2026, and by 10.0 percent over twelve"
        " months.",
        "2 prices in 2 shops (Corner shop; Market hall) could be compared: 2 rose and 0 fell; Rice, 1 kg at Corner shop"
        " changed most, from 1.00 EUR to 1.10 EUR.",
        "Together the 2 prices were 4.00 EUR in December 2025 and now count as 4.40 EUR, so the level, which was"
        " 100.0 then, is 110.0.",
    ]
    assert sentences(path, "2027-01", "01.1.1.1-01", *EUR) == [
        "Rice, packed: prices rose by 2.5 percent from December 2026 to January 2027, and by 12.8 percent over twelve"
        " months.",
        "2 prices in 2 shops (Corner shop; Market hall) could be compared: 1 rose and 0 fell; Rice, 1 kg at Corner shop"
        " changed most, from 1.10 EUR to 1.21 EUR.",
        "Together the 2 prices were 4.40 EUR in December 2026 and now count as 4.51 EUR, so the level, which was"
        " 110.0 then, is 112.8.",
        "From January 2027 on, collector 9 prices Rice, 1 kg at Market hall in place of collector 8.",
    ]
    assert sentences(path, "2027-01", "00", *EUR) == [
        "All items: prices rose by 1.5 percent from December 2026 to January 2027, and by 7.6 percent over twelve months.",
        "All of the month's change comes from Rice, packed: +1.50 percentage points.",
        "It rests on 3 prices in 2 shops, and all of them were found.",
        "The weighted mean of the indices of its 2 aggregates is 101.5 (December 2026 is 100), so the level, which was"
        " 106.0 then, is 107.6.",
    ]
    assert sentences(path, "2027-01", "01.1.1.2-01")[0] == (
        "Flour, wheat: prices didn't change, either from December 2026 to January 2027 or over twelve months."
    )
    assert sentences(path, "2026-05", "01.1.1.1-01")[1] == (
        "2 prices in 2 shops (Corner shop; Market hall) could be compared, and none of them changed."
    )


# ---- prices that come back


def in_march(cpi: Cpi, path: Path, february: tuple[str, str], march: tuple[int, int], january: str = "") -> None:
    """The small office up to March: rice in February in two shops, a price or why there is none, then its prices. Flour,
    which was closed and carried in February, costs 0.88."""
    sent = surveys.SMALL.partition("3500,")[0].replace("price,210", january or "price,210")
    asked = [(key_of(7), 1, february[0]), (key_of(7), 2, "missing,closed"), (key_of(8), 1, february[1])]
    lines = [f"3500,{key},quote,{slot},2026-02,{what}" for key, slot, what in asked]
    rice = [] if "price" in "".join(february) else ["01.1.1.1-01"]
    lines += [",".join(["4000,desk,freeze,2026-02", *rice, "01.1.1.2-01"]), "0,desk,calendar,2026-03,4000,6000,7000"]
    prices = [(key_of(7), 1, march[0]), (key_of(7), 2, 88), (key_of(8), 1, march[1])]
    lines += [f"5000,{key},quote,{slot},2026-03,price,{price}" for key, slot, price in prices]
    replies = cpi.replay([sent, *lines, "6000,desk,freeze,2026-03"], db=path)
    assert [reply for reply in replies if "refused" in reply] == []


def test_a_price_that_comes_back_is_named(cpi: Cpi, tmp_path: Path) -> None:
    """Rice counted as 2.10 * 2.52 / 2.46 = 2.1512 in February and is found at 2.30, the other became 2.50 after 2.52:
    4.80 / 4.6712 = 1.0276, and 4.80 / 4.40 = 1.0909. Flour counted as 0.84, and 0.88 / 0.80 = 1.1."""
    path = tmp_path / "office.db"
    in_march(cpi, path, ("missing,stock", "price,252"), (230, 250))
    changed, compared, level = sentences(path, "2026-03", "01.1.1.1-01", *EUR)
    assert changed.startswith("Rice, packed: prices rose by 2.8 percent from February 2026 to March 2026; ")
    assert compared == "One price could be compared: Rice, 1 kg at Market hall went from 2.52 EUR to 2.50 EUR."
    assert level == (
        "After at least one month without a price, in which it counted as 2.15 EUR, Rice, 1 kg at Corner shop was found"
        " again at 2.30 EUR. Together the 2 prices were 4.40 EUR in December 2025 and now count as 4.80 EUR, so the level,"
        " which was 100.0 then, is 109.1."
    )
    assert sentences(path, "2026-03", "01.1.1.2-01", *EUR)[1:] == [
        "No price could be compared, since none was found in February 2026; the prices of March 2026 count as they are.",
        "After at least one month without a price, in which it counted as 0.84 EUR, the only price, of Flour,"
        " <b>wheat</b>, 1 kg at Corner shop, was found again at 0.88 EUR. It was 0.80 EUR in December 2025 and now counts"
        " as 0.88 EUR, so the level, which was 100.0 then, is 110.0.",
    ]


def test_of_prices_that_come_back_the_one_that_changed_most_is_named(cpi: Cpi, tmp_path: Path) -> None:
    """Nothing was found in February, so 2.10 and 2.46 were carried. 2.30 is 9.5 percent more than 2.10, and 2.40 is 2.4
    percent less than 2.46: 4.70 / 4.40 = 1.0682."""
    for at, (march, named, now) in enumerate([
        ((230, 240), "; of these, Rice, 1 kg at Corner shop changed most, from 2.10 EUR to 2.30 EUR",
         "4.70 EUR, so the level, which was 100.0 then, is 106.8."),
        ((210, 246), ", each at the price that it had counted as",
         "4.56 EUR, so the level, which was 100.0 then, is 103.6."),
    ]):  # fmt: skip
        path = tmp_path / f"{at}.db"
        in_march(cpi, path, ("missing,stock", "missing,closed"), march)
        assert sentences(path, "2026-03", "01.1.1.1-01", *EUR)[1:] == [
            "No price could be compared, since none was found in February 2026; the prices of March 2026 count as they"
            " are.",
            f"2 prices were found again after at least one month without a price{named}. Together the 2 prices were 4.40"
            f" EUR in December 2025 and now count as {now}",
        ]


def test_a_replacement_that_comes_back_counts_as_what_it_replaced(cpi: Cpi, tmp_path: Path) -> None:
    """4.00 of another quality counted as 2.00 * 2.46 / 2.40 = 2.05 in January, and as 2.05 * 2.52 / 2.46 = 2.10 in
    February, without a price. 4.20 is 5 percent more than 4.00, so it counts as 2.1525 in March."""
    path = tmp_path / "office.db"
    in_march(cpi, path, ("missing,stock", "price,252"), (420, 252), "other,400")
    assert sentences(path, "2026-03", "01.1.1.1-01", *EUR)[2].startswith(
        "After at least one month without a price, in which it counted as 2.10 EUR, Rice, 1 kg at Corner shop was found"
        " again at 2.15 EUR, in terms of the item that it replaced. Together the 2 prices were 4.40 EUR in December 2025"
        " and now count as 4.67 EUR,"
    )


def test_a_price_that_comes_back_in_an_aggregate_that_is_carried_is_named(cpi: Cpi, tmp_path: Path) -> None:
    """Nothing of rice was found in February. In March one of them is found at 2.30, and the other is closed once more."""
    path = tmp_path / "office.db"
    in_march(cpi, path, ("missing,stock", "missing,closed"), (230, 240))
    again = [
        "0,desk,calendar,2026-03,7000,8000,9000",
        f"7500,{key_of(8)},quote,1,2026-03,missing,closed",
        "8000,desk,freeze,2026-03,01.1.1.1-01",
    ]
    assert [reply for reply in cpi.replay(again, db=path) if "refused" in reply] == []
    assert sentences(path, "2026-03", "01.1.1.1-01", *EUR)[1:3] == [
        "Nothing could be compared (Market hall: closed), so the desk decided to carry the price of Rice, 1 kg at Market"
        " hall: it counts as 2.46 EUR, as it did in February 2026.",
        "After at least one month without a price, in which it counted as 2.10 EUR, Rice, 1 kg at Corner shop was found"
        " again at 2.30 EUR. Together the 2 prices were 4.40 EUR in December 2025 and now count as 4.76 EUR, so the level,"
        " which was 100.0 then, is 108.2.",
    ]


# ---- a series that has ended

NO_LONGER = (
    "so its price is imputed: it moves with the prices that could be compared (2.10 EUR to 2.20 EUR), from 2.46 EUR to"
    " 2.58 EUR."
)


@pytest.mark.parametrize(("last", "of_lines", "why", "reason"), [
    ("2026-01", "no longer priced: the last month of collector 8, slot 1 was 2026-01",
     "Rice, 1 kg at Market hall is no longer priced,", "no longer priced"),
    ("2026-02", "nothing was sent by collector 8, slot 1", "Nothing was sent for Rice, 1 kg at Market hall,",
     "nothing was sent"),
])  # fmt: skip
def test_a_series_that_has_ended_is_no_longer_priced(
    cpi: Cpi, tmp_path: Path, last: str, of_lines: str, why: str, reason: str
) -> None:
    """Of the second shop there is no price in February: 2.10 became 2.20 in the first one, so 2.46 counts as 2.46 * 2.20
    / 2.10 = 2.5771. If there is none in both, rice is carried."""
    path, head = tmp_path / "office.db", surveys.SMALL.partition("3500,")[0]
    head = head.replace("assign,8,1,11,RICE,2025-12,2026-12", f"assign,8,1,11,RICE,2025-12,{last}")
    text = f"3500,{key_of(7)},quote,1,2026-02,price,220\n3500,{key_of(7)},quote,2,2026-02,price,84\n"
    frozen = "4000,desk,freeze,2026-02"
    assert [it for it in cpi.replay([head, text, frozen], db=path) if "refused" in it] == []
    assert sentences(path, "2026-02", "01.1.1.1-01", *EUR)[2] == f"{why} {NO_LONGER}"
    assert f"  price of 8/1    # {of_lines}\n" in run(None, "explain", path, "2026-02", "01.1.1.1-01").out
    assert f"1 of these prices is imputed ({reason}: 1)." in sentences(path, "2026-02", "00")[2]
    life = run(None, "explain", path, "2026-02", "--series", "8/1").out
    assert re.search(f"2026-02 .*{reason}", life) and not re.search(f"2026-01 .*{reason}", life)

    other = tmp_path / "carried.db"
    sent = [head, text.replace("price,220", "missing,stock"), f"{frozen},01.1.1.1-01"]
    assert [it for it in cpi.replay(sent, db=other) if "refused" in it] == []
    assert sentences(other, "2026-02", "01.1.1.1-01")[1] == (
        f"Nothing could be compared (Corner shop: out of stock; Market hall: {reason}), so the desk decided to carry 2"
        " prices: they count as they did in January 2026."
    )


# ---- changes that are 0.0 percent when they are rounded


def test_a_small_change_is_one(cpi: Cpi, tmp_path: Path) -> None:
    """Rice: 2000.00 and 2400.00, and 2000.10 in January: 4400.10 / 4400.00 is 0.0023 percent more, which gives all items
    0.6 * 0.0023 = 0.0014 percentage points. Flour: 0.80 and 0.84 give 0.4 * 5 = 2."""
    for flour, moved in ((80, "None of its aggregates moved the index by 0.005 percentage points or more in the month."),
                         (84, "Flour, wheat moved the index most in the month: +2.00 percentage points.")):  # fmt: skip
        path, text = tmp_path / f"{flour}.db", surveys.SMALL.partition("3500,")[0]
        for then, now in ((",200\n", ",200000\n"), (",240\n", ",240000\n"), (",210\n", ",200010\n"),
                          (",246\n", ",240000\n"), (",price,84\n", f",price,{flour}\n")):  # fmt: skip
            text = text.replace(then, now)
        assert [reply for reply in cpi.replay([text], db=path) if "refused" in reply] == []
        assert sentences(path, "2026-01", "01.1.1.1-01", *EUR)[:2] == [
            "Rice, packed: prices changed by less than 0.05 percent from December 2025 to January 2026; January 2025 has no"
            " figure, so no annual change is given.",
            "2 prices in 2 shops (Corner shop; Market hall) could be compared: 1 rose and 0 fell; Rice, 1 kg at Corner shop"
            " changed most, from 2000.00 EUR to 2000.10 EUR.",
        ]
        assert sentences(path, "2026-01", "00")[1] == moved


def test_small_changes_in_a_year(cpi: Cpi, tmp_path: Path) -> None:
    """4000.00 became 4000.10 in December 2026, which is 0.0025 percent more, and stayed so."""
    path = tmp_path / "office.db"
    dearer = {"2026-12": (100_010, 300_000), "2027-01": (100_010, 300_000)}
    sent = two_years(dearer, (100_000, 300_000))
    assert [reply for reply in cpi.replay(sent, db=path) if "refused" in reply] == []
    assert [sentences(path, month, "01.1.1.1-01")[0].partition(": ")[2] for month in ("2026-12", "2027-01")] == [
        "prices changed by less than 0.05 percent, both from November 2026 to December 2026 and over twelve months.",
        "prices didn't change from December 2026 to January 2027; over twelve months they changed by less than 0.05"
        " percent.",
    ]


@pytest.mark.parametrize(("change", "then", "now", "wanted"), [
    (0, 10**8, 10**8, sentence_texts.SAME), (0, 10**8, 10**8 + 1, sentence_texts.SMALL), (0, 10**8, 10**8 - 49_999, sentence_texts.SMALL),
    (1, 10**8, 10**8 + 50_000, sentence_texts.ROSE), (-1, 10**8, 10**8 - 50_000, sentence_texts.FELL), (None, None, 10**8, sentence_texts.NONE),
])  # fmt: skip
def test_which_way_prices_went(change: Optional[int], then: Optional[int], now: int, wanted: str) -> None:
    assert way(change, then, now) == wanted


# ---- against the lines

PATTERNS = {
    "change": r"Node, (?:\S+): prices .* from (?:\w+ \d+) to .*",
    "one compared": r"One price could be compared: .* went from (\S+) EUR to (\S+) EUR(?:, in terms of the item that it"
    r" replaced)?\.",
    "compared": r"(\d+) prices (?:in (\d+) shops \(.*\)|at .*) could be compared: (\d+) rose and (\d+) fell; .* changed"
    r" most, from (\S+) EUR to (\S+) EUR(?:, in terms of the item that it replaced)?\.",
    "none compared": r"No price could be compared, since none was found in .*",
    "one imputed": r".* is imputed: it moves with the prices that could be compared \((\S+) EUR to (\S+) EUR\), from"
    r" (\S+) EUR to (\S+) EUR\.",
    "imputed": r"(\d+) prices couldn't be compared \(.*\), so they are imputed: .* compared \((\S+) EUR to (\S+) EUR\)\.",
    "one carried": r"Nothing could be compared .* decided to carry the price of .*: it counts as (\S+) EUR, as it did in"
    r" .*",
    "carried": r"Nothing could be compared .* decided to carry (\d+) prices: they count as they did in .*",
    "level": r"Together the (\d+) prices were (\S+) EUR in \w+ \d+ and now count as (\S+) EUR, so the level, which was"
    r" (\S+) then, is (\S+)\.",
    "returned": r"(?:After at least one month without a price, in which it counted as|(\d+) prices were found again after at"
    r" least one month without a price; of these, .* changed most, from) (\S+) EUR(?:, .* was found again at| to) (\S+) EUR"
    r"(?:, in terms of the item that it replaced)?\. Together the (\d+) prices were (\S+) EUR in \w+ \d+ and now count as"
    r" (\S+) EUR, so the level, which was (\S+) then, is (\S+)\.",
    "contributions": r"These moved the index most in the month, in percentage points: (.*)\.",
    "contribution": r"(?:All of the month's change comes from .*|.* moved the index most in the month): (\S+) percentage"
    r" points\.",
    "unchanged": r"None of its aggregates (?:changed the index|moved the index by 0\.005 percentage points or more) in the"
    r" month\.",
    "prices": r"It rests on (\d+) prices (?:in (\d+) shops|at .*)(?:, and all of them were found|; (\d+) of these"
    r" prices (?:is|are) imputed .*)\.",
    "mean": r"The weighted mean of the indices of its (\d+) aggregates is (\S+) .* so the level, which was (\S+) then, is"
    r" (\S+)\.",
    "one aggregate": r"Its only aggregate has the index (\S+) \(\w+ \d+ is 100\), so the level, which was (\S+) then, is"
    r" (\S+)\.",
    "revised": r"This is revision \d; (?:in revision (\d) the level was (\d+\.\d)|revision (\d), with the level"
    r" (\d+\.\d), has replaced it)\.",
    "handed over": r"From June 2026 on, (?:other collectors look for (\d+) of these prices|collector 9 prices .*).*"
    r" collector 3.*",
}


class Lines:
    """The lines of a node as they are printed, read again."""

    def __init__(self, text: str):
        self.values: dict[str, int] = {}
        self.terms: Counter[str] = Counter()
        self.names: list[str] = []
        for line in text.splitlines():
            match = re.fullmatch(r"  ([^=#]+?)(?: = ([^#]*?))?(?: = (-?\d+))?(?:    # .*)?", line)
            if not match:
                continue
            name, middle, value = match.groups()
            value = value or middle
            self.names.append(name)
            if value and re.fullmatch(r"-?\d+", value):
                self.values[name] = int(value)
            self.terms[name] = (middle or "").count(" + ") + 1

    def changes(self, of: frozenset[str]) -> list[tuple[int, int]]:
        """What each of some series counted as and counts as, the greatest change first."""
        names = [name for name in self.names if name.startswith("carried price of ") and name[17:] in of]
        values = [(self.values[f"earlier {name}"], self.values[name]) for name in names]
        return sorted(values, key=lambda value: -abs(Decimal(value[1] - value[0]) / value[0]))

    matched: frozenset[str] = frozenset()
    returned: frozenset[str] = frozenset()


def lines_of(text: str) -> Lines:
    lines = Lines(text)
    lines.matched = frozenset(re.findall(r"  carried price of (\S+) = .*    # matched$", text, re.M))
    lines.returned = frozenset(re.findall(r"  carried price of (\S+) = .*    # comparable; not observed", text))
    return lines


def rounded(over: int, under: int, digits: int) -> str:
    """A quotient with some decimals, halves away from zero, by Python's decimal numbers."""
    return str((Decimal(over) / under).quantize(Decimal(1).scaleb(-digits), ROUND_HALF_UP))


def money(ticks: int) -> str:
    return rounded(ticks, 1_000_000, 2)


def level(millionths: int) -> str:
    return rounded(millionths, 1_000_000, 1)


def points(millionths: int) -> str:
    text = rounded(abs(millionths), 1_000_000, 2)
    return text if text == "0.00" else f"{'+' if millionths > 0 else chr(0x2212)}{text}"


def look_at_change(text: str, lines: Lines) -> None:
    """Directions and sizes of both changes."""
    month, year = lines.values["monthly change"], lines.values.get("annual change")
    part, _, rest = text.partition(" from ")
    for change, said in ((month, part), (year, rest)):
        if change:
            assert f"by {rounded(abs(change), 10, 1)} percent" in said, text
    now, before, year_before = (
        lines.values.get(text) for text in ("chained level", "level before", "level a year earlier")
    )
    words = {1: "rose by", -1: "fell by", 0: "changed by less than 0.05 percent"}
    of_month, of_year = (
        "didn't change" if now == then else words[(change > 0) - (change < 0)]
        for change, then in ((month, before), (year or 0, year_before))
    )
    assert f"prices {of_month}" in part, text
    if year is None:
        assert "has no figure, so no annual change is given" in rest
    elif (year > 0) == (month > 0) and (year < 0) == (month < 0) and year:
        assert ", and by " in rest and rest.endswith("over twelve months.")
    elif of_month != of_year:
        assert f"over twelve months they {of_year}" in rest
    else:
        assert rest.endswith(" over twelve months.") and " they " not in rest


def figures(kind: str, lines: Lines) -> tuple[object, ...]:
    """What the groups of a kind have to be, from the lines."""
    values = lines.values
    moved = money(values.get("moved from", 0)), money(values.get("moved to", 0))
    imputed = [name for name in lines.names if re.match("carried price of", name) and f"{name} imputed" in lines.values]
    chained = level(values["link level"]), level(values["chained level"])
    adds = [points(value) for name, value in values.items() if name.startswith("contribution of ")]
    adds = [points for points in adds if points != "0.00"]
    changes, returned = lines.changes(lines.matched), lines.changes(lines.returned)
    most = tuple(map(money, changes[0])) if changes else ()
    rose, fell = (sum((now - then) * sign > 0 for then, now in changes) for sign in (1, -1))
    then = [values[f"earlier {name}"] for name in imputed]
    carried = [money(values[name]) for name in imputed]
    of_prices = money(values.get("sum of bases", 0)), money(values.get("sum of carried prices", 0))
    return {
        "one compared": most,
        "compared": (len(changes), None, rose, fell, *most),
        "one imputed": (*moved, *map(money, then[:1]), *carried[:1]),
        "imputed": (len(imputed), *moved),
        "one carried": tuple(carried[:1]),
        "carried": (len(imputed),),
        "level": (lines.terms["sum of carried prices"], *of_prices, *chained),
        "returned": (
            len(returned) if len(returned) > 1 else None,
            *map(money, (returned or [(0, 0)])[0]),
            lines.terms["sum of carried prices"],
            *of_prices,
            *chained,
        ),
        "contributions": ("; ".join(adds[:3]),),
        "contribution": tuple(adds[:1]),
        "prices": (values.get("prices below"), None, None),
        "mean": (lines.terms["sum of weights"], level(values["index"]), *chained),
        "one aggregate": (level(values["index"]), *chained),
    }.get(kind, ())


def look_at_sentence(text: str, lines: Lines) -> str:
    """Compares the figures of a sentence with the lines; its kind."""
    kind, found = next((kind, match) for kind, form in PATTERNS.items() if (match := re.fullmatch(form, text)))
    if kind == "change":
        look_at_change(text, lines)
    elif kind == "contributions":
        assert re.findall(r"\((\S+)\)", found[1]) == str(figures(kind, lines)[0]).split("; ")
    elif kind == "revised":
        other, of_other = found[1] or found[3], found[2] or found[4]
        assert of_other == level(lines.values[f"level in revision {other}"])
    elif kind == "prices":
        assert int(found[1]) == lines.values["prices below"]
        assert int(found[2] or 1) == lines.values["outlets below"]
        assert int(found[3] or 0) == lines.values["imputed below"]
    else:
        assert kind not in ("level", "returned") or (kind == "returned") == bool(lines.returned)
        wanted = figures(kind, lines)
        pairs = [(group, want) for group, want in zip(found.groups(), wanted) if want is not None]
        assert [pair for pair, _ in pairs] == [str(want) for _, want in pairs], text
    return kind


def test_each_figure_of_each_sentence_is_one_of_the_lines(whole: Path) -> None:
    """Over all months and nodes of the long office, in which each kind of sentence comes."""
    kinds, counts = Counter[str](), Counter[int]()
    months = [(month, 1) for month in surveys.MONTHS[1:]] + [(surveys.REVISED, 2)]
    for month, revision in months:
        for code in nodes_of(whole, month):
            out = run(None, "explain", whole, month, code, "--revision", revision, *EUR).out
            lines = lines_of(out)
            for series in re.findall(r"  carried price of (\S+) = .*    # imputed", out):
                lines.values[f"carried price of {series} imputed"] = 1
            said = out.partition("\n\n")[0].splitlines()[1:]
            counts[len(said)] += 1
            kinds.update(look_at_sentence(line, lines) for line in said)
    assert {*counts} == {3, 4, 5}
    assert {*PATTERNS} - {*kinds} == set()


def nodes_of(path: Path, month: str) -> list[str]:
    """All nodes of a month."""
    weights = {
        code: aggregate.first if month < "2027" else aggregate.second for code, aggregate in surveys.AGGREGATES.items()
    }
    kept = [code for code, weight in weights.items() if weight and code != "12.1.1.1-01"]
    return sorted({"00", *(code[:end] for code in kept for end in (2, 4, 6, 8, 11))})


# ---- wording

ALL_FORMS = [it for it in vars(sentence_texts).values() if isinstance(it, str) and re.search(r"\{.*\.$", it)]
ALL_FORMS += [*sentence_texts.CHANGES.values(), *sentence_texts.ONE_IMPUTED.values()]

PLACES = {
    "title", "change", "year_change", "before", "month", "year_before", "item", "outlet", "outlets", "then", "now",
    "count", "shops", "rose", "fell", "earlier", "later", "reasons", "base", "december", "link", "level", "returned", "found",
    "points", "contributions", "prices", "imputed", "index", "revision", "other", "collector", "former",
}  # fmt: skip


def test_each_sentence_is_whole_and_has_named_places() -> None:
    assert len(ALL_FORMS) > 40
    for form in ALL_FORMS:
        names = [name for _, name, _, _ in Formatter().parse(form) if name is not None]
        assert {*names} <= PLACES, form
        assert re.match(r"[A-Z{0-9]", form) and form.endswith("."), form


def test_the_change_of_each_kind_names_what_it_says() -> None:
    ways = (sentence_texts.ROSE, sentence_texts.FELL, sentence_texts.SMALL, sentence_texts.SAME)
    assert {*sentence_texts.CHANGES} == {(month, year) for month in ways for year in (*ways, sentence_texts.NONE)}
    for (month, year), form in sentence_texts.CHANGES.items():
        assert ("{change}" in form) == (month in (sentence_texts.ROSE, sentence_texts.FELL))
        assert form.count("less than 0.05 percent") == (sentence_texts.SMALL in (month, year))
        assert ("{year_change}" in form) == (year in (sentence_texts.ROSE, sentence_texts.FELL))
        assert ("{year_before}" in form) == (year == sentence_texts.NONE)


# ---- pages, and what isn't true


def test_the_page_begins_with_the_sentences(small: Path, tmp_path: Path) -> None:
    page = tmp_path / "rice.html"
    words = ("explain", small, "2026-02", "01.1.1.1-01", "--currency", "<EUR>", "--html", page)
    assert run(None, *words).status == 0
    section = page.read_text(encoding="utf-8").partition('<section id="01.1.1.1-01"')[2]
    lead = section.partition('<p class="lead">')[2].partition("</p>")[0]
    assert "<bdi>Rice, packed</bdi>: prices rose by 2.4 percent" in lead
    assert "from 2.10 <bdi>&lt;EUR&gt;</bdi> to 2.15 <bdi>&lt;EUR&gt;</bdi>." in lead
    assert section.index('class="lead"') < section.index('class="cards exact"')


def test_a_figure_that_isnt_true_is_put_in_no_words(small: Path, tmp_path: Path) -> None:
    path = tmp_path / "changed.db"
    path.write_bytes(small.read_bytes())
    with contextlib.closing(sqlite3.connect(path)) as link:
        assert link.execute("UPDATE carried_2 SET ticks = ticks + 1 WHERE month = 202602 AND slot = 1").rowcount == 2
        link.commit()
    told = run(None, "explain", path, "2026-02", "01.1.1.1-01")
    assert told.status == 1
    assert told.out.partition("\n\n")[0].splitlines()[1:] == [sentence_texts.UNTRUE]

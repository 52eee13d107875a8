"""The index clause of the website, by the file that its page loads: results by revisions, addresses, texts to take."""

from __future__ import annotations

import json
import re
import shutil
import subprocess
from fractions import Fraction
from pathlib import Path
from typing import Any

import pytest

from lib.places import ROOT
from cpi_tools.publish.figures.config import Config
from cpi_tools.office.public import Published
from cpi_tools.publish.figures.specials import Special
from cpi_tools.publish.pack import publish
from .published import REVISED

pytestmark = pytest.mark.skipif(shutil.which("node") is None, reason="node isn't there")

SCRIPT = ROOT / "tools/cpi_tools/publish/site/assets/contract.js"
CONFIG = Config(
    "NSO", "XX", "Office of prices", currency="crowns", specials=(Special("FOOD", "All food", ("01",), ()),)
)
OLD, NEW = (f"{REVISED}-r{number}.csv" for number in (1, 2))


@pytest.fixture(scope="module")
def levels(published: list[Published], tmp_path_factory: pytest.TempPathFactory) -> Path:
    """The levels of an office with a revised month."""
    out = tmp_path_factory.mktemp("clause") / "public"
    publish(published, CONFIG, out, None, lambda _: None)
    return out / "assets/levels.js"


def asked(levels: Path, expression: str, *given: object) -> Any:
    """The value of an expression over `c`, the script, `data`, its levels, and `given`."""
    program = "globalThis.window = {}; require(process.argv[2]); const data = window.LEVELS;"
    program += "const c = require(process.argv[1]), given = JSON.parse(process.argv[3]);"
    program += "const plain = (_, it) => (typeof it === 'bigint' ? String(it) : it);"
    program += f" console.log(JSON.stringify({expression}, plain));"
    words = ["node", "-e", program, str(SCRIPT), str(levels), json.dumps(given)]
    return json.loads(subprocess.run(words, capture_output=True, text=True, check=True).stdout)


def level(published: list[Published], name: str, code: str) -> Fraction:
    """The chained level of an item in a published table."""
    (table,) = [publication.table.decode() for publication in published if publication.name == name]
    (row,) = [line.split(",") for line in table.splitlines() if line.startswith(f"{code},")]
    return Fraction(row[3])


def rounded_up(value: Fraction, digits: int) -> int:
    """A value in units of its last decimal, halves upwards."""
    return int(value * 10**digits + Fraction(1, 2))


def amount(published: list[Published], names: tuple[str, str], code: str, digits: int) -> str:
    """What 1,000.00 come to between two tables, in minor units."""
    then, now = (rounded_up(level(published, name, code), digits) for name in names)
    return str(rounded_up(Fraction(100_000 * now, then), 0))


RESULT = "(({ values, revisions }) => c.computed(values, revisions, data).result)(c.readAddress(given[0], data))"


def address(then: str, now: str, decimals: int, more: str = "", code: str = "01") -> str:
    return f"amount=1000&code={code}&then={then}&now={now}&decimals={decimals}{more}"


@pytest.mark.parametrize("decimals", [1, 6])
def test_an_address_gives_the_result_of_its_revisions(levels: Path, published: list[Published], decimals: int) -> None:
    """Before and after the month was revised; without a revision the latest one counts."""
    base = "2025-06-r1.csv"
    old, new = (amount(published, (base, it), "01", decimals) for it in (OLD, NEW))
    assert old != new
    for more, wanted in (("&now-revision=1", old), ("&now-revision=2", new), ("", new)):
        assert asked(levels, RESULT, address("2025-06", REVISED, decimals, more)) == wanted
    back = amount(published, (OLD, "2027-05-r1.csv"), "01", decimals)
    assert asked(levels, RESULT, address(REVISED, "2027-05", decimals, "&then-revision=1&now-revision=1")) == back


def test_the_address_of_a_result_gives_it_again(levels: Path) -> None:
    """An address that is read and written again is the same one, and names both revisions and the period."""
    whole = "amount=1000.50&code=00&then=2025-06&now=2026-03&decimals=6&then-revision=1&now-revision=1&hundred=2024-12"
    read = "(({ values, revisions }) => c.addressOf(c.computed(values, revisions, data), data.digits))(c.readAddress(given[0], data))"
    assert asked(levels, read, whole) == f"#{whole}"
    assert "now-revision=2" in asked(levels, read, address("2025-06", REVISED, 1))


def test_a_later_revision_is_told_with_what_it_comes_to(levels: Path, published: list[Published]) -> None:
    notices = "(({ values, ...asked }) => c.noticesOf(c.computed(values, asked.revisions, data), asked, data))(c.readAddress(given[0], data))"
    revised, latest = asked(levels, notices, address("2025-06", REVISED, 1, "&now-revision=1"))
    index = rounded_up(level(published, NEW, "01"), 1)
    assert revised.startswith(
        f"March 2026 was revised after revision 1: its index is {index // 10}.{index % 10} in revision 2"
    )
    minor = amount(published, ("2025-06-r1.csv", NEW), "01", 1)
    assert f"With the latest revisions, the new amount is {minor[:-5]}\u202f{minor[-5:-2]}.{minor[-2:]} " in latest
    assert asked(levels, notices, address("2025-06", REVISED, 1)) == []
    # (addresses of earlier versions have the period in words)
    for same in ("2024-12", "December+2024"):
        assert asked(levels, notices, address("2025-06", REVISED, 1, f"&hundred={same}")) == []
    (other,) = asked(levels, notices, address("2025-06", REVISED, 1, "&hundred=2025"))
    assert "with 2025 = 100. The office now publishes it with December 2024 = 100, so" in other
    (of_set,) = asked(levels, notices, address("2025-06", REVISED, 1, "&now-revision=1", "FOOD"))
    assert "asks for revision 1 of March 2026. A special aggregate is computed from the latest revisions" in of_set


@pytest.mark.parametrize(
    ("text", "said"),
    [
        ("code=99", "The address contains code=99. The value has to be an item that the form offers."),
        ("code=toString", "The address contains code=toString. The value has to be an item that the form offers."),
        (
            "toString=1",
            "The address contains \u201ctoString\u201d, which this page doesn't know. It knows amount, code,",
        ),
        (
            "then=2031-01",
            "The address contains then=2031-01. The value has to be a month such as 2024-12, from December 2024 to May"
            " 2027.",
        ),
        ("decimals=2", "The address contains decimals=2. The value has to be 1 or 6."),
        ("now=2026-03&now-revision=3", "The address contains now-revision=3. March 2026 has revisions 1 to 2."),
        ("now=2026-03&now-revision=x", "The address contains now-revision=x. March 2026 has revisions 1 to 2."),
        ("then-revision=1", "The address contains then-revision=1, so it needs the month too."),
        ("item=00", "The address contains \u201citem\u201d, which this page doesn't know. It knows amount, code,"),
    ],
)
def test_an_address_that_asks_in_vain_is_told_so(levels: Path, text: str, said: str) -> None:
    """What was read, and what it can be; all else of the address is taken."""
    asked_for = asked(levels, "c.readAddress(given[0], data)", f"amount=5&{text}")
    assert len(asked_for["faults"]) == 1 and asked_for["faults"][0].startswith(said)
    assert asked_for["values"]["amount"] == "5" and asked_for["revisions"] == {}


def test_the_texts_to_take(levels: Path, published: list[Published]) -> None:
    texts = "(({ values, revisions }) => { const it = c.computed(values, revisions, data);"
    texts += (
        " return [c.clauseText(it, data), c.resultText(it, data, 'https://there')]; })(c.readAddress(given[0], data))"
    )
    clause, result = asked(levels, texts, address("2025-06", REVISED, 1, "&now-revision=1", "00"))
    plain = {ord(it): None for it in "\u2068\u2069"}
    then, now = (rounded_up(level(published, name, "00"), 1) for name in ("2025-06-r1.csv", OLD))
    then_text, now_text = (f"{it // 10}.{it % 10}" for it in (then, now))
    begins = "The amount follows the Consumer price index, All items (00), of Office of prices, as printed, with one decimal place."
    assert clause.translate(plain).startswith(
        f"{begins} The base index is the index of June 2025: {then_text} (revision 1, "
    )
    assert "with December 2024 = 100" in clause and "to the nearest 0.01, with halves rounded up" in clause
    assert f"March 2026: {now_text} (revision 1, published 1 January 1970" in result and result.endswith(
        ". https://there"
    )
    minor = amount(published, ("2025-06-r1.csv", OLD), "00", 1)
    assert f"{now_text} / {then_text} = {minor[:-5]}\u202f{minor[-5:-2]}.{minor[-2:]} crowns." in result.translate(
        plain
    )
    copied = " ".join(asked(levels, "given.map(c.plain)", clause, result))
    assert "\u202f" in clause + result
    assert not re.search("[\u00a0\u2009\u200e\u200f\u202f\u2066-\u2069]", copied)
    assert f"= {minor[:-5]} {minor[-5:-2]}.{minor[-2:]} crowns." in copied


def clause_of(levels: Path, code: str, more: str) -> str:
    """The text for a contract that an address asks for."""
    program = "(({ values }) => c.clauseText(c.computed(values, {}, data), data))(c.readAddress(given[0], data))"
    clause: str = asked(levels, program, address("2025-06", REVISED, 1, more, code))
    return clause


def test_a_clause_names_the_month_the_revision_and_what_follows(levels: Path) -> None:
    """At an adjustment date the latest published month is due, by its first revision or by that of the day; if the index
    falls, the amount falls or stays; if it ends, a successor counts, and of a part else all items."""
    first = clause_of(levels, "01", "")
    assert (
        "At each adjustment date, the index that applies is the index of the latest month that the office has"
        " published by then." in first
    )
    assert "It applies as first published: a later revision of that month changes nothing." in first
    assert "If the index that applies is lower than the one before, the amount falls with it." in first
    assert first.endswith(
        "linked in the last month for which both exist. If it names none, the index of all items replaces it."
    )
    other = clause_of(levels, "00", "&later=day&fall=stays")
    assert "Its latest revision at the adjustment date applies: a revision after that date changes nothing." in other
    assert "If the new amount would be lower than the amount paid until then, the amount stays unchanged." in other
    assert other.endswith("replaces it, linked in the last month for which both exist.")


def test_an_address_keeps_what_a_contract_says_of_revisions_and_falls(levels: Path) -> None:
    read = "(({ values }) => c.addressOf(c.computed(values, {}, data), data.digits))(c.readAddress(given[0], data))"
    kept = asked(levels, read, address("2025-06", REVISED, 1, "&later=day&fall=stays"))
    assert "&decimals=1&later=day&fall=stays&then-revision=" in kept
    assert "later" not in asked(levels, read, address("2025-06", REVISED, 1, "&later=first&fall=follows"))
    found = asked(levels, "c.readAddress(given[0], data)", "later=never")
    assert found["faults"] == ["The address contains later=never. The value has to be first or day."]


AMOUNTS = {
    ("1,234.50", 2): "123450",
    ("1.234,50", 2): "123450",
    ("1\u2019234.50", 2): "123450",
    ("12,34,567.8", 2): "123456780",
    ("\u0661\u066c\u0662\u0663\u0664\u066b\u0665\u0660", 2): "123450",
    ("\u0967\u0968\u0969.\u096b", 2): "12350",
    (".5", 2): "50",
    ("1,234", 0): "1234",
    ("1,234.567", 3): "1234567",
    ("1,234", 2): None,
    ("1.234", 3): None,
    ("1,23", 0): None,
    ("1 23", 2): None,
    ("12.345.6", 2): None,
}
"""Amounts as people type them, with so many decimals of the currency, in minor units; None if they can't be read, or in two
ways."""


def test_an_amount_is_read_in_the_digits_of_any_keyboard(levels: Path) -> None:
    given = [*AMOUNTS]
    found = asked(levels, "given[0].map(([text, digits]) => c.amountOf(text, digits))", given)
    assert dict(zip(given, found)) == AMOUNTS
    said = asked(levels, "c.badAmount(2, '1,234')")
    assert said == "1,234 can be read as 1234 or as 1.234. Write the amount like this: 1234.50."
    assert asked(levels, "c.badAmount(2, 'x')").endswith("with at most 2 decimal places, such as 1234.50.")

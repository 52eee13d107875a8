"""The search of the website's list of items, by the file that the page loads: accents, slips, codes, what is said."""

from __future__ import annotations

import json
import shutil
import subprocess
from typing import Any

import pytest

from lib.places import ROOT

pytestmark = pytest.mark.skipif(shutil.which("node") is None, reason="node isn't there")

SCRIPT = ROOT / "tools/cpi_tools/publish/site/assets/search.js"

ITEMS = [
    "00 All items", "01.1.1.3 Bread and bakery products", "01.1.1.3-01 Brown bread, sliced", "01.1.4.5 Cheese and curd",
    "01.2.1.0 Coffee", "01.1.8.5 Chocolate", "03.1.2.1 Men's clothes", "05.6.1 Caf\u00e9 cr\u00e8me br\u00fbl\u00e9e",
    "02.1.3 Bi\u00e8re", "01.1.8 \u0141\u00f3d\u017a \u00d8l Stra\u00dfe \u0130zmir", "01.1.1 \u062e\u064f\u0628\u0652\u0632",
    "01.1.2 \u304c\u304e\u3050 Rice", "07.2.2 Enterprise",
]  # fmt: skip


def asked(expression: str, *given: object) -> Any:
    """The value of an expression over `s`, the script, and `given`."""
    program = "const s = require(process.argv[1]), given = JSON.parse(process.argv[2]);"
    program += f" console.log(JSON.stringify({expression}));"
    words = ["node", "-e", program, str(SCRIPT), json.dumps(given)]
    return json.loads(subprocess.run(words, capture_output=True, text=True, check=True).stdout)


def found(sought: str) -> tuple[list[str], bool]:
    """The codes that are found, and whether their words are only like those that are sought."""
    told = asked("s.find(s.listOf(given[0]), given[1])", ITEMS, sought)
    return [item.split(" ")[0] for item, is_found in zip(ITEMS, told["rows"]) if is_found], told["isNear"]


@pytest.mark.parametrize(
    ("sought", "codes"),
    [
        ("", [item.split(" ")[0] for item in ITEMS]),
        ("bread", ["01.1.1.3", "01.1.1.3-01"]),
        ("BREAD brown", ["01.1.1.3-01"]),
        ("01.1.1.3", ["01.1.1.3", "01.1.1.3-01"]),
        # accents in the list, in what is sought, in both, and taken apart
        ("cafe creme brulee", ["05.6.1"]),
        ("caf\u00e9", ["05.6.1"]),
        ("cafe\u0301", ["05.6.1"]),
        ("biere", ["02.1.3"]),
        ("ch\u00e9\u00e9se", ["01.1.4.5"]),
        # letters that aren't a letter and an accent; Arabic with and without its vowels, and lengthened
        ("lodz ol strasse izmir", ["01.1.8"]),
        ("\u062e\u0628\u0632", ["01.1.1"]),
        ("\u062e\u0640\u0628\u0632", ["01.1.1"]),
        ("\u304c\u304e", ["01.1.2"]),
        # half and full width
        ("\uff32\uff49\uff43\uff45", ["01.1.2"]),
    ],
)
def test_accents_do_not_count(sought: str, codes: list[str]) -> None:
    assert found(sought) == (codes, False)


@pytest.mark.parametrize(
    ("sought", "codes"),
    [
        # a wrong letter, one that is missing, one too many, two that changed places
        ("breed", ["01.1.1.3", "01.1.1.3-01"]),
        ("chese", ["01.1.4.5"]),
        ("coffeee", ["01.2.1.0"]),
        ("cheees", ["01.1.4.5"]),
        # two in a longer word, also if it isn't typed to its end; and with an accent
        ("choclaet", ["01.1.8.5"]),
        ("choccola", ["01.1.8.5"]),
        ("chocol\u00e2de", ["01.1.8.5"]),
        # a word that is there with one that isn't
        ("sliced braed", ["01.1.1.3-01"]),
        # each is there, but not in one item: then words that are like them count too
        ("rise bread", []),
        # not in a code, nor in a short word, and not further away than that
        ("01.1.1.4", []),
        ("ald", []),
        ("xylophone", []),
        ("braeds", []),
    ],
)
def test_a_slip_is_forgiven(sought: str, codes: list[str]) -> None:
    assert found(sought) == (codes, True)


@pytest.mark.parametrize(
    ("word", "other", "slips"),
    [("bread", "bread", 0), ("bread", "breadsticks", 0), ("abcd", "acbd", 1), ("kitten", "sitting", 2), ("abc", "", 3)],
)
def test_the_distance_by_hand(word: str, other: str, slips: int) -> None:
    """To the best beginning of the other: from `kitten` to `sittin` a wrong letter twice."""
    assert asked("s.distance(...given)", word, other) == slips


def test_it_is_said_how_many_are_found() -> None:
    said = [
        ("bread", 2, 13, False, "2 of 13 items."),
        ("braed", 2, 13, True, "No item contains \u201cbraed\u201d. 2 of 13 items contain a word like it."),
        (" xylo ", 0, 13, True, "No item contains \u201cxylo\u201d, or a word like it."),
        ("  ", 13, 13, False, ""),
    ]
    for *given, wanted in said:
        assert asked("s.saidOf(...given)", *given) == wanted


LARGE = """(() => {
  const word = (n) => `w${n.toString(26)}`.replace(/[0-9]/g, (digit) => "qrstuvwxyz"[digit]);
  const rows = [...Array(7000).keys()].map((at) => [...Array(6).keys()].map((each) => word((at * 7 + each * 1301) % 9000)).join(" "));
  const list = s.listOf(rows);
  const begun = performance.now();
  const { isNear } = s.find(list, given[0]);
  return [isNear, performance.now() - begun];
})()"""


def test_a_national_list_is_searched_at_once() -> None:
    """7,000 items of six words, 9,000 words in all: a tenth of a second of a machine that isn't busy."""
    is_near, milliseconds = asked(LARGE, "xylophonic wrods")
    assert is_near and milliseconds < 3000, milliseconds

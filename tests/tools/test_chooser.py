"""The page for choosing: the files that it reads, and what its script makes of them and of its address.

The script is run by `node`, over the pack of an office in which items leave and are back and a month is revised. What
is wanted is computed anew in fractions from what `cpi table` prints.
"""

from __future__ import annotations

import csv
import json
import shutil
import subprocess
from fractions import Fraction
from pathlib import Path
from typing import Any

import pytest

from cpi_tools.publish.site.chooser import ITEM_HEAD, OF_PAGES, OTHERS_OF_PAGES, SEARCH, SOURCES, script
from cpi_tools.publish.figures.config import Config
from cpi_tools.office.public import Published
from cpi_tools.publish.pack import publish
from .published import REVISED

CONFIG = Config("NSO", "XX", "Office of prices", reference="2025", rates="published")
PEARS, FLOUR, PHONES = "01.1.6.2-01", "01.1.1.2-01", "08"
"""They leave after 2025 and are back in 2027; they leave after 2025; they come in 2026."""

KNOWN = {"first": "2025-01", "last": "2027-05", "base": "2024-12", "reference": "2025",
         "moment": "2027-06-28T08:30:00Z", "revisions": "2"}  # fmt: skip

pytestmark = pytest.mark.skipif(shutil.which("node") is None, reason="node isn't there")


@pytest.fixture(scope="module")
def pack(published: list[Published], tmp_path_factory: pytest.TempPathFactory) -> Path:
    out = tmp_path_factory.mktemp("pack") / "public"
    publish(published, CONFIG, out, None, lambda _: None)
    return out


@pytest.fixture(scope="module")
def modules(tmp_path_factory: pytest.TempPathFactory) -> Path:
    """The modules of the script, where `node` takes them for modules."""
    folder = tmp_path_factory.mktemp("modules")
    shutil.copytree(SOURCES, folder / "choose")
    (folder / "choose/package.json").write_text('{"type": "module"}')
    (folder / "assets").mkdir()
    for path in (SEARCH, SEARCH.with_name("spoken.js")):
        shutil.copy(path, folder / "assets")
    return folder / "choose"


def told(modules: Path, program: str, *words: object) -> Any:
    """What a program over the modules says, as JSON; `words` are its data."""
    (modules / "program.js").write_text(
        'import * as choice from "./choice.js"; import * as lines from "./lines.js";\n'
        'import { matching } from "./picker.js"; import { measureOf } from "./measured.js";\n'
        'import { csvOf } from "./figures.js"; import { readFileSync } from "node:fs";\n'
        "const words = process.argv.slice(2).map((text) => JSON.parse(text));\n"
        f"console.log(JSON.stringify((() => {{ {program} }})()));\n"
    )
    given = ["node", str(modules / "program.js"), *map(json.dumps, words)]
    return json.loads(subprocess.run(given, capture_output=True, text=True, check=True).stdout)


def rows_of(path: Path) -> list[dict[str, str]]:
    with path.open(encoding="utf-8", newline="") as file:
        return list(csv.DictReader(file))


# ---- the files


def test_an_items_file_has_what_the_other_files_have(pack: Path) -> None:
    given = {(row["month"], row["code"]): row for row in rows_of(pack / "data/contributions.csv") if row["of"] == "00"}
    shown = {(row["month"], row["code"]): row for row in rows_of(pack / "data/printed.csv")}
    by_code: dict[str, list[dict[str, str]]] = {}
    for row in rows_of(pack / "data/cpi.csv"):
        by_code.setdefault(row["code"], []).append(row)
    vintages = rows_of(pack / "data/vintages.csv")
    first = {(vintage["month"], vintage["code"]): vintage for vintage in reversed(vintages)}
    different = 0
    for code, plain in by_code.items():
        rows = rows_of(pack / f"node/{code}.csv")
        assert list(rows[0]) == list(ITEM_HEAD)
        assert [{name: row[name] for name in plain[0]} for row in rows] == plain
        for row in rows:
            key = row["month"], code
            for name in ("month_change", "year_change"):
                assert row[f"shown_{name}"] == shown[key][name]
                different += row[name] != row[f"shown_{name}"]
            for name in ("contribution_month", "contribution_year"):
                assert code == "00" or row[name] == (given[key][name] if key in given else "")
            assert ("i" in row["notes"], "b" in row["notes"]) == (row["imputed"] == "1", row["break"] == "1")
            is_other = first.get(key, row)["chained"] != row["chained"]
            assert ("r" in row["notes"] or not is_other) and ("r" not in row["notes"] or row["month"] == REVISED)
    assert different > 0  # (this office's changes come from the printed index)


def test_divisions_add_up_to_what_all_items_give(pack: Path) -> None:
    """All items give their own change, as it is before rounding: the sum of what divisions give, of which each is rounded
    to a millionth, and their indices too."""
    sums: dict[tuple[str, str], Fraction] = {}
    names, divisions = ("contribution_month", "contribution_year"), set[str]()
    for row in rows_of(pack / "data/contributions.csv"):
        if len(row["code"]) == 2 and row["of"] == "00":
            divisions.add(row["code"])
            for name in names:
                if row[name]:
                    key = row["month"], name
                    sums[key] = sums.get(key, Fraction()) + Fraction(row[name])
    rows = rows_of(pack / "node/00.csv")
    fractions = {(row["month"], name): Fraction(row[name]) for row in rows for name in names if row[name]}
    assert fractions.keys() == sums.keys() and len(fractions) > 40
    assert all(abs(value - sums[key]) < Fraction(len(divisions) + 1, 10**6) for key, value in fractions.items())


def test_earlier_revisions_are_those_that_are_not_the_latest(pack: Path) -> None:
    """An item that the revision changed has its row of then, and another the latest row but for revision and moment."""
    latest = {row["code"]: row for row in rows_of(pack / "data/cpi.csv") if row["month"] == REVISED}
    revised = {row["code"]: row for row in rows_of(pack / "data/vintages.csv") if row["revision"] == "1"}
    (moment,) = (it["published"] for it in revised.values() if it["code"] == "00")
    rows = [row for path in pack.glob("node/*-earlier.csv") for row in rows_of(path)]
    rows.sort(key=lambda row: row["code"])
    wanted = [revised.get(code, {**it, "revision": "1", "published": moment}) for code, it in sorted(latest.items())]
    assert rows == wanted and 0 < len(revised) < len(latest)


def test_the_script_is_one_file_without_imports(pack: Path) -> None:
    """So are those of other pages."""
    others = {name: script(modules, OTHERS_OF_PAGES.get(name, {})) for name, modules in OF_PAGES.items()}
    for name, wanted in {"choose": script(), **others}.items():
        text = (pack / f"assets/{name}.js").read_text(encoding="utf-8")
        assert text == wanted and not [line for line in text.splitlines() if line.startswith(("import ", "export "))]
        (pack / f"assets/{name}.mjs").write_text(text, encoding="utf-8")
        subprocess.run(["node", "--check", str(pack / f"assets/{name}.mjs")], check=True)


def test_all_items_can_be_sought(pack: Path, modules: Path) -> None:
    items = json.loads((pack / "assets/items.json").read_text(encoding="utf-8"))
    assert [code for code, _ in items] == list(dict.fromkeys(sorted(code for code, _ in items)))
    program = """return words[1].map((sought) => { const { found, said } = matching(words[0], sought);
      return [found.map(([code]) => code), said]; });"""
    named = [["02", "bread and cafe 01"], ["01", "Bread"], ["01.1", "Café, roasted"]]
    found = told(modules, program, named, ["01", "CAFE", "cafe  bread", " ", "braed"])
    codes, said = zip(*found)
    assert codes == (["01", "01.1", "02"], ["02", "01.1"], ["02"], [], ["02", "01"])
    assert said[:2] == ("3 of 3 items.", "2 of 3 items.") and said[3] == "" and "a word like it" in said[4]


# ---- figures

LOAD = """const load = (name) => lines.rowsOf(readFileSync(`${words[0]}/node/${name}.csv`, "utf8"));
const rowsIn = (code, revision = "latest", earlier = []) => lines.chosenRows(load(code), earlier, revision);
"""


def test_an_index_is_what_the_pages_show(pack: Path, modules: Path) -> None:
    """With the office's own reference period each level is that of rereferenced.csv, or the chained one."""
    program = (
        LOAD
        + """return words[1].flatMap((code) => { const rows = rowsIn(code); return [...rows.keys()].map((month) => {
      const { over, under, period } = lines.indexIn(rows, month, "2025");
      return [month, code, period, lines.decimal(over, under, 6), lines.decimal(over, under, 1)]; }); });"""
    )
    moved = {(row["month"], row["code"]): row["rereferenced"] for row in rows_of(pack / "data/rereferenced.csv")}
    chained = {(row["month"], row["code"]): row["chained"] for row in rows_of(pack / "data/cpi.csv")}
    shown = {
        (row["month"], row["code"]): (row["reference"], row["index"]) for row in rows_of(pack / "data/printed.csv")
    }
    codes = sorted({code for _, code in chained})
    found = told(modules, program, str(pack), codes)
    assert len(found) == len(chained) and 0 < len(moved) < len(chained)
    for month, code, period, level, index in found:
        assert level == moved.get((month, code), chained[month, code])
        assert (period, index) == shown[month, code]


@pytest.mark.parametrize("period", ["2025-06", "2026", "2026-12", "2024-12"])
def test_an_index_is_100_in_any_period_that_the_item_is_linked_to(pack: Path, modules: Path, period: str) -> None:
    """Computed anew in fractions; an item without a linked level in the period keeps its own."""
    program = (
        LOAD
        + """return words[1].flatMap((code) => { const rows = rowsIn(code); return [...rows.keys()].map((month) => {
      const found = lines.indexIn(rows, month, words[2]);
      return [code, month, found.period, lines.decimal(found.over, found.under, 6)]; }); });"""
    )
    levels: dict[str, dict[str, tuple[str, Fraction]]] = {}
    for row in rows_of(pack / "data/cpi.csv"):
        levels.setdefault(row["code"], {})[row["month"]] = (row["base"], Fraction(row["chained"]))
    found = told(modules, program, str(pack), sorted(levels), period)
    kept = 0
    for code, month, said, index in found:
        base, level = levels[code][month]
        of = [(b, it) for at, (b, it) in levels[code].items() if at.startswith(period)]
        if len(period) == 7 and not of:
            of = [(period, Fraction(100))]
        if len(of) == (1 if len(period) == 7 else 12) and {b for b, _ in of} == {base}:
            wanted, in_words = 100 * level * len(of) / sum(it for _, it in of), period
        else:
            wanted, in_words, kept = level, base, kept + 1
        assert said == in_words and abs(Fraction(index) - wanted) <= Fraction(1, 2_000_000), (code, month)
    assert 0 < kept < len(found)


def test_which_period_is_100_for_all(pack: Path, modules: Path) -> None:
    """The office's own if all are linked to it, else the latest December in which one of them is 100, else each its own."""
    program = (
        LOAD
        + """const months = choice.monthsBetween(words[2], words[3]);
    return words[1].map(([codes, hundred]) =>
      lines.hundredOf(codes.map((code) => rowsIn(code)), months, hundred, "2025"));"""
    )
    asked = [[["00"], "same"], [["00", "01"], "same"], [["00", PHONES], "same"], [["00", PHONES, PEARS], "same"],
             [["00", FLOUR, PEARS], "same"], [["00", PHONES], "own"], [["00"], "2026-03"]]  # fmt: skip
    wanted = [None, None, "2025-12", "2026-12", None, None, "2026-03"]
    assert told(modules, program, str(pack), asked, "2025-01", "2027-05") == wanted


def test_a_revision_is_chosen_by_its_number_or_by_a_moment(pack: Path, modules: Path) -> None:
    program = (
        LOAD
        + """const earlier = load(`${words[1]}-earlier`);
    return words[2].map((revision) => { const rows = rowsIn(words[1], revision, earlier), row = rows.get(words[3]);
      return row ? [rows.size, row.revision, row.chained, row.contribution_month !== ""] : [rows.size]; });"""
    )
    both = [row for row in rows_of(pack / "data/vintages.csv") if (row["code"], row["month"]) == ("01", REVISED)]
    first, second = both
    assert first["chained"] != second["chained"]
    months = len(rows_of(pack / "node/01.csv"))
    at = [row["published"] for row in both]
    asked = ["latest", "1", "2", "9", "1969-01-01T00:00:00Z", at[0], "9999-01-01T00:00:00Z"]
    now, then = [months, "2", second["chained"], True], [months, "1", first["chained"], False]
    found = told(modules, program, str(pack), "01", asked, REVISED)
    assert found[:5] == [now, then, now, now, [0]] and found[6] == now
    published_by = {row["month"] for row in rows_of(pack / "data/releases.csv") if row["published"] <= at[0]}
    assert found[5] == [len(published_by & {row["month"] for row in rows_of(pack / "node/01.csv")}), *then[1:]]


def test_figures_are_shortened_once(modules: Path) -> None:
    """A figure that ends in the middle keeps its digits: the exact one may lie on either side."""
    pairs = [("0.314159", "0.31"), ("-0.316000", "-0.32"), ("-0.001000", "0.00"), ("0.005000", "0.005000"),
             ("0.005001", "0.01"), ("", ""), ("12", "12"), ("-0.995000", "-0.995000"), ("0.999999", "1.00")]  # fmt: skip
    program = "return words[0].map((text) => lines.shortened(text, 2));"
    assert told(modules, program, [text for text, _ in pairs]) == [pair for _, pair in pairs]
    signs = "return [['0.3', true], ['-0.3', true], ['0.0', true], ['', true], ['412', false]].map((it) => lines.signed(...it));"
    assert told(modules, signs) == ["+0.3", "−0.3", "0.0", "–", "412"]


def test_a_file_is_read_as_it_is_written(modules: Path) -> None:
    text = 'month,title\n2026-01,"Tea, ""black"""\r\n2026-02,"two\nlines"\n'
    wanted = [{"month": "2026-01", "title": 'Tea, "black"'}, {"month": "2026-02", "title": "two\nlines"}]
    assert told(modules, "return lines.rowsOf(words[0]);", text) == wanted


def test_what_is_taken_home_has_all_digits(pack: Path, modules: Path) -> None:
    program = (
        LOAD
        + """const months = choice.monthsBetween("2026-01", "2026-02");
    const items = [{ code: "01", title: 'Food, "proper"', rows: rowsIn("01") }];
    return csvOf(items, months, ["index", "contribution-year"].map((word) => measureOf(word, items, months, "2026-01", "shown")));"""
    )
    head, *rows = told(modules, program, str(pack)).splitlines()
    assert head == "month,revision,published,code,title,index,reference,contribution_year,imputed,break"
    (first, second) = rows_of(pack / "node/01.csv")[12:14]
    level = 100 * Fraction(second["chained"]) / Fraction(first["chained"])
    assert rows[0].split(",", 3)[3] == f'01,"Food, ""proper""",100.000000,2026-01,{first["contribution_year"]},0,0'
    assert f",{float(round(level, 6)):.6f},2026-01," in rows[1] and len(rows) == 2


# ---- the address

FAULTS = [
    ("items=00+01.1.9x", "items", ["00"], "01.1.9x is neither a code such as 01.1.1 nor the id of a special aggregate"),
    (
        "items=../secret",
        "items",
        ["00"],
        "../secret is neither a code such as 01.1.1 nor the id of a special aggregate",
    ),
    ("items=", "items", ["00"], "it names no item; an example is items=00+01.1"),
    ("show=index+level", "show", ["index"], "level isn’t a measure; the measures are index, year, month, "),
    ("from=2024-12", "from", "", "it isn’t a month from 2025-01 to 2027-05"),
    ("to=2027-13", "to", "", "it isn’t a month from 2025-01 to 2027-05"),
    ("from=2027-01&to=2026-12", "from", "", "it is after December 2026, the last month that you chose"),
    (
        "hundred=2027",
        "hundred",
        "same",
        "it has to be same, own, a year with twelve months, or a month from 2024-12",
    ),
    ("hundred=2024-11", "hundred", "same", "it has to be same, own, a year, or a month from 2024-12 to 2027-05"),
    ("revision=0", "revision", "latest", "it has to be latest, a revision from 1 to 9, or a time such as "),
    ("decimals=6", "decimals", "shown", "it has to be shown or all"),
]


@pytest.mark.parametrize(("address", "word", "taken", "fault"), FAULTS)
def test_a_wrong_address_says_what_was_read(modules: Path, address: str, word: str, taken: object, fault: str) -> None:
    found = told(modules, "return choice.choiceOf(words[0], words[1]);", f"?{address}", KNOWN)
    assert found["choice"][word] == taken
    (said,) = found["faults"]
    assert said["read"] == address.partition("&")[0].replace("+", " ") and said["fault"].startswith(fault)


def test_a_word_that_the_page_does_not_know_and_too_many_items(modules: Path) -> None:
    many = "+".join(f"01.1.1.1-{at:02}" for at in range(1, 22))
    found = told(modules, "return choice.choiceOf(words[0], words[1]);", f"?colour=red&items={many}", KNOWN)
    words = "this page doesn’t know this name; it knows items, show, from, to, hundred, revision, decimals"
    assert [fault["fault"] for fault in found["faults"]] == [words, "it names 21 items, and the page shows at most 20"]
    assert len(found["choice"]["items"]) == 20


@pytest.mark.parametrize(
    "address",
    ["", "?items=00+01.1.1.1-01+CORE", "?show=index+contribution-year&from=2025-03&to=2026-02&hundred=2026",
     "?revision=2027-06-28T08%3A30%3A00Z&decimals=all", "?hundred=own&revision=1"],  # fmt: skip
)
def test_an_address_comes_back(modules: Path, address: str) -> None:
    program = "const { choice: found, faults } = choice.choiceOf(words[0], words[1]); return [choice.addressOf(found), faults];"
    assert told(modules, program, address, KNOWN) == [address, []]


def test_the_months_of_a_choice_and_its_address_for_good(modules: Path) -> None:
    program = """const { choice: found } = choice.choiceOf(words[0], words[1]), months = choice.monthsOf(found, words[1]);
    return [months[0], months.at(-1), months.length, choice.addressOf(choice.fixed(found, words[1], words[2]))];"""
    fixed = "?from=2025-05&to=2027-05&hundred=2025&revision=2027-06-28T08%3A30%3A00Z"
    assert told(modules, program, "", KNOWN, "2025") == ["2025-05", "2027-05", 25, fixed]
    assert told(modules, program, "?to=2025-03&revision=1", KNOWN, None) == [
        "2025-01", "2025-03", 3, "?from=2025-01&to=2025-03&revision=1",
    ]  # fmt: skip

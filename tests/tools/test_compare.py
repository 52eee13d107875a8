"""`cpi-tools compare`: the formulas by hand, and the index that each would give, computed once more in floating point from
the frozen quotes and carried prices that the file has."""

from __future__ import annotations

import csv
import math
import sqlite3
import statistics
from collections import defaultdict
from pathlib import Path

import pytest

from cpi_tools.command_line import main
from cpi_tools.office.compare import PUBLISHED, compare, shifts
from cpi_tools.office.price_rules import FORMULAS, ONE, carli, dutot, jevons
from cpi_tools.office.program import Cpi
from cpi_tools.office.stored import stored_office
from cpi_tools.text.terminal import Fault


def test_the_formulas_by_hand() -> None:
    """A price of 100 rises by a tenth, one of 1000 stays: 1110 / 1100, the root of 1.1, and the mean of 1.1 and 1."""
    pairs = [(110, 100), (1000, 1000)]
    assert (dutot(pairs), jevons(pairs), carli(pairs)) == (100_909_090, 104_880_884, 105_000_000)
    # (up by a half and back: the Manual's reason against Carli)
    assert (jevons([(150, 100), (100, 150)]), carli([(150, 100), (100, 150)])) == (ONE, 108_333_333)
    for formula in (dutot, jevons, carli):
        assert formula([(230, 100), (2300, 1000), (23, 10)]) == 230_000_000
        assert formula([(7, 7)]) == ONE


def test_jevons_is_exact_where_floating_point_is_not() -> None:
    """Four hundred series, of which half double and half lose half."""
    pairs = [(2, 1)] * 200 + [(1, 2)] * 200
    assert jevons(pairs) == ONE


Means = dict[str, dict[str, float]]


def year_of(link: sqlite3.Connection, year: int, month: int, means: Means) -> Means:
    """By formula the levels of a month's nodes, which go on from those of the December before."""
    december = year * 100 - 88
    base = {(c, s): ticks for c, s, ticks in link.execute(
        "SELECT collector, slot, ticks FROM carried_2 WHERE month = ?", (december,))}  # fmt: skip
    base |= {(c, s): 10_000 * value for c, s, value in link.execute(
        "SELECT collector, slot, value FROM frozen_2 WHERE month = ? AND value > 0", (december,))}  # fmt: skip
    places = dict(link.execute("SELECT item, code FROM plan_item WHERE year = ?", (year,)))
    text = (
        "SELECT collector, slot, item, ticks FROM carried_2 AS c WHERE month = ? AND revision = (SELECT max(revision)"
    )
    ratios = defaultdict[str, list[float]](list)
    for collector, slot, item, ticks in link.execute(f"{text} FROM release_2 WHERE month = c.month)", (month,)):
        ratios[places[item]].append(ticks / base[collector, slot])
    weights = dict(link.execute("SELECT code, weight FROM level_2 WHERE month = ? AND code LIKE '%-__'", (month,)))
    indices = {
        "Jevons": {code: math.exp(statistics.fmean(map(math.log, of))) for code, of in ratios.items()},
        "Carli": {code: statistics.fmean(of) for code, of in ratios.items()},
    }
    found: Means = {}
    for name, own in indices.items():
        nodes = {code[:end] for code in weights for end in (2, 4, 6, 8, 11)} | {"00"}
        for node in nodes:
            below = [code for code in weights if node == "00" or code.startswith(node)]
            within = sum(weights[code] * own[code] for code in below) / sum(weights[code] for code in below)
            found.setdefault(name, {})[node] = within * means.get(name, {}).get(node, 100.0)
    return found


def test_each_formula_gives_the_levels_of_a_second_computation(office: Path) -> None:
    """Of each month of two years: a revision, a carry list, a replacement, a node that leaves, weights with a reference
    month."""
    with stored_office(office) as stored, sqlite3.connect(office) as link:
        links: dict[int, Means] = {2025: {}}
        for month in (*range(202501, 202513), 202601, 202602):
            found = compare(stored, month)
            wanted = year_of(link, month // 100, month, links[month // 100])
            if month == 202512:
                links[2026] = wanted
            assert found.tables[PUBLISHED] == stored.levels(found.release)
            for name in FORMULAS:
                levels = {code: row.chained / 10**6 for code, row in found.tables[name].items()}
                assert levels.keys() == wanted[name].keys()
                assert all(abs(levels[code] - wanted[name][code]) < 0.00002 for code in levels), (month, name)
                assert levels != {code: row.chained / 10**6 for code, row in found.tables[PUBLISHED].items()}


def test_the_shifts_add_up_to_the_difference_of_all_items(office: Path) -> None:
    with stored_office(office) as stored:
        found = compare(stored, 202602)
    for name in FORMULAS:
        gap = found.tables[name]["00"].within - found.tables[PUBLISHED]["00"].within
        moves = [move for move, _ in shifts(found, name)]
        assert abs(sum(moves) - gap) <= len(moves) + 1 and moves == sorted(moves, key=lambda move: -abs(move))


def test_the_text_and_the_file(cpi: Cpi, office: Path, tmp_path: Path, capsys: pytest.CaptureFixture[str]) -> None:
    before = office.read_bytes()
    out = tmp_path / "formulas.csv"
    assert main(["compare", str(office), "2026-02", "--out", str(out), "--program", str(cpi.path)]) == 0
    text = capsys.readouterr().out
    assert text.startswith("2026-02, revision 1. Dutot is the published index; the others are\n")
    assert [line.split()[0] for line in text.splitlines()[3:6]] == ["Dutot", "Jevons", "Carli"]
    assert out.stat().st_mode & 0o777 == 0o600 and office.read_bytes() == before
    rows = [*csv.DictReader(out.open(encoding="utf-8", newline=""))]
    with stored_office(office) as stored:
        release = stored.releases()[-1]
        wanted = {code: f"{row.chained / 10**6:.6f}" for code, row in stored.levels(release).items()}
    assert {row["code"]: row["Dutot_level"] for row in rows} == wanted
    assert {row["code"] for row in rows if row["series"]} == {code for code in wanted if "-" in code}
    assert all(float(row["Jevons_index"]) <= float(row["Carli_index"]) for row in rows)


@pytest.mark.parametrize(
    ("words", "line"),
    [
        (["2024-12"], "2024-12 has no table: it is the first December, or its year has no plan"),
        (["2027-01"], "2027-01 isn't frozen, so there is nothing to compare"),
        (["2026-02", "--revision", "3"], "2026-02 revision 3 isn't frozen, so there is nothing to compare"),
    ],
)
def test_a_month_without_a_table_is_refused(
    words: list[str], line: str, cpi: Cpi, office: Path, capsys: pytest.CaptureFixture[str]
) -> None:
    assert main(["compare", str(office), *words, "--program", str(cpi.path)]) == 1
    assert capsys.readouterr() == ("", f"cpi-tools compare: {line}\n")


def test_other_figures_than_the_quotes_give_are_refused(office: Path) -> None:
    with sqlite3.connect(office) as link:
        link.execute("UPDATE level_2 SET chained = chained + 1 WHERE month = 202602 AND code = '00'")
    link.close()
    with stored_office(office) as stored, pytest.raises(Fault, match="isn't what its quotes give: ask cpi-tools drill"):
        compare(stored, 202602)

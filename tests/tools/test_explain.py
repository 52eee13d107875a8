"""`cpi-tools explain`: each line is true, by a second evaluator that shares no code with the tool's, and the last lines
are the stored figures."""

from __future__ import annotations

import ast
import contextlib
import operator
import re
import sqlite3
import weakref
from collections.abc import Iterator
from fractions import Fraction
from pathlib import Path

import pytest

from . import surveys
from cpi_tools.command_line import main
from cpi_tools.explain import explanation as words_of_explain
from cpi_tools.explain.explanation_lines import Explanation, Line, NoExpression, change_expression, value_of
from cpi_tools.explain.release_sources import Sources
from cpi_tools.office.program import Cpi
from cpi_tools.text.terminal import month_name
from .ran import run
from .surveys import Life, bytes_of, key_of, number_of

Whole = tuple[Path, Life]


@pytest.fixture(scope="module")
def whole(cpi: Cpi, tmp_path_factory: pytest.TempPathFactory) -> Whole:
    """The long office, all of its months frozen; no test writes to its file."""
    path = tmp_path_factory.mktemp("whole") / "office.db"
    life = surveys.long(cpi, path)
    path.with_name("office.db-wal").unlink(missing_ok=True)
    return path, life


@pytest.fixture
def small(cpi: Cpi, tmp_path: Path) -> Path:
    return surveys.small(cpi, tmp_path)


@pytest.fixture
def changed(whole: Whole, tmp_path: Path) -> Path:
    """A test's own file of the long office."""
    path = tmp_path / "changed.db"
    path.write_bytes(whole[0].read_bytes())
    return path


# ---- a second evaluator

OPERATIONS = {ast.Add: operator.add, ast.Sub: operator.sub, ast.Mult: operator.mul, ast.Div: operator.truediv}
CONSTANTS = {1, 1000, 10_000, 10**8}


def second(node: ast.AST) -> Fraction:
    """The value of an expression by Python's own reader of expressions, in fractions."""
    if isinstance(node, ast.Expression):
        return second(node.body)
    if isinstance(node, ast.Constant):
        return Fraction(node.value)
    if isinstance(node, ast.UnaryOp):
        return -second(node.operand)
    if isinstance(node, ast.Call):
        assert isinstance(node.func, ast.Name) and node.func.id == "round"
        return Fraction((second(node.args[0]) + Fraction(1, 2)).__floor__())
    assert isinstance(node, ast.BinOp)
    return Fraction(OPERATIONS[type(node.op)](second(node.left), second(node.right)))


def lines_of(text: str) -> Iterator[tuple[str, str, str]]:
    """Name, expression and value of each line that has a value; a line that is given has no expression."""
    for line in text.splitlines():
        if line.startswith(("  ", "! ")):
            sides = line[2:].split("    # ")[0].split(" = ")
            if len(sides) == 3:
                yield sides[0], sides[1], sides[2]
            elif len(sides) == 2:
                yield sides[0], "", sides[1]


def stored(path: Path, month: str, revision: int) -> dict[str, tuple[int, ...]]:
    """Index, level, both changes and weight of each row of a table."""
    text = "SELECT code, within, chained, month_change, year_change, weight FROM level_2"
    with contextlib.closing(sqlite3.connect(path)) as link:
        rows = link.execute(f"{text} WHERE month = ? AND revision = ?", (number_of(month), revision)).fetchall()
    return {code: tuple(row) for code, *row in rows}


def look_at_node(path: Path, month: str, code: str, revision: int, row: tuple[int, ...]) -> int:
    """Values each line of a node by the second evaluator, and compares its figures with those that are stored.

    Each number of the expressions that lead to a figure is the value of a line, or a constant of the rules. How many
    lines were valued.
    """
    ran = run(None, "explain", path, month, code, "--revision", revision)
    assert (ran.status, ran.err) == (0, "")
    lines = [*lines_of(ran.out)]
    valued = [line for line in lines if line[1]]
    for name, expression, value in valued:
        assert second(ast.parse(expression, mode="eval")) == Fraction(value), (code, name)
    last = {name: int(value) for name, _, value in lines if re.fullmatch(r"-?\d+", value)}
    figures = ("index", "chained level", "monthly change", "annual change")
    assert tuple(last.get(name) for name in figures) == row[:4]
    known = {Fraction(value) for _, _, value in lines} | CONSTANTS
    used = {
        int(element)
        for name, text, _ in valued
        if name in (*figures, "moved to")
        for element in re.findall(r"\d+", text)
    }
    assert used <= known, (code, used - known)
    return len(valued)


NAMES = ("2026-01", "2026-03", "2026-09", "2026-12", "2027-01", "2027-02")
MONTHS = [*((month, 1) for month in NAMES), (surveys.REVISED, 2)]
"""A January, a month with replacements and a carry list, both revisions of one, a December, and beyond a link."""


@pytest.mark.parametrize(("month", "revision"), MONTHS)
def test_every_line_of_every_node_is_true(whole: Whole, month: str, revision: int) -> None:
    rows = stored(whole[0], month, revision)
    assert len(rows) > 15
    assert sum(look_at_node(whole[0], month, code, revision, row) for code, row in rows.items()) > 200


def test_what_the_months_have(whole: Whole) -> None:
    """The months of the test above have each kind of line."""
    told = "".join(run(None, "explain", whole[0], month, code).out for month in NAMES for code in ("00", *CODES))
    for line in (
        r"scale of \d/\d = \d+ / \d+ = ",
        r"movement = 1 / 1 = 1    # nothing is matched, but the aggregate is on the freeze's carry list",
        r"comparable; not observed in the month before, so not matched",
        r"carried price of 9/\d|carried price of 3/\d",
        r"weight of 07\.2\.2\.2-01 = round\(250000 \* \d+ / \d+\) = \d+    # .*; price-updated from 2026-06",
        r"base of \d/\d = \d+    # .*; not observed in 2026-12, so its base is the carried price of that month",
        r"price of \d/\d    # nothing was sent by collector \d, slot \d",
        r"monthly change = -round\(",
    ):
        assert re.search(line, told), line


def test_the_greatest_contributions_come_first(whole: Whole) -> None:
    """Worked from the stored rows: weight in use times the index's change, over those of all items."""
    falls = 0
    for month, before in (("2026-03", "2026-02"), ("2026-12", "2026-11"), ("2027-02", "2027-01")):
        now, then = stored(whole[0], month, 1), stored(whole[0], before, 1)
        top = Fraction(10**8, now["00"][4] * then["00"][0])
        wanted = {code: top * now[code][4] * (now[code][0] - then[code][0]) for code in now if len(code) == 11}
        told = run(None, "explain", whole[0], month, "00").out
        matches = re.findall(r"contribution of (\S+) = .* = (-?\d+)    # ", told)
        greatest = sorted(wanted, key=lambda code: -abs(wanted[code]))[:5]
        assert [code for code, _ in matches] == greatest
        assert all(abs(Fraction(value) - wanted[code]) <= Fraction(1, 2) for code, value in matches)
        falls += sum(value.startswith("-") for _, value in matches)
    assert falls > 0


CODES = [code for code in surveys.AGGREGATES if code not in ("11.1.1.1-01", "12.1.1.1-01")]


def test_a_new_node_is_linked_at_100(cpi: Cpi, tmp_path: Path) -> None:
    path = tmp_path / "office.db"
    surveys.long(cpi, path, is_moved=False)
    told = run(None, "explain", path, "2027-01", "12.1.1.1-01")
    assert told.status == 0
    assert "link level = 100000000    # 100, since the table of 2026-12 has no row for it" in told.out
    assert "annual change    # none, since the table of 2026-01 has no row for it" in told.out
    assert "weight of 12.1.1.1-01 = 150000 = 150000" in run(None, "explain", path, "2027-01", "12").out
    assert run(None, "explain", path, "2027-01", "all").status == 0


def test_the_small_office_by_hand(small: Path) -> None:
    before = bytes_of(small)
    told = run(None, "explain", small, "2026-01", "01.1.1.1-01")
    assert told.status == 0 and bytes_of(small) == before
    for line in (
        "base of 7/1 = 10000 * 200 = 2000000    # RICE Rice, 1 kg; Corner shop; price in 2025-12 by collector 7, slot"
        " 1, receipt 1",
        "price of 8/1 = 246    # price, by collector 8, slot 1, receipt 2",
        "carried price of 7/1 = round(210 * 10000 / 1) = 2100000    # matched",
        "moved to = 2100000 + 2460000 = 4560000",
        "index = round(100000000 * 4560000 / 4400000) = 103636364",
        "monthly change = round(1000 * (103636364 - 100000000) / 100000000) = 36",
    ):
        assert f"  {line}" in told.out
    top = run(None, "explain", small, "2026-01", "00").out
    for line in (
        "sum of weight * index = 600000 * 103636364 + 400000 * 105000000 = 104181818400000",
        "index = round(104181818400000 / 1000000) = 104181818",
        "contribution of 01.1.1.1-01 = round(100000000 * 600000 * (103636364 - 100000000) / (1000000 * 100000000)) ="
        " 2181818",
    ):
        assert f"  {line}" in top


def test_a_quote_that_was_replaced_since_the_freeze_is_told(cpi: Cpi, small: Path) -> None:
    sent = ["4000,desk,freeze,2026-02,01.1.1.2-01", f"3900,{key_of(8)},quote,1,2026-02,price,264"]
    assert cpi.replay(sent, db=small) == [{"done": True}, {"receipt": 4}]
    told = run(None, "explain", small, "2026-02", "01.1.1.1-01").out
    assert (
        "price of 8/1 = 252    # price, by collector 8, slot 1; since the freeze the collector has sent price 264, receipt 4"
        in told
    )
    assert "price of 7/1    # missing, stock, by collector 7, slot 1, receipt 5" in told
    assert "carried price of 7/1 = round(2100000 * 2520000 / 2460000) = 2151220    # imputed with the movement" in told
    assert "On the carry list: 01.1.1.2-01." in run(None, "explain", small, "2026-02", "01.1").out


def test_hand_overs_are_told(whole: Whole) -> None:
    told = run(None, "explain", whole[0], "2027-01", "07.2.2.2-01").out
    words = r"Series 3/\d+: Handed over from collector 3, slot \d+ to collector 9, slot \d+ from 2026-06 on, with the"
    assert re.search(words, told)


def test_each_month_tells_who_had_a_series_then(whole: Whole, tmp_path: Path) -> None:
    """What the third collector had goes to the ninth in June."""
    for month, holders in (("2026-03", {"1", "2", "3"}), ("2026-09", {"1", "2", "9"})):
        page = tmp_path / f"{month}.html"
        assert run(None, "explain", whole[0], month, "07.2.2.2-01", "--html", page).status == 0
        section = page.read_text(encoding="utf-8").partition('<section id="07.2.2.2-01"')[2]
        rows = re.findall(r'<tr><th scope="row"><bdi>(\d/\d+)</bdi></th><td><bdi>(\d)/\d+</bdi></td>', section)
        assert {series[0] for series, _ in rows} == {"1", "2", "3"} and {by for _, by in rows} == holders


# ---- what isn't true

CHANGED = [
    ("carried_2 SET ticks = ticks + 1", "collector = 1 AND slot = 1", "carried_2 (202608, 1, 1, 1)"),
    ("frozen_2 SET value = value + 1", "collector = 1 AND slot = 1", "carried_2 (202608, 1, 1, 1)"),
    ("level_2 SET within = within + 1", "code = '01.1.1.1-01'", "level_2 (202608, 1, 01.1.1.1-01)"),
    ("level_2 SET month_change = month_change + 1", "code = '07'", "level_2 (202608, 1, 07)"),
    ("level_2 SET weight = weight + 1", "code = '00'", "level_2 (202608, 1, 00)"),
    ("level_2 SET chained = chained - 1", "code = '03'", "level_2 (202608, 1, 03)"),
]


@pytest.mark.parametrize(("change", "where", "row"), CHANGED, ids=range(len(CHANGED)))
def test_a_changed_row_shows_where_it_stops_being_true(changed: Path, change: str, where: str, row: str) -> None:
    with contextlib.closing(sqlite3.connect(changed)) as link:
        assert link.execute(f"UPDATE {change} WHERE month = 202608 AND {where}").rowcount == 1
        link.commit()
    told = run(None, "explain", changed, "2026-08", "all")
    assert told.status == 1
    assert row in told.err
    assert "not true: " in told.err and ", 0 untrue" not in told.out


def test_rows_that_are_gone_are_one_line(changed: Path) -> None:
    with contextlib.closing(sqlite3.connect(changed)) as link:
        assert link.execute("DELETE FROM carried_2 WHERE month = 202607 AND collector = 1 AND slot = 1").rowcount == 1
        link.commit()
    told = run(None, "explain", changed, "2026-08", "all")
    assert (told.status, told.out) == (1, "")
    assert told.err.startswith(
        "cpi-tools explain: 01.1.1.1-01: a row from which it is computed is missing, or can't be used"
    )
    assert told.err.count("\n") == 1


def test_a_carry_list_that_lacks_an_aggregate_is_told(changed: Path) -> None:
    with contextlib.closing(sqlite3.connect(changed)) as link:
        assert link.execute("UPDATE release_2 SET carry = '' WHERE month = 202603").rowcount == 1
        link.commit()
    told = run(None, "explain", changed, "2026-03", "01.1.1.2-01")
    assert told.status == 1
    assert "movement: 01.1.1.2-01 isn't on the carry list of release_2 (202603, 1)" in told.err
    assert "! movement = 1 / 1 = 1    # nothing is matched, but a movement is needed" in told.out


# ---- words, series, pages


def test_words_that_name_nothing_are_told(whole: Whole, tmp_path: Path) -> None:
    path, _ = whole
    for words, because in (
        ((path, "2027-03", "00"), "2027-03 isn't frozen; 2025-12 to 2027-02 are"),
        (
            (path, "2025-12", "00"),
            "2025-12 has no table: it is the first month, from which the later ones are computed",
        ),
        ((path, "2026-09", "00", "--revision", 3), "2026-09 has no revision 3; it has 1, 2"),
        ((path, "2026-09", "02"), "02 isn't a node of 2026-09, whose table has"),
        ((path, "2026-09", "--series", "9/399"), "9/399 isn't a slot of the office"),
        ((tmp_path / "none.db", "2026-09", "00"), "No such file or directory"),
    ):
        told = run(None, "explain", *words)
        assert (told.status, told.out, told.err.count("\n")) == (1, "", 1)
        assert because in told.err
    for words in (
        (path, "2026-09"),
        (path, "2026-09", "00", "--series", "1/1"),
        (path, "2026-09", "--series", "1/1", "--revision", "1"),
        (path, "2026-9", "00"),
    ):
        with pytest.raises(SystemExit) as ended:
            run(None, "explain", *words)
        assert ended.value.code == 2


def test_the_life_of_a_series_goes_through_its_hand_over(whole: Whole) -> None:
    path, life = whole
    slot = next(slot for collector, slot in life.slots if collector == 9)
    told = run(None, "explain", path, "2026-07", "--series", f"9/{slot}")
    lines = told.out.splitlines()
    assert told.status == 0 and lines[0].startswith("Series 3/")
    assert lines[1].startswith("Handed over from collector 3, slot ") and "from 2026-06 on, with the last" in lines[1]
    months = [re.split(r"\s\s+", line.strip()) for line in lines if re.match("  20", line)]
    assert [row[0] for row in months] == surveys.MONTHS[:8]
    assert [row[2][:2] for row in months] == ["3/"] * 6 + ["9/"] * 2


def test_replacements_and_imputed_months_of_a_series(cpi: Cpi, small: Path) -> None:
    sent = [
        "4000,desk,freeze,2026-02,01.1.1.2-01",
        "0,desk,calendar,2026-03,4000,6000,7000",
        f"4500,{key_of(7)},quote,1,2026-03,other,420",
        f"4500,{key_of(8)},quote,1,2026-03,price,252",
        "6000,desk,freeze,2026-03,01.1.1.2-01",
    ]
    assert not [reply for reply in cpi.replay(sent, db=small) if "refused" in reply]
    lines = run(None, "explain", small, "2026-03", "--series", "7/1").out.splitlines()
    assert lines[1:3] == [
        "The product was replaced in 2026-03 (other).",
        "The price was imputed in 2 months: 2026-02, 2026-03.",
    ]
    assert lines[-1].split() == "2026-03 1 7/1 other 420 7 2151220 2151220/420 imputed 01.1.1.1-01".split()


def test_the_page_is_escaped_and_private(small: Path, tmp_path: Path) -> None:
    page = tmp_path / "flour.html"
    assert run(None, "explain", small, "2026-01", "01.1.1.2-01", "--html", page).status == 0
    text = page.read_text(encoding="utf-8")
    assert "<bdi>Flour, &lt;b&gt;wheat&lt;/b&gt;</bdi>, <bdi>1 kg</bdi>" in text and "<b>wheat" not in text
    assert "every line is true" in text and "http" not in text and "<a href=" not in text.replace('<a class="skip"', "")
    assert page.stat().st_mode & 0o777 == 0o600
    # (the aggregate is on the page of its subclass)
    assert "<h1><bdi>Flour</bdi> " in text and '<section id="01.1.1.2-01"' in text


def test_a_page_takes_the_place_of_a_page_alone(small: Path, tmp_path: Path) -> None:
    """A slip in a name costs no file, the office's least of all, and no folder that others can read."""
    page, before = tmp_path / "flour.html", small.read_bytes()
    page.write_text("<!DOCTYPE html>\nof yesterday")
    assert run(None, "explain", small, "2026-01", "01.1.1.2-01", "--html", page).status == 0
    assert "yesterday" not in page.read_text(encoding="utf-8")
    (tmp_path / "site").mkdir(0o755)
    (tmp_path / "site/00.html").write_text("<!DOCTYPE html>")
    (tmp_path / "empty").write_text("")
    for what, to, because in (
        ("00", small, "is there already, and is no page"),
        ("00", tmp_path / "empty", "is there already, and is no page"),
        ("00", tmp_path / "site", "site: Is a directory"),
        ("00", tmp_path / "nowhere/00.html", "nowhere/00.html: No such file or directory"),
        ("all", tmp_path / "site", "can be read by others, and its pages may not"),
    ):
        told = run(None, "explain", small, "2026-01", what, "--html", to)
        assert (told.status, told.out, told.err.count("\n")) == (1, "", 1) and because in told.err
    assert small.read_bytes() == before and not (tmp_path / "empty").read_text()
    assert [path.name for path in (tmp_path / "site").iterdir()] == ["00.html"]


def test_the_life_of_a_series_has_a_page(whole: Whole, tmp_path: Path) -> None:
    path, life = whole
    slot, page = next(slot for collector, slot in life.slots if collector == 9), tmp_path / "life.html"
    words = ("explain", path, "2026-07", "--series", f"9/{slot}")
    told = run(None, *words, "--html", page)
    assert (told.status, told.out) == (0, run(None, *words).out)
    text = page.read_text(encoding="utf-8")
    heads = re.findall(r'<th scope="row"[^>]*>(?:<bdi>)?([^<]*)(?:</bdi>)?</th>', text)
    assert heads == [month_name(month) for month in surveys.MONTHS[:8]]
    title, fact = re.sub("</?bdi>", "", text), told.out.splitlines()[1]
    assert (
        f"<h1>{told.out.splitlines()[0]}</h1>" in title
        and "2026-06" in fact
        and f"<p>{fact.replace('2026-06', 'June 2026')}</p>" in text
    )
    assert page.stat().st_mode & 0o777 == 0o600


def test_explanations_are_held_one_at_a_time(whole: Whole, monkeypatch: pytest.MonkeyPatch) -> None:
    """Where a node is asked for, no more lines are there than those of the one before."""
    alive: weakref.WeakSet[Line] = weakref.WeakSet()
    counts, found_alive = [], []
    explain = words_of_explain.explain_node

    def watched(sources: Sources, code: str) -> Explanation:
        found_alive.append(len(alive))
        found = explain(sources, code)
        alive.update(found.lines)
        counts.append(len([*found.lines]))
        return found

    monkeypatch.setattr(words_of_explain, "explain_node", watched)
    assert run(None, "explain", whole[0], "2026-09", "all").status == 0
    assert found_alive == [0, *counts[:-1]] and len(counts) > 15


def test_all_pages_are_linked_and_one_is_a_subclass(whole: Whole, tmp_path: Path) -> None:
    path, out = whole[0], tmp_path / "pages"
    told = run(None, "explain", path, "2026-09", "all", "--html", out)
    assert told.status == 0
    assert re.fullmatch(r"2026-09, revision 2: \d+ nodes, [\d,]+ expressions, 0 untrue\n", told.out)
    rows = stored(path, "2026-09", 2)
    assert {page.name for page in out.iterdir()} == {f"{code}.html" for code in rows if len(code) != 11}
    assert out.stat().st_mode & 0o777 == 0o700
    links = 0
    for page in out.iterdir():
        for name, anchor in re.findall(r'href="([^"#]+\.html)#([^"]+)"', page.read_text(encoding="utf-8")):
            assert f'id="{anchor}"' in (out / name).read_text(encoding="utf-8")
            links += 1
    assert links >= 2 * (len(rows) - 5)


def test_an_expression_is_read_whole_or_not_at_all() -> None:
    assert value_of("-round((2 + 3 * 4) / 4) - 1") == -5
    assert value_of("round(7 / 2) + round(5 / 2)") == 7
    for text in ("", "1 +", "(1", "1 1", "round 2", "2 ** 3", "x", "1)"):
        with pytest.raises(NoExpression):
            value_of(text)


def test_a_fall_is_rounded_as_a_rise_of_its_size() -> None:
    """From 100 to 99.95 is -0.1 percent, from 100 to 99.950001 is 0.0: the half goes away from zero."""
    for now, wanted in ((99_950_000, -1), (99_950_001, 0), (100_050_000, 1), (100_049_999, 0)):
        expression = change_expression(100_000_000, now)
        assert second(ast.parse(expression, mode="eval")) == value_of(expression) == wanted


def test_the_help_has_an_example(capsys: pytest.CaptureFixture[str]) -> None:
    with pytest.raises(SystemExit):
        main(["explain", "--help"])
    told = capsys.readouterr().out
    assert re.search(r"^example: cpi-tools explain office\.db", told, re.M) and "exit status: 0" in told
    assert not [line for line in told.splitlines() if len(line) > 100]

"""What all pages share: exact figures as texts, pictures, bars, and templates that escape."""

from __future__ import annotations

import contextlib
import re
import subprocess
from fractions import Fraction
from pathlib import Path
from xml.etree import ElementTree

import jinja2
import pytest
from jinja2 import nodes

from cpi_tools.text import charts, exact, languages, page_templates, section_pages, terminal
from cpi_tools.text.charts import OTHER, OWN, Line, Picture
from cpi_tools.text.report_language import teller_of
from lib.places import ROOT

MONTHS = [f"{2025 + at // 12}-{at % 12 + 1:02}" for at in range(24)]
SVG = "{http://www.w3.org/2000/svg}"


# ---- figures


@pytest.mark.parametrize(
    ("over", "under", "digits", "wanted"),
    [(1, 8, 2, "0.13"), (-1, 8, 2, "-0.13"), (-1, 1000, 2, "0.00"), (5, 2, 0, "3"), (-5, 2, 0, "-3"), (7, 1, 1, "7.0")],
)
def test_a_decimal_is_rounded_once_halves_away_from_zero(over: int, under: int, digits: int, wanted: str) -> None:
    assert exact.decimal(over, under, digits) == wanted


def test_figures_as_texts() -> None:
    assert [exact.points(105_714_286, digits) for digits in (1, 3, 6)] == ["105.7", "105.714", "105.714286"]
    assert [exact.tenths(it) for it in (-3, 0, 12, None)] == ["-0.3", "0.0", "1.2", ""]
    assert [exact.with_sign(text) for text in ("-0.31", "0.00", "0.31", "12.0")] == [
        "\u22120.31",
        "0.00",
        "+0.31",
        "+12.0",
    ]
    assert [page_templates.percent(it) for it in (-3, 0, None)] == ["\u22120.3\u202f%", "0.0\u202f%", "\u2013"]
    assert page_templates.size(-3) == "0.3"
    total = exact.Ratio(1, 6).plus(exact.Ratio(-1, 4))
    assert Fraction(*total) == Fraction(-1, 12)


def test_codes() -> None:
    assert [*exact.at_and_above("01.1.1.1-01")] == ["01.1.1.1-01", "01.1.1.1", "01.1.1", "01.1", "01", "00"]
    assert [exact.depth_of(code) for code in exact.at_and_above("01.1.1.1-01")] == [5, 4, 3, 2, 1, 0]


# ---- pictures


def parts_of(picture: str) -> ElementTree.Element:
    return ElementTree.fromstring(str(picture).replace("<svg ", '<svg xmlns="http://www.w3.org/2000/svg" ', 1))


@pytest.mark.parametrize(
    "drawn",
    [
        charts.lines(
            Picture("level", "Level of A & B", "From 90.0 to 130.0."),
            MONTHS,
            [Line(OWN, [90.0 + 40 * at / 23 for at in range(24)]), Line(OTHER, [100.0] * 24)],
        ),
        charts.lines(Picture("falls", "Falls", "Down."), MONTHS[:2], [Line(OWN, [100.0, 90.0])]),
        charts.lines(Picture("flat", "Flat", "One value."), MONTHS[:1], [Line(OWN, [100.0])]),
        charts.columns(Picture("change", "Change", "Up and down."), MONTHS, [(-1) ** at * at / 3 for at in range(24)]),
        charts.columns(Picture("none", "Nothing moved", "No change."), MONTHS[:4], [0.0, None, 0.0, 0.0]),
    ],
    ids=range(5),
)
def test_a_picture_has_a_name_and_all_of_it_lies_within(drawn: str) -> None:
    root = parts_of(drawn)
    title, says = (root.find(SVG + name) for name in ("title", "desc"))
    assert title is not None and says is not None and title.text and says.text
    assert root.get("aria-labelledby") == f"{title.get('id')} {says.get('id')}"
    for text in root.iter(SVG + "text"):
        assert 8 <= float(text.get("y", "")) <= charts.HEIGHT and 0 <= float(text.get("x", "")) <= charts.WIDTH
    boxes = [box for kind in ("bar", "bar down", "bar last", "bar down last") for box in drawn_bars(root, kind)]
    assert bool(boxes) == ("Change" in title.text or "Nothing" in title.text)
    for left, top, wide, high in boxes:
        assert charts.LEFT <= left and left + wide <= charts.WIDTH
        assert charts.TOP - 1 <= top and top + high <= charts.HEIGHT - charts.FOOT + 1


def drawn_bars(root: ElementTree.Element, kind: str) -> list[tuple[float, float, float, float]]:
    """The columns of a class: left, top, width, height."""
    path = next((element.get("d", "") for element in root.iter(SVG + "path") if element.get("class") == kind), "")
    form = r"M([\d.]+) ([\d.]+)h([\d.]+)v([\d.]+)h-[\d.]+z"
    return [(float(left), float(top), float(wide), float(high)) for left, top, wide, high in re.findall(form, path)]


def test_columns_begin_at_zero() -> None:
    root = parts_of(charts.columns(Picture("c", "Change", "Both ways."), MONTHS[:3], [2.0, -1.0, 2.0]))
    ((_, top, _, high),), ((_, foot, _, low),) = (drawn_bars(root, kind) for kind in ("bar", "bar down"))
    zero = next(element for element in root.iter(SVG + "path") if element.get("class") == "zero")
    at = float(re.findall(r"[\d.]+", zero.get("d", ""))[1])
    assert top + high == pytest.approx(at, abs=0.11) and foot == pytest.approx(at, abs=0.11)
    assert high == pytest.approx(2 * low, abs=0.11)
    assert [box[1:] for box in drawn_bars(root, "bar last")] == [(top, *drawn_bars(root, "bar")[0][2:])]


def test_a_gap_in_a_line_is_a_gap() -> None:
    root = parts_of(charts.lines(Picture("g", "Gap", "A gap."), MONTHS[:4], [Line(OWN, [1.0, 2.0, None, 3.0])]))
    path = next(element for element in root.iter(SVG + "path") if element.get("class") == "line own")
    # (the month after the gap is a short stroke: a line to nowhere isn't drawn)
    assert re.sub(r"[\d. ]+", "", path.get("d", "")) == "MLMh"


def test_the_marks_of_an_axis_are_round_and_span_the_values() -> None:
    assert charts.steps(0.0, 4.2) == [0, 2, 4, 6]
    # (0.2 apart they would be seven, one too many)
    assert [charts.write_tick(step) for step in charts.steps(-0.7, 0.3)] == ["\u22121", "\u22120.5", "0", "0.5"]
    assert [charts.write_signed(it) for it in (-0.04, 0.0, 0.3, -0.3)] == ["0.0", "0.0", "+0.3", "\u22120.3"]


def test_bars_of_a_table_share_one_scale() -> None:
    track = charts.track([3.0, 0.0, -1.0])
    assert track.zero == "25.00"
    assert track.bars == [("25.00", "75.00", False), ("25.00", "0.00", False), ("0.00", "25.00", True)]
    assert charts.track([]) == ("0.00", [])


# ---- templates


def test_a_page_stands_alone_and_its_texts_are_escaped(tmp_path: Path) -> None:
    own = tmp_path / "own"
    own.mkdir()
    (own / "page.html").write_text(
        '{% extends "base.html" %}{% from "macros.html" import figure, bar_of %}'
        "{% block title %}{{ name }}{% endblock %}{% block main %}"
        '{{ figure(name, "percent", picture, figures=[("May", "1.0")]) }}{{ bar_of(bar, "1.00") }}{% endblock %}'
    )
    picture = charts.columns(Picture("c", "<script>", "<b>"), MONTHS[:1], [1.0])
    bar = charts.track([1.0]).bars[0]
    page_templates.write_page(
        page_templates.environment([own]), "page.html", tmp_path / "x.html", name="<i>&", picture=picture, bar=bar
    )
    text = (tmp_path / "x.html").read_text(encoding="utf-8")
    assert text.count("&lt;i&gt;&amp;") == 3 and "<i>&" not in text and "<script>" not in text
    assert "--accent" in text and '<link rel="stylesheet"' not in text
    assert 'viewBox="0 0 400 224"' in text


def test_a_page_that_fails_leaves_nothing(tmp_path: Path) -> None:
    own = tmp_path / "own"
    own.mkdir()
    (own / "page.html").write_text("{{ forgotten }}")
    with pytest.raises(jinja2.UndefinedError):
        page_templates.write_page(page_templates.environment([own]), "page.html", tmp_path / "x.html")
    assert [path.name for path in tmp_path.iterdir()] == ["own"]


def test_a_template_is_compiled_once_in_each_language(tmp_path: Path, monkeypatch: pytest.MonkeyPatch) -> None:
    """By each environment of a process, and anew if it was changed."""
    compiled, compile_ = list[str](), jinja2.Environment.compile

    def counted(self: jinja2.Environment, source: str, name: str, filename: str) -> object:
        compiled.append(source)
        return compile_(self, source, name, filename)

    def written(language: languages.Language) -> str:
        return page_templates.environment([tmp_path], language).get_template("own.html").render()

    monkeypatch.setattr(jinja2.Environment, "compile", counted)
    first, other = "{% trans %}Open{% endtrans %}", "{% trans %}Shut{% endtrans %}"
    upper = languages.ENGLISH._replace(gettext=str.upper)
    (tmp_path / "own.html").write_text(first)
    assert [written(it) for it in (languages.ENGLISH, upper) * 2] == ["Open", "OPEN"] * 2
    assert compiled == [first] * 2
    (tmp_path / "own.html").write_text(other)
    assert [written(it) for it in (languages.ENGLISH, upper) * 2] == ["Shut", "SHUT"] * 2
    assert compiled == [first] * 2 + [other] * 2


def test_a_figure_of_a_template_has_the_digits_of_its_environment(tmp_path: Path) -> None:
    """Though the code of the template has what the filter gave."""
    (tmp_path / "own.html").write_text("{{ '12.5'|in_percent }}")
    tellers = [teller_of("ar", digits) for digits in ("latn", "arab")] * 2
    written = [section_pages.environment([tmp_path], teller).get_template("own.html").render() for teller in tellers]
    assert ["12" in render for render in written] == [True, False] * 2
    assert ["\u0661\u0662" in render for render in written] == [False, True] * 2


def constants_through_filters(source: str) -> list[str]:
    """The filters of a template that are given only what is known when it is compiled."""
    names = list[str]()
    for each in page_templates.environment().parse(source).find_all(nodes.Filter):
        with contextlib.suppress(nodes.Impossible):
            for given in (each.node, *each.args):
                if given is None:
                    raise nodes.Impossible
                given.as_const()
            names.append(each.name)
    return names


def test_what_a_filter_gives_for_a_constant_depends_on_language_and_digits_only() -> None:
    """It is in the code of a template, which all environments of a language and its digits have. Those that tools share
    have none, since a filter of one tool may be another's of the same name."""
    source = '{{ 1|points }}{{ at|points }}{{ 1|points(at) }}{{ ("a" ~ "b")|of }}{% filter of %}a{% endfilter %}'
    assert constants_through_filters(source) == ["points", "of"]
    templates = sorted((ROOT / "tools/cpi_tools").glob("**/templates/*.html"))
    assert len(templates) > 50
    given = {path: constants_through_filters(path.read_text(encoding="utf-8")) for path in templates}
    assert {name for names in given.values() for name in names} == {"figure", "in_percent", "share"}
    assert [path.name for path, names in given.items() if names and path.parent == page_templates.TEMPLATES] == []


def test_a_package_that_is_missing_is_one_line() -> None:
    terminal.needs("json", "python3")
    with pytest.raises(terminal.Fault, match="has no no_such_package: Debian's python3-no-such has it"):
        terminal.needs("no_such_package", "python3-no-such")


def test_the_style_reaches_its_pages_by_a_link_where_it_is_told_to() -> None:
    text = page_templates.environment().get_template("base.html").render(style_at="assets/style.css")
    assert '<link rel="stylesheet" href="assets/style.css">' in text and "<style>" not in text


def test_the_setup_is_done_where_all_is_there() -> None:
    told = subprocess.run([ROOT / "tools/setup"], capture_output=True, check=False)
    assert (told.returncode, told.stdout, told.stderr) == (0, b"", b"")

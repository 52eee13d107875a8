"""The pictures of a pack: their axes with few figures, the words for them, their files, and the pages to embed."""

from __future__ import annotations

import html
import re
import xml.etree.ElementTree as ET
from pathlib import Path

import pytest

from cpi_tools.text.charts import Bar
from cpi_tools.text.exact import Ratio
from cpi_tools.publish.releases.drawings import LOOKS, Change, drawing
from cpi_tools.publish.figures.config import PICTURES, Config
from cpi_tools.publish.releases.pictures import Given, of_imputed, of_node
from cpi_tools.office.public import Listed, Published
from cpi_tools.publish.figures.shown_figures import Shown
from cpi_tools.office.tables import Series
from cpi_tools.text.page_templates import TEMPLATES
from cpi_tools.publish.pack import publish
from cpi_tools.text.languages import SPEAKS_ENGLISH, speech_of
from .test_measures import tea_again, two_years
from .test_site import words

CONFIG = Config("NSO", "XX", "Office <of> prices", title="Prices & more")
SVG = "{http://www.w3.org/2000/svg}"


def months_of(levels: list[str], year: int = 2026) -> Series:
    """Tables of one item at some levels, from January of a year on, in the office's digits."""
    publications = [Published(Listed(f"{year - 1}-12", 1, 0), b"")]
    before = 100.0
    for at, level in enumerate(levels, 1):
        change = f"{100 * (float(level) / before - 1):.1f}".replace("-0.0", "0.0")
        rows = (f"{code},1000000,{level},{level},{change},,0,Title of {code}\n" for code in ("00", "01"))
        publications.append(Published(Listed(f"{year}-{at:02}", 1, at), "".join(rows).encode()))
        before = float(level)
    return Series(publications)


def marks_of(picture: str) -> list[float]:
    """The marks of the axis of values."""
    texts = re.findall(r'<text class="end" x="34" y="[^"]*">([^<]*)</text>', picture)
    return [float(text.replace("\u2212", "-")) for text in texts]


# ---- few figures


def test_one_month_is_drawn_from_december_before() -> None:
    """A level of 104.9 in January is a line from December, which is 100; its change is one narrow column."""
    level, month = of_node(Shown(months_of(["104.900000"])), "01")
    assert "From 100.0 in December 2025 to 104.9 in January 2026." in level.picture
    (path,) = re.findall(r'class="line own" d="([^"]*)"', level.picture)
    assert path.count("L") == 1 and len(re.findall(r"[\d.]+ [\d.]+", path)) == 2
    assert marks_of(level.picture)[0] <= 100 and marks_of(level.picture)[-1] >= 104.9
    assert "+4.9 percent in January 2026." in month.picture and "Between" not in month.picture
    (wide,) = re.findall(r'class="bar last" d="M[\d.]+ [\d.]+h([\d.]+)', month.picture)
    assert float(wide) <= 24


@pytest.mark.parametrize("levels", [["100.000000"], ["104.200000"] * 5, ["100.000000", "100.040000"]])
def test_an_axis_makes_nothing_of_what_does_not_move(levels: list[str]) -> None:
    """It spans a whole point, and half a percent, also if all figures are the same."""
    for chart, least in zip(of_node(Shown(months_of(levels)), "01"), (1.0, 0.5)):
        marks = marks_of(chart.picture)
        assert marks[-1] - marks[0] >= least - 1e-9, (chart.name, marks)


def test_figures_that_are_all_the_same_are_no_range() -> None:
    _, month = of_node(Shown(months_of(["100.000000"] * 3)), "01")
    assert "0.0 percent from January 2026 to March 2026." in month.picture
    assert "0 percent of the weight." in of_imputed(months_of(["100.000000"])).picture
    assert "Between" not in of_imputed(months_of(["100.000000"])).picture


def test_a_level_is_written_in_its_picture_as_everywhere_else() -> None:
    """104.25 has the index 104.3; as a float it would be rounded to 104.2."""
    shown = Shown(months_of(["104.150000", "104.250000"]))
    picture = of_node(shown, "01")[0].picture
    assert f"{104.25:.1f}" == "104.2" and shown.text("2026-02", "01", 1) == "104.3"
    assert ">104.3</text>" in picture and "to 104.3 in February 2026." in picture and "104.2<" not in picture


def test_a_value_is_not_written_across_a_mark() -> None:
    """Tea is back in the last month: its 110.0 ends before the mark, which is before that month."""
    picture = of_node(Shown(Series([*two_years(), tea_again()])), "02")[0].picture
    (mark,) = re.findall(r'class="break" d="M([\d.]+) ', picture)
    ((end, text),) = re.findall(r'class="end value" x="([\d.]+)" y="[\d.]+">([\d.]+)<', picture)
    assert text == "110.0" and float(end) < float(mark)
    (dot,) = re.findall(r'class="dot" cx="([\d.]+)"', picture)
    assert float(dot) > float(mark)


# ---- files


@pytest.fixture(scope="module")
def pack(tmp_path_factory: pytest.TempPathFactory) -> Path:
    out = tmp_path_factory.mktemp("pictures") / "public"
    publish(two_years(), CONFIG, out, None, lambda _: None)
    return out


def texts_of(path: Path) -> list[str]:
    """The texts that a file draws, in their order."""
    return ["".join(element.itertext()) for element in ET.parse(path).getroot().iter(f"{SVG}text")]


def test_each_picture_of_a_page_is_a_file(pack: Path) -> None:
    """With the same lines, its title, its unit and its source, and nothing that a page would have to explain."""
    pages = [pack / "index.html", *sorted((pack / "node").glob("*.html"))]
    found = set()
    for page in pages:
        text = page.read_text(encoding="utf-8")
        all_files = re.findall(r'<a href="([^"]*\.svg)" download', text)
        # (the bars of a table are a file too, and in the page they are a table)
        bars = {(page.parent / file).resolve() for file in all_files if file.endswith("-contributions.svg")}
        assert len(bars) == (1 if page.name in ("index.html", "00.html") else 0), page
        files = [file for file in all_files if (page.parent / file).resolve() not in bars]
        found |= bars
        assert len(files) == text.count("<svg ") > 0
        for figure, name in zip(re.findall("<figure>.*?</figure>", text, re.S), files):
            path = (page.parent / name).resolve()
            drawn = path.read_text(encoding="utf-8")
            assert re.findall(r' d="([^"]*)"', figure) == re.findall(r' d="([^"]*)"', drawn)
            name_of, unit = re.findall(r"<figcaption>(.*?)<small>(.*?)</small>", figure)[0]
            assert {html.unescape(name_of), html.unescape(unit)} <= {*texts_of(path)}, path
            found.add(path)
    # (those of releases, such as 2026-01-r1-level.svg, are below the pages of these)
    of_items = {path for path in (pack / "picture").resolve().iterdir() if not re.match(r"\d{4}-\d\d-r\d-", path.name)}
    assert found == of_items and len(found) == 4 * 3 + 1 + 1


def test_a_file_says_whose_it_is(pack: Path) -> None:
    title, *others = texts_of(pack / "picture/02-level.svg")
    assert title == "Title of 02" and others[0] == "Index"
    whole = " ".join(others)
    assert "Full line: Title of 02 Broken line: Title of 00" in whole
    assert "Source: Office <of> prices, Prices & more, up to December 2027" in whole
    root = ET.parse(pack / "picture/02-level.svg").getroot()
    named = [root.find(f"{SVG}{text}") for text in ("title", "desc")]
    assert root.get("aria-labelledby") == " ".join(it.get("id", "") for it in named if it is not None)


def test_a_file_needs_no_style_sheet(pack: Path) -> None:
    """Each element has its own attributes, in the light colours of the pages."""
    css = (TEMPLATES / "style.css").read_text(encoding="utf-8")
    light = {*re.findall(r"#[0-9a-f]{6}", css[: css.index("@media")])}
    for path in (pack / "picture").iterdir():
        text = path.read_text(encoding="utf-8")
        assert "class=" not in text and "style" not in text and "var(" not in text
        assert {*re.findall(r"#[0-9a-f]{6}", text)} <= light


def test_a_class_looks_in_a_file_as_on_a_page() -> None:
    """The colour, width and weight that style.css gives a class are those of the file."""
    css = (TEMPLATES / "style.css").read_text(encoding="utf-8")
    colours: dict[str, str] = dict(re.findall(r"--([a-z-]+): (#[0-9a-f]{6})", css[: css.index("@media")]))
    for names, looks in LOOKS.items():
        wanted: dict[str, str] = {}
        for rule, body in re.findall(r"svg (\.[a-z.]+) \{([^}]*)\}", css):
            if {*rule.split(".")[1:]} <= {*names.split()}:
                wanted.update((name.strip(), value.strip()) for name, value in re.findall(r"([a-z-]+):([^;]*);", body))
        has = dict(re.findall(r'([a-z-]+)="([^"]*)"', looks))
        for name, value in wanted.items():
            value = re.sub(r"var\(--([a-z-]+)\)", lambda it: str(colours[it[1]]), value).removesuffix("px")
            assert has.get(name, "butt" if name == "stroke-linecap" else None) == value, (names, name)


@pytest.mark.parametrize(
    "title",
    ["Bread " * 40, "x" * 300, "\u7c73\u9eb5\u5305" * 60, "\u062e\u0628\u0632 " * 60, "a\u202eb <i>&\u2069\u2069"],
)
def test_a_long_title_is_broken_into_lines(title: str) -> None:
    """Nothing of it is lost, and no line is longer than the picture is wide: 400 units of letters of 14 * 0.55 each, or
    of 14 in the East."""
    chart = of_node(Shown(Series(two_years())), "01")[0]
    root = ET.fromstring(drawing(chart, title, "Source: here"))
    head = [element for element in root.findall(f"{SVG}text") if element.get("font-weight") == "650"]
    lines = ["".join(element.itertext()) for element in head]
    written = "".join(lines).replace(" ", "")
    assert written.strip("\u2068\u2069") == title.replace(" ", "").replace("\u2069", "")
    assert all(
        sum(14.0 if letter > "\u2e80" else 7.7 for letter in line.strip("\u2068\u2069")) <= 400 for line in lines
    )
    height = float(root.get("height", ""))
    assert all(0 < float(element.get("y", "")) < height for element in root.findall(f"{SVG}text"))


def test_a_file_has_the_words_of_its_language() -> None:
    """Also those of its key; in a language that is read from the right, bars begin there."""
    whole = Shown(Series(two_years()))
    french, arabic = (whole.spoken(speech_of(tag)) for tag in ("fr", "ar"))
    texts = " ".join(re.findall(r">([^<>]+)</text>", drawing(of_node(french, "02")[0], "T", "Source")))
    assert "Trait plein\u00a0: Title of 02 Pointillés\u00a0: Title of 00" in texts
    assert not re.search("line|Index", texts)
    rows = [
        Given("01", "A", None, Ratio(3, 1), Bar("25", "75", False)),
        Given("02", "B", None, Ratio(-1, 1), Bar("0", "25", True)),
    ]
    places = []
    for shown in (french, arabic):
        (chart,) = Change("T", "2026-12", True, shown.speech).of_items(rows)
        places.append(
            [
                (float(x), float(wide))
                for x, wide in re.findall(r'"bar[a-z ]*" d="M([0-9.]+) [0-9]+h([0-9.]+)', chart.picture)
            ]
        )
    assert places == [[(100.0, 300.0), (0.0, 100.0)], [(0.0, 300.0), (300.0, 100.0)]]


def test_the_label_of_a_bar_is_whole(pack: Path) -> None:
    """In lines that end before the value begins; texts of others are no markup and turn nothing."""
    title = "Bread <b>and</b> \u202e cereals, " * 6
    row = Given("01", title, None, Ratio(-1, 3), Bar("0", "100", True))
    (chart,) = Change("T", "2026-12", False, SPEAKS_ENGLISH).of_items([row])
    root = ET.fromstring(drawing(chart, "T", "Source: here"))
    texts = ["".join(element.itertext()) for element in root.iter(f"{SVG}text") if element.get("font-size") == "12"]
    *lines, value = texts
    assert value == "\u22120.33" and len(lines) > 3 and max(map(len, lines)) <= 48
    assert " ".join(line.strip("\u2068\u2069") for line in lines) == " ".join(title.split())
    assert all((line[0] == "\u2068" and line[-1] == "\u2069") == ("\u202e" in line) for line in lines)
    assert chart.unit == "Percentage points of the monthly change, December 2026"
    assert float(root.get("height", "")) > chart.height


# ---- pages to embed


def test_a_page_to_embed_has_each_picture_with_its_source(pack: Path) -> None:
    for code in ("00", "01", "02", "03"):
        text = (pack / f"embed/{code}.html").read_text(encoding="utf-8")
        kinds = re.findall('<figure id="([a-z]*)">', text)
        # (the last one is shown if the address names none)
        assert kinds == [*(["contributions", "imputed"] if code == "00" else []), "month", "year", "level"]
        assert "Source: Office <of> prices , Prices & more . Tables up to December 2027" in words(text)
        link = "../index.html" if code == "00" else f"../node/{code}.html"
        assert f'<a href="{link}" target="_blank" rel="noopener">' in text
        assert text.count("<script") == text.count('<script src="../assets/point.js"') == 1
        for kind in kinds:
            at = "" if code == "00" and kind == "imputed" else "node/"
            page = (pack / (f"{at}{code}.html" if at else "index.html")).read_text(encoding="utf-8")
            assert f'embed/{code}.html#{kind}"' in page


def test_an_office_can_leave_the_files_out(tmp_path: Path) -> None:
    without = CONFIG._replace(without=frozenset([PICTURES]))
    publish(two_years(), without, tmp_path / "public", None, lambda _: None)
    assert not (tmp_path / "public/picture").exists() and not (tmp_path / "public/embed").exists()
    for page in (tmp_path / "public").rglob("*.html"):
        if page.name == "404.html":  # (which has its style in it, that of pictures too, and leads to no file)
            continue
        text = page.read_text(encoding="utf-8")
        assert ".svg" not in text and "take.js" not in text and "embed" not in text, page
    assert "<svg " in (tmp_path / "public/node/01.html").read_text(encoding="utf-8")

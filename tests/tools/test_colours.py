"""The office's own colour: read, refused if it can't be read, and on each page; contrasts worked by hand."""

from __future__ import annotations

import re
from pathlib import Path

import pytest

from cpi_tools.publish.figures.own_words import DARK_GROUNDS, LIGHT_GROUNDS, Colours, contrast, mix
from cpi_tools.publish.figures.config import BadConfig, Config, read_config
from cpi_tools.publish.pack import publish
from cpi_tools.text.page_templates import TEMPLATES
from .test_measures import two_years

WINE, ROSE = "#8a1538", "#f0a0b8"


def office(folder: Path, words: str) -> Path:
    (folder / "office.ini").write_text(f"[office]\nagency = NSO\narea = XX\noffice = Office\n{words}\n")
    return folder / "office.ini"


def test_contrasts_are_those_of_wcag() -> None:
    """Black on white is 1.05 / 0.05; #777777 on white is the example that fails by little, 4.48."""
    assert contrast("#000000", "#ffffff") == contrast("#ffffff", "#000000") == pytest.approx(21)
    assert contrast("#777777", "#ffffff") == pytest.approx(4.48, abs=0.005)
    assert contrast("#767676", "#ffffff") == pytest.approx(4.54, abs=0.005)
    assert mix("#000000", "#ffffff") == "#595959"  # 0.35 * 255 is 89.25


def test_the_grounds_are_those_of_the_style() -> None:
    style = (TEMPLATES / "style.css").read_text(encoding="utf-8")
    grounds = re.findall(r"--ground: (#\w+); --panel: (#\w+)", style)
    assert grounds == [LIGHT_GROUNDS, DARK_GROUNDS]


def test_an_office_has_its_colour(tmp_path: Path) -> None:
    config = read_config(office(tmp_path, f"colour = {WINE}\ncolour_dark = {ROSE}"))
    assert config.colours == Colours(WINE, ROSE)
    assert read_config(office(tmp_path, "")).colours is None


@pytest.mark.parametrize(
    ("words", "fault"),
    [
        ("colour = #ff8800\ncolour_dark = #f0a0b8", "colour: #ff8800 has a contrast of 2.3"),
        ("colour = #767676\ncolour_dark = #f0a0b8", "to #f3f6f8, and a text needs 4.5"),
        ("colour = #8a1538\ncolour_dark = #8a1538", "colour_dark: #8a1538 has a contrast of"),
        ("colour = #8a1538", "colour_dark: an empty text is no colour"),
        ("colour = red\ncolour_dark = #f0a0b8", "colour: red is no colour such as #0a5c7d"),
        ("colour = #8a1538; } body { color: red\ncolour_dark = #f0a0b8", "is no colour"),
    ],
)
def test_what_cant_be_read_is_refused(tmp_path: Path, words: str, fault: str) -> None:
    with pytest.raises(BadConfig, match=re.escape(fault)) as refused:
        read_config(office(tmp_path, words))
    assert "\n" not in str(refused.value)


def test_it_is_on_each_page_and_nowhere_without_the_words(tmp_path: Path) -> None:
    """In the style that all pages load, and in the page for a wrong address, which has its style in it."""
    config = Config("NSO", "XX", "Office of prices", address="https://prices.example/")
    for name, own in (("plain", None), ("own", Colours(WINE, ROSE))):
        publish(two_years()[:3], config._replace(colours=own), tmp_path / name, None, lambda _: None)
    style = (tmp_path / "own/assets/style.css").read_text(encoding="utf-8")
    plain = (TEMPLATES / "style.css").read_text(encoding="utf-8")
    assert (tmp_path / "plain/assets/style.css").read_text(encoding="utf-8") == plain
    assert style.startswith(plain) and style.removeprefix(plain) == Colours(WINE, ROSE).style
    assert f"--accent: {WINE}; --accent-soft: {mix(WINE, '#ffffff')};" in style and f"--accent: {ROSE};" in style
    assert f"--accent: {WINE};" in (tmp_path / "own/404.html").read_text(encoding="utf-8")
    assert WINE not in (tmp_path / "plain/404.html").read_text(encoding="utf-8")

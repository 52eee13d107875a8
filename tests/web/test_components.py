"""`tools/components`: its page has each kind of component of each family, only classes that the styles have, and no fault for
its readers, on screens of four widths and on paper."""

from __future__ import annotations

import html
import re
import subprocess
from collections.abc import Iterator
from pathlib import Path

import pytest

import design
from cpi_tools.text.languages import language_of
from lib.places import ROOT

from .browser import Browser
from .readable import CUT, faults_of_page

FRAME = re.compile(r'<iframe title="([^"]+)" srcdoc="([^"]+)"')
CLASSES = re.compile(r'\bclass="([^"]+)"')

KINDS = {
    "phone": (".top", "button.main", "button.warn", "button:disabled", "input[aria-invalid] + .fault", "table.quotes", ".card",
              ".notice", "progress", ".chip.bad", ".views [aria-pressed=true]", "dialog", ".months button", ".outlet"),
    "website": ("header.site", "main button", "input[aria-invalid] + [role=alert]", "table .track i.down", ".card", ".result",
                "nav [aria-current=page]", ".crumbs", "figure svg .line", ".downloads", "select", ".taken"),
    "desk": ("button.main", "[aria-disabled=true]", "textarea[aria-invalid]", "table.section tr.refused", ".card",
             ".told.bad", ".chip.bad", ".sections", ".months [aria-current=page]", ".steps .open", "figure svg", ".facts"),
}  # fmt: skip
"""Parts that each frame of a family has to show."""


@pytest.fixture(scope="module")
def page(tmp_path_factory: pytest.TempPathFactory) -> Path:
    folder = tmp_path_factory.mktemp("components") / "new"
    ran = subprocess.run([ROOT / "tools/components", folder], capture_output=True, text=True, check=True)
    assert ran.stdout == f"{folder}/components.html\n"
    return folder / "components.html"


DRAWN = {"own"}
"""The class of a line of a picture that has no rule beside that of each line."""


def read_frames(page: Path) -> list[tuple[str, str]]:
    """The name and the page of each frame."""
    return [(name, html.unescape(text)) for name, text in FRAME.findall(page.read_text(encoding="utf-8"))]


def test_each_family_is_there_in_both_schemes_and_directions(page: Path) -> None:
    ways = ("light, from left to right", "dark, from left to right", "light, from right to left")
    assert [name for name, _ in read_frames(page)] == [f"{family}, {way}" for family in design.FAMILIES for way in ways]
    for name, text in read_frames(page):
        is_arabic = name.endswith("from right to left")
        assert ('<html lang="ar" dir="rtl">' if is_arabic else '<html lang="en" dir="ltr">') in text
        assert "prefers-color-scheme" not in text and f"color-scheme: {name.split(', ')[1]};" in text


def test_each_class_is_one_of_the_styles(page: Path) -> None:
    for name, text in read_frames(page):
        style, body = text.split("</style>", 1)
        known = set(re.findall(r"\.([a-z][a-z-]*)", style))
        named = {each for classes in CLASSES.findall(body) for each in classes.split()}
        assert len(named) > 20 and named - known <= DRAWN, name


@pytest.mark.parametrize("family", design.FAMILIES)
def test_each_text_is_translated(family: str) -> None:
    """So that what is shown from right to left is Arabic."""
    source = (ROOT / f"tools/component_pages/{family}.html").read_text(encoding="utf-8")
    arabic = language_of("ar")
    texts = set(re.findall(r'\b_\("([^"]+)"\)', source))
    within = set(re.findall(r'\bsay\("([^"]+)", "([^"]+)"\)', source))
    assert len(texts) > 10 and [text for text in texts if arabic.gettext(text) == text] == []
    assert [text for context, text in within if arabic.pgettext(context, text) == text] == []


def test_the_scale_and_the_contrasts_are_on_it(page: Path) -> None:
    text = page.read_text(encoding="utf-8").partition("<iframe")[0]
    values = design.read_values(design.find_part(design.SOURCE.read_text(encoding="utf-8")))
    for name in ("size-1", "space-10", "corner"):
        assert f'<code>{name}</code></th><td class="n">{values[name]}</td>' in text
    for each in design.measure_contrasts("website"):
        cells = f"<td>{each.pair.front}</td><td>{each.pair.ground}</td>"
        assert cells in text and f"{each.light:.2f}</td><td" in text


def find_faults(browser: Browser) -> Iterator[str]:
    """What is wrong with each frame, with its dialog and then without it."""
    for frame in browser.all("iframe"):
        name = frame.get_attribute("title")
        browser.driver.switch_to.frame(frame)
        family = str(name).split(",", maxsplit=1)[0]
        yield from (f"{name}: nothing is {kind}" for kind in KINDS[family] if not browser.all(kind))
        for _ in ("with the dialog", "without it"):
            yield from (f"{name}: {fault}" for fault in [*faults_of_page(browser), *browser.run(CUT)])
            browser.run("document.querySelector('dialog')?.close()")
        browser.driver.switch_to.default_content()


@pytest.mark.parametrize("media", ["", "print"], ids=["screen", "paper"])
@pytest.mark.parametrize("width", [360, 768, 1280, 1920])
def test_it_can_be_read(browser: Browser, page: Path, width: int, media: str) -> None:
    browser.size(width, 900)
    browser.shown_as("dark", media)
    browser.driver.get(page.as_uri())
    assert faults_of_page(browser) == []
    browser.shown_as("light", media)
    assert [*faults_of_page(browser), *browser.run(CUT), *find_faults(browser)] == []


def test_a_folder_that_cant_be_made_is_named(tmp_path: Path) -> None:
    (tmp_path / "file").write_text("", encoding="utf-8")
    ran = subprocess.run([ROOT / "tools/components", tmp_path / "file/in"], capture_output=True, text=True, check=False)
    assert ran.returncode == 1 and ran.stdout == ""
    assert ran.stderr.startswith("tools/components: ") and str(tmp_path / "file") in ran.stderr
    assert ran.stderr.count("\n") == 1

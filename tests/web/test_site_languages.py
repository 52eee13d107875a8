"""The website in other languages, at 360 pixels: nothing is cut, covered or left in English, and figures are the same.

Two languages that nobody speaks have texts that are 40 percent longer, one of them from right to left (`lib.pseudo`).
"""

from __future__ import annotations

import os
import re
import shutil
from collections.abc import Iterator
from pathlib import Path

import pytest

from .browser import Browser
from lib.places import ROOT
from cpi_tools.text import languages
from cpi_tools.publish.figures.own_words import OfficeLanguages
from cpi_tools.publish.pack import publish
from lib.pseudo import write_catalogue
from lib.sample import Sample
from .readable import CUT, NAMELESS, SEEN, WIDE
from .stage import Stage
from .test_site_look import CONFIG, PAGES, SOME, made_up

PICTURES = os.environ.get("CPI_PICTURES")
"""A folder for pictures of each page, if somebody wants to look."""

TONGUES = ("el", "he")

LEFT = (
    SEEN
    + r"""
const plain = /[\w./-]*\.(csv|xlsx|xml|jsonld|json|px|ics|html|zip)\b|\b(SVG|PNG|CSV|SDMX|ML|SHA|UTC|StructureSpecificData|BibTeX|RIS|CORE)\b/g; // (CORE is the code of an item)
const addressed = /https?:\/\/\S+|[\w-]+=\S+|[0-9a-f]{64}/g;
const others = /Title of [\w.-]+, a long one with commas|Office of prices and other things|Consumer price index|All items without food, energy and administered prices|All items without food, energy and|administered prices|crowns/gi;
const isEnglish = (text) => /[A-Za-z]{2,}/.test(text.replace(others, "").replace(addressed, "").replace(plain, "").replace(/\u2068.*?\u2069/gs, ""));
const ours = "bdi, code, pre, script, style, noscript, .code, .hash, .formula, .languages, sup, b, option";
const found = [];
const walker = document.createTreeWalker(document, NodeFilter.SHOW_TEXT);
for (let node = walker.nextNode(); node; node = walker.nextNode()) {
  const isNote = /^[irbp]+$/.test(node.data); // (letters of notes are those of all languages)
  if (!isNote && !node.parentElement.closest(ours) && isEnglish(node.data)) found.push(`left: ${node.data}`);
}
for (const element of document.querySelectorAll("[aria-label], [placeholder], [title], [alt], meta[name=description]")) {
  for (const name of ["aria-label", "placeholder", "title", "alt", "content"]) {
    if (isEnglish(element.getAttribute(name) ?? "")) found.push(`left in ${name}: ${element.getAttribute(name)}`);
  }
}
return found;
"""
)
"""Texts in Latin letters, seen or not; titles and the office are in elements of their own."""

COVERED = (
    SEEN
    + """
const found = [], range = document.createRange(), texts = [];
const walker = document.createTreeWalker(document.body, NodeFilter.SHOW_TEXT);
for (let node = walker.nextNode(); node; node = walker.nextNode()) {
  const holder = node.parentElement;
  if (!node.data.trim() || !isSeen(holder) || holder.closest(".skip, .hidden, option, svg")) continue;
  range.selectNodeContents(node);
  for (const box of range.getClientRects()) {
    if (!box.width) continue;
    const isScrolled = holder.closest(".scroll") && !holder.closest("caption");
    if (!isScrolled && (box.left < -1 || box.right > innerWidth + 1)) found.push(`outside: ${node.data}`);
    texts.push({ node, box });
  }
}
texts.sort((one, other) => one.box.top - other.box.top);
for (const [n, one] of texts.entries()) {
  for (let at = n + 1; at < texts.length && texts[at].box.top < one.box.bottom; at += 1) {
    const other = texts[at];
    const wide = Math.min(one.box.right, other.box.right) - Math.max(one.box.left, other.box.left);
    const high = Math.min(one.box.bottom, other.box.bottom) - other.box.top;
    if (one.node !== other.node && wide > 1 && high > 5) found.push(`covered: ${one.node.data} / ${other.node.data}`);
  }
}
return found;
"""
)
"""Texts outside the window, and those that lie over each other by more than the air between lines."""


@pytest.fixture(scope="module")
def spoken(tmp_path_factory: pytest.TempPathFactory) -> Iterator[Path]:
    """A site in both languages, the first of which has the folder of the pack."""
    folder, before = tmp_path_factory.mktemp("spoken"), languages.PO
    shutil.copytree(ROOT / "po", folder / "po")
    for tag in TONGUES:
        write_catalogue(tag, folder / "po")
    languages.PO = folder / "po"
    config = CONFIG._replace(speaks=OfficeLanguages(TONGUES), address="https://prices.example/")
    publish([*made_up()], config, folder / "public", None, lambda _: None)
    languages.PO = before
    yield folder / "public"


@pytest.fixture
def shown(browser: Browser, stage: Stage, spoken: Path) -> Browser:
    """A browser of 360 pixels before that site."""
    stage.published.symlink_to(spoken)
    browser.size(360, 740)
    return browser


def faults_of(browser: Browser, tag: str, name: str) -> list[str]:
    """What is wrong with what is seen now."""
    if PICTURES:
        browser.picture(Path(PICTURES) / f"{tag}-{name.replace('/', '-')}.png")
    assert browser.run("return document.documentElement.lang") == tag
    assert browser.run("return getComputedStyle(document.body).direction") == ("rtl" if tag == "he" else "ltr")
    faults = [*browser.run(CUT), *browser.run(LEFT), *browser.run(COVERED), *browser.run(WIDE)]
    faults += [*browser.run(NAMELESS), *browser.faults()]
    return [f"{tag} {name}: {fault}" for fault in faults]


def look(browser: Browser, tag: str, name: str) -> None:
    """Nothing is wrong with what is seen now."""
    faults = faults_of(browser, tag, name)
    assert not faults, "\n".join(faults)


@pytest.mark.sampled(1)
@pytest.mark.parametrize("tag", TONGUES)
def test_nothing_of_the_site_is_cut_covered_or_left_in_english(shown: Browser, tag: str, sample: Sample) -> None:
    folder = "" if tag == TONGUES[0] else f"{tag}/"
    found = []
    for name in sample.of([*PAGES, "calendar.html"], SOME, f"pages in {tag}"):
        shown.open(f"/published/{folder}{name}")
        found += faults_of(shown, tag, name)
    assert not found, "\n".join(found)


AXIS = """
const texts = [...document.querySelectorAll("#parts .picture:first-of-type svg text.middle")];
const boxes = texts.map((it) => it.getBoundingClientRect());
const isOver = (one, other) => Math.min(one.right, other.right) > Math.max(one.left, other.left)
  && Math.min(one.bottom, other.bottom) > Math.max(one.top, other.top) + 2;
return [texts.map((it) => it.textContent), boxes.some((one, n) => boxes.slice(n + 1).some((other) => isOver(one, other)))];
"""
"""What is below the first picture of the page for choosing, and whether one of these texts lies over another one."""


def months_below(browser: Browser, search: str) -> list[str]:
    """The names of months and years below the picture of some months."""
    browser.open(f"/published/choose.html?{search}")
    browser.wait(lambda: browser.all("#parts tbody tr"), "figures")
    texts, is_over = browser.run(AXIS)
    assert not is_over, texts
    found: list[str] = texts
    return found


@pytest.fixture
def arabic(browser: Browser, stage: Stage, tmp_path: Path) -> Browser:
    """A browser of 360 pixels before a site in Arabic, with Arabic digits."""
    config = CONFIG._replace(speaks=OfficeLanguages(("ar",), "arab"), address="https://prices.example/")
    publish([*made_up()], config, tmp_path / "public", None, lambda _: None)
    stage.published.symlink_to(tmp_path / "public")
    browser.size(360, 740)
    return browser


@pytest.mark.long
def test_a_picture_has_the_months_of_its_language(arabic: Browser) -> None:
    """There is room for four names: each sixth of 13 months has one, and each second January of five years."""
    halves = ["يناير", "٢٠٢٥", "يوليو", "يناير", "٢٠٢٦"]
    assert months_below(arabic, "items=00&from=2025-01&to=2026-01") == halves
    years = ["يناير", "٢٠٢٢", "يناير", "٢٠٢٤", "يناير", "٢٠٢٦"]
    assert months_below(arabic, "items=00&from=2021-02&to=2026-01") == years
    arabic.open("/published/choose.html?items=00&revision=2026-01-28T08:30:00Z")
    arabic.wait(lambda: arabic.all("#parts tbody tr"), "figures")
    chosen = arabic.run("return document.getElementById('revision').selectedOptions[0].textContent")
    assert chosen.startswith("كما نُشر في ٢٨ يناير ٢٠٢٦، الساعة ") and chosen.endswith("٠٨:٣٠ UTC")
    assert arabic.faults() == []


@pytest.mark.sampled(1)
@pytest.mark.parametrize("tag", TONGUES)
def test_the_scripts_of_the_site_speak_its_language(shown: Browser, tag: str) -> None:
    folder = "" if tag == TONGUES[0] else f"{tag}/"
    shown.open(f"/published/{folder}choose.html?items=00+01.1+99.9&show=index+year")
    shown.wait(lambda: shown.all("#parts tbody tr"), "figures")
    look(shown, tag, "choose.html")
    texts, is_over = shown.run(AXIS)
    assert len(texts) > 4 and not is_over and not [text for text in texts if re.search("[A-Za-z-]", text)], texts
    shown.open(f"/published/{folder}nodes.html#seek=999999")
    shown.wait(lambda: shown.text("#found"), "what is found")
    look(shown, tag, "nodes.html")
    shown.open(f"/published/{folder}contract.html#amount=1&then=none")
    shown.wait(lambda: shown.text("#address-faults"), "a fault")
    look(shown, tag, "contract.html")
    shown.type("#amount", "1x")
    shown.wait(lambda: shown.text("#fault"), "a fault")
    look(shown, tag, "contract.html, a fault")


def test_the_switch_stays_on_the_same_page(shown: Browser) -> None:
    shown.open("/published/node/01.1.html")
    assert shown.run("return document.querySelector('.languages [aria-current]').lang") == "el"
    shown.click(".languages [lang=he]")
    shown.wait(lambda: shown.run("return document.documentElement.lang") == "he", "the other language")
    assert shown.run("return location.pathname") == "/published/he/node/01.1.html"
    shown.click(".languages [lang=el]")
    shown.wait(lambda: shown.run("return location.pathname") == "/published/node/01.1.html", "the first language")

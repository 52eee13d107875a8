"""The front's first page: the website's, or one that says that nothing is published yet; and the style of `web/`."""

from __future__ import annotations

import re
from pathlib import Path

import pytest

from .browser import Browser
from lib.places import ROOT
from .readable import faults_enlarged, faults_for_keys, faults_of_page
from .stage import Stage


SHOWN = """return [...document.querySelectorAll(".lead")].filter((it) => it.checkVisibility()).map((it) => it.lang || "en");"""


@pytest.mark.sampled(2)
@pytest.mark.parametrize("scheme", ["light", "dark"])
@pytest.mark.parametrize("width", [360, 1280])
def test_before_a_website_is_published_the_first_page_says_so(browser: Browser, width: int, scheme: str) -> None:
    """It is for everybody: nothing on it leads to the office's own pages."""
    browser.shown_as(scheme)
    browser.size(width, 800)
    browser.open("/tables/")
    assert browser.run("return location.pathname") == "/"
    browser.wait_text("h1", "Consumer price index office")
    assert browser.text(".lead").startswith("No figures have been published here yet.")
    assert browser.run(SHOWN) == ["en"] and browser.all("a, form, button") == []
    assert [*faults_of_page(browser), *faults_for_keys(browser), *faults_enlarged(browser)] == []


def test_it_is_in_the_language_of_the_office(browser: Browser, stage: Stage) -> None:
    """And in those of the reader's browser; without a script in all of them."""
    stage.speaks('export const office = { name: "المكتب", language: "ar-EG" };\n')
    try:
        browser.open("/")
        browser.wait_text("h1", "المكتب")
        root = browser.run("const { lang, dir } = document.documentElement; return [lang, dir, document.title]")
        assert browser.run(SHOWN) == ["en", "ar"] and root == ["en", "ltr", "المكتب"]
        browser.cdp("Emulation.setUserAgentOverride", userAgent="a browser", acceptLanguage="ar")
        browser.open("/")
        browser.wait(lambda: browser.run(SHOWN) == ["ar"], "one language")
        root = browser.run("const { lang, dir } = document.documentElement; return [lang, dir]")
        assert root == ["ar", "rtl"] and [*faults_of_page(browser), *faults_enlarged(browser)] == []
    finally:
        browser.cdp("Emulation.setUserAgentOverride", userAgent="", acceptLanguage="")
        stage.front.stop()
        stage.front.start()
    page = (ROOT / "web/index.html").read_text(encoding="utf-8")
    assert re.findall(r'<p class="lead" (?:data-t|lang="(..)")', page) == ["", "ar", "es", "fr"]


def test_the_first_page_is_the_websites(browser: Browser, stage: Stage, website: Path) -> None:
    stage.published.symlink_to(website)
    browser.open("/")
    assert browser.run("return location.pathname") == "/published/" and "February 2011" in browser.text("h1")
    assert browser.faults() == []
    browser.open("/tables/?items=01")
    assert browser.run("return location.pathname + location.search") == "/published/choose.html?items=01"


@pytest.mark.parametrize("name", ["shared/base.css", "first.css"])
def test_a_colour_has_a_name_in_the_root(name: str) -> None:
    """So that the dark scheme and a printer change all of them."""
    style = (ROOT / "web" / name).read_text(encoding="utf-8")
    below = re.sub(r":root \{.*?\}", "", re.sub(r"/\*.*?\*/", "", style, flags=re.S), flags=re.S)
    assert re.findall(r"#[0-9a-fA-F]{3,8}\b(?=[^{]*\})|rgba?\(|hsla?\(|(?<![-\w])(?:white|black)(?![-\w])", below) == []


PARTS = """
const { make } = await import("/shared/dom.js");
const kinds = (name, kinds, ...words) => kinds.map((kind) => make(name, { class: kind, type: "button" }, ...words));
const parts = () => [
  ...kinds("span", ["chip todo", "chip good", "chip waiting", "chip bad", "muted", "fault"], "A chip"),
  ...["", "bad", "good"].map((kind) => make("p", { class: `notice ${kind}` }, "A notice with ",
    make("a", { href: "/" }, "a link"), make("span", { class: "muted" }, " and a note"), make("button", {}, "Do it"))),
  ...kinds("button", ["", "main", "warn"], "A button"), make("button", { "aria-pressed": "true" }, "Pressed"),
  make("input", { placeholder: "2026-01", "aria-label": "A field" }), make("a", { href: "/" }, "A link"),
];
const filled = (ground, ink) => {
  const made = make("p", {}, `${ink} on ${ground}`);
  made.style.cssText = `background: var(--${ground}); color: var(--${ink})`;
  return made;
};
const pairs = [["band", "band-ink"], ["hover", "accent"], ["hover", "ink"], ["accent", "ground"], ["accent-hover", "ground"],
  ["warn-fill", "on-fill"], ["warn-fill-hover", "on-fill"], ["bad-fill", "on-fill"], ["head", "on-head"],
  ["head-hover", "on-head"], ["deep", "on-deep"]];
document.body.prepend(make("header", { class: "top" }, make("p", {}, "A head"), make("button", { class: "quiet" }, "Sign out")));
document.querySelector("main").replaceChildren(make("div", { class: "card" }, ...parts()), ...parts(),
  ...pairs.map((pair) => filled(...pair)));
"""
"""All that `shared/base.css` has a colour for, on a card and on the page, and each pair of colours that it names."""


@pytest.mark.parametrize("scheme", ["light", "dark"])
def test_each_part_of_a_page_is_seen(browser: Browser, scheme: str) -> None:
    browser.shown_as(scheme)
    browser.open("/")
    browser.run_until(PARTS)
    assert len(browser.all("main button")) == 14
    assert [*faults_of_page(browser), *faults_for_keys(browser)] == []


@pytest.mark.parametrize("scheme", ["light", "dark"])
def test_it_is_printed_black_on_white(browser: Browser, scheme: str) -> None:
    browser.shown_as(scheme, "print")
    browser.open("/")
    browser.run("document.body.insertAdjacentElement('afterbegin', document.createElement('header')).className = 'top'")
    colours = "const { color, backgroundColor } = getComputedStyle(document.body); return [color, backgroundColor];"
    assert browser.run(colours) == ["rgb(0, 0, 0)", "rgb(255, 255, 255)"]
    top = "return getComputedStyle(document.querySelector('.top')).backgroundColor"
    assert browser.run(top) == "rgb(255, 255, 255)"
    assert faults_of_page(browser) == []

"""Public figures and pictures in other sites, through the front: read, shown and framed; and nothing else of the office.

The other site is a server of its own at another port, which is another origin.
"""

from __future__ import annotations

import base64
import re
import time
from pathlib import Path

import pytest

from .browser import Browser
from .other_site import other_site
from .stage import Stage

PLACE = "/published"
"""Where the front has the website."""

READABLE = ("data/cpi.csv", "data/printed.csv", "picture/00-level.svg", "node/01.csv", "manifest.json", "SHA256SUMS")
OWN = ("index.html", "node/01.html", "contract.html", "assets/style.css", "assets/levels.js", "embed/00.html",
       "embed/chosen.html")  # fmt: skip


@pytest.fixture
def front(stage: Stage, website: Path) -> Stage:
    """A front whose website is that of the office."""
    stage.published.symlink_to(website)
    return stage


# ---- fields


def test_public_files_can_be_read_by_other_sites_and_no_page_can(front: Stage) -> None:
    for name in READABLE:
        fields = front.ask("GET", f"{PLACE}/{name}").fields
        assert (fields["Access-Control-Allow-Origin"], fields["Cross-Origin-Resource-Policy"]) == ("*", "cross-origin")
    for name in OWN:
        assert "Access-Control-Allow-Origin" not in front.ask("GET", f"{PLACE}/{name}").fields, name
    assert front.ask("GET", "/api/tables").fields["Access-Control-Allow-Origin"] == "*"
    for path in ("/api/items", "/api/work/2026-01", "/collect/", "/config.js"):
        assert "Access-Control-Allow-Origin" not in front.ask("GET", path).fields, path


def test_pages_to_embed_can_be_framed_and_no_other(front: Stage) -> None:
    ancestors = {name: ancestors_of(front, f"{PLACE}/{name}") for name in (*OWN, *READABLE)}
    assert {name for name, them in ancestors.items() if them == "*"} == {"embed/00.html", "embed/chosen.html"}
    assert {*ancestors.values()} == {"*", "'none'"}
    assert ancestors_of(front, "/collect/") == "'none'"


def ancestors_of(front: Stage, path: str) -> str:
    """Who may frame a page, by its policy."""
    (ancestors,) = re.findall(r"frame-ancestors ([^;]*)", front.ask("GET", path).fields["Content-Security-Policy"])
    return str(ancestors)


def test_pages_in_another_language_are_no_others(stage: Stage, tmp_path: Path) -> None:
    """Their pictures, cards and feeds are in a folder of the language: read, shown and framed as those of the first one."""
    public = ("picture/00-level.svg", "release/2026-01-r1.png", "feed.xml", "calendar.ics")
    own = ("index.html", "embed/00.html", "assets/words.js", "node/01.html")
    for name in (*public, *own):
        (tmp_path / "site/pt-BR" / name).parent.mkdir(parents=True, exist_ok=True)
        (tmp_path / "site/pt-BR" / name).write_text("x")
    stage.published.symlink_to(tmp_path / "site")
    fields = {name: stage.ask("GET", f"{PLACE}/pt-BR/{name}").fields for name in (*public, *own)}
    assert {name for name, field in fields.items() if field.get("Access-Control-Allow-Origin") == "*"} == {*public}
    framed_by = {name: ancestors_of(stage, f"{PLACE}/pt-BR/{name}") for name in (*public, *own)}
    assert {name for name, them in framed_by.items() if them == "*"} == {"embed/00.html"}
    resource = {name for name, field in fields.items() if field["Cross-Origin-Resource-Policy"] == "cross-origin"}
    assert resource == {*public, "embed/00.html"}


# ---- in a browser


READ = """
const read = async (name) => {
  try { return (await (await fetch(arguments[0] + "/" + name)).text()).length; } catch (fault) { return "refused"; }
};
const shown = (name) => new Promise((end) => {
  const image = new Image();
  image.onload = () => end(image.naturalWidth);
  image.onerror = () => end("refused");
  image.src = arguments[0] + "/" + name;
});
return [await read("data/printed.csv"), await read("index.html"), await shown("picture/00-level.svg")];
"""


def test_another_site_reads_and_shows_what_is_public(
    front: Stage, browser: Browser, website: Path, tmp_path: Path
) -> None:
    (tmp_path / "index.html").write_text("<!DOCTYPE html><title>Another</title>", encoding="utf-8")
    with other_site(tmp_path) as address:
        browser.driver.get(f"{address}/index.html")
        found = browser.run_until(READ, f"{front.url}{PLACE}")
    assert found == [len((website / "data/printed.csv").read_text(encoding="utf-8")), "refused", 424]


def framed(browser: Browser, address: str, within: Path, width: int) -> str:
    """What a reader sees of a page in a frame of another site."""
    page = f'<!DOCTYPE html><title>Another</title><iframe src="{address}" width="{width}" height="460"></iframe>'
    (within / "index.html").write_text(page, encoding="utf-8")
    with other_site(within) as other:
        browser.driver.get(f"{other}/index.html")
        browser.driver.switch_to.frame(browser.find("iframe"))
        try:
            return browser.text("body")
        finally:
            browser.driver.switch_to.default_content()


@pytest.mark.sampled(1)
@pytest.mark.parametrize("width", [320, 700])
def test_a_picture_is_framed_by_another_site(front: Stage, browser: Browser, tmp_path: Path, width: int) -> None:
    """The one that the address names, else the level: its title, its unit, its source."""
    at, names = f"{front.url}{PLACE}/embed/00.html", ("Index", "Monthly change", "Aggregates in which a")
    for kind, name in (
        ("", "Index"),
        ("#level", "Index"),
        ("#month", names[1]),
        ("#imputed", names[2]),
        ("#x", "Index"),
    ):
        told = framed(browser, at + kind, tmp_path, width)
        assert name in told and "Source: Office of prices" in told, kind
        assert not any(other in told for other in names if other != name), (kind, told)


def test_no_other_page_is_framed(front: Stage, browser: Browser, tmp_path: Path) -> None:
    for name in ("index.html", "node/00.html"):
        assert "All items" not in framed(browser, f"{front.url}{PLACE}/{name}", tmp_path, 700)


def test_a_picture_is_taken_as_a_png(front: Stage, browser: Browser, tmp_path: Path) -> None:
    """Three times as large as its SVG, drawn on white, also if the reader's screen is dark."""
    browser.shown_as("dark")
    browser.cdp("Browser.setDownloadBehavior", behavior="allow", downloadPath=str(tmp_path))
    browser.open(f"{PLACE}/node/00.html")
    # (the bars of a table are a file too)
    assert len(browser.all(".take button")) == len(browser.all("figure")) + 1 > 2
    browser.click(".take button")
    made = tmp_path / "00-level.png"
    browser.wait(lambda: made.exists() and made.stat().st_size, "a PNG")
    browser.wait(lambda: not [*tmp_path.glob("*.crdownload")], "the whole PNG")
    time.sleep(0.1)
    data = base64.b64encode(made.read_bytes()).decode()
    size, corner, colours = browser.run_until(PIXELS, f"data:image/png;base64,{data}")
    height = float(re.findall(r'height="(\d+)"', front.ask("GET", f"{PLACE}/picture/00-level.svg").body.decode())[0])
    assert size == [3 * 424, 3 * height] and corner == [255, 255, 255, 255] and colours > 20
    assert browser.faults() == []


PIXELS = """
const image = new Image();
image.src = arguments[0];
await image.decode();
const canvas = document.createElement("canvas");
[canvas.width, canvas.height] = [image.naturalWidth, image.naturalHeight];
const context = canvas.getContext("2d");
context.drawImage(image, 0, 0);
const all = new Uint32Array(context.getImageData(0, 0, canvas.width, canvas.height).data.buffer);
return [[canvas.width, canvas.height], [...context.getImageData(0, 0, 1, 1).data], new Set(all).size];
"""
